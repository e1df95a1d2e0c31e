"""Cubes of openeo in and out of the tools that scientists have.

In a notebook: `cubes.read(text)` gives an xarray.DataArray, `cubes.write(array, name)` a cube file, and
`cubes.run(graph, arrays)` what `openeo` makes of a graph. `docs/tools.md` says what is exact and what is refused.
"""
from .notebook import read, run, write
from .refusal import Refusal

__all__ = ["read", "write", "run", "Refusal"]
