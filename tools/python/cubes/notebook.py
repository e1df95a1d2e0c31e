"""What a notebook calls: results as arrays of xarray, arrays as cube files, and graphs run over arrays."""
from __future__ import annotations

import io
import json
import os
import shutil
import subprocess
import tempfile
from fractions import Fraction
from types import ModuleType
from typing import Any, Iterator, Mapping, Optional, TYPE_CHECKING, Union

from .cells import FLAGS, NUMBERS, Cells, cells_of, fractions_of
from .exact import Reading, cells_from, float_array, refusal_of
from .files import Cube, TextCube, write_file
from .grid import whole_file, whole_labels
from .refusal import NoCell, Refusal, need
from .shapes import ROLES, Shape, Window, judge_name, valid_shape

if TYPE_CHECKING:
    import numpy
    import xarray

ROOT = os.path.dirname(os.path.dirname(os.path.dirname(os.path.dirname(os.path.abspath(__file__)))))


def read(text: str, exact: bool = False) -> xarray.DataArray:
    """The cube of a result text as an xarray.DataArray, with the EPSG code as its attribute `epsg`.

    Numbers are the nearest floats and null is NaN; with `exact` they are `fractions.Fraction` and None in an array of
    objects, and so are flags where one is null. Refuses: the text is none.
    """
    return array_of(TextCube("the text", lambda: io.StringIO(text)), exact)


def write(
    array: Union[xarray.DataArray, xarray.Dataset],
    name: str,
    path: Optional[str] = None,
    epsg: Optional[int] = None,
    digits: Optional[int] = None,
) -> str:
    """Writes an xarray.DataArray as the cube file of the collection `name`, and returns the path, else `name`.cube.

    Floats are taken exactly, or rounded to so many digits behind the point; fractions in an array of objects are taken
    as they are. The EPSG code is `epsg`, or the attribute of that name. Refuses: a number or a label is none of a cube.
    """
    path = path or f"{judge_name('the id', name)}.cube"
    cube = ArrayCube(array, epsg, digits)
    with whole_file(path) as aside, open(aside, "wb") as out:
        write_file(out, name, cube)
    return path


def run(
    graph: Union[str, Mapping[str, Any]],
    arrays: Optional[Mapping[str, Any]] = None,
    exact: bool = False,
    digits: Optional[int] = None,
    sides: tuple[int, int, int, int] = (64, 64, 12, 1),
    program: Optional[str] = None,
) -> xarray.DataArray:
    """The result of a graph, JSON or its text, over arrays by the ids of their collections, as `read` gives it.

    Takes the arrays as `write` does, floats exactly or to so many digits, and calls `openeo run` with these sides of a
    chunk and workers in a folder of its own. Refuses: an array is no cube, or the program refuses; the line is its own.
    """
    text = graph if isinstance(graph, str) else json.dumps(graph)
    with tempfile.TemporaryDirectory(prefix="openeo-") as folder:
        os.mkdir(f"{folder}/collections")
        for name, array in (arrays or {}).items():
            write(array, name, f"{folder}/collections/{name}.cube", digits=digits)
        result = f"{folder}/result.json"
        with open(result, "wb") as out:
            words = [program or program_path(), "run", *map(str, sides)]
            ran = subprocess.run(words, input=text.encode(), stdout=out, stderr=subprocess.PIPE, cwd=folder)
        if ran.returncode != 0:
            raise Refusal(ran.stderr.decode().strip() or f"openeo ended with status {ran.returncode}")
        return array_of(TextCube(result, lambda: open(result, encoding="utf-8")), exact)


def program_path() -> str:
    """The program: that of the variable OPENEO, on the path, or built in this checkout. Refuses: there is none."""
    found = os.environ.get("OPENEO") or shutil.which("openeo") or f"{ROOT}/crates/openeo/out/openeo"
    if not os.access(found, os.X_OK):
        raise Refusal("there is no program openeo: make it by `make program`, or say where it is in OPENEO")
    return os.path.abspath(found)


def array_of(cube: Cube, exact: bool) -> xarray.DataArray:
    """The cube as an array of xarray."""
    numpy, xarray = need("numpy", "cubes.read"), need("xarray", "cubes.read")
    parts = [values_of(numpy, cells, cube.kind, exact) for _, cells in cube.blocks()]
    values = numpy.concatenate(parts) if parts else numpy.empty(0)
    if cube.kind == FLAGS and None not in values:
        values = values.astype(bool)
    labels = dict(cube.shape.dimensions())
    if "t" in labels:
        labels["t"] = numpy.array(labels["t"], dtype="datetime64[s]").astype("datetime64[ns]")
    shape = [len(some) for some in labels.values()]
    words = {"epsg": cube.shape.epsg} if cube.shape.epsg else {}
    return xarray.DataArray(values.reshape(shape), coords=labels, dims=[*labels], attrs=words)


def values_of(numpy: ModuleType, cells: Cells, kind: str, exact: bool) -> numpy.ndarray:
    """Cells as numpy has them: floats, fractions, or flags and None."""
    if kind == NUMBERS and not exact:
        return float_array(cells)
    values = numpy.empty(len(cells.numerators), dtype=object)
    values[:] = [value if value is None or kind == NUMBERS else bool(value) for value in fractions_of(cells)]
    return values


class ArrayCube:
    """An array of xarray as a cube, or a dataset, whose variables are bands. Refuses: a label is none of a cube."""

    def __init__(self, array: Union[xarray.DataArray, xarray.Dataset], epsg: Optional[int], digits: Optional[int]):
        array = array.to_array("bands") if hasattr(array, "data_vars") else array
        roles = {name: ROLES.get(str(name).lower()) for name in array.dims}
        for name, role in roles.items():
            if role is None or [*roles.values()].count(role) > 1:
                raise Refusal(f"the dimension {name} is none of t, bands, y and x, or one of them twice")
            if name not in array.coords:
                raise Refusal(f"the dimension {name} has no coordinates")
        for name, role in roles.items():
            if role != "bands":
                array = array.sortby(name, ascending=role != "y")
        order = sorted(roles, key=lambda name: ("t", "bands", "y", "x").index(roles[name]))
        self.values = array.transpose(*order).values
        labels = {roles[name]: labels_of(roles[name], array.coords[name].values) for name in order}
        self.shape = valid_shape(Shape(epsg=epsg or int(array.attrs.get("epsg", 0)), **labels))
        some = next((value for value in self.values.flat if value is not None), None) if self.values.size else None
        self.kind = FLAGS if self.values.dtype.kind == "b" or isinstance(some, bool) else NUMBERS
        self.reading = Reading(digits=digits, kind=self.kind)

    def blocks(self) -> Iterator[tuple[Window, Cells]]:
        """All cells in row-major order. Refuses: a number is none."""
        extents = self.shape.extents()
        values = self.values.reshape(extents)
        for window in self.shape.windows():
            raw = values[window.t, window.band, window.row : window.row + window.rows].ravel()
            try:
                yield window, self.cells_in(raw)
            except NoCell as fault:
                where = self.shape.labels_at(window, fault.number)
                raise refusal_of(fault, where, raw, self.reading, "digits=") from None

    def cells_in(self, raw: numpy.ndarray) -> Cells:
        """The cells of raw values. Raises NoCell."""
        if raw.dtype.kind == "O":
            return cells_of(None if value is None else Fraction(value) for value in raw)
        return cells_from(raw, need("numpy", "cubes.write").zeros(raw.shape, dtype=bool), self.reading)


def labels_of(role: str, values: numpy.ndarray) -> list:
    """The labels of a dimension's coordinates. Refuses: one is none."""
    if role == "bands":
        return [str(value) for value in values.tolist()]
    if role != "t":
        return whole_labels(role, [Fraction(value) for value in values.tolist()])
    seconds = values.astype("datetime64[s]")
    if values.dtype.kind != "M" or (seconds.astype(values.dtype) != values).any():
        raise Refusal("the coordinates of t are no dates and times in whole seconds")
    return seconds.astype("int64").tolist()
