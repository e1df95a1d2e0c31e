#!/usr/bin/env python3
"""Takes the ordinary year in from NetCDF, through the program and out again, and compares it with xarray's own floats.

`cubes.py PROGRAM [SIDE]` writes the cells of year.py as a NetCDF file of whole numbers into a folder of its own, 12
dates, 4 bands and SIDE x SIDE pixels (250 where no side is given; 1444 make 10^8 cells), takes it in by `tools/cubes
from-netcdf`, runs bench/year.json, and takes the result out by `tools/cubes to-netcdf`. It prints seconds and peak
memory of each, whether the cube file is byte for byte the one that year.py writes, and at how many cells the result is
the float that xarray gives for the same work; the exit status is 1 where the file is another one, or a cell is. It needs
netCDF4, numpy and xarray.
"""
import filecmp
import os
import subprocess
import sys
import tempfile
import time

import year

HERE = os.path.dirname(os.path.abspath(__file__))
TOOL = os.path.join(os.path.dirname(HERE), "tools", "cubes")


def make(path, side):
    """Writes the NetCDF file: each cell is 7 more than the one before modulo 101, and 100 is the fill."""
    import netCDF4
    import numpy

    x, y = numpy.arange(side)[None, :], numpy.arange(side)[:, None]
    with netCDF4.Dataset(path, "w") as file:
        for name, count in (("t", len(year.DATES)), ("y", side), ("x", side)):
            file.createDimension(name, count)
        file.createVariable("t", "i4", ("t",)).units = "days since 2024-01-01"
        starts = numpy.array([date[:10] for date in year.DATES], dtype="M8[D]")
        file["t"][:] = (starts - starts[0]).astype(int)
        file.createVariable("y", "f8", ("y",))[:] = 10.0 * (side - 1) - 10.0 * numpy.arange(side)
        file.createVariable("x", "f8", ("x",))[:] = 10.0 * numpy.arange(side)
        file.createVariable("crs", "i4", ()).epsg_code = "EPSG:32633"
        for band, name in enumerate(year.BANDS):
            variable = file.createVariable(name, "i1", ("t", "y", "x"), fill_value=100)
            variable.grid_mapping = "crs"
            variable.set_auto_maskandscale(False)
            for t in range(len(year.DATES)):
                variable[t] = (13 * y + 17 * t + 19 * band + 7 * x) % 101


def compare(given, result):
    """Prints at how many cells the result is the float of xarray: kernel of ones, ratio, greatest of all dates."""
    import numpy
    import xarray

    with xarray.open_dataset(given) as scene, xarray.open_dataset(result) as back:
        greatest = None
        for t in range(len(year.DATES)):
            # A null counts as 0 in a kernel, as does what is outside.
            near, red = (scene[name].isel(t=t).drop_vars("t").astype("f8").fillna(0) for name in ("B08", "B04"))
            near, red = (
                sum(band.shift(y=down, x=right, fill_value=0.0) for down in (-1, 0, 1) for right in (-1, 0, 1))
                for band in (near, red)
            )
            ratio = (near - red) / (near + red)
            greatest = ratio if greatest is None else numpy.fmax(greatest, ratio)
        ours, floats = back["cells"].values, greatest.values
        same = (ours == floats) | (numpy.isnan(ours) & numpy.isnan(floats))
        print(f"{int(same.sum())} of {same.size} cells are the floats of xarray")
    sys.exit(int(not same.all()))


def measure(what, words, given, result, folder):
    """Runs a program, and prints its seconds and its peak memory, which is its own and not that of those before it."""
    begun = time.monotonic()
    with open(given, "rb") as source, open(result, "wb") as out:
        child = subprocess.Popen(words, stdin=source, stdout=out, cwd=folder)
        _, status, used = os.wait4(child.pid, 0)
    seconds, own = time.monotonic() - begun, used.ru_utime + used.ru_stime
    if status != 0:
        sys.exit(f"{what} ended with status {os.waitstatus_to_exitcode(status)}")
    print(f"{what}: {seconds:.1f} s by the clock, {own:.1f} s of a processor, {used.ru_maxrss / 1024:.0f} MiB at most")


def main():
    if sys.argv[1:2] == ["make"]:
        return make(sys.argv[2], int(sys.argv[3]))
    if sys.argv[1:2] == ["compare"]:
        return compare(*sys.argv[2:])
    program, side = os.path.abspath(sys.argv[1]), sys.argv[2] if len(sys.argv) > 2 else "250"
    # What loads packages does so in a process of its own: a child's peak is never below what its parent had.
    again = [sys.executable, os.path.abspath(__file__)]
    with tempfile.TemporaryDirectory(prefix="openeo-year-") as folder:
        os.mkdir(f"{folder}/collections")
        file, cube = f"{folder}/year.nc", f"{folder}/collections/year.cube"
        result, back = f"{folder}/result", f"{folder}/back.nc"
        subprocess.run([*again, "make", file, side], check=True)
        tool = [sys.executable, TOOL]
        measure("from-netcdf", [*tool, "from-netcdf", file, *year.BANDS, "--id", "YEAR"], os.devnull, cube, folder)
        year.write_year(f"{folder}/wanted", int(side))
        same = filecmp.cmp(cube, f"{folder}/wanted", False)
        print(f"cube file: {'that' if same else 'NOT THAT'} of year.py")
        os.remove(f"{folder}/wanted")
        measure("openeo run", [program, "run", "64", "64", "12", "4"], os.path.join(HERE, "year.json"), result, folder)
        measure("to-netcdf", [*tool, "to-netcdf", result, back], os.devnull, os.devnull, folder)
        compared = subprocess.run([*again, "compare", file, back])
    sys.exit(int(not same or compared.returncode != 0))


if __name__ == "__main__":
    main()
