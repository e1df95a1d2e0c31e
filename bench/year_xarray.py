#!/usr/bin/env python3
"""The work of bench/year.json in floating point, by xarray and scipy, to stand beside what year.py prints.

`year_xarray.py [THREADS [SIDE]]` writes the cells of the collection YEAR as floats, nulls as NaN, into a folder of its own
(384 MB for 1000 pixels a side), reads them again in chunks of 250 x 250 pixels, takes the kernel, the ratio and the greatest
of all dates with so many threads (1 where no number is given), and writes these as a list in JSON. It prints seconds by the
clock from the start of that program to its text, as year.py does, and of its parts: the start of Python with its packages,
the reading and the work, the text; and peak memory. It needs numpy, scipy, dask and xarray.
"""
import json
import os
import resource
import subprocess
import sys
import tempfile
import time

BANDS, DATES = 4, 12


def write_year(path, side):
    """Cells of whole numbers from 0 to 99, each next one 7 more modulo 101, where 100 is null: those of year.py."""
    import numpy

    cells = numpy.lib.format.open_memmap(path, "w+", numpy.float64, (DATES, BANDS, side, side))
    x, y = numpy.arange(side)[None, :], numpy.arange(side)[:, None]
    for t in range(DATES):
        for band in range(BANDS):
            plane = (13 * y + 17 * t + 19 * band + 7 * x) % 101
            cells[t, band] = numpy.where(plane == 100, numpy.nan, plane)
    cells.flush()


def text(cells):
    """The cells one after the other as a list in JSON, NaN as null."""
    return json.dumps([None if cell != cell else cell for cell in cells.ravel().tolist()])


def work(path, threads, started):
    import dask
    import dask.array
    import numpy
    import xarray
    from scipy.ndimage import convolve

    begun = time.monotonic()
    cells = dask.array.from_array(numpy.load(path, mmap_mode="r"), chunks=(DATES, BANDS, 250, 250))
    cube = xarray.DataArray(cells, dims=("t", "bands", "y", "x"))
    kernel = numpy.ones((1, 1, 3, 3))
    # A null counts as 0 in a kernel, as does what is outside.
    whole = cube.fillna(0.0).data
    smooth = dask.array.overlap.map_overlap(
        lambda part: convolve(part, kernel, mode="constant"), whole, depth=(0, 0, 1, 1), boundary=0.0, dtype=float
    )
    smooth = cube.copy(data=smooth)
    near, red = smooth.isel(bands=3), smooth.isel(bands=2)
    greatest = ((near - red) / (near + red)).max("t")
    with dask.config.set(scheduler="threads", num_workers=threads):
        greatest = greatest.compute()
    worked = time.monotonic()
    with open(f"{path}.json", "w") as file:
        file.write(text(greatest.values))
    ended = time.monotonic()
    peak = resource.getrusage(resource.RUSAGE_SELF).ru_maxrss / 1024
    parts = f"start {begun - started:.2f}, reading and work {worked - begun:.2f}, text {ended - worked:.2f}"
    count = int(greatest.count())
    print(f"xarray with {threads} threads: {ended - started:.2f} s ({parts}), {peak:.0f} MB at most, {count} cells")


def main():
    if sys.argv[1:2] == ["work"]:
        return work(sys.argv[2], int(sys.argv[3]), float(sys.argv[4]))
    threads = sys.argv[1] if len(sys.argv) > 1 else "1"
    side = int(sys.argv[2]) if len(sys.argv) > 2 else 1000
    try:
        import dask.array
        import scipy.ndimage
        import xarray
    except ImportError as error:
        sys.exit(f"xarray is not measured: {error}")
    with tempfile.TemporaryDirectory(prefix="openeo-year-") as folder:
        path = os.path.join(folder, "year.npy")
        write_year(path, side)
        words = [sys.executable, os.path.abspath(__file__), "work", path, threads]
        subprocess.run([*words, str(time.monotonic())], check=True)


if __name__ == "__main__":
    main()
