#!/usr/bin/env python3
"""Runs the program on an ordinary year: 12 dates, 4 bands and SIDE x SIDE pixels (1000 where no side is given).

`year.py PROGRAM [SIDE [WORKERS]]` writes a collection YEAR of whole numbers from 0 to 99 with gaps into a folder of its own
(432 MB for 1000 pixels a side), runs `PROGRAM run 64 64 12 WORKERS` there on bench/year.json (4 where no number is given),
and prints seconds by the clock and of processors, cells of the collection per second and peak memory. The text of the
result is thrown away. It needs nothing but python3.
"""
import os
import resource
import struct
import subprocess
import sys
import tempfile
import time

BANDS = ["B02", "B03", "B04", "B08"]
DATES = [f"2024-{month:02}-01T00:00:00Z" for month in range(1, 13)]
# The width of a record of a whole number.
WIDTH = 9
NULL = bytes(WIDTH)


def header(side):
    """The header of the file: its one spelling."""

    def texts(labels):
        return ",".join(f'"{label}"' for label in labels)

    def pixels(name, labels):
        numbers = ",".join(str(label) for label in labels)
        return f'{{"name":"{name}","type":"spatial","axis":"{name}","reference_system":32633,"labels":[{numbers}]}}'

    widths = ",".join([str(WIDTH)] * len(DATES))
    dimensions = ",".join(
        [
            f'{{"name":"t","type":"temporal","labels":[{texts(DATES)}]}}',
            f'{{"name":"bands","type":"bands","labels":[{texts(BANDS)}]}}',
            pixels("y", range(10 * (side - 1), -10, -10)),
            pixels("x", range(0, 10 * side, 10)),
        ]
    )
    return f'{{"id":"YEAR","cells":"number","widths":[{widths}],"dimensions":[{dimensions}]}}'.encode()


def row(first, side):
    """The records of a row whose first cell has the remainder `first`: each next one is 7 more modulo 101, 100 is null."""
    cells = ((first + 7 * x) % 101 for x in range(side))
    return b"".join(NULL if cell == 100 else b"\x05" + struct.pack(">q", cell) for cell in cells)


def write_year(path, side):
    rows = [row(first, side) for first in range(101)]
    front = header(side)
    with open(path, "wb") as file:
        file.write(b"OEOCUBE2" + struct.pack(">I", len(front)) + front)
        for t in range(len(DATES)):
            for band in range(len(BANDS)):
                file.writelines(rows[(13 * y + 17 * t + 19 * band) % 101] for y in range(side))


def main():
    program = os.path.abspath(sys.argv[1])
    side = int(sys.argv[2]) if len(sys.argv) > 2 else 1000
    workers = sys.argv[3] if len(sys.argv) > 3 else "4"
    graph = os.path.join(os.path.dirname(os.path.abspath(__file__)), "year.json")
    with tempfile.TemporaryDirectory(prefix="openeo-year-") as folder:
        os.mkdir(os.path.join(folder, "collections"))
        write_year(os.path.join(folder, "collections", "YEAR.cube"), side)
        with open(graph, "rb") as given:
            begun = time.monotonic()
            words = [program, "run", "64", "64", "12", workers]
            status = subprocess.run(words, stdin=given, stdout=subprocess.DEVNULL, cwd=folder).returncode
            seconds = time.monotonic() - begun
    if status != 0:
        sys.exit(f"the program ended with status {status}")
    cells = len(DATES) * len(BANDS) * side * side
    used = resource.getrusage(resource.RUSAGE_CHILDREN)
    peak = used.ru_maxrss / 1024
    processors = f"{used.ru_utime:.1f} + {used.ru_stime:.1f} s of processors"
    print(f"{seconds:.1f} s, {processors}, {cells / seconds / 1e6:.2f} million cells of the collection per second, {peak:.0f} MB at most")


if __name__ == "__main__":
    main()
