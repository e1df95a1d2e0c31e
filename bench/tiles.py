#!/usr/bin/env python3
"""Counts the instructions of a run over the ordinary year as one file, as a mosaic of that file alone, and as a mosaic of tiles.

`tiles.py PROGRAM [SIDE [TILES]]` writes the cells of year.py, 12 dates, 4 bands and SIDE x SIDE pixels (1000 where no side
is given), once into one cube file and once into TILES x TILES files of as many pixels a side (4 where no number is
given), runs `PROGRAM run 64 64 12 4` on bench/year.json over each of the three by callgrind, and prints instructions and
how many times those of the one file they are. The texts of all three are compared, and the exit status is 1 where one
differs. It needs python3 and valgrind.
"""
import os
import re
import shutil
import struct
import subprocess
import sys
import tempfile

import year

GRAPH = os.path.join(os.path.dirname(os.path.abspath(__file__)), "year.json")


def header(side, rows, columns):
    """The header of the file of some rows and columns of the year."""
    whole = year.header(side).decode()
    y = ",".join(str(10 * (side - 1 - row)) for row in rows)
    x = ",".join(str(10 * column) for column in columns)
    front, labels_y, between, labels_x, end = re.fullmatch(
        r'(.*"name":"y".*?"labels":\[)(.*?)(\].*"name":"x".*?"labels":\[)(.*?)(\].*)', whole
    ).groups()
    assert labels_y and labels_x
    return f"{front}{y}{between}{x}{end}".encode()


def write_tile(path, side, rows, columns):
    """The cells of the year at some rows and columns."""
    written = [year.row((first + 7 * columns[0]) % 101, len(columns)) for first in range(101)]
    front = header(side, rows, columns)
    with open(path, "wb") as file:
        file.write(b"OEOCUBE2" + struct.pack(">I", len(front)) + front)
        for t in range(len(year.DATES)):
            for band in range(len(year.BANDS)):
                file.writelines(written[(13 * y + 17 * t + 19 * band) % 101] for y in rows)


def count(program, folder, name):
    """The instructions of a run in a folder, and its text."""
    out = os.path.join(folder, name)
    tool = ["valgrind", "--tool=callgrind", f"--callgrind-out-file={out}.callgrind"]
    with open(GRAPH, "rb") as given, open(f"{out}.text", "wb") as text:
        words = [*tool, program, "run", "64", "64", "12", "4"]
        ended = subprocess.run(words, stdin=given, stdout=text, stderr=subprocess.PIPE, cwd=folder)
    if ended.returncode != 0:
        sys.exit(f"{name}: the program ended with status {ended.returncode}")
    with open(f"{out}.text", "rb") as text:
        return int(re.search(rb"Collected : (\d+)", ended.stderr).group(1)), text.read()


def main():
    program = os.path.abspath(sys.argv[1])
    side = int(sys.argv[2]) if len(sys.argv) > 2 else 1000
    tiles = int(sys.argv[3]) if len(sys.argv) > 3 else 4
    sides = [range(side * k // tiles, side * (k + 1) // tiles) for k in range(tiles)]
    with tempfile.TemporaryDirectory(prefix="openeo-tiles-") as folder:
        own = os.path.join(folder, "collections")
        os.mkdir(own)
        year.write_year(f"{own}/YEAR.cube", side)
        first, text = count(program, folder, "one file")
        print(f"one file: {first} instructions", flush=True)
        os.rename(f"{own}/YEAR.cube", f"{own}/YEAR")
        with open(f"{own}/YEAR.mosaic", "w") as file:
            file.write("YEAR\nYEAR\n")
        same = look(program, folder, "a mosaic of that file alone", first, text)
        shutil.rmtree(own)
        os.mkdir(own)
        with open(f"{own}/YEAR.mosaic", "w") as file:
            file.write("YEAR\n")
            for at, (rows, columns) in enumerate((rows, columns) for rows in sides for columns in sides):
                write_tile(f"{own}/tile-{at}", side, rows, columns)
                file.write(f"tile-{at}\n")
        same = look(program, folder, f"a mosaic of {tiles} x {tiles} files", first, text) and same
    sys.exit(not same)


def look(program, folder, name, first, text):
    """Prints what a run costs, and answers whether it has this text."""
    counted, other = count(program, folder, name)
    words = "the same text" if other == text else "ANOTHER TEXT"
    print(f"{name}: {counted} instructions, {counted / first:.4f} of one file, {words}", flush=True)
    return other == text


if __name__ == "__main__":
    main()
