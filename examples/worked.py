"""Cells, cubes and graphs that are worked out by fractions of Python's standard library, to compare with what a program
writes: `slabs` and `periods` here do."""
import json
import os
import struct
import subprocess
import sys
from fractions import Fraction

MOST = 2**63 - 1
OVER = "over"
EPSG = 32633


# ---- cells: None, True or False, a fraction, or OVER

def fits(value):
    return value if abs(value.numerator) <= MOST and value.denominator <= MOST else OVER


def of_two(operation, x, y):
    """What an operation on two numbers gives: OVER of OVER, and null of null."""
    if OVER in (x, y):
        return OVER
    return None if x is None or y is None else fits(operation(x, y))


def folded(operation, cells):
    value = cells[0]
    for cell in cells[1:]:
        value = operation(value, cell)
    return value


def either(x, y):
    return True if x is True or y is True else (None if x is None or y is None else False)


def both(x, y):
    return False if x is False or y is False else (None if x is None or y is None else True)


def add(x, y):
    return of_two(lambda a, b: a + b, x, y)


def times(x, y):
    return of_two(lambda a, b: a * b, x, y)


def middle(cells):
    """The cell in the middle of a list in order, or the mean of the two."""
    half = len(cells) // 2
    return cells[half] if len(cells) % 2 else of_two(lambda a, b: a / b, add(cells[half - 1], cells[half]), Fraction(2))


def reduced(reducer, ignore, cells):
    """The cell of a list, by the table of reducers."""
    if OVER in cells:
        return OVER
    if reducer == "count":
        return Fraction(sum(cell is not None for cell in cells))
    counted = [cell for cell in cells if cell is not None] if ignore else list(cells)
    if not counted or (reducer in ("sum", "product", "mean", "min", "max", "median") and None in counted):
        return None
    if reducer == "mean":
        return of_two(lambda a, b: a / b, folded(add, counted), Fraction(len(counted)))
    return {
        "sum": lambda: folded(add, counted),
        "product": lambda: folded(times, counted),
        "min": lambda: min(counted),
        "max": lambda: max(counted),
        "median": lambda: middle(sorted(counted)),
        "first": lambda: counted[0],
        "last": lambda: counted[-1],
        "any": lambda: folded(either, counted),
        "all": lambda: folded(both, counted),
    }[reducer]()


# ---- cubes: labels by dimension, and cells in row-major order

class Cube:
    def __init__(self, dates, bands, side, cells):
        self.dates, self.bands, self.side, self.cells = dates, bands, side, cells

    def plane(self):
        return len(self.bands or ["none"]) * self.side * self.side

    def by_date(self, index):
        """The cells of a position of a plane, by date."""
        return self.cells[index::self.plane()]

    def fold(self, reducer, ignore):
        cells = [reduced(reducer, ignore, self.by_date(k)) for k in range(self.plane())]
        return Cube(None, self.bands, self.side, cells)

    def each(self, function):
        return Cube(self.dates, self.bands, self.side, [function(cell) for cell in self.cells])

    def fold_bands(self, function):
        """One cell of the bands of each pixel."""
        size, step = self.side * self.side, self.plane()
        cells = [function(self.cells[first + pixel:first + step:size])
                 for first in range(0, len(self.cells), step) for pixel in range(size)]
        return Cube(self.dates, None, self.side, cells)

    def kept(self, dates, bands):
        """The cells of some dates and some bands."""
        size, count = self.side * self.side, len(self.bands)
        times = range(len(self.dates)) if self.dates is not None else [0]
        chosen = [t for t in times if self.dates is None or self.dates[t] in dates]
        firsts = [(t * count + self.bands.index(band)) * size for t in chosen for band in bands]
        cells = [cell for first in firsts for cell in self.cells[first:first + size]]
        return Cube(None if self.dates is None else [self.dates[t] for t in chosen], bands, self.side, cells)

    def around(self):
        """The sum of each pixel and its neighbours, where null and what is beyond the border count 0."""
        side, cells = self.side, []
        for first in range(0, len(self.cells), side * side):
            for y in range(side):
                for x in range(side):
                    near = [self.cells[first + b * side + a] for b in range(y - 1, y + 2) for a in range(x - 1, x + 2)
                            if 0 <= a < side and 0 <= b < side]
                    value = OVER if OVER in near else folded(add, [cell or Fraction(0) for cell in near])
                    cells.append(value)
        return Cube(self.dates, self.bands, self.side, cells)

    def dimensions(self):
        written = []
        if self.dates is not None:
            written.append({"name": "t", "type": "temporal", "labels": self.dates})
        if self.bands is not None:
            written.append({"name": "bands", "type": "bands", "labels": self.bands})
        for name, labels in (("y", list(range(self.side - 1, -1, -1))), ("x", list(range(self.side)))):
            written.append({"name": name, "type": "spatial", "axis": name, "reference_system": EPSG, "labels": labels})
        return written

    def text(self):
        def spelled(cell):
            if cell is None or isinstance(cell, bool):
                return cell
            return cell.numerator if cell.denominator == 1 else f"{cell.numerator}/{cell.denominator}"

        text = {"type": "FractionCube", "dimensions": self.dimensions(), "data": [spelled(cell) for cell in self.cells]}
        return json.dumps(text, separators=(",", ":")).encode()

    def file(self, name, kind):
        """Its cube file, in records of 17 bytes."""
        def record(cell):
            if cell is None or isinstance(cell, bool):
                return struct.pack(">Bqq", {None: 0, False: 1, True: 2}[cell], 0, 0)
            return struct.pack(">Bqq", 3, cell.numerator, cell.denominator)

        head = json.dumps({"id": name, "cells": kind, "dimensions": self.dimensions()}, separators=(",", ":")).encode()
        return b"OEOCUBE1" + struct.pack(">I", len(head)) + head + b"".join(map(record, self.cells))


# ---- graphs

def node(name, /, **arguments):
    return {"process_id": name, "arguments": arguments}


def taken(name):
    return {"from_node": name}


def callback(name, /, **arguments):
    return {"process_graph": {"n": {**node(name, **arguments), "result": True}}}


DATA, X, Y = {"from_parameter": "data"}, {"from_parameter": "x"}, {"from_parameter": "y"}


def load(name):
    return node("load_collection", id=name, spatial_extent=None, temporal_extent=None)


def graph(**nodes):
    """The text of a graph, whose last node is its result."""
    last = list(nodes)[-1]
    return json.dumps({"process_graph": {**nodes, last: {**nodes[last], "result": True}}}).encode()


# ---- calls

# How long a call may take, in seconds.
LONGEST = 600


class Calls:
    def __init__(self, program):
        self.program, self.good, self.bad = program, 0, 0

    def call(self, folder, words, given):
        """The status, the output and the error output of a call; in place of the status words, where it was stopped."""
        try:
            ended = subprocess.run([self.program, *words], input=given, cwd=folder, capture_output=True, timeout=LONGEST)
        except subprocess.TimeoutExpired:
            return f"no end after {LONGEST} s", b"", b""
        return ended.returncode, ended.stdout, ended.stderr

    def ends(self, name, seen, right):
        if seen == right:
            self.good += 1
        else:
            self.bad += 1
            print(f"{os.path.basename(sys.argv[0])}: {name}: {seen!r:.400}, not {right!r:.400}", file=sys.stderr)


def answer(cube):
    """What a run is to end by whose result is this cube."""
    if OVER in cube.cells:
        return 4, b"", b"openeo: NumberOverflow %d\n" % cube.cells.index(OVER)
    return 0, cube.text(), b""


def refused(status, line):
    return status, b"", b"openeo: " + line + b"\n"


def ended(parts):
    """Runs the parts that are named behind the program, or all, and tells how many calls ended as they should."""
    calls = Calls(os.path.abspath(sys.argv[1]))
    for name in sys.argv[2:] or parts:
        parts[name](calls)
    print(f"{calls.good} calls ended as they should, {calls.bad} did not")
    return 1 if calls.bad else 0
