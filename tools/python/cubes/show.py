"""What a cube has, in words: dimensions, labels, kind, least, greatest, nulls; and a small one as tables."""
from fractions import Fraction
from typing import Iterator, Optional

from .cells import FLAGS, Cells, fractions_of
from .files import Cube, FileCube
from .shapes import Shape, label_text

# The most that tables show of each dimension.
MOST_SHOWN = 8


def lines_of(cube: Cube) -> Iterator[str]:
    """Lines about a cube. Refuses: a cell of it is none."""
    if isinstance(cube, FileCube):
        yield f"cube file {cube.name}, version {cube.version}, widths {', '.join(runs_of(cube.widths))}"
    else:
        yield "result text"
    for name, labels in cube.shape.dimensions():
        yield f"{name}: {labels_text(name, labels)}"
    if cube.shape.epsg:
        yield f"reference system: EPSG {cube.shape.epsg}"
    low, high, nulls = summary(cube)
    yield f"cells: {cube.shape.count()} {'flags' if cube.kind == FLAGS else 'numbers'}, of which {nulls} null"
    if low is not None and high is not None:
        yield f"least: {cell_text(low, cube.kind)}, greatest: {cell_text(high, cube.kind)}"


def runs_of(widths: list[int]) -> list[str]:
    """The widths one after the other, `12 x 9` for as many equal ones."""
    runs: list[list[int]] = []
    for width in widths:
        if runs and runs[-1][1] == width:
            runs[-1][0] += 1
        else:
            runs.append([1, width])
    return [f"{count} x {width}" for count, width in runs[:MOST_SHOWN]] + (["..."] if len(runs) > MOST_SHOWN else [])


def labels_text(name: str, labels: list) -> str:
    """How many labels there are, and which: all of a few, else both ends."""
    texts = [label_text(name, label) for label in labels]
    if len(texts) > MOST_SHOWN:
        texts = [*texts[:2], "...", texts[-1]]
    return f"{len(labels)} label{'' if len(labels) == 1 else 's'}{': ' if texts else ''}{', '.join(texts)}"


def summary(cube: Cube) -> tuple[Optional[Fraction], Optional[Fraction], int]:
    """The least and the greatest cell, and how many are null."""
    ends, nulls = [], 0
    for _, cells in cube.blocks():
        ends += ends_of(cells)
        nulls += cells.denominators.count(0)
    return min((low for low, _ in ends), default=None), max((high for _, high in ends), default=None), nulls


def ends_of(cells: Cells) -> list[tuple[Fraction, Fraction]]:
    """The least and the greatest of cells, in a list that is empty where all are null."""
    pairs = {(top, bottom) for top, bottom in zip(*cells) if bottom}
    if not pairs:
        return []
    # Only among those whose floats are least or greatest are fractions compared, which takes long.
    floats = {pair: pair[0] / pair[1] for pair in pairs}
    low, high = min(floats.values()), max(floats.values())
    least = min(Fraction(*pair) for pair, value in floats.items() if value == low)
    return [(least, max(Fraction(*pair) for pair, value in floats.items() if value == high))]


def cell_text(value: Optional[Fraction], kind: str) -> str:
    """A cell for people: as the result text has it, with the float behind a fraction."""
    if value is None:
        return "null"
    if kind == FLAGS:
        return "true" if value else "false"
    return str(value) if value.denominator == 1 else f"{value} ({float(value):.6g})"


def tables_of(cube: Cube) -> Iterator[str]:
    """A table of y and x for each date and band, of the first few of each."""
    for window, cells in cube.blocks():
        if window.row > 0 or window.t >= MOST_SHOWN or window.band >= MOST_SHOWN:
            continue
        title = title_of(cube.shape, window.t, window.band)
        yield from ["", title] if title else [""]
        yield from table_of(cube, [*fractions_of(cells)])


def title_of(shape: Shape, date: int, band: int) -> str:
    """Which date and band a table is of."""
    words = [] if shape.t is None else [label_text("t", shape.t[date])]
    return " ".join(words + ([] if shape.bands is None else [shape.bands[band]]))


def table_of(cube: Cube, values: list) -> Iterator[str]:
    """The first rows of a plane, with the labels of y before them and those of x above."""
    x = cube.shape.extents()[3]
    rows = [["" if cube.shape.x is None else "y \\ x", *map(str, (cube.shape.x or [])[:MOST_SHOWN])]]
    for row in range(min(MOST_SHOWN, len(values) // x)):
        label = "" if cube.shape.y is None else str(cube.shape.y[row])
        rows.append([label, *(cell_text(value, cube.kind) for value in values[row * x : row * x + min(x, MOST_SHOWN)])])
    widths = [max(len(row[column]) for row in rows if column < len(row)) for column in range(len(rows[-1]))]
    for row in rows:
        yield "  ".join(word.rjust(width) for word, width in zip(row, widths)).rstrip()
    if x > MOST_SHOWN or cube.shape.extents()[2] > MOST_SHOWN:
        yield f"(the first {MOST_SHOWN} of each side)"
