"""CSV tables with a row for each cell, in and out, by the standard library alone."""
from __future__ import annotations

import csv
import os
import re
import tempfile
from array import array
from fractions import Fraction
from typing import Iterator, Optional, TextIO, Union

from .cells import FLAGS, NUMBERS, Cells, fits, floats_of, why_not
from .files import Cube
from .refusal import Refusal
from .shapes import Shape, Window, instant_of, label_text, valid_shape

DIMENSIONS = ("t", "bands", "y", "x")
VALUE, TOP, BOTTOM = "value", "numerator", "denominator"
NUMBER = re.compile(r"[+-]?\d+(?:/\d+)?|[+-]?(?:\d+\.?\d*|\.\d+)(?:[eE][+-]?\d+)?")
WORDS = {"": (0, 0), "null": (0, 0), "nan": (0, 0), "false": (0, 1), "true": (1, 1)}


# ---- in


class TableCube:
    """A CSV table as a cube. Its cells go into a file without a name, 16 bytes each, so that rows come in any order."""

    def __init__(self, path: str, epsg: Optional[int]):
        self.path = path
        with open(path, newline="", encoding="utf-8-sig") as file:
            self.names = self.names_in(next(csv.reader(file), []))
        labels, words = self.labels_and_words()
        self.kind = FLAGS if words & {"true", "false"} else NUMBERS
        self.shape = valid_shape(Shape(epsg=epsg or 0, **labels))
        self.cells = tempfile.TemporaryFile()
        self.keep_all()

    def names_in(self, names: list[str]) -> list[str]:
        """The names of the columns. Refuses: one is unknown, or the cells have no column."""
        known = {*DIMENSIONS, VALUE, TOP, BOTTOM}
        for name in names:
            if name not in known or names.count(name) > 1:
                raise Refusal(f"{self.path}: the column {name!r} is none of {', '.join(DIMENSIONS)}, {VALUE}")
        if VALUE not in names and not {TOP, BOTTOM} <= {*names}:
            raise Refusal(f"{self.path} has no column {VALUE}, nor {TOP} and {BOTTOM}")
        return names

    def rows(self) -> Iterator[tuple[int, dict[str, str]]]:
        """The rows with the numbers of their lines. Refuses: one has other columns than the first line."""
        with open(self.path, newline="", encoding="utf-8-sig") as file:
            lines = csv.reader(file)
            next(lines)
            for row in lines:
                if len(row) != len(self.names):
                    raise Refusal(f"{self.path} line {lines.line_num}: {len(row)} columns and not {len(self.names)}")
                yield lines.line_num, dict(zip(self.names, map(str.strip, row)))

    def labels_and_words(self) -> tuple[dict[str, list], set[str]]:
        """The labels of each dimension in the order of cubes, bands as they come first, and all words of cells."""
        found: dict[str, dict] = {name: {} for name in DIMENSIONS if name in self.names}
        words: set[str] = set()
        for line, row in self.rows():
            for name, labels in found.items():
                labels.setdefault(self.label_in(name, row[name], line))
            words |= {row.get(VALUE, "").lower()} & {*WORDS}
        labels = {name: [*labels] for name, labels in found.items()}
        return {name: in_order(name, some) for name, some in labels.items()}, words

    def label_in(self, name: str, text: str, line: int) -> Union[int, str]:
        """The label that a text says. Refuses: none."""
        try:
            return text if name == "bands" else instant_of(text) if name == "t" else int(text)
        except (ValueError, Refusal):
            raise Refusal(f"{self.path} line {line}: {text!r} is no label of {name}") from None

    def keep_all(self) -> None:
        """Puts each cell where it stands. A position without a row is null. Refuses: a position has two rows."""
        indices = {}
        for name, labels in self.shape.dimensions():
            indices[name] = {label: index for index, label in enumerate(labels)}
        extents = dict(zip(DIMENSIONS, self.shape.extents()))
        taken = bytearray(self.shape.count() // 8 + 1)
        for line, row in self.rows():
            number = 0
            for name in DIMENSIONS:
                index = indices[name][self.label_in(name, row[name], line)] if name in indices else 0
                number = number * extents[name] + index
            if taken[number // 8] >> number % 8 & 1:
                raise Refusal(f"{self.path} line {line}: an earlier row has the same labels")
            taken[number // 8] |= 1 << number % 8
            os.pwrite(self.cells.fileno(), array("q", self.cell_in(row, line)).tobytes(), 16 * number)
        os.ftruncate(self.cells.fileno(), 16 * self.shape.count())

    def cell_in(self, row: dict[str, str], line: int) -> tuple[int, int]:
        """Numerator and denominator of a row's cell. Refuses: it has none of the kind of the table."""
        if VALUE in row:
            word = row[VALUE].lower()
        else:
            word = f"{row[TOP]}/{row[BOTTOM]}" if row[TOP] or row[BOTTOM] else ""
        if word in WORDS:
            cell = WORDS[word]
            if cell[1] and self.kind == NUMBERS:
                raise Refusal(f"{self.path} line {line}: {word} stands among numbers")
            return cell
        return self.number_in(word, line)

    def number_in(self, word: str, line: int) -> tuple[int, int]:
        """Numerator and denominator of the exact value of a decimal or a fraction. Refuses: no cell equals it."""
        try:
            value = Fraction(word) if NUMBER.fullmatch(word) else None
        except ZeroDivisionError:
            value = None
        if value is None or self.kind == FLAGS:
            raise Refusal(f"{self.path} line {line}: {word!r} is no cell of its kind")
        if not fits(value):
            raise Refusal(f"{self.path} line {line}: {word} is no cell: {why_not(value)}")
        return value.numerator, value.denominator

    def blocks(self) -> Iterator[tuple[Window, Cells]]:
        """All cells in row-major order."""
        self.cells.seek(0)
        x = self.shape.extents()[3]
        for window in self.shape.windows():
            numbers = array("q", self.cells.read(16 * window.rows * x))
            yield window, Cells(numbers[::2], numbers[1::2])


def in_order(name: str, labels: list) -> list:
    """Labels in the order of cubes; those of bands keep theirs."""
    return labels if name == "bands" else sorted(labels, reverse=name == "y")


# ---- out


def write_table(out: TextIO, cube: Cube, exact: bool) -> None:
    """Writes a row for each cell in row-major order, null as nothing; numbers as floats, or by both parts."""
    lines = csv.writer(out, lineterminator="\n")
    pairs = cube.shape.dimensions()
    is_exact = exact and cube.kind == NUMBERS
    lines.writerow([name for name, _ in pairs] + ([TOP, BOTTOM] if is_exact else [VALUE]))
    x = cube.shape.extents()[3]
    texts = {name: [label_text(name, label) for label in labels] for name, labels in pairs}
    for window, cells in cube.blocks():
        for number, words in enumerate(words_of(cells, cube.kind, is_exact)):
            index = {"t": window.t, "bands": window.band, "y": window.row + number // x, "x": number % x}
            lines.writerow([texts[name][index[name]] for name in texts] + words)


def words_of(cells: Cells, kind: str, is_exact: bool) -> Iterator[list]:
    """What stands in a row for each cell. A whole number is spelled without a point."""
    for top, bottom, value in zip(*cells, floats_of(cells)):
        if bottom == 0:
            yield ["", ""] if is_exact else [""]
        elif kind == FLAGS:
            yield ["true" if top else "false"]
        elif is_exact:
            yield [top, bottom]
        else:
            yield [top if bottom == 1 else repr(value)]
