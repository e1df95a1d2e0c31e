"""Shapes of cubes: dimensions, labels, the rules that they keep, and how they are spelled."""
from __future__ import annotations

import datetime
import json
import re
from dataclasses import dataclass
from typing import Iterator, NamedTuple, Optional, Union

from .refusal import Refusal

# The rules of a shape, as `docs/formats.md` and the program have them.
MOST_LABELS = 65536
MOST_CELLS = 2**40
FARTHEST = 10**9
MOST_EPSG = 999999
FIRST_INSTANT, LAST_INSTANT = -62135596800, 253402300799
NAME = re.compile(r"[A-Za-z0-9_.-]{1,64}")
INSTANT = re.compile(r"(\d{4})-(\d{2})-(\d{2})(?:T(\d{2}):(\d{2}):(\d{2})Z)?")
EPOCH = datetime.datetime(1970, 1, 1)

# Which dimension of a cube the name of one in other formats says.
ROLES = {"t": "t", "time": "t", "bands": "bands", "band": "bands", "y": "y", "x": "x"}
ROLES |= {"lat": "y", "latitude": "y", "lon": "x", "longitude": "x"}

# How many cells are worked on at once.
BLOCK = 1 << 17


class Window(NamedTuple):
    """Some whole rows of a plane, which is the cells of one label of `t` and one band: indices, and how many rows."""

    t: int
    band: int
    row: int
    rows: int


@dataclass
class Shape:
    """The labels of each dimension, None where the cube lacks it, and the EPSG code, 0 without `y` and `x`."""

    t: Optional[list[int]] = None
    bands: Optional[list[str]] = None
    y: Optional[list[int]] = None
    x: Optional[list[int]] = None
    epsg: int = 0

    def dimensions(self) -> list[tuple[str, list]]:
        """The names and labels of the dimensions that the cube has, in their order."""
        pairs = [("t", self.t), ("bands", self.bands), ("y", self.y), ("x", self.x)]
        return [(name, labels) for name, labels in pairs if labels is not None]

    def extents(self) -> tuple[int, int, int, int]:
        """How many indices t, bands, y and x give: 1 where the cube lacks the dimension."""
        t, bands, y, x = (1 if labels is None else len(labels) for labels in (self.t, self.bands, self.y, self.x))
        return t, bands, y, x

    def count(self) -> int:
        """How many cells the cube has."""
        t, bands, y, x = self.extents()
        return t * bands * y * x

    def windows(self) -> Iterator[Window]:
        """The whole cube in row-major order, at most BLOCK cells at a time but at least a row."""
        t, bands, y, x = self.extents()
        step = max(1, BLOCK // max(1, x))
        for date in range(t if x else 0):
            for band in range(bands):
                for row in range(0, y, step):
                    yield Window(date, band, row, min(step, y - row))

    def labels_at(self, window: Window, number: int) -> str:
        """The labels of the cell that has this number among those of a window, as a text for people."""
        x = self.extents()[3]
        indices = {"t": window.t, "bands": window.band, "y": window.row + number // x, "x": number % x}
        words = [f"{name} {label_text(name, labels[indices[name]])}" for name, labels in self.dimensions()]
        return ", ".join(words) if words else "the one cell"


def label_text(name: str, label: Union[int, str]) -> str:
    """A label as texts have it, without quotes."""
    return instant_text(label) if name == "t" else str(label)


# ---- instants


def instant_text(seconds: int) -> str:
    """`YYYY-MM-DDTHH:MM:SSZ` of an instant in seconds since 1970-01-01T00:00:00Z."""
    moment = EPOCH + datetime.timedelta(seconds=seconds)
    return moment.isoformat(timespec="seconds") + "Z"


def instant_of(text: str) -> int:
    """The instant of `YYYY-MM-DD` or `YYYY-MM-DDTHH:MM:SSZ`. Refuses: another spelling, or no such moment."""
    found = INSTANT.fullmatch(text)
    try:
        numbers = [int(part) for part in found.groups() if part is not None]
        passed = datetime.datetime(*numbers) - EPOCH
    except (AttributeError, ValueError):
        raise Refusal(f"{text!r} is no date as 2024-06-01 or 2024-06-01T10:30:00Z") from None
    return passed.days * 86400 + passed.seconds


# ---- the rules


def valid_shape(shape: Shape) -> Shape:
    """The shape. Refuses: it breaks a rule; the line says which label and why."""
    judge_order("t", shape.t, FIRST_INSTANT, LAST_INSTANT)
    judge_names(shape.bands)
    judge_order("y", None if shape.y is None else shape.y[::-1], -FARTHEST, FARTHEST)
    judge_order("x", shape.x, -FARTHEST, FARTHEST)
    for name, labels in shape.dimensions():
        if len(labels) > MOST_LABELS:
            raise Refusal(f"{name} has {len(labels)} labels, which are more than {MOST_LABELS}: take less")
    if shape.y is None and shape.x is None:
        shape.epsg = 0
    elif not 1 <= shape.epsg <= MOST_EPSG:
        raise Refusal("the reference system has no EPSG code: give it by --epsg, as --epsg 32633")
    if shape.count() > MOST_CELLS:
        raise Refusal(f"the cube has {shape.count()} cells, which are more than 2^40: take less")
    return shape


def judge_order(name: str, labels: Optional[list[int]], low: int, high: int) -> None:
    """Refuses: the labels do not rise, or one is out of range."""
    for earlier, later in zip(labels or [], (labels or [])[1:]):
        if later == earlier:
            raise Refusal(f"{name} has the label {label_text(name, later)} twice")
        if later < earlier:
            raise Refusal(f"{name} has {label_text(name, later)} out of order beside {label_text(name, earlier)}")
    for label in labels or []:
        if not low <= label <= high:
            raise Refusal(f"{name} has the label {label}, which is not from {low} to {high}")


def judge_names(names: Optional[list[str]]) -> None:
    """Refuses: a band's name is not valid, or stands twice."""
    earlier = set()
    for name in names or []:
        judge_name("the band", name)
        if name in earlier:
            raise Refusal(f"the band {name} stands twice")
        earlier.add(name)


def judge_name(what: str, name: str) -> str:
    """The name. Refuses: it is not valid."""
    if not NAME.fullmatch(name):
        raise Refusal(f"{what} {name!r} is not 1 to 64 letters, digits, `_`, `-` and `.`")
    return name


# ---- texts of dimensions


def dimension_texts(shape: Shape) -> str:
    """The dimensions as the result text and the header of a cube file spell them."""
    return ",".join(dimension_text(shape, name, labels) for name, labels in shape.dimensions())


def dimension_text(shape: Shape, name: str, labels: list) -> str:
    """One dimension as these texts spell it."""
    if name == "t":
        kind, words = '"temporal"', [f'"{instant_text(label)}"' for label in labels]
    elif name == "bands":
        kind, words = '"bands"', [f'"{label}"' for label in labels]
    else:
        kind, words = f'"spatial","axis":"{name}","reference_system":{shape.epsg}', [str(label) for label in labels]
    return f'{{"name":"{name}","type":{kind},"labels":[{",".join(words)}]}}'


def shape_in(dimensions: object) -> Shape:
    """The shape that the JSON value of a list of dimensions says. Refuses: it says none, or one that breaks a rule."""
    shape, order = Shape(), []
    try:
        for dimension in dimensions:
            name, labels = dimension["name"], dimension["labels"]
            setattr(shape, name, [instant_of(label) for label in labels] if name == "t" else [*labels])
            shape.epsg = dimension.get("reference_system", shape.epsg)
            order.append(name)
    except (TypeError, KeyError) as error:
        raise Refusal(f"the dimensions are not as docs/formats.md has them ({error!r})") from None
    if order != [name for name, _ in shape.dimensions()]:
        raise Refusal("the dimensions are not t, bands, y and x, in this order")
    numbers = [shape.epsg, *(shape.y or []), *(shape.x or [])]
    if not all(type(number) is int for number in numbers) or not all(type(name) is str for name in shape.bands or []):
        raise Refusal("a label of y or x is no whole number, or a band is no text")
    return valid_shape(shape)


def json_of(text: str, what: str) -> object:
    """The value of a JSON text. Refuses: it is none."""
    try:
        return json.loads(text)
    except ValueError as error:
        raise Refusal(f"{what} is no JSON: {error}") from None
