"""Pictures of cubes as PNG files (RFC 2083), by the standard library alone."""
from __future__ import annotations

import math
import struct
import zlib
from array import array
from typing import BinaryIO, Iterable, NamedTuple, Optional

from .cells import FLAGS, Cells, floats_of
from .files import Cube
from .font import HIGH, WIDE, points_of
from .refusal import Refusal
from .shapes import Shape, label_text

# From the least cell to the greatest; colours of about equal steps for the eye, also for one that sees no red or green.
RAMP = [(68, 1, 84), (59, 82, 139), (33, 145, 140), (94, 201, 98), (253, 231, 37)]
WHITE, BLACK, CLEAR = (255, 255, 255, 255), (40, 40, 40, 255), (0, 0, 0, 0)
# Planes beside one another at most, the side of a plane at most and about at least, and the points of a letter's point.
MOST_PLANES, MOST_SIDE, LEAST_SIDE, DOT = 12, 1000, 200, 2
MARGIN, LINE = 8, DOT * HIGH + 8

Colour = tuple[int, int, int, int]


class Choice(NamedTuple):
    """What is shown: bands and dates by their labels, None for those by default, and the ends of the colours."""

    bands: Optional[list[str]] = None
    dates: Optional[list[int]] = None
    low: Optional[float] = None
    high: Optional[float] = None


class Canvas:
    """A picture of red, green, blue and how opaque, a byte each."""

    def __init__(self, width: int, height: int):
        self.width, self.height = width, height
        self.points = bytearray(bytes(WHITE) * (width * height))

    def fill(self, left: int, top: int, width: int, height: int, colour: Colour) -> None:
        """Gives a box one colour."""
        for row in range(top, top + height):
            first = 4 * (row * self.width + left)
            self.points[first : first + 4 * width] = bytes(colour) * width

    def write(self, left: int, top: int, text: str) -> None:
        """Writes a text whose upper left corner is given."""
        for column, row in points_of(text):
            self.fill(left + DOT * column, top + DOT * row, DOT, DOT, BLACK)

    def save(self, out: BinaryIO) -> None:
        """Writes the PNG file."""
        stride = 4 * self.width
        rows = b"".join(b"\0" + self.points[row * stride : (row + 1) * stride] for row in range(self.height))
        out.write(b"\x89PNG\r\n\x1a\n")
        for kind, content in (
            (b"IHDR", struct.pack(">IIBBBBB", self.width, self.height, 8, 6, 0, 0, 0)),
            (b"IDAT", zlib.compress(rows, 9)),
            (b"IEND", b""),
        ):
            check = zlib.crc32(kind + content)
            out.write(struct.pack(">I", len(content)) + kind + content + struct.pack(">I", check))


def write_picture(out: BinaryIO, cube: Cube, choice: Choice) -> int:
    """Writes a picture of some dates beside one another: one band by a ramp, or three as red, green and blue.

    Returns how many pixels along each side one point stands for: 1 where all are shown. Refuses: what is asked for is
    not there, or too much.
    """
    bands, dates = choose(cube.shape, choice)
    _, _, height, width = cube.shape.extents()
    if not dates or not height or not width:
        raise Refusal("the cube has no pixels to show")
    step = math.ceil(max(height, width) / MOST_SIDE)
    planes = planes_of(cube, {(date, band) for date in dates for band in bands}, step)
    low, high = ends_of(planes.values(), choice)
    zoom = math.ceil(LEAST_SIDE / math.ceil(max(height, width) / step))
    panels = [[planes[date, band] for band in bands] for date in dates]
    texts = legend_of(cube, bands, low, high)
    canvas = draw_panels(panels, titles_of(cube.shape, dates), zoom, DOT * WIDE * len("  ".join(texts)), (low, high))
    draw_legend(canvas, texts, len(bands) == 1)
    canvas.save(out)
    return step


def titles_of(shape: Shape, dates: list[int]) -> list[str]:
    """The dates as texts, without the time of day where it is midnight at all of them."""
    if shape.t is None:
        return [""] * len(dates)
    texts = [label_text("t", shape.t[date]) for date in dates]
    return [text[:10] for text in texts] if all(text.endswith("T00:00:00Z") for text in texts) else texts


def choose(shape: Shape, choice: Choice) -> tuple[list[int], list[int]]:
    """The indices of the bands and dates that are shown. Refuses: one is not there, or there are too many."""
    bands = indices_of("band", shape.bands, choice.bands)
    if choice.bands is None and len(bands) != 3:
        bands = bands[:1]
    if len(bands) not in (1, 3):
        raise Refusal(f"a picture has one band, or three as red, green and blue, and not {len(bands)}")
    dates = indices_of("date", shape.t, choice.dates)
    if len(dates) > MOST_PLANES:
        raise Refusal(f"the cube has {len(dates)} dates, and a picture shows {MOST_PLANES} at most: choose by --dates")
    return bands, dates


def indices_of(what: str, labels: Optional[list], asked: Optional[list]) -> list[int]:
    """The indices of the labels that are asked for, or of all."""
    if asked is None:
        return [*range(1 if labels is None else len(labels))]
    for label in asked:
        if label not in (labels or []):
            raise Refusal(f"the cube has no {what} {label if what == 'band' else label_text('t', label)}")
    return [(labels or []).index(label) for label in asked]


class Plane(NamedTuple):
    """Floats in rows of one width, NaN for null."""

    width: int
    values: array


def planes_of(cube: Cube, wanted: set[tuple[int, int]], step: int) -> dict[tuple[int, int], Plane]:
    """The planes by indices of t and band, of which the first of `step` pixels is kept along y and along x."""
    x = cube.shape.extents()[3]
    planes = {key: Plane(-(-x // step), array("d")) for key in wanted}
    for window, cells in cube.blocks():
        if (window.t, window.band) not in planes:
            continue
        values = planes[window.t, window.band].values
        for row in range(-window.row % step, window.rows, step):
            some = slice(row * x, (row + 1) * x, step)
            values.extend(floats_of(Cells(cells.numerators[some], cells.denominators[some])))
    return planes


def ends_of(planes: Iterable[Plane], choice: Choice) -> tuple[float, float]:
    """The cells that the first and the last colour stand for: as asked, else the least and the greatest shown."""
    known = [value for plane in planes for value in plane.values if not math.isnan(value)]
    low = choice.low if choice.low is not None else min(known, default=0.0)
    high = choice.high if choice.high is not None else max(known, default=1.0)
    if low > high:
        raise Refusal(f"the colours would begin at {low} and end at {high}")
    return low, high


def share(value: float, low: float, high: float) -> float:
    """Where a value stands between the ends, from 0 to 1."""
    return min(1.0, max(0.0, (value - low) / (high - low))) if high > low else 0.5


def ramp_colour(part: float) -> Colour:
    """The colour of the ramp at a part from 0 to 1 of its length."""
    index = min(int(part * (len(RAMP) - 1)), len(RAMP) - 2)
    rest = part * (len(RAMP) - 1) - index
    red, green, blue = (round(a + (b - a) * rest) for a, b in zip(RAMP[index], RAMP[index + 1]))
    return red, green, blue, 255


def colour_of(values: list[float], low: float, high: float) -> Colour:
    """The colour of a pixel of one band or three; clear where one of them is null."""
    if any(map(math.isnan, values)):
        return CLEAR
    parts = [share(value, low, high) for value in values]
    if len(parts) == 1:
        return ramp_colour(parts[0])
    red, green, blue = (round(255 * part) for part in parts)
    return red, green, blue, 255


def draw_panels(
    panels: list[list[Plane]], titles: list[str], zoom: int, least: int, ends: tuple[float, float]
) -> Canvas:
    """A canvas, at least so wide, with the panels side by side under their titles, and room for a legend below."""
    width = panels[0][0].width
    height = len(panels[0][0].values) // width
    wide = max([zoom * width, *(DOT * WIDE * len(title) for title in titles)])
    top = MARGIN + (LINE if any(titles) else 0)
    all_wide = MARGIN + max(len(panels) * (wide + MARGIN), least + MARGIN)
    canvas = Canvas(all_wide, top + zoom * height + MARGIN + 2 * LINE + MARGIN)
    for index, panel in enumerate(panels):
        left = MARGIN + index * (wide + MARGIN)
        canvas.write(left, MARGIN, titles[index])
        for number, values in enumerate(zip(*(plane.values for plane in panel))):
            row, column = divmod(number, width)
            colour = colour_of([*values], *ends)
            canvas.fill(left + zoom * column, top + zoom * row, zoom, zoom, colour)
    return canvas


def legend_of(cube: Cube, bands: list[int], low: float, high: float) -> tuple[str, str]:
    """What stands at both ends of a legend's bar."""
    if cube.kind == FLAGS and len(bands) == 1:
        return ("false", "true") if high > low else (("true", "true") if high else ("false", "false"))
    names = [cube.shape.bands[band] for band in bands] if cube.shape.bands else []
    left = f"{low:.4g}" if len(bands) == 1 else f"{' '.join(names)}  {low:.4g}"
    return left, f"{high:.4g}"


def draw_legend(canvas: Canvas, texts: tuple[str, str], is_ramp: bool) -> None:
    """Draws the bar with what its ends stand for below it."""
    top, wide = canvas.height - MARGIN - 2 * LINE, canvas.width - 2 * MARGIN
    for column in range(wide):
        part = column / max(1, wide - 1)
        grey = round(255 * part)
        colour = ramp_colour(part) if is_ramp else (grey, grey, grey, 255)
        canvas.fill(MARGIN + column, top, 1, LINE - 4, colour)
    canvas.write(MARGIN, top + LINE, texts[0])
    canvas.write(canvas.width - MARGIN - DOT * WIDE * len(texts[1]), top + LINE, texts[1])
