"""GeoTIFF files, one for each date, in and out; needs rasterio and numpy."""
from __future__ import annotations

import contextlib
import os
import re
from fractions import Fraction
from types import ModuleType
from typing import Callable, Iterator, Optional, TYPE_CHECKING

from .cells import FLAGS, NUMBERS, Cells
from .exact import Reading, cells_from, cells_of_pairs, decimal_of, flag_array, float_array, pair_arrays, refusal_of
from .files import Cube
from .grid import centres_of, corners_of, step_of, whole_file, whole_labels
from .options import Options
from .refusal import NoCell, Refusal, need
from .shapes import NAME, Shape, Window, instant_of, instant_text, valid_shape

if TYPE_CHECKING:
    import numpy
    import rasterio

# A date in a file's name, perhaps with a time of day: 20240601, 2024-06-01, 20240601T103000.
DATE = re.compile(r"(?<!\d)(\d{4})-?(\d{2})-?(\d{2})(?:[T_](\d{2})[:-]?(\d{2})[:-]?(\d{2})Z?)?(?!\d)")
TOP, BOTTOM = "_numerator", "_denominator"


def raster_library(command: str) -> ModuleType:
    """rasterio, with 64 MB of room for blocks of files, where GDAL would take a share of all memory."""
    os.environ.setdefault("GDAL_CACHEMAX", "64")
    return need("rasterio", command)


# ---- in


class GeotiffCube:
    """GeoTIFF files as one cube: each is a date, and has all bands."""

    def __init__(self, paths: list[str], options: Options):
        self.library = raster_library("from-geotiff")
        self.options = options
        dates = self.dates_of(paths)
        # Files stand in the order of their dates.
        self.paths = [path for _, path in sorted(zip(dates, paths))] if dates else paths
        self.file, self.index = self.open(0), 0
        self.transform = self.file.transform
        self.flip = self.transform.e > 0
        self.pairs = self.pairs_of([text or "" for text in self.file.descriptions])
        y, x = self.pixels()
        code = options.epsg or (self.file.crs.to_epsg() if self.file.crs else None) or 0
        self.kind = FLAGS if options.flags else NUMBERS
        self.shape = valid_shape(Shape(sorted(dates) if dates else None, self.names(), y, x, code))

    def open(self, index: int) -> rasterio.io.DatasetReader:
        """One of the files. Refuses: it is no raster that can be read."""
        try:
            return self.library.open(self.paths[index])
        except self.library.errors.RasterioIOError as error:
            raise Refusal(f"{self.paths[index]} is no raster: {error}") from None

    def dates_of(self, paths: list[str]) -> Optional[list[int]]:
        """The date of each file, None where there is one file without a date."""
        if self.options.dates is not None:
            if len(self.options.dates) != len(paths):
                raise Refusal(f"--dates has {len(self.options.dates)} dates for {len(paths)} files")
            return self.options.dates
        dates = [date_in(os.path.basename(path)) for path in paths]
        if dates == [None]:
            return None
        for path, date in zip(paths, dates):
            if date is None:
                raise Refusal(f"the name {path} has no date as 2024-06-01 or 20240601: give all by --dates")
        return dates

    def pairs_of(self, descriptions: list[str]) -> list[tuple[int, int]]:
        """For each band the index of its numbers in the file, from 1, and that of its denominators, or 0."""
        if len(descriptions) % 2 == 0 and all(
            top.endswith(TOP) and bottom == top[: -len(TOP)] + BOTTOM
            for top, bottom in zip(descriptions[::2], descriptions[1::2])
        ):
            return [(index, index + 1) for index in range(1, len(descriptions), 2)]
        return [(index, 0) for index in range(1, len(descriptions) + 1)]

    def names(self) -> Optional[list[str]]:
        """The names of the bands: as asked, as described in the file, or by index; None for one that has none."""
        said = [(self.file.descriptions[top - 1] or "") for top, _ in self.pairs]
        said = [text[: -len(TOP)] if pair[1] else text for text, pair in zip(said, self.pairs)]
        asked = self.options.bands
        if asked is not None and len(asked) != len(said):
            raise Refusal(f"--bands has {len(asked)} names for {len(said)} bands")
        if asked is None and len(said) == 1 and not said[0]:
            return None
        is_described = all(NAME.fullmatch(text) for text in said) and len({*said}) == len(said)
        return asked or (said if is_described else [str(index + 1) for index in range(len(said))])

    def pixels(self) -> tuple[list[int], list[int]]:
        """The labels of y and x. Refuses: the grid is turned, or has no whole numbers for labels."""
        line = self.transform
        if line.b != 0 or line.d != 0 or line.a <= 0:
            raise Refusal(f"{self.paths[0]} is turned against its reference system, or has none")
        width, left, height, top = (decimal_of(value) for value in (line.a, line.c, line.e, line.f))
        x = [left + width * (2 * column + 1) / 2 for column in range(self.file.width)]
        y = [top + height * (2 * row + 1) / 2 for row in range(self.file.height)]
        y = y[::-1] if self.flip else y
        if self.options.corners:
            y, x = corners_of("y", y, abs(height)), corners_of("x", x, width)
        return whole_labels("y", y), whole_labels("x", x)

    def blocks(self) -> Iterator[tuple[Window, Cells]]:
        """All cells in row-major order. Refuses: a number is no cell, or a file has another grid than the first."""
        for window in self.shape.windows():
            if window.t != self.index:
                self.file.close()
                self.file, self.index = self.open(window.t), window.t
                self.judge_grid()
            yield window, self.cells_at(window)

    def judge_grid(self) -> None:
        """Refuses: the file that is open has another grid, or other bands, than the first."""
        count = sum(2 if bottom else 1 for _, bottom in self.pairs)
        have = (self.file.transform, self.file.width, self.file.height, self.file.count)
        if have != (self.transform, len(self.shape.x), len(self.shape.y), count):
            raise Refusal(f"{self.paths[self.index]} has another grid or other bands than {self.paths[0]}")

    def cells_at(self, window: Window) -> Cells:
        """The cells of a window. Refuses: a number is none."""
        top, bottom = self.pairs[window.band]
        raw = self.piece(self.file.read, top, window)
        scale, offset = decimal_of(self.file.scales[top - 1]), decimal_of(self.file.offsets[top - 1])
        reading = Reading(scale, offset, self.options.digits, self.kind)
        try:
            if bottom:
                return cells_of_pairs(raw, self.piece(self.file.read, bottom, window))
            return cells_from(raw, self.piece(self.file.read_masks, top, window) == 0, reading)
        except NoCell as fault:
            where = f"{self.paths[window.t]} at {self.shape.labels_at(window, fault.number)}"
            raise refusal_of(fault, where, raw, reading) from None

    def piece(self, read: Callable, band: int, window: Window) -> numpy.ndarray:
        """The raw numbers, or the mask, of some rows in the order of labels."""
        height = self.file.height
        first = height - window.row - window.rows if self.flip else window.row
        rows = read(band, window=((first, first + window.rows), (0, self.file.width)))
        return rows[::-1] if self.flip else rows


def date_in(name: str) -> Optional[int]:
    """The first date in a name, None where there is none."""
    for found in DATE.finditer(name):
        year, month, day, hour, minute, second = found.groups()
        try:
            return instant_of(f"{year}-{month}-{day}" + (f"T{hour}:{minute}:{second}Z" if hour else ""))
        except Refusal:
            continue
    return None


# ---- out


def write_geotiff(path: str, cube: Cube, exact: bool, corners: bool, pixel: Optional[Fraction]) -> list[str]:
    """Writes a file, or one for each date whose name has the date before its ending; returns the paths."""
    library = raster_library("to-geotiff")
    if cube.shape.y is None or cube.shape.x is None:
        raise Refusal("a GeoTIFF has y and x, and the cube lacks one of them: take to-netcdf or to-csv")
    if cube.shape.count() == 0:
        raise Refusal("a GeoTIFF has pixels, and the cube has none")
    words = words_of(library, cube, exact, corners, pixel)
    paths = paths_of(path, cube.shape)
    file, index = None, -1
    with contextlib.ExitStack() as date:
        for window, cells in cube.blocks():
            if window.t != index:
                # The file of the date before is whole.
                date.close()
                index = window.t
                aside = date.enter_context(whole_file(paths[index]))
                file = date.enter_context(library.open(aside, "w", **words))
                describe(file, cube, exact)
            write_rows(file, window, cells, cube, exact)
    return paths


def paths_of(path: str, shape: Shape) -> list[str]:
    """The path of each date's file; a time of day stands in it only where some date has one."""
    if shape.t is None:
        return [path]
    stem, ending = os.path.splitext(path)
    is_day = all(instant % 86400 == 0 for instant in shape.t)
    texts = [instant_text(instant) for instant in shape.t]
    return [f"{stem}-{text[:10] if is_day else text.replace(':', '')}{ending}" for text in texts]


def words_of(library: ModuleType, cube: Cube, exact: bool, corners: bool, pixel: Optional[Fraction]) -> dict:
    """What a file is opened with: its type, its grid and its reference system."""
    shape, bands = cube.shape, cube.shape.extents()[1]
    y, x = (centres_of(name, labels, corners, pixel) for name, labels in (("y", shape.y), ("x", shape.x)))
    height, width = step_of("y", y, pixel), step_of("x", x, pixel)
    line = (width, 0, x[0] - width / 2, 0, -height, y[0] + height / 2)
    kind = {"dtype": "float64", "nodata": float("nan"), "count": bands}
    if cube.kind == FLAGS:
        kind = {"dtype": "uint8", "nodata": 255, "count": bands}
    elif exact:
        kind = {"dtype": "int64", "count": 2 * bands}
    try:
        crs = library.crs.CRS.from_epsg(shape.epsg)
    except library.errors.CRSError as error:
        raise Refusal(f"EPSG {shape.epsg} is no reference system that rasterio knows: {error}") from None
    transform = library.Affine(*(float(number) for number in line))
    return {"driver": "GTiff", "width": len(x), "height": len(y), "crs": crs, "transform": transform, **kind}


def describe(file: rasterio.io.DatasetWriter, cube: Cube, exact: bool) -> None:
    """Gives the bands of a file their names."""
    names = cube.shape.bands or [""]
    if exact and cube.kind == NUMBERS:
        names = [f"{name}{ending}" for name in names for ending in (TOP, BOTTOM)]
    for index, name in enumerate(names):
        if name:
            file.set_band_description(index + 1, name)


def write_rows(file: rasterio.io.DatasetWriter, window: Window, cells: Cells, cube: Cube, exact: bool) -> None:
    """Writes the cells of a window."""
    if cube.kind == FLAGS:
        layers = [flag_array(cells, 255).astype("uint8")]
    else:
        layers = [*pair_arrays(cells)] if exact else [float_array(cells)]
    rows = ((window.row, window.row + window.rows), (0, file.width))
    for number, layer in enumerate(layers):
        file.write(layer.reshape(window.rows, -1), window.band * len(layers) + number + 1, window=rows)
