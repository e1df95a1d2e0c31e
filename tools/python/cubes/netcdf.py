"""NetCDF files as the CF conventions have them, in and out; needs netCDF4 and numpy."""
from __future__ import annotations

import datetime
import re
from fractions import Fraction
from typing import Callable, Iterator, NamedTuple, Optional, TYPE_CHECKING

from .cells import FLAGS, NUMBERS, Cells
from .exact import Reading, cells_from, cells_of_pairs, decimal_of, flag_array, float_array, pair_arrays, refusal_of
from .files import Cube
from .grid import centres_of, corners_of, whole_file, whole_labels
from .options import Options
from .refusal import NoCell, Refusal, need
from .shapes import EPOCH, ROLES, Shape, Window, valid_shape

if TYPE_CHECKING:
    import netCDF4
    import numpy

# Which dimension of a cube an attribute says.
AXES = {"T": "t", "Y": "y", "X": "x"}
STANDARD_NAMES = {"time": "t", "latitude": "y", "longitude": "x"}
STANDARD_NAMES |= {"projection_y_coordinate": "y", "projection_x_coordinate": "x"}
# Units of time in seconds, by the letters that they begin with.
UNITS = {"day": 86400, "d": 86400, "hour": 3600, "hr": 3600, "h": 3600, "minute": 60, "min": 60, "second": 1, "sec": 1}
UNITS |= {"s": 1, "millisecond": Fraction(1, 1000), "msec": Fraction(1, 1000), "ms": Fraction(1, 1000)}
CALENDARS = ("standard", "gregorian", "proleptic_gregorian")
# From here on the calendar `standard` is the Gregorian one.
FIRST_GREGORIAN = datetime.datetime(1582, 10, 15)
WKT_CODE = re.compile(r'(?:AUTHORITY|ID)\["EPSG",\s*"?(\d+)"?\]\]\s*$')


class Axis(NamedTuple):
    """The labels of a dimension in the order of cubes, and for each the index that it has in the file."""

    labels: list
    order: list[int]


def attributes_of(variable: netCDF4.Variable) -> dict:
    """The attributes of a variable by their names."""
    return {name: variable.getncattr(name) for name in variable.ncattrs()}


# ---- in


class NetcdfCube:
    """Variables of a NetCDF file as one cube; several, or one with --bands, are its bands."""

    def __init__(self, path: str, names: list[str], options: Options):
        self.path = path
        self.file = need("netCDF4", "from-netcdf").Dataset(path)
        self.file.set_auto_maskandscale(False)
        self.options = options
        self.layers = [self.layer_of(name) for name in names]
        first = self.layers[0].variable
        for layer in self.layers[1:]:
            if layer.variable.dimensions != first.dimensions:
                raise Refusal(f"{layer.name} has other dimensions than {self.layers[0].name}: take them one at a time")
        self.roles = self.roles_of(first.dimensions)
        self.axes = {role: self.axis_of(dimension, role) for dimension, role in self.roles.items() if role}
        self.kind = self.kind_of_all()
        self.shape = valid_shape(self.shape_of(names))

    def layer_of(self, name: str) -> "Layer":
        """The variable of this name, or the two that `to-netcdf --exact` writes for it."""
        have = self.file.variables
        if name in have:
            return Layer(name, have[name], None, self.options)
        if f"{name}_numerator" in have and f"{name}_denominator" in have:
            return Layer(name, have[f"{name}_numerator"], have[f"{name}_denominator"], self.options)
        others = ", ".join(other for other in have if other not in self.file.dimensions)
        raise Refusal(f"{self.path} has no variable {name}; it has {others or 'none'}")

    def kind_of_all(self) -> str:
        """The one kind of all variables. Refuses: they have two."""
        kinds = {layer.reading.kind for layer in self.layers}
        if len(kinds) > 1:
            raise Refusal("some of these variables are flags and some are numbers: take them one kind at a time")
        return kinds.pop()

    def roles_of(self, dimensions: tuple[str, ...]) -> dict[str, str]:
        """The cube's dimension that each dimension of the file is; empty where it has length 1 and is none."""
        roles = {name: self.role_of(name) for name in dimensions}
        for name, role in roles.items():
            if not role and len(self.file.dimensions[name]) != 1:
                raise Refusal(f"the dimension {name} is none of t, bands, y and x, and has more than one index")
            if role and [*roles.values()].count(role) > 1:
                raise Refusal(f"two dimensions of {self.path} are {role}, {name} among them")
        return roles

    def role_of(self, name: str) -> str:
        """What a dimension is, by the attributes of its coordinates, else by its name."""
        coordinates = self.file.variables.get(name)
        said = attributes_of(coordinates) if coordinates is not None else {}
        role = AXES.get(said.get("axis")) or STANDARD_NAMES.get(said.get("standard_name"))
        if not role and " since " in str(said.get("units", "")):
            role = "t"
        return role or ROLES.get(name.lower(), "")

    def axis_of(self, dimension: str, role: str) -> Axis:
        """The labels along a dimension. Refuses: it has no coordinates, or one of them is no label."""
        if dimension not in self.file.variables:
            raise Refusal(f"the dimension {dimension} of {self.path} has no coordinates")
        coordinates = self.file.variables[dimension]
        if role == "bands":
            names = [name_in(value) for value in coordinates[...]]
            return Axis(names, [*range(len(names))])
        values = coordinates[...].tolist()
        if role == "t":
            labels = instants_in(values, attributes_of(coordinates))
        else:
            labels = self.pixels_in(role, [Fraction(value) for value in values])
        # Labels of y fall, and all others rise.
        order = sorted(range(len(labels)), key=labels.__getitem__, reverse=role == "y")
        if role != "t" and order not in (sorted(order), sorted(order, reverse=True)):
            raise Refusal(f"the coordinates of {dimension} neither rise nor fall")
        return Axis([labels[index] for index in order], order)

    def pixels_in(self, role: str, centres: list[Fraction]) -> list[int]:
        """The labels of pixels along y or x."""
        return whole_labels(role, corners_of(role, centres) if self.options.corners else centres)

    def shape_of(self, names: list[str]) -> Shape:
        """The shape of the cube. Refuses: bands twice."""
        labels = {role: axis.labels for role, axis in self.axes.items()}
        asked = self.options.bands
        if "bands" in labels and (asked or len(names) > 1):
            raise Refusal(f"{names[0]} has bands of its own: take it alone, and without --bands")
        if asked is not None and len(asked) != len(names):
            raise Refusal(f"--bands has {len(asked)} names for {len(names)} variables")
        if "bands" not in labels and (asked or len(names) > 1):
            labels["bands"] = asked or names
        return Shape(epsg=self.options.epsg or self.epsg(), **labels)

    def epsg(self) -> int:
        """The code of the reference system that the first variable names, 0 where it names none."""
        mapping = str(attributes_of(self.layers[0].variable).get("grid_mapping", "")).split(":")[0]
        if mapping not in self.file.variables:
            return 0
        said = attributes_of(self.file.variables[mapping])
        for name in ("epsg_code", "spatial_epsg", "epsg"):
            found = re.search(r"(\d+)$", str(said.get(name, "")))
            if found:
                return int(found[1])
        found = WKT_CODE.search(str(said.get("crs_wkt", said.get("spatial_ref", ""))))
        return int(found[1]) if found else 0

    def blocks(self) -> Iterator[tuple[Window, Cells]]:
        """All cells in row-major order. Refuses: a number is no cell."""
        for window in self.shape.windows():
            layer = self.layers[0 if "bands" in self.axes else window.band]
            try:
                yield window, layer.cells_at(lambda variable: self.piece(variable, window))
            except NoCell as fault:
                where = f"{layer.name} at {self.shape.labels_at(window, fault.number)}"
                raise refusal_of(fault, where, self.piece(layer.variable, window), layer.reading) from None

    def piece(self, variable: netCDF4.Variable, window: Window) -> numpy.ndarray:
        """The raw numbers of a window, with y before x and both in the order of labels."""
        index, kept = [], []
        for dimension in variable.dimensions:
            role = self.roles[dimension]
            if role in ("y", "x"):
                kept.append(role)
                index.append(self.span(role, window))
            else:
                number = {"t": window.t, "bands": window.band, "": 0}[role]
                index.append(self.axes[role].order[number] if role else 0)
        numbers = variable[tuple(index)] if index else variable[...]
        turned = [slice(None, None, -1 if self.is_turned(role) else 1) for role in kept]
        numbers = numbers[tuple(turned)]
        return numbers.T if kept == ["x", "y"] else numbers

    def is_turned(self, role: str) -> bool:
        """Whether the file has the labels of y or x the other way round."""
        order = self.axes[role].order
        return len(order) > 1 and order[0] > order[1]

    def span(self, role: str, window: Window) -> slice:
        """The indices in the file of a window's labels along y or x."""
        count = len(self.axes[role].labels)
        first, end = (window.row, window.row + window.rows) if role == "y" else (0, count)
        return slice(count - end, count - first) if self.is_turned(role) else slice(first, end)


class Layer:
    """One variable with how its numbers are read, or two with numerators and denominators."""

    def __init__(self, name: str, variable: netCDF4.Variable, bottoms: Optional[netCDF4.Variable], options: Options):
        self.name, self.variable, self.bottoms = name, variable, bottoms
        self.said = attributes_of(variable)
        meanings = str(self.said.get("flag_meanings", "")).split()
        is_flag = options.flags or self.said.get("dtype") == "bool" or meanings == ["false", "true"]
        scale = decimal_of(self.said.get("scale_factor", 1))
        offset = decimal_of(self.said.get("add_offset", 0))
        self.reading = Reading(scale, offset, options.digits, FLAGS if is_flag else NUMBERS)

    def cells_at(self, piece: Callable) -> Cells:
        """The cells of a piece, which the argument takes from a variable. Raises NoCell."""
        if self.bottoms is not None:
            return cells_of_pairs(piece(self.variable), piece(self.bottoms))
        raw, said = piece(self.variable), self.said
        if is_unsigned(said) and raw.dtype.kind == "i":
            raw = raw.view(raw.dtype.str.replace("i", "u"))
        return cells_from(raw, nulls_in(raw, said), self.reading)


def nulls_in(raw: numpy.ndarray, said: dict) -> numpy.ndarray:
    """Where raw numbers are fills, or outside of what is said to be valid."""
    nulls = need("numpy", "from-netcdf").zeros(raw.shape, dtype=bool)
    for fill in numbers_in(said, "_FillValue", raw) + numbers_in(said, "missing_value", raw):
        nulls |= raw == fill
    valid = numbers_in(said, "valid_range", raw)
    for least in valid[:1] or numbers_in(said, "valid_min", raw):
        nulls |= raw < least
    for most in valid[1:] or numbers_in(said, "valid_max", raw):
        nulls |= raw > most
    return nulls


def numbers_in(said: dict, name: str, raw: numpy.ndarray) -> list:
    """The numbers of an attribute, so that raw ones compare with them exactly. Refuses: they are none."""
    numpy = need("numpy", "from-netcdf")
    values = numpy.ravel(numpy.asarray(said.get(name, [])))
    try:
        if raw.dtype.kind == "f" or is_unsigned(said):
            return values.astype(raw.dtype).tolist()
        # A whole number that is written as a float stays exact; one that is none equals no raw number.
        return [int(value) if float(value).is_integer() else float(value) for value in values.tolist()]
    except ValueError:
        raise Refusal(f"the attribute {name} is no number but {said[name]!r}") from None


def is_unsigned(said: dict) -> bool:
    """Whether an attribute says that numbers which are stored as signed ones are not."""
    return str(said.get("_Unsigned", "")).lower() == "true"


def name_in(value: object) -> str:
    """The name of a band: a text, letters one by one, or a number."""
    if isinstance(value, (str, int)):
        return str(value)
    if isinstance(value, bytes):
        return value.decode()
    return "".join(letter.decode() for letter in value) if getattr(value, "shape", ()) else str(value.item())


def instants_in(values: list, said: dict) -> list[int]:
    """Seconds since 1970 of CF times. Refuses: no unit and moment as `days since 1970-01-01`, or parts of seconds."""
    unit, moment = said_unit(str(said.get("units", "")))
    calendar = str(said.get("calendar", "standard")).lower()
    if calendar not in CALENDARS:
        raise Refusal(f"the calendar {calendar} is not the one of dates; {' and '.join(CALENDARS[1:])} are read")
    start = moment - EPOCH
    instants = []
    for value in values if isinstance(values, list) else [values]:
        seconds = Fraction(value) * unit + start.days * 86400 + start.seconds
        if seconds.denominator != 1:
            raise Refusal(f"the time {value} is no whole number of seconds, and an instant is one")
        instants.append(seconds.numerator)
    earliest = min([start.days * 86400, *instants])
    if calendar != "proleptic_gregorian" and earliest < (FIRST_GREGORIAN - EPOCH).days * 86400:
        raise Refusal(f"the calendar {calendar} is Julian before 1582-10-15: write times as proleptic_gregorian")
    return instants


def said_unit(text: str) -> tuple[Fraction, datetime.datetime]:
    """The unit in seconds and the moment that `days since 1970-01-01` says."""
    pattern = r"(\w+?)s? since (\d{1,4})-(\d{1,2})-(\d{1,2})(?:[T ](\d{1,2}):(\d{2})(?::(\d{2})(?:\.0*)?)?)?"
    found = re.fullmatch(pattern + r"\s*(?:Z|UTC|GMT|[+-]00:?00)?", text.strip())
    try:
        numbers = [int(part) for part in found.groups()[1:] if part is not None]
        word = found[1].lower()
        return Fraction(UNITS.get(word) or UNITS[word + "s"]), datetime.datetime(*numbers)
    except (TypeError, AttributeError, KeyError, ValueError):
        raise Refusal(f"the unit of time {text!r} is none as 'days since 1970-01-01' or in UTC") from None


# ---- out


def write_netcdf(path: str, cube: Cube, name: str, exact: bool, corners: bool) -> None:
    """Writes a variable for each band, or one of this name: floats, flags as bytes, or exact parts as two variables."""
    library = need("netCDF4", "to-netcdf")
    with whole_file(path) as aside, library.Dataset(aside, "w") as file:
        file.set_auto_maskandscale(False)
        file.setncattr("Conventions", "CF-1.8")
        write_coordinates(file, cube.shape, corners)
        names = [name] if cube.shape.bands is None else cube.shape.bands
        layers = [OutLayer(file, band, cube, exact) for band in names]
        for window, cells in cube.blocks():
            layers[window.band].write(window, cells)


def write_coordinates(file: netCDF4.Dataset, shape: Shape, corners: bool) -> None:
    """The dimensions but `bands`, with their coordinates, and the reference system."""
    for name, labels in shape.dimensions():
        if name == "bands":
            continue
        file.createDimension(name, len(labels))
        if name == "t":
            coordinates = file.createVariable(name, "i8", (name,))
            coordinates.setncatts({"standard_name": "time", "axis": "T", "calendar": "proleptic_gregorian"})
            coordinates.setncattr("units", "seconds since 1970-01-01T00:00:00Z")
            coordinates[:] = labels
        else:
            coordinates = file.createVariable(name, "f8", (name,))
            coordinates.setncatts({"axis": name.upper(), **words_of_axis(name, shape.epsg)})
            coordinates[:] = [float(centre) for centre in centres_of(name, labels, corners)]
    if shape.epsg:
        file.createVariable("crs", "i4", ()).setncatts(words_of_system(shape.epsg))


def words_of_axis(name: str, epsg: int) -> dict[str, str]:
    """The attributes of coordinates along y or x."""
    if epsg == 4326:
        word = "latitude" if name == "y" else "longitude"
        return {"standard_name": word, "units": "degrees_north" if name == "y" else "degrees_east"}
    words = {"standard_name": f"projection_{name}_coordinate"}
    return {**words, "units": "m"} if is_utm(epsg) else words


def is_utm(epsg: int) -> bool:
    """Whether the code is that of a zone of UTM on WGS 84."""
    return 32601 <= epsg <= 32660 or 32701 <= epsg <= 32760


def words_of_system(epsg: int) -> dict:
    """The attributes of a grid mapping: the code, what CF wants for known ones, and the WKT where rasterio is there."""
    words: dict = {"epsg_code": f"EPSG:{epsg}"}
    if epsg == 4326 or is_utm(epsg):
        words |= {"semi_major_axis": 6378137.0, "inverse_flattening": 298.257223563}
        words["grid_mapping_name"] = "latitude_longitude" if epsg == 4326 else "transverse_mercator"
    if is_utm(epsg):
        words |= {"longitude_of_central_meridian": 6.0 * (epsg % 100) - 183, "latitude_of_projection_origin": 0.0}
        words |= {"scale_factor_at_central_meridian": 0.9996, "false_easting": 500000.0}
        words["false_northing"] = 10000000.0 if epsg > 32700 else 0.0
    try:
        text = need("rasterio.crs", "the WKT").CRS.from_epsg(epsg).to_wkt()
        words |= {"crs_wkt": text, "spatial_ref": text}
    except Exception:  # Without rasterio, or for a code that it does not know, the code alone is written.
        pass
    return words


class OutLayer:
    """The variables that one band is written to."""

    def __init__(self, file: netCDF4.Dataset, name: str, cube: Cube, exact: bool):
        self.dimensions = [word for word, _ in cube.shape.dimensions() if word != "bands"]
        self.kind, self.variables = cube.kind, []
        if name in [*file.variables]:
            raise Refusal(f"a variable {name} stands in the file already: exclude that band, or take --name")
        if cube.kind == FLAGS:
            self.add(file, name, "i1", -1, {"flag_values": [0, 1], "flag_meanings": "false true"}, cube)
        elif exact:
            self.add(file, f"{name}_numerator", "i8", -(2**63), {}, cube)
            self.add(file, f"{name}_denominator", "i8", 0, {}, cube)
        else:
            self.add(file, name, "f8", float("nan"), {}, cube)

    def add(self, file: netCDF4.Dataset, name: str, kind: str, fill: float, words: dict, cube: Cube) -> None:
        """Makes one variable."""
        try:
            variable = file.createVariable(name, kind, self.dimensions, fill_value=fill)
        except (RuntimeError, ValueError) as error:
            raise Refusal(f"NetCDF takes no variable {name}: {error}") from None
        if "flag_values" in words:
            words = {**words, "flag_values": need("numpy", "to-netcdf").array(words["flag_values"], dtype="i1")}
        variable.setncatts({**words, "grid_mapping": "crs"} if cube.shape.epsg else words)
        self.variables.append(variable)

    def write(self, window: Window, cells: Cells) -> None:
        """Writes the cells of a window."""
        spans = {"t": window.t, "y": slice(window.row, window.row + window.rows), "x": slice(None)}
        index = tuple(spans[name] for name in self.dimensions) or Ellipsis
        for variable, numbers in zip(self.variables, self.numbers_of(cells)):
            numbers = numbers.reshape(window.rows, -1) if "x" in self.dimensions and "y" in self.dimensions else numbers
            variable[index] = numbers

    def numbers_of(self, cells: Cells) -> list:
        """What each variable gets."""
        if self.kind == FLAGS:
            return [flag_array(cells, -1)]
        if len(self.variables) == 1:
            return [float_array(cells)]
        tops, bottoms = pair_arrays(cells)
        # The fills are a numerator and a denominator that no cell has.
        tops[bottoms == 0] = -(2**63)
        return [tops, bottoms]
