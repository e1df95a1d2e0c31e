"""The commands of `tools/cubes`: their words, and what each calls."""
from __future__ import annotations

import argparse
import os
import sys
from fractions import Fraction
from typing import BinaryIO, Callable, NoReturn

from .files import Cube, open_cube, write_file
from .geotiff import GeotiffCube, write_geotiff
from .netcdf import NetcdfCube, write_netcdf
from .options import Options
from .exact import MOST_DIGITS
from .picture import Choice, write_picture
from .refusal import Refusal
from .shapes import instant_of, judge_name
from .show import lines_of, tables_of
from .table import TableCube, write_table

USAGE, REFUSED = 1, 2


class Words(argparse.ArgumentParser):
    """A reader of words that ends with status 1 where they are no command."""

    def error(self, message: str) -> NoReturn:
        self.print_usage(sys.stderr)
        self.exit(USAGE, f"cubes: {message}\n")


# ---- what words say


def names_of(text: str) -> list[str]:
    """Names with commas between them."""
    return text.split(",")


def instants(text: str) -> list[int]:
    """Dates with commas between them."""
    try:
        return [instant_of(word) for word in text.split(",")]
    except Refusal as refusal:
        raise argparse.ArgumentTypeError(str(refusal)) from None


def whole(low: int, high: int) -> Callable[[str], int]:
    """A reader of whole numbers from low to high."""

    def read(text: str) -> int:
        if not text.isdecimal() or not low <= int(text) <= high:
            raise argparse.ArgumentTypeError(f"{text!r} is no whole number from {low} to {high}")
        return int(text)

    return read


def side(text: str) -> Fraction:
    """The side of a pixel, a decimal above 0."""
    try:
        value = Fraction(text)
    except (ValueError, ZeroDivisionError):
        value = Fraction(0)
    if value <= 0:
        raise argparse.ArgumentTypeError(f"{text!r} is no number above 0")
    return value


# ---- in


def options_of(words: argparse.Namespace) -> Options:
    """What words say about reading."""
    said = vars(words)
    return Options(**{name: said[name] for name in Options._fields if name in said})


def write_cube(words: argparse.Namespace, cube: Cube, source: str) -> None:
    """Writes a cube file to standard output, under the id that is asked for or the file's name without its ending."""
    name = words.id or os.path.splitext(os.path.basename(source))[0]
    try:
        judge_name("the id", name)
    except Refusal as refusal:
        raise Refusal(f"{refusal}: give another by --id") from None
    write_file(bytes_out("a cube file"), name, cube)


def bytes_out(what: str) -> BinaryIO:
    """Standard output for bytes. Refuses: it is a terminal."""
    if sys.stdout.isatty():
        raise Refusal(f"{what} goes to a file: write > and a name behind the command")
    return sys.stdout.buffer


def from_netcdf(words: argparse.Namespace) -> None:
    """Takes a NetCDF file in."""
    write_cube(words, NetcdfCube(words.file, words.variables, options_of(words)), words.file)


def from_geotiff(words: argparse.Namespace) -> None:
    """Takes GeoTIFF files in."""
    write_cube(words, GeotiffCube(words.files, options_of(words)), words.files[0])


def from_csv(words: argparse.Namespace) -> None:
    """Takes a table in."""
    write_cube(words, TableCube(words.file, words.epsg), words.file)


# ---- out


def to_netcdf(words: argparse.Namespace) -> None:
    """Takes a result out as NetCDF."""
    write_netcdf(words.out, open_cube(words.file), words.name, words.exact, words.corners)


def to_geotiff(words: argparse.Namespace) -> None:
    """Takes a result out as GeoTIFF, and prints the names of the files."""
    for path in write_geotiff(words.out, open_cube(words.file), words.exact, words.corners, words.pixel):
        print(path)


def to_csv(words: argparse.Namespace) -> None:
    """Takes a result out as a table."""
    write_table(sys.stdout, open_cube(words.file), words.exact)


def picture(words: argparse.Namespace) -> None:
    """Writes a picture, and says where not every pixel is in it."""
    choice = Choice(words.bands, words.dates, words.low, words.high)
    step = write_picture(bytes_out("a picture"), open_cube(words.file), choice)
    if step > 1:
        print(f"cubes: the picture has one of {step} pixels along y and along x", file=sys.stderr)


def show(words: argparse.Namespace) -> None:
    """Prints what a cube has."""
    cube = open_cube(words.file)
    print("\n".join([*lines_of(cube), *(tables_of(cube) if words.table else [])]))


# ---- the words of each command


def add(commands: argparse._SubParsersAction, call: Callable, text: str, example: str) -> argparse.ArgumentParser:
    """A command with its help and an example."""
    name, more = call.__name__.replace("_", "-"), f"example:\n  {example}"
    form = argparse.RawDescriptionHelpFormatter
    words = commands.add_parser(name, help=text, description=text, epilog=more, formatter_class=form)
    words.set_defaults(call=call)
    return words


def add_readers(commands: argparse._SubParsersAction) -> None:
    """The commands that write cube files."""
    text = "writes variables of a NetCDF file as a cube file"
    words = add(commands, from_netcdf, text, "cubes from-netcdf scene.nc B04 B08 --id SCENE > SCENE.cube")
    words.add_argument("file", metavar="FILE")
    words.add_argument("variables", metavar="VARIABLE", nargs="+", help="several are the bands of the cube")
    words.add_argument("--bands", type=names_of, help="names for the bands, also of one variable, as B04,B08")
    add_reading(words)
    text = "writes GeoTIFF files, one for each date, as a cube file"
    words = add(commands, from_geotiff, text, "cubes from-geotiff s2-20240601.tif s2-20240611.tif --id S2 > S2.cube")
    words.add_argument("files", metavar="FILE", nargs="+")
    words.add_argument("--bands", type=names_of, help="names for the bands; else as the file has them, or 1, 2, ..")
    words.add_argument("--dates", type=instants, help="the date of each file, as 2024-06-01,2024-06-11; else by name")
    add_reading(words)
    text = "writes a CSV table as a cube file: columns t, bands, y, x and value, a row for each cell"
    words = add(commands, from_csv, text, "cubes from-csv stations.csv --epsg 32633 > stations.cube")
    words.add_argument("file", metavar="FILE")
    add_cube(words)


def add_cube(words: argparse.ArgumentParser) -> None:
    """The words that all commands have which write cube files."""
    words.add_argument("--id", help="the id of the collection; else the file's name without its ending")
    words.add_argument("--epsg", type=whole(1, 999999), help="the reference system; else the one of the file")


def add_reading(words: argparse.ArgumentParser) -> None:
    """The words that say how rasters are read."""
    add_cube(words)
    text = "rounds floats to so many digits behind the point; without it they are taken exactly or refused"
    words.add_argument("--round", dest="digits", metavar="DIGITS", type=whole(0, MOST_DIGITS), help=text)
    words.add_argument("--flags", action="store_true", help="0 is false and 1 is true")
    words.add_argument("--corners", action="store_true", help="a label is a pixel's upper left corner, not its centre")


def add_writers(commands: argparse._SubParsersAction) -> None:
    """The commands that take results out."""
    text = "writes a result text or a cube file as NetCDF, a variable for each band"
    words = add(commands, to_netcdf, text, "cubes to-netcdf result.json result.nc")
    add_out(words)
    words.add_argument("--name", default="cells", help="the variable of a cube without bands (cells)")
    add_exact(words)
    text = "writes a result text or a cube file as GeoTIFF, a file for each date, and prints their names"
    words = add(commands, to_geotiff, text, "cubes to-geotiff result.json result.tif")
    add_out(words)
    words.add_argument("--pixel", type=side, help="the side of a pixel, where y or x has one label")
    add_exact(words)
    text = "writes a result text or a cube file as a CSV table, a row for each cell"
    words = add(commands, to_csv, text, "cubes to-csv result.json > result.csv")
    words.add_argument("file", metavar="RESULT")
    words.add_argument("--exact", action="store_true", help="numerators and denominators in place of floats")


def add_out(words: argparse.ArgumentParser) -> None:
    """The words of a command that writes a file by its name."""
    words.add_argument("file", metavar="RESULT")
    words.add_argument("out", metavar="OUT")


def add_exact(words: argparse.ArgumentParser) -> None:
    """The words that say how rasters are written."""
    words.add_argument("--exact", action="store_true", help="numerators and denominators in place of floats")
    words.add_argument("--corners", action="store_true", help="a label is a pixel's upper left corner, not its centre")


def add_views(commands: argparse._SubParsersAction) -> None:
    """The commands that show cubes."""
    text = "writes a picture: a band of each date, or three bands as red, green and blue; null is clear"
    words = add(commands, picture, text, "cubes picture result.json > result.png")
    words.add_argument("file", metavar="RESULT")
    words.add_argument("--bands", type=names_of, help="one band, or three; else all of three, or the first")
    words.add_argument("--dates", type=instants, help="which dates, as 2024-06-01,2024-06-11; else all")
    words.add_argument("--low", type=float, help="the number of the first colour; else the least cell shown")
    words.add_argument("--high", type=float, help="the number of the last colour; else the greatest cell shown")
    text = "says what a cube file or a result text has: dimensions, labels, kind, least, greatest, nulls"
    words = add(commands, show, text, "cubes show result.json --table")
    words.add_argument("file", metavar="FILE")
    words.add_argument("--table", action="store_true", help="prints the first cells too")


def parser() -> argparse.ArgumentParser:
    """The reader of all words."""
    text = "Takes cubes of openeo in and out of NetCDF, GeoTIFF and CSV, and shows them."
    more = "`cubes COMMAND --help` has an example. Status 1: the words are no command; 2: the input is refused."
    words = Words(prog="cubes", description=text, epilog=more)
    commands = words.add_subparsers(metavar="COMMAND", required=True)
    add_readers(commands)
    add_writers(commands)
    add_views(commands)
    return words


def line_of(refusal: Exception) -> str:
    """What a refusal says; of a file that the system refuses, its name and why."""
    if isinstance(refusal, OSError) and refusal.filename is not None:
        return f"{os.fsdecode(refusal.filename)}: {refusal.strerror}"
    if isinstance(refusal, UnicodeDecodeError):
        return f"the input is no text in UTF-8: {refusal}"
    return str(refusal)


def main(words: list[str]) -> int:
    """Does what the words say, and returns the status."""
    said = parser().parse_args(words)
    try:
        said.call(said)
        sys.stdout.flush()
    except BrokenPipeError:
        # Whoever read the output has seen enough; nothing more is written when the program ends.
        os.dup2(os.open(os.devnull, os.O_WRONLY), sys.stdout.fileno())
        return REFUSED
    except (Refusal, OSError, UnicodeDecodeError) as refusal:
        print(f"cubes: {line_of(refusal)}", file=sys.stderr)
        return REFUSED
    return 0
