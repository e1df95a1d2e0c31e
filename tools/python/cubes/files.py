"""Cube files and result texts, read and written by blocks; nothing of them stands whole in memory."""
import math
import re
import struct
from array import array
from typing import BinaryIO, Callable, Iterator, Optional, Protocol, TextIO, Union

from .cells import FLAGS, MOST, NUMBERS, Cells, cells_in, least_width, records_of
from .refusal import NoCell, Refusal
from .shapes import Shape, Window, dimension_texts, json_of, judge_name, shape_in

MOST_HEADER = 8388608
VERSIONS = {b"OEOCUBE1": 1, b"OEOCUBE2": 2}
# How much of a text is read at once.
PIECE = 1 << 16
CELL = re.compile(r'null|true|false|(0|-?[1-9][0-9]*)|"(-?[1-9][0-9]*)/([1-9][0-9]*)"')
WORDS = {"null": (0, 0), "false": (0, 1), "true": (1, 1)}


class Cube(Protocol):
    """A cube that can be read from its first cell to its last, as often as one likes."""

    shape: Shape
    kind: str

    def blocks(self) -> Iterator[tuple[Window, Cells]]:
        """All cells in row-major order, by the windows of the shape."""


# ---- cube files, written


def write_file(out: BinaryIO, name: str, cube: Cube) -> None:
    """Writes the cube file of version 2 in least widths; a first pass finds the widths and what is refused."""
    judge_name("the id", name)
    widths = [1] * cube.shape.extents()[0]
    for window, cells in cube.blocks():
        widths[window.t] = max(widths[window.t], least_width(cells, cube.kind))
    out.write(front_of(name, cube, widths))
    for window, cells in cube.blocks():
        if least_width(cells, cube.kind) > widths[window.t]:
            raise Refusal("the input changed while it was read: what was written is no cube file")
        out.write(records_of(cells, cube.kind, widths[window.t]))


def front_of(name: str, cube: Cube, widths: list[int]) -> bytes:
    """All that stands before the records."""
    header = header_text(name, cube.kind, widths, cube.shape).encode()
    return b"OEOCUBE2" + struct.pack(">I", len(header)) + header


def header_text(name: str, kind: str, widths: Optional[list[int]], shape: Shape) -> str:
    """The one spelling of a header; without widths, that of version 1."""
    words = "" if widths is None else f'"widths":[{",".join(map(str, widths))}],'
    return f'{{"id":"{name}","cells":"{kind}",{words}"dimensions":[{dimension_texts(shape)}]}}'


# ---- cube files, read


class FileCube:
    """A cube file of version 1 or 2. Refuses: it is none, or a record that is read is damaged."""

    def __init__(self, path: str):
        self.path = path
        with open(path, "rb") as file:
            self.version = VERSIONS.get(file.read(8), 0)
            length = int.from_bytes(file.read(4), "big")
            header = file.read(length) if self.version and length <= MOST_HEADER else b""
            self.start = file.tell()
            file.seek(0, 2)
            size = file.tell()
        self.name, self.kind, self.widths, self.shape = self.head_in(header)
        if self.start + sum(self.widths) * self.section_size() != size:
            raise Refusal(f"{path} is no cube file: it is cut, or longer than its records")

    def head_in(self, header: bytes) -> tuple[str, str, list[int], Shape]:
        """Id, kind, a width for each section, and shape."""
        head = json_of(header.decode("utf-8", "replace"), f"the header of {self.path}")
        if not isinstance(head, dict) or head.get("cells") not in (NUMBERS, FLAGS):
            raise Refusal(f"{self.path} is no cube file")
        shape = shape_in(head.get("dimensions"))
        widths = head.get("widths") if self.version == 2 else None
        if header != header_text(head.get("id"), head["cells"], widths, shape).encode():
            raise Refusal(f"{self.path} is no cube file: its header is not in the one spelling")
        judge_name("the id", head["id"])
        sections = [17] * shape.extents()[0] if widths is None else widths
        if len(sections) != shape.extents()[0] or not all(width in (1, 9, 17) for width in sections):
            raise Refusal(f"{self.path} is no cube file: it has not one width of 1, 9 or 17 for each label of t")
        return head["id"], head["cells"], sections, shape

    def section_size(self) -> int:
        """How many cells each section has."""
        _, bands, y, x = self.shape.extents()
        return bands * y * x

    def blocks(self) -> Iterator[tuple[Window, Cells]]:
        """All cells in row-major order. Refuses: a record is damaged."""
        x = self.shape.extents()[3]
        with open(self.path, "rb") as file:
            file.seek(self.start)
            for window in self.shape.windows():
                width = self.widths[window.t]
                try:
                    yield window, cells_in(file.read(width * window.rows * x), self.kind, width)
                except NoCell as fault:
                    where = self.shape.labels_at(window, fault.number)
                    raise Refusal(f"{self.path} at {where}: {fault.why}") from None


# ---- result texts


class TextCube:
    """A result text, or a cube text whose members stand in the same order. Refuses: it is none."""

    def __init__(self, path: str, again: Callable[[], TextIO]):
        # What the text is called in lines of refusal, and a call that opens it from its start.
        self.path, self.again = path, again
        with again() as file:
            head, self.rest = self.head_of(file)
        value = json_of(head + "[]}", path)
        if not isinstance(value, dict) or value.get("type") != "FractionCube":
            raise Refusal(f"{path} is no result text: its type is not FractionCube")
        self.shape = shape_in(value.get("dimensions"))
        self.kind = FLAGS if any(word in ("true", "false") for word in self.words()) else NUMBERS

    def head_of(self, file: TextIO) -> tuple[str, int]:
        """What stands before the list of cells, and how many letters that and its bracket are."""
        head = ""
        while True:
            found = re.search(r'"data"\s*:\s*\[', head)
            if found:
                return head[: found.end() - 1], found.end()
            try:
                piece = file.read(PIECE)
            except UnicodeDecodeError:
                piece = ""
            if not piece or len(head) > 2 * MOST_HEADER:
                raise Refusal(f"{self.path} is neither a cube file nor a result text")
            head += piece

    def words(self) -> Iterator[str]:
        """The texts of the cells, in order. Refuses: the text is cut, or no JSON behind them."""
        with self.again() as file:
            file.read(self.rest)
            left, end = "", ""
            while not end:
                piece = file.read(PIECE)
                if not piece:
                    raise Refusal(f"{self.path} is cut: its list of cells has no end")
                text, end, rest = (left + piece).partition("]")
                *whole, left = text.split(",")
                yield from map(str.strip, whole)
            if left.strip() or self.shape.count() > 0:
                yield left.strip()
            json_of('{"data":[]' + rest + file.read(), self.path)

    def blocks(self) -> Iterator[tuple[Window, Cells]]:
        """All cells in row-major order. Refuses: one is none, or there are more or fewer than positions."""
        words, x = self.words(), self.shape.extents()[3]
        for window in self.shape.windows():
            cells = Cells(array("q"), array("q"))
            for number in range(window.rows * x):
                top, bottom = self.cell_in(next(words, ""), window, number)
                cells.numerators.append(top)
                cells.denominators.append(bottom)
            yield window, cells
        if next(words, None) is not None:
            raise Refusal(f"{self.path} has more cells than positions")

    def cell_in(self, word: str, window: Window, number: int) -> tuple[int, int]:
        """Numerator and denominator of a cell. Refuses: the word spells none, or one of the other kind."""
        cell = cell_of(word)
        is_flag = word in ("true", "false")
        if cell is None or (is_flag != (self.kind == FLAGS) and word != "null"):
            raise Refusal(f"{self.path} at {self.shape.labels_at(window, number)}: {word!r} is no cell of its kind")
        return cell


def cell_of(word: str) -> Optional[tuple[int, int]]:
    """Numerator and denominator of the cell that a result text spells so, None where it spells none."""
    found = CELL.fullmatch(word)
    if found is None:
        return None
    whole, top, bottom = found.groups()
    if word in WORDS:
        return WORDS[word]
    if whole is not None:
        return (int(whole), 1) if abs(int(whole)) <= MOST else None
    cell = int(top), int(bottom)
    is_lowest = cell[1] > 1 and math.gcd(*cell) == 1
    return cell if is_lowest and max(abs(cell[0]), cell[1]) <= MOST else None


def open_cube(path: str) -> Union[FileCube, TextCube]:
    """The cube of a cube file or of a result text. Refuses: the file is neither."""
    with open(path, "rb") as file:
        is_file = file.read(8) in VERSIONS
    return FileCube(path) if is_file else TextCube(path, lambda: open(path, encoding="utf-8"))
