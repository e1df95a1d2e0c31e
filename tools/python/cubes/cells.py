"""Cells and their records, many at once, by the standard library alone.

A cell is null, a flag or an exact fraction in lowest terms whose parts fit 63 bits. `docs/formats.md` has the records.
"""
import math
import operator
import sys
from array import array
from fractions import Fraction
from typing import Iterable, NamedTuple, Optional

from .refusal import NoCell

NUMBERS, FLAGS = "number", "boolean"
# The greatest numerator and the greatest denominator.
MOST = 2**63 - 1


class Cells(NamedTuple):
    """Cells as two arrays of 64-bit numbers. Null is 0 over 0; false and true are 0 and 1 over 1."""

    numerators: array
    denominators: array


def fits(value: Fraction) -> bool:
    """Whether a cell equals the value."""
    return -MOST <= value.numerator <= MOST and value.denominator <= MOST


def why_not(value: Fraction) -> str:
    """Why no cell equals a value that does not fit."""
    if value.denominator > MOST:
        return f"its denominator in lowest terms, about 2^{value.denominator.bit_length() - 1}, is over 2^63 - 1"
    return "its numerator in lowest terms is beyond 2^63 - 1"


def cells_of(values: Iterable[Optional[Fraction]]) -> Cells:
    """The cells that equal these values; None is null. Raises NoCell at the first one that does not fit."""
    numerators, denominators = array("q"), array("q")
    for number, value in enumerate(values):
        if value is None:
            numerators.append(0)
            denominators.append(0)
        elif fits(value):
            numerators.append(value.numerator)
            denominators.append(value.denominator)
        else:
            raise NoCell(number, why_not(value))
    return Cells(numerators, denominators)


def floats_of(cells: Cells) -> Iterable[float]:
    """The float nearest to each cell, NaN for null. The division of Python's whole numbers rounds correctly."""
    return (top / bottom if bottom else math.nan for top, bottom in zip(*cells))


def fractions_of(cells: Cells) -> Iterable[Optional[Fraction]]:
    """Each cell as a fraction, None for null."""
    return (Fraction(top, bottom) if bottom else None for top, bottom in zip(*cells))


# ---- records, written


def least_width(cells: Cells, kind: str) -> int:
    """The least width of records, 1, 9 or 17, that holds all of the cells."""
    greatest = max(cells.denominators, default=0)
    if kind == FLAGS or greatest == 0:
        return 1
    return 9 if greatest == 1 else 17


def records_of(cells: Cells, kind: str, width: int) -> bytes:
    """The records of the cells, in a width that is not below the least one."""
    if kind == FLAGS:
        tags = bytes(map(operator.add, *cells))
    else:
        tags = bytes(map(bool, cells.denominators)).translate(bytes([0, 5 if width == 9 else 3]) + bytes(254))
    parts = [] if kind == FLAGS else [*cells]
    return weave(tags, parts[: width // 8], width)


def weave(tags: bytes, parts: list[array], width: int) -> bytes:
    """Records of tags with numbers of 8 bytes behind them, the highest byte first; what no part fills is zero."""
    records = bytearray(width * len(tags))
    records[0::width] = tags
    for index, part in enumerate(parts):
        digits = swap(part).tobytes()
        for byte in range(8):
            records[1 + 8 * index + byte :: width] = digits[byte::8]
    return bytes(records)


def swap(numbers: array) -> array:
    """A copy whose numbers have their highest byte first; of such a copy, the numbers."""
    copy = array("q", numbers)
    if sys.byteorder == "little":
        copy.byteswap()
    return copy


# ---- records, read


def cells_in(records: bytes, kind: str, width: int) -> Cells:
    """The cells of whole records of one width. Raises NoCell at the first damaged one."""
    tags = records[0::width]
    parts = [numbers_in(records, 1 + 8 * index, width) for index in range(width // 8)]
    if kind == FLAGS:
        cells = flags_in(tags)
    else:
        cells = numbers_of(tags, parts, width)
    if records_of(cells, kind, width) != records:
        raise NoCell(first_damage(records, cells, kind, width), "its record is damaged")
    return cells


def numbers_in(records: bytes, first: int, width: int) -> array:
    """The numbers of 8 bytes that stand at one offset of each record."""
    digits = bytearray(8 * (len(records) // width))
    for byte in range(8):
        digits[byte::8] = records[first + byte :: width]
    return swap(array("q", bytes(digits)))


def flags_in(tags: bytes) -> Cells:
    """The flags that tags say; any tag but 1 and 2 is read as null."""
    values = tags.translate(bytes([0, 0, 1]) + bytes(253))
    known = tags.translate(bytes([0, 1, 1]) + bytes(253))
    return Cells(array("q", list(values)), array("q", list(known)))


def numbers_of(tags: bytes, parts: list[array], width: int) -> Cells:
    """The numbers that tags and parts say; what is no number in lowest terms is read as null."""
    blank = array("q", bytes(8 * len(tags)))
    if width == 1:
        return Cells(blank, array("q", blank))
    known = tags.translate(bytes(5) + bytes([1]) + bytes(250) if width == 9 else bytes(3) + bytes([1]) + bytes(252))
    if width == 9:
        numerators, denominators = parts[0], array("q", list(known))
    else:
        numerators, denominators = parts
    if is_plain(numerators, denominators, known):
        return Cells(numerators, denominators)
    return only_valid(numerators, denominators, known)


def is_plain(numerators: array, denominators: array, known: bytes) -> bool:
    """Whether each cell is null as 0 over 0 or a number in lowest terms, as its tag says."""
    if min(numerators, default=0) < -MOST or min(denominators, default=0) < 0:
        return False
    divisors = map(math.gcd, numerators, denominators)
    return bytes(map(bool, denominators)) == known and all(map(operator.eq, divisors, known))


def only_valid(numerators: array, denominators: array, known: bytes) -> Cells:
    """The cells with null in place of what is no number in lowest terms."""
    cells = Cells(array("q"), array("q"))
    for top, bottom, tag in zip(numerators, denominators, known):
        valid = tag == 1 and bottom > 0 and top >= -MOST and math.gcd(top, bottom) == 1
        cells.numerators.append(top if valid else 0)
        cells.denominators.append(bottom if valid else 0)
    return cells


def first_damage(records: bytes, cells: Cells, kind: str, width: int) -> int:
    """The number of the first record that is not the one of its cell."""
    right = records_of(cells, kind, width)
    pairs = zip(records, right)
    return next(number for number, (byte, other) in enumerate(pairs) if byte != other) // width
