"""Numbers of other formats as cells, many at once by numpy: exactly, or refused; and as floats again.

`docs/tools.md` says in words what is done here.
"""
from __future__ import annotations

from array import array
from dataclasses import dataclass
from fractions import Fraction
from types import ModuleType
from typing import Optional, TYPE_CHECKING

from .cells import FLAGS, MOST, NUMBERS, Cells, cells_of, floats_of
from .refusal import NoCell, Refusal, need

if TYPE_CHECKING:
    import numpy

# Whole numbers up to here are floats.
MOST_EXACT = 2**53
# The most digits behind the point: 10^18 is a denominator of cells.
MOST_DIGITS = 18


@dataclass(frozen=True)
class Reading:
    """How a raw number becomes a cell: times the scale, plus the offset; floats perhaps rounded; perhaps as a flag."""

    scale: Fraction = Fraction(1)
    offset: Fraction = Fraction(0)
    digits: Optional[int] = None
    kind: str = NUMBERS

    def is_plain(self) -> bool:
        """Whether neither scale nor offset changes a number."""
        return self.scale == 1 and self.offset == 0


def decimal_of(value: object) -> Fraction:
    """The number that an attribute says: of a float, the shortest decimal that reads as it in its own precision.

    So the float nearest to 0.0001, single or double, is 1/10000. Refuses: it is no number.
    """
    numpy = need("numpy", "reading numbers")
    try:
        if isinstance(value, float) or (isinstance(value, numpy.generic) and value.dtype.kind == "f"):
            return Fraction(numpy.format_float_scientific(value, trim="-"))
        return Fraction(value if isinstance(value, str) else int(value))
    except (ValueError, TypeError, OverflowError):
        raise Refusal(f"{value!r} is no number to scale with") from None


def cells_from(raw: numpy.ndarray, nulls: numpy.ndarray, reading: Reading) -> Cells:
    """The cells of raw numbers in a numpy array, null where `nulls` is true. Raises NoCell at one that none equals."""
    numpy = need("numpy", "reading numbers")
    raw, nulls = numpy.ravel(raw), numpy.ravel(nulls)
    if raw.dtype.kind == "f":
        nulls = nulls | numpy.isnan(raw)
        stop_at(numpy.isinf(raw) & ~nulls, "it is infinite")
    elif raw.dtype.kind == "b":
        raw = raw.astype(numpy.int8)
    elif raw.dtype.kind not in "iu":
        raise Refusal(f"numbers of the type {raw.dtype} are neither whole numbers nor floats")
    raw = numpy.where(nulls, raw.dtype.type(0), raw)
    if reading.kind == FLAGS:
        stop_at((raw != 0) & (raw != 1), "a flag is 0 or 1")
    if raw.dtype.kind == "f":
        return cells_of_floats(numpy, raw, nulls, reading)
    return cells_of_integers(numpy, raw, nulls, reading)


def stop_at(wrong: numpy.ndarray, why: str) -> None:
    """Raises NoCell at the first number that is wrong."""
    if wrong.any():
        raise NoCell(int(wrong.argmax()), why)


def arrays_of(numpy: ModuleType, numerators: numpy.ndarray, denominators: numpy.ndarray, nulls: numpy.ndarray) -> Cells:
    """Cells of two numpy arrays of fractions in lowest terms."""
    tops, bottoms = array("q"), array("q")
    tops.frombytes(numpy.where(nulls, 0, numerators).astype(numpy.int64).tobytes())
    bottoms.frombytes(numpy.where(nulls, 0, denominators).astype(numpy.int64).tobytes())
    return Cells(tops, bottoms)


def one_by_one(values: list, nulls: numpy.ndarray, reading: Reading) -> Cells:
    """The cells of numbers of Python by its fractions, which are exact and slow."""
    pairs = zip(values, nulls.tolist())
    return cells_of(None if null else Fraction(value) * reading.scale + reading.offset for value, null in pairs)


def cells_of_integers(numpy: ModuleType, raw: numpy.ndarray, nulls: numpy.ndarray, reading: Reading) -> Cells:
    """The cells of whole numbers: (n * times + plus) / over in lowest terms, where 64 bits hold all of that."""
    over = reading.scale.denominator * reading.offset.denominator
    times, plus = int(reading.scale * over), int(reading.offset * over)
    farthest = max(abs(int(raw.min())), abs(int(raw.max()))) if raw.size else 0
    if farthest * max(1, abs(times)) + abs(plus) > MOST or over > MOST:
        return one_by_one(raw.tolist(), nulls, reading)
    numerators = raw.astype(numpy.int64) * times + plus
    divisors = numpy.gcd(numerators, over)
    return arrays_of(numpy, numerators // divisors, over // divisors, nulls)


def cells_of_floats(numpy: ModuleType, raw: numpy.ndarray, nulls: numpy.ndarray, reading: Reading) -> Cells:
    """The cells of finite floats."""
    if reading.digits is not None:
        return cells_of_rounded(numpy, raw, nulls, reading)
    if not reading.is_plain():
        return one_by_one(raw.tolist(), nulls, reading)
    values = raw.astype(numpy.float64)
    fraction, exponent = numpy.frexp(values)
    # Each is `whole` over 2 to the power of `shift`; then its factors 2 go, so that these are lowest terms.
    whole, shift = (fraction * MOST_EXACT).astype(numpy.int64), 53 - exponent.astype(numpy.int64)
    twos = numpy.maximum(numpy.frexp((whole & -whole).astype(numpy.float64))[1].astype(numpy.int64) - 1, 0)
    whole, shift = whole >> twos, numpy.where(whole == 0, 0, shift - twos)
    stop_at(shift > 62, "the float is a fraction whose denominator is over 2^63 - 1")
    stop_at(numpy.abs(values) >= 2.0**63, "the float is beyond 2^63 - 1")
    return arrays_of(numpy, whole << numpy.maximum(-shift, 0), numpy.int64(1) << numpy.maximum(shift, 0), nulls)


def cells_of_rounded(numpy: ModuleType, raw: numpy.ndarray, nulls: numpy.ndarray, reading: Reading) -> Cells:
    """The cells of finite floats, each rounded to so many digits behind the point, a half to the even digit."""
    whole = Reading(reading.scale / 10**reading.digits, reading.offset)
    # Python spells a float by its exact value, rounded correctly.
    numerators = [int(f"{value:.{reading.digits}f}".replace(".", "")) for value in raw.astype(numpy.float64).tolist()]
    if max(map(abs, numerators), default=0) > MOST:
        return one_by_one(numerators, nulls, whole)
    return cells_of_integers(numpy, numpy.array(numerators, dtype=numpy.int64), nulls, whole)


def refusal_of(fault: NoCell, where: str, raw: numpy.ndarray, reading: Reading, option: str = "--round ") -> Refusal:
    """The line about one of these raw numbers that is no cell, and what rounding by the option would make of it."""
    value = raw.ravel()[fault.number]
    text = f"{where}: {value} is no cell: {fault.why}"
    is_float = raw.dtype.kind == "f" and reading.is_plain() and reading.kind == NUMBERS and reading.digits is None
    if not is_float or abs(value) > MOST:
        return Refusal(text)
    digits = 6 if abs(value) < MOST / 10**6 else 0
    return Refusal(f"{text}; with {option}{digits} it would be {value:.{digits}f}")


def float_array(cells: Cells) -> numpy.ndarray:
    """The floats nearest to the cells, in a numpy array; NaN for null."""
    numpy = need("numpy", "writing numbers")
    tops, bottoms = numpy.array(cells.numerators), numpy.array(cells.denominators)
    if tops.size and max(int(abs(tops).max()), int(bottoms.max())) > MOST_EXACT:
        return numpy.array([*floats_of(cells)], dtype=numpy.float64)
    # Both are floats, so that the one division rounds correctly.
    with numpy.errstate(invalid="ignore"):
        return tops.astype(numpy.float64) / bottoms.astype(numpy.float64)


def flag_array(cells: Cells, null: int) -> numpy.ndarray:
    """The flags as 0 and 1 in a numpy array of bytes, with this number for null."""
    numpy = need("numpy", "writing numbers")
    return numpy.where(numpy.array(cells.denominators) == 0, null, numpy.array(cells.numerators))


def pair_arrays(cells: Cells) -> tuple[numpy.ndarray, numpy.ndarray]:
    """Numerators and denominators as numpy arrays; null is 0 over 0."""
    numpy = need("numpy", "writing numbers")
    return numpy.array(cells.numerators, dtype=numpy.int64), numpy.array(cells.denominators, dtype=numpy.int64)


def cells_of_pairs(tops: numpy.ndarray, bottoms: numpy.ndarray) -> Cells:
    """The cells of numerators and denominators. Raises NoCell at a pair that is no fraction in lowest terms."""
    numpy = need("numpy", "reading numbers")
    tops, bottoms = numpy.ravel(tops), numpy.ravel(bottoms)
    nulls = bottoms == 0
    tops = numpy.where(nulls, 0, tops)
    stop_at((bottoms < 0) | (tops < -MOST) | (numpy.gcd(tops, bottoms) != ~nulls), "it is no fraction in lowest terms")
    return arrays_of(numpy, tops, bottoms, nulls)
