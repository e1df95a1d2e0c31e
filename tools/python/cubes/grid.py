"""Regular grids of pixels, centres and corners of pixels, and files that get their name once they are whole."""
import contextlib
import os
from fractions import Fraction
from typing import Iterator, Optional

from .refusal import Refusal


def whole_labels(name: str, coordinates: list[Fraction]) -> list[int]:
    """The coordinates as labels. Refuses: one is no whole number."""
    for index, coordinate in enumerate(coordinates):
        if coordinate.denominator != 1:
            raise Refusal(
                f"{name} has {float(coordinate)!r} at index {index}, and a label is a whole number in the unit of the "
                "reference system; --corners takes the upper left corner of each pixel for its label"
            )
    return [coordinate.numerator for coordinate in coordinates]


def step_of(name: str, coordinates: list, pixel: Optional[Fraction]) -> Fraction:
    """The side of a pixel, above 0. Refuses: coordinates are not regular, or fewer than two and no side is given."""
    steps = {abs(Fraction(later) - earlier) for earlier, later in zip(coordinates, coordinates[1:])}
    if len(steps) > 1:
        raise Refusal(f"{name} is no regular grid: its steps are from {min(steps)} to {max(steps)}")
    if steps:
        return steps.pop()
    if pixel is None:
        raise Refusal(f"{name} has fewer than two labels, which do not say how large a pixel is: give it by --pixel")
    return pixel


def corners_of(name: str, centres: list[Fraction], pixel: Optional[Fraction] = None) -> list[Fraction]:
    """The coordinate along `y` or `x` of each pixel's upper left corner, from those of the centres."""
    half = step_of(name, centres, pixel) / 2
    return [centre + half if name == "y" else centre - half for centre in centres]


def centres_of(name: str, labels: list[int], corners: bool, pixel: Optional[Fraction] = None) -> list[Fraction]:
    """The coordinate of each pixel's centre, where labels are centres or the upper left corners."""
    if not corners:
        return [Fraction(label) for label in labels]
    half = step_of(name, labels, pixel) / 2
    return [label - half if name == "y" else label + half for label in labels]


@contextlib.contextmanager
def whole_file(path: str) -> Iterator[str]:
    """The path of a file to write, which gets its name once it is whole and goes where that fails."""
    aside = f"{path}.part"
    try:
        yield aside
        os.replace(aside, path)
    finally:
        with contextlib.suppress(FileNotFoundError):
            os.remove(aside)
