"""What a user says about reading a file."""
from typing import NamedTuple, Optional


class Options(NamedTuple):
    """What the words of a command say about reading; None where they say nothing, and the file decides."""

    epsg: Optional[int] = None
    # How many digits behind the point floats are rounded to.
    digits: Optional[int] = None
    # Whether 0 and 1 are false and true.
    flags: bool = False
    bands: Optional[list[str]] = None
    dates: Optional[list[int]] = None
    # Whether a label is a pixel's upper left corner, and not its centre.
    corners: bool = False
