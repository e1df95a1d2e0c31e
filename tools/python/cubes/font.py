"""Letters of 3 x 5 points for the legends of pictures."""

# Each letter is five rows of three points, from above: 4 is the left one, 2 the middle one, 1 the right one.
ROWS = {
    "0": "75557", "1": "26227", "2": "71747", "3": "71717", "4": "55711", "5": "74717", "6": "74757", "7": "71122",
    "8": "75757", "9": "75717", "A": "25755", "B": "65656", "C": "34443", "D": "65556", "E": "74647", "F": "74644",
    "G": "34553", "H": "55755", "I": "72227", "J": "11152", "K": "55655", "L": "44447", "M": "57755", "N": "65555",
    "O": "25552", "P": "65644", "Q": "25573", "R": "65655", "S": "34216", "T": "72222", "U": "55557", "V": "55552",
    "W": "55775", "X": "55255", "Y": "55222", "Z": "71247", "-": "00700", "+": "02720", ".": "00002", ":": "02020",
    "/": "11244", "_": "00007", " ": "00000",
}
# The sides of the box that a letter stands in, with a point of room to the right.
WIDE, HIGH = 4, 5


def points_of(text: str) -> list[tuple[int, int]]:
    """The points that are set, as columns and rows; a letter that is not known is left out, small ones are large."""
    points = []
    for index, letter in enumerate(text.upper()):
        for row, digit in enumerate(ROWS.get(letter, "00000")):
            points += [(WIDE * index + column, row) for column in range(3) if int(digit) & 4 >> column]
    return points
