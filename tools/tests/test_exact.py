"""Numbers of other formats as cells: exactly, rounded as asked, or refused. Expected values are worked out by hand."""
import math
import unittest
from fractions import Fraction

from common import needs

from cubes.cells import FLAGS, fractions_of
from cubes.exact import Reading, cells_from, decimal_of, float_array
from cubes.refusal import NoCell, Refusal

LARGEST = 2**63 - 1


@needs("numpy")
class Exact(unittest.TestCase):
    def cells(self, values, kind, reading=Reading(), nulls=None):
        import numpy

        raw = numpy.array(values, dtype=kind)
        nulls = numpy.zeros(raw.shape, dtype=bool) if nulls is None else numpy.array(nulls)
        cells = cells_from(raw, nulls, reading)
        # Null is 0 over 0, and numbers are in lowest terms.
        for top, bottom in zip(*cells):
            self.assertEqual(math.gcd(top, bottom), int(bottom != 0))
        return [*fractions_of(cells)]

    def refuses(self, number, *words, **more):
        with self.assertRaises(NoCell) as caught:
            self.cells(*words, **more)
        self.assertEqual(caught.exception.number, number)

    def test_floats(self):
        """0.1 in double precision is 3602879701896397 / 2^55, in single 13421773 / 2^27 (IEEE 754)."""
        self.assertEqual(self.cells([0.1], "f8"), [Fraction(3602879701896397, 2**55)])
        self.assertEqual(self.cells([0.1], "f4"), [Fraction(13421773, 2**27)])
        values = [0.0, -0.0, 1.0, -2.5, 2.0**62, -(2.0**62), 2.0**-62, math.nan, 3 * 2.0**-62, 2.0**53 + 2]
        wanted = [0, 0, 1, Fraction(-5, 2), 2**62, -(2**62), Fraction(1, 2**62), None, Fraction(3, 2**62), 2**53 + 2]
        self.assertEqual(self.cells(values, "f8"), wanted)
        self.assertEqual(self.cells([0.5, 1.5], "f2"), [Fraction(1, 2), Fraction(3, 2)])

    def test_floats_that_are_no_cells(self):
        self.refuses(1, [1.0, 2.0**-63], "f8")
        self.refuses(0, [2.0**63], "f8")
        self.refuses(2, [1.0, math.nan, -math.inf], "f8")
        self.refuses(0, [1e-300], "f8")
        self.assertEqual(self.cells([math.inf, 1e-300], "f8", nulls=[True, True]), [None, None])

    def test_rounding(self):
        """0.125 and 0.375 are floats, and a half goes to the even digit; 2.675 as a float is below the decimal."""
        two = Reading(digits=2)
        values = [0.125, 0.375, 2.675, -0.125, 1e-300, math.nan, 123456789.0]
        wanted = [Fraction(3, 25), Fraction(19, 50), Fraction(267, 100), Fraction(-3, 25), 0, None, 123456789]
        self.assertEqual(self.cells(values, "f8", two), wanted)
        self.assertEqual(self.cells([0.1], "f4", Reading(digits=4)), [Fraction(1, 10)])
        self.assertEqual(self.cells([1e18, 0.25], "f8", Reading(digits=2)), [10**18, Fraction(1, 4)])
        self.refuses(1, [1.0, 2.0**63], "f8", Reading(digits=2))

    def test_packed(self):
        tenth = Reading(Fraction(1, 10000))
        self.assertEqual(self.cells([1234, -5000, 10000], "i2", tenth), [Fraction(617, 5000), Fraction(-1, 2), 1])
        moved = Reading(Fraction(1, 100), Fraction(27315, 100))
        self.assertEqual(self.cells([0, -27315, 1], "i2", moved), [Fraction(5463, 20), 0, Fraction(6829, 25)])
        self.assertEqual(self.cells([255, 0], "u1", Reading(), nulls=[False, True]), [255, None])

    def test_packed_beyond_64_bits(self):
        """Where a step would leave 64 bits, fractions go on; the result may be a cell none the less."""
        large = Reading(Fraction(1, 10**18))
        self.assertEqual(self.cells([10**18], "i8", large), [1])
        self.assertEqual(self.cells([LARGEST], "i8", Reading(Fraction(1, 7))), [Fraction(LARGEST // 7)])
        self.assertEqual(self.cells([LARGEST], "u8"), [LARGEST])
        self.refuses(0, [2**63], "u8")
        self.refuses(0, [-(2**63)], "i8")
        self.refuses(1, [1, 3], "i8", Reading(Fraction(2**62)))
        self.assertEqual(self.cells([0.5], "f8", Reading(Fraction(1, 10))), [Fraction(1, 20)])

    def test_flags(self):
        flags = Reading(kind=FLAGS)
        self.assertEqual(self.cells([0, 1], "i1", flags), [0, 1])
        self.assertEqual(self.cells([False, True], "?", flags), [0, 1])
        self.refuses(1, [0, 2], "i1", flags)

    def test_attributes(self):
        """An attribute is the shortest decimal that reads as it in its own precision."""
        import numpy

        for value in (0.0001, numpy.float32(0.0001), numpy.float64(0.0001), numpy.float16(0.0001), "0.0001"):
            self.assertEqual(decimal_of(value), Fraction(1, 10000))
        self.assertEqual(decimal_of(numpy.int16(-3)), -3)
        self.assertEqual(decimal_of(numpy.float32(273.15)), Fraction(27315, 100))
        for value in ("a", numpy.float64("nan"), numpy.array([1, 2])):
            self.assertRaises(Refusal, decimal_of, value)

    def test_floats_again(self):
        """Each is the float nearest to the fraction, as the division of Python's whole numbers gives it."""
        from cubes.cells import cells_of

        some = [Fraction(1, 3), None, Fraction(LARGEST, LARGEST - 1), Fraction(2**53 + 1, 1), Fraction(1, LARGEST)]
        floats = float_array(cells_of(some)).tolist()
        self.assertTrue(math.isnan(floats[1]))
        self.assertEqual(floats[:1] + floats[2:], [0.3333333333333333, 1.0, 2.0**53, 1 / LARGEST])
        # 2^53 + 3 is no float: rounded before the division too, it would give 3002399751580332.
        self.assertEqual(float_array(cells_of([Fraction(2**53 + 3, 3)])).tolist(), [3002399751580331.5])


if __name__ == "__main__":
    unittest.main()
