"""What a notebook calls: arrays of xarray in and out, and graphs over them."""
import math
import os
import unittest
from fractions import Fraction

from common import InFolder, needs, needs_program, program

import cubes

# Each cell of the collection A divided by 3.
EXTENTS = {"spatial_extent": None, "temporal_extent": None}
LOAD = {"process_id": "load_collection", "arguments": {"id": "A", **EXTENTS}}
THIRD = {"process_id": "divide", "arguments": {"x": {"from_parameter": "x"}, "y": 3}, "result": True}
ARGUMENTS = {"data": {"from_node": "load"}, "process": {"process_graph": {"third": THIRD}}}
GRAPH = {"process_graph": {"load": LOAD, "all": {"process_id": "apply", "arguments": ARGUMENTS, "result": True}}}


@needs("numpy", "xarray")
class Notebook(InFolder):
    def array(self, values=((1.0, math.nan), (0.5, 6.0))):
        import numpy
        import xarray

        labels = {"y": [0, 10], "time": numpy.array(["2024-06-01", "2024-06-01T10:30"], dtype="datetime64[ns]")}
        return xarray.DataArray(numpy.array(values), coords=labels, dims=["y", "time"], attrs={"epsg": 32633})

    def test_write(self):
        """Dimensions are put in the order of cubes, and y falls."""
        self.assertEqual(cubes.write(self.array(), "A"), "A.cube")
        table = self.cubes("to-csv", "--exact", "A.cube").decode()
        self.assertEqual(
            table,
            "t,y,numerator,denominator\n2024-06-01T00:00:00Z,10,1,2\n2024-06-01T00:00:00Z,0,1,1\n"
            "2024-06-01T10:30:00Z,10,6,1\n2024-06-01T10:30:00Z,0,,\n",
        )

    def test_datasets(self):
        """The variables of a dataset are bands."""
        import xarray

        two = xarray.Dataset({"B8A": self.array(), "B04": self.array() * 2}, attrs={"epsg": 32633})
        cubes.write(two.isel(time=0, drop=True), "A")
        table = self.cubes("to-csv", "A.cube").decode()
        self.assertEqual(table, "bands,y,value\nB8A,10,0.5\nB8A,0,1\nB04,10,1\nB04,0,2\n")

    def test_refused(self):
        with self.assertRaisesRegex(cubes.Refusal, r"t 2024-06-01T00:00:00Z, y 0: 1e-30 is no cell.*digits=6"):
            cubes.write(self.array(((1e-30, 1.0), (0.5, 6.0))), "A")
        self.assertFalse(os.path.exists("A.cube") or os.path.exists("A.cube.part"))
        cubes.write(self.array(((1e-30, 1.0), (0.5, 6.0))), "A", digits=3)
        with self.assertRaisesRegex(cubes.Refusal, "none of t, bands"):
            cubes.write(self.array().rename(y="z"), "A")
        with self.assertRaisesRegex(cubes.Refusal, "EPSG"):
            cubes.write(self.array().drop_attrs() if hasattr(self.array(), "drop_attrs") else self.array() * 1, "A")

    def test_read(self):
        bands = '{"name":"bands","type":"bands","labels":["a","b"]}'
        text = f'{{"type":"FractionCube","dimensions":[{bands}],"data":["1/3",null]}}'
        array = cubes.read(text)
        self.assertEqual(array.dims, ("bands",))
        self.assertEqual(array.sel(bands="a").item(), 0.3333333333333333)
        self.assertTrue(math.isnan(array.sel(bands="b").item()))
        exact = cubes.read(text, exact=True)
        self.assertEqual([*exact.values], [Fraction(1, 3), None])
        cubes.write(exact, "A")
        self.assertIn(b"least: 1/3", self.cubes("show", "A.cube"))
        flags = cubes.read(text.replace('"1/3",null', "true,false"))
        self.assertEqual((flags.dtype.kind, flags.values.tolist()), ("b", [True, False]))
        self.assertEqual(cubes.read(text.replace('"1/3"', "true")).values.tolist(), [True, None])

    @needs_program
    def test_run(self):
        result = cubes.run(GRAPH, {"A": self.array()}, exact=True, program=program())
        self.assertEqual(result.dims, ("t", "y"))
        self.assertEqual(result.values.tolist(), [[Fraction(1, 6), Fraction(1, 3)], [2, None]])
        self.assertEqual(result.attrs["epsg"], 32633)
        with self.assertRaisesRegex(cubes.Refusal, "openeo: CollectionNotFound load"):
            cubes.run(GRAPH, program=program())
        with self.assertRaisesRegex(cubes.Refusal, "openeo: GraphUnreadable"):
            cubes.run("{", program=program())


if __name__ == "__main__":
    unittest.main()
