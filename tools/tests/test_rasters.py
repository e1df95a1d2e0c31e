"""NetCDF and GeoTIFF, in and out, also by way of the program: what comes back is what went in."""
import math
import os
import shutil
import subprocess
import sys
import unittest
from fractions import Fraction

from common import ROOT, InFolder, needs, needs_program, points_in

from cubes.files import open_cube
from cubes.cells import fractions_of

X, Y = [500000, 500010, 500020], [5300010, 5300000]


def cells_in(name):
    return [value for _, cells in open_cube(name).blocks() for value in fractions_of(cells)]


@needs("numpy", "netCDF4")
class Netcdf(InFolder):
    def make(self, name, times=("days since 2024-01-01", [0, 31]), y=Y, x=X, **variables):
        """A file whose variables are `name=(type, values, attributes)` over t, y and x."""
        import netCDF4

        with netCDF4.Dataset(name, "w") as file:
            for dimension, labels, words in (
                ("time", times[1], {"units": times[0]}),
                ("y", y, {"standard_name": "projection_y_coordinate"}),
                ("x", x, {"standard_name": "projection_x_coordinate"}),
            ):
                file.createDimension(dimension, len(labels))
                file.createVariable(dimension, "f8", (dimension,)).setncatts(words)
                file[dimension][:] = labels
            file.createVariable("crs", "i4", ()).spatial_ref = 'PROJCS["UTM 33N",AUTHORITY["EPSG","32633"]]'
            for band, (kind, values, words) in variables.items():
                fill = words.pop("_FillValue", None)
                variable = file.createVariable(band, kind, ("time", "y", "x"), fill_value=fill)
                variable.set_auto_maskandscale(False)
                variable.setncatts({"grid_mapping": "crs", **words})
                variable[:] = self.array(values, kind, len(times[1]), len(y), len(x))
        return name

    def array(self, values, kind, *shape):
        import numpy

        return numpy.array(values, dtype=kind).reshape(shape)

    def pack(self, *words, name="A"):
        return self.keep(f"{name}.cube", self.cubes("from-netcdf", *words, "--id", name))

    def test_packed_integers_and_fills(self):
        words = {"scale_factor": 0.0001, "add_offset": 0.5, "_FillValue": -9, "valid_max": 9000}
        self.make("a.nc", A=("i2", [0, 1, -9, 9001, 9000, -5000, *range(6)], words))
        self.pack("a.nc", "A")
        half = Fraction(1, 2)
        wanted = [half, half + Fraction(1, 10000), None, None, Fraction(7, 5), 0]
        self.assertEqual(cells_in("A.cube"), wanted + [half + Fraction(n, 10000) for n in range(6)])
        self.assertIn(b"EPSG 32633", self.cubes("show", "A.cube"))

    def test_unsigned(self):
        self.make("a.nc", times=("days since 2024-01-01", [0]), A=("i1", [-1, -2, 0, 1, 2, 3], {"_Unsigned": "true"}))
        self.pack("a.nc", "A")
        self.assertEqual(cells_in("A.cube"), [255, 254, 0, 1, 2, 3])

    def test_fills_of_another_type(self):
        """A fill that no raw number of the type equals hides none: -9999 is not 241, nor 2^53 what is one more."""
        self.make("a.nc", A=("u1", [241, 0, 255, *range(9)], {"missing_value": -9999.0, "valid_min": 1.0}))
        self.pack("a.nc", "A")
        self.assertEqual(cells_in("A.cube"), [241, None, 255, None, *range(1, 9)])
        self.make("b.nc", A=("i8", [2**53 + 1, 2**53, *range(10)], {"missing_value": 2.0**53}))
        self.pack("b.nc", "A")
        self.assertEqual(cells_in("A.cube")[:2], [2**53 + 1, None])
        self.make("c.nc", A=("f4", [1e20, 1.5, *range(10)], {"missing_value": 1e20}))
        self.pack("c.nc", "A")
        self.assertEqual(cells_in("A.cube")[:2], [None, Fraction(3, 2)])
        self.make("d.nc", A=("i2", range(12), {"missing_value": "none"}))
        self.assertIn("missing_value is no number", self.cubes("from-netcdf", "d.nc", "A", status=2))

    def test_no_labels(self):
        """A dimension without labels, as a filter leaves it, goes out and comes back."""
        self.keep("A.json", '{"type":"FractionCube","dimensions":[%s,%s],"data":[]}' % (
            '{"name":"t","type":"temporal","labels":[]}',
            '{"name":"x","type":"spatial","axis":"x","reference_system":4326,"labels":[0,10]}',
        ))
        self.cubes("to-netcdf", "A.json", "A.nc")
        self.pack("A.nc", "cells")
        self.assertIn(b"t: 0 labels\nx: 2 labels: 0, 10\n", self.cubes("show", "A.cube"))
        self.assertEqual(self.cubes("to-csv", "A.json"), b"t,x,value\n")
        self.assertIn("no pixels", self.cubes("picture", "A.json", status=2))

    def test_floats(self):
        """Floats come exactly; one that is no cell is named with its labels and with what rounding would do."""
        values = [0.1, math.nan, -0.0, 2.5, 1e9, 2.0**-62, *range(6)]
        self.pack(self.make("a.nc", A=("f8", values, {})), "A")
        self.assertEqual(cells_in("A.cube"), [None if math.isnan(value) else Fraction(value) for value in values])
        values[4] = 1e-10 / 3
        line = self.cubes("from-netcdf", self.make("b.nc", A=("f8", values, {})), "A", "--id", "A", status=2)
        self.assertIn("A at t 2024-01-01T00:00:00Z, y 5300000, x 500010: 3.33", line)
        self.assertIn("with --round 6 it would be 0.000000", line)
        self.pack("b.nc", "A", "--round", "2")
        self.assertEqual(cells_in("A.cube")[:5], [Fraction(1, 10), None, 0, Fraction(5, 2), 0])

    def test_y_rising_and_x_falling(self):
        self.pack(self.make("a.nc", A=("i2", range(12), {})), "A")
        turned = [[[5, 4, 3], [2, 1, 0]], [[11, 10, 9], [8, 7, 6]]]
        self.pack(self.make("b.nc", y=Y[::-1], x=X[::-1], A=("i2", turned, {})), "A", name="B")
        self.assertEqual(cells_in("A.cube"), [*range(12)])
        self.assertEqual(cells_in("B.cube"), [*range(12)])

    def test_order_of_time(self):
        """Dates with and without a time of day, in hours and seconds, in any order."""
        self.pack(self.make("a.nc", times=("hours since 2024-06-01 10:30", [24.5, 0]), A=("i2", range(12), {})), "A")
        shape = self.cubes("show", "A.cube").decode()
        self.assertIn("2024-06-01T10:30:00Z, 2024-06-02T11:00:00Z", shape)
        self.assertEqual(cells_in("A.cube"), [*range(6, 12), *range(6)])
        for unit, value in (("seconds since 2024-06-01", 0.5), ("months since 2024-06-01", 1), ("days", 1)):
            name = self.make(f"{unit[:3]}.nc", times=(unit, [value, 2]), A=("i2", range(12), {}))
            self.assertIn("time", self.cubes("from-netcdf", name, "A", status=2))

    @needs("xarray")
    def test_files_of_xarray(self):
        """An array with bands of its own, and flags, as xarray writes them; a dimension of length 1 is left out."""
        import numpy
        import xarray

        dates = numpy.array(["2024-06-01", "2024-06-02T10:30"], dtype="datetime64[ns]")
        labels = {"time": dates, "band": ["B8A", "B04"], "height": [2.0], "lon": [3, 4]}
        array = xarray.DataArray(numpy.arange(8).reshape(2, 2, 1, 2), coords=labels, dims=[*labels])
        xarray.Dataset({"a": array, "b": array > 3}).to_netcdf("a.nc")
        self.pack("a.nc", "a", "--epsg", "4326")
        text = self.cubes("show", "A.cube").decode()
        self.assertIn("2024-06-01T00:00:00Z, 2024-06-02T10:30:00Z\n", text)
        self.assertIn("bands: 2 labels: B8A, B04\nx: 2 labels: 3, 4\n", text)
        self.assertEqual(cells_in("A.cube"), [*range(8)])
        self.pack("a.nc", "b", "--epsg", "4326")
        self.assertIn(b"8 flags", self.cubes("show", "A.cube"))
        self.assertEqual(cells_in("A.cube"), [0] * 4 + [1] * 4)

    def test_what_is_refused(self):
        self.make("a.nc", x=[0.5, 1.5, 2.5], A=("i2", range(12), {}), B=("i2", range(12), {}))
        self.assertIn("--corners", self.cubes("from-netcdf", "a.nc", "A", status=2))
        self.assertIn("no variable C; it has", self.cubes("from-netcdf", "a.nc", "C", status=2))
        self.cubes("from-netcdf", "a.nc", "A", "B", "--bands", "A", "--corners", status=2)
        self.cubes("from-netcdf", self.keep("b.nc", "no NetCDF"), "A", status=2)
        self.make("c.nc", A=("i8", [*range(11), -(2**63)], {}))
        self.assertIn("beyond 2^63 - 1", self.cubes("from-netcdf", "c.nc", "A", "--id", "A", status=2))

    def test_corners(self):
        """Pixels of 5 m whose centres are at 2.5, 7.5 and 12.5 are labelled 0, 5 and 10, and come back."""
        self.pack(self.make("a.nc", y=[7.5, 2.5], x=[2.5, 7.5, 12.5], A=("i2", range(12), {})), "A", "--corners")
        self.assertIn(b"y: 2 labels: 10, 5\nx: 3 labels: 0, 5, 10\n", self.cubes("show", "A.cube"))
        self.cubes("to-netcdf", "A.cube", "b.nc", "--corners", "--name", "A")
        import netCDF4

        with netCDF4.Dataset("b.nc") as file:
            self.assertEqual([*file["x"][:]], [2.5, 7.5, 12.5])
            self.assertEqual([*file["y"][:]], [7.5, 2.5])

    @needs("xarray")
    @needs_program
    def test_round_trip_through_the_program(self):
        """NetCDF to cube, to `run`, to NetCDF: each number is the float that it was, or the nearest to its decimal."""
        import numpy
        import xarray

        values = [0.1, math.nan, -2.5, 1e9, 2.0**-62, 2.0**62, 0.3, 1 / 3, *range(4)]
        packed = {"scale_factor": 0.0001, "_FillValue": -1}
        self.make("a.nc", A=("f8", values, {}), B=("i2", [-1, *range(11)], packed))
        self.cubes("to-netcdf", self.of_program("a.nc", "A", "B"), "b.nc")
        self.cubes("to-netcdf", "S.json", "c.nc", "--exact")
        given, back = (xarray.open_dataset(name) for name in ("a.nc", "b.nc"))
        numpy.testing.assert_array_equal(back["A"].values, given["A"].values)
        wanted = [math.nan, *(n / 10000 for n in range(11))]
        numpy.testing.assert_array_equal(back["B"].values.ravel(), wanted)
        for one, other in (("t", "time"), ("y", "y"), ("x", "x")):
            numpy.testing.assert_array_equal(back[one].values, given[other].values)
        again = self.cubes("from-netcdf", "c.nc", "A", "B", "--id", "S")
        with open("collections/S.cube", "rb") as file:
            self.assertEqual(again, file.read())

    def of_program(self, *words):
        self.pack(*words, name="S")
        return self.load_result("S")

    def test_a_file_is_whole_or_not_there(self):
        line = self.cubes("to-netcdf", self.copy_with_damage(), "S.nc", status=2)
        where = "t 2024-07-01T00:00:00Z, bands B08, y 0, x 10"
        self.assertEqual(line, f"cubes: damaged.cube at {where}: its record is damaged")
        self.assertEqual(os.listdir(), ["damaged.cube"])

    @unittest.skipUnless(shutil.which("gdalinfo"), "gdalinfo is missing: gdal-bin")
    def test_gdalinfo(self):
        """GDAL finds the grid and the reference system of examples/collections/SCENE.cube, and each date as a band."""
        self.cubes("to-netcdf", f"{ROOT}/examples/collections/SCENE.cube", "S.nc")
        said = subprocess.run(["gdalinfo", "NETCDF:S.nc:B04"], capture_output=True, text=True, check=True).stdout
        self.assertIn('ID["EPSG",32633]]\n', said)
        self.assertRegex(said, r"Origin = \(-5\.0*,15\.0*\)\nPixel Size = \(10\.0*,-10\.0*\)\n")
        self.assertIn("Size is 2, 2\n", said)
        self.assertEqual(said.count("NoData Value=nan"), 3)

    @needs_program
    def test_the_example(self):
        """The commands of examples/ndvi give the picture that stands there."""
        example = f"{ROOT}/examples/ndvi"
        subprocess.run([sys.executable, f"{example}/make.py", "scene.nc"], check=True)
        os.mkdir("collections")
        self.keep("collections/F.cube", self.cubes("from-netcdf", "scene.nc", "B04", "B08", "--id", "FIELDS"))
        with open(f"{example}/ndvi.json") as graph, open(f"{example}/ndvi.png", "rb") as picture:
            self.keep("result", self.result_of(graph.read()))
            self.assertEqual(points_in(self.cubes("picture", "result")), points_in(picture.read()))

    @needs_program
    def test_flags_and_missing_dimensions(self):
        table = "t,value\n2024-01-01,true\n2024-01-02T10:30:00Z,\n2024-01-03,false\n"
        self.keep("S.cube", self.cubes("from-csv", self.keep("S.csv", table)))
        self.cubes("to-netcdf", self.load_result("S"), "S.nc")
        self.pack("S.nc", "cells", name="S")
        with open("S.cube", "rb") as one, open("collections/S.cube", "rb") as other:
            self.assertEqual(one.read(), other.read())
        for text, count in (("value\n7\n", 1), ("bands,value\nA,1/3\nB,\n", 2)):
            self.keep("S.cube", self.cubes("from-csv", self.keep("S.csv", text)))
            self.cubes("to-netcdf", "S.cube", "S.nc", "--exact")
            self.pack("S.nc", *(["cells"] if count == 1 else ["A", "B"]), name="S2")
            self.assertEqual(cells_in("S2.cube"), cells_in("S.cube"))


@needs("numpy", "rasterio")
class Geotiff(InFolder):
    def make(self, name, values, transform=(10, 0, 499995, 0, -10, 5300015), **words):
        """A file of 2 x 3 pixels for each band of the values."""
        import numpy
        import rasterio

        values = numpy.array(values, dtype=words.pop("dtype", "int16"))
        said = words.pop("scale", None)
        profile = dict(driver="GTiff", height=2, width=3, count=len(values), dtype=values.dtype, crs="EPSG:32633")
        with rasterio.open(name, "w", **{**profile, "transform": rasterio.Affine(*transform), **words}) as file:
            file.write(values)
            if said:
                file.scales, file.offsets = [said] * len(values), [0.5] * len(values)
        return name

    def pack(self, *words, name="S"):
        return self.keep(f"{name}.cube", self.cubes("from-geotiff", *words, "--id", name))

    def test_scaled_and_null(self):
        self.pack(self.make("a.tif", [[[0, 1, -1], [3, 4, 5]]], nodata=-1, scale=0.0001))
        half = Fraction(1, 2)
        wanted = [None if n < 0 else half + Fraction(n, 10000) for n in (0, 1, -1, 3, 4, 5)]
        self.assertEqual(cells_in("S.cube"), wanted)

    def test_dates_and_bands(self):
        values = [[[0, 1, 2], [3, 4, 5]], [[6, 7, 8], [9, 10, 11]]]
        late, early = self.make("s2_20240611T103000_x.tif", values), self.make("s2_20240601.tif", values[::-1])
        self.pack(late, early)
        self.assertEqual(cells_in("S.cube"), [*range(6, 12), *range(6), *range(12)])
        text = self.cubes("show", "S.cube").decode()
        self.assertIn("2024-06-01T00:00:00Z, 2024-06-11T10:30:00Z\nbands: 2 labels: 1, 2\n", text)
        self.pack(late, early, "--dates", "2024-01-01,2023-01-01", "--bands", "B04,B08")
        text = self.cubes("show", "S.cube").decode()
        self.assertIn("2023-01-01T00:00:00Z, 2024-01-01T00:00:00Z\nbands: 2 labels: B04, B08\n", text)

    def test_y_rising(self):
        self.pack(self.make("a.tif", [[[3, 4, 5], [0, 1, 2]]], transform=(10, 0, 499995, 0, 10, 5299995)))
        self.assertEqual(cells_in("S.cube"), [*range(6)])
        self.assertIn(b"y: 2 labels: 5300010, 5300000\n", self.cubes("show", "S.cube"))

    def test_what_is_refused(self):
        one = self.make("a-2024-01-01.tif", [[[0, 1, 2], [3, 4, 5]]])
        two = self.make("a-2024-01-02.tif", [[[0, 1, 2], [3, 4, 5]]], transform=(10, 0, 0, 0, -10, 0))
        self.assertIn("another grid", self.cubes("from-geotiff", one, two, "--id", "S", status=2))
        self.assertIn("twice", self.cubes("from-geotiff", one, one, "--id", "S", status=2))
        plain = self.make("b.tif", [[[0, 1, 2], [3, 4, 5]]])
        self.assertIn("no date", self.cubes("from-geotiff", one, plain, "--id", "S", status=2))
        half = self.make("c.tif", [[[0, 1, 2], [3, 4, 5]]], transform=(5, 0, 0, 0, -5, 0))
        self.assertIn("--corners", self.cubes("from-geotiff", half, "--id", "S", status=2))
        tiny = self.make("d.tif", [[[0, 1, 2], [3, 1e-30, 5]]], dtype="float64")
        self.assertIn("d.tif at y 5300000, x 500010: 1e-30", self.cubes("from-geotiff", tiny, "--id", "S", status=2))
        self.assertIn("no raster", self.cubes("from-geotiff", self.keep("e.tif", "none"), "--id", "S", status=2))

    @needs_program
    def test_round_trip_through_the_program(self):
        """GeoTIFF to cube, to `run`, to GeoTIFF: numbers, grid and reference system are those that went in."""
        import numpy
        import rasterio

        values = [[[0.1, math.nan, -2.5], [1e9, 2.0**-62, 1 / 3]], [[0, 1, 2], [3, 4, 5]]]
        transform = (30, 0, 300000, 0, -30, 5400000)
        self.make("a-2024-06-01T103000.tif", values, transform, dtype="float64")
        self.pack("a-2024-06-01T103000.tif", "--bands", "B04,B08")
        written = self.cubes("to-geotiff", self.load_result("S"), "b.tif").decode().split()
        self.assertEqual(written, ["b-2024-06-01T103000Z.tif"])
        with rasterio.open(written[0]) as file:
            numpy.testing.assert_array_equal(file.read(), values)
            self.assertEqual(tuple(file.transform)[:6], transform)
            self.assertEqual((file.crs.to_epsg(), file.descriptions), (32633, ("B04", "B08")))
        exact = self.cubes("to-geotiff", "S.json", "c.tif", "--exact").decode().split()
        again = self.cubes("from-geotiff", *exact, "--id", "S")
        with open("collections/S.cube", "rb") as file:
            self.assertEqual(again, file.read())

    def test_a_file_is_whole_or_not_there(self):
        """The last of three dates is damaged: its file is not there, and those before it are."""
        self.cubes("to-geotiff", self.copy_with_damage(), "S.tif", status=2)
        self.assertEqual(sorted(os.listdir()), ["S-2024-06-01.tif", "S-2024-06-11.tif", "damaged.cube"])

    def test_flags_and_corners(self):
        self.make("a.tif", [[[0, 1, 9], [1, 0, 0]]], transform=(5, 0, 0, 0, -5, 10), nodata=9)
        self.pack("a.tif", "--flags", "--corners")
        self.assertEqual(cells_in("S.cube"), [0, 1, None, 1, 0, 0])
        self.assertIn(b"y: 2 labels: 10, 5\nx: 3 labels: 0, 5, 10\n", self.cubes("show", "S.cube"))
        self.cubes("to-geotiff", "S.cube", "b.tif", "--corners")
        again = self.cubes("from-geotiff", "b.tif", "--flags", "--corners", "--id", "S")
        with open("S.cube", "rb") as file:
            self.assertEqual(again, file.read())


if __name__ == "__main__":
    unittest.main()
