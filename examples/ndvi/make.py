#!/usr/bin/env python3
"""Writes a small scene as NetCDF: `make.py FILE`. It needs netCDF4 and numpy, and nothing is downloaded.

Three dates, the bands B04 (red) and B08 (near infrared), 120 x 120 pixels of 10 m in UTM zone 33 north, reflectances
packed as whole numbers with the scale 0.0001, as Sentinel-2 has them, and the fill -9999 under a cloud. All of it is a
formula: round fields on bare soil, greener from date to date, with a river through them.
"""
import sys

try:
    import netCDF4
    import numpy
except ImportError as error:
    sys.exit(f"make.py needs netCDF4 and numpy: apt-get install python3-netcdf4 ({error})")

SIDE, PIXEL = 120, 10
DATES = [18049, 18079, 18109]  # days since 1970: 2019-06-02, 2019-07-02, 2019-08-01
SOIL, PLANTS, WATER = {"B04": 1800, "B08": 2300}, {"B04": 400, "B08": 4200}, {"B04": 450, "B08": 250}


def shares(date):
    """How much of each pixel is plants and how much is water, from 0 to 1, and whether a cloud is above it."""
    y, x = numpy.mgrid[0:SIDE, 0:SIDE]
    away = numpy.hypot((x % 40) - 19.5, (y % 40) - 19.5)
    growth = (0.35 + 0.3 * date) * (0.55 + 0.15 * ((x // 40 + 2 * (y // 40)) % 4))
    plants = numpy.where(away < 17, growth * (1 - away / 40), 0.05)
    river = numpy.abs(x - 58 - 14 * numpy.sin(y / 17)) < 4
    cloud = numpy.hypot((x - 25 - 30 * date) / 1.6, y - 95 + 32 * date) < 11
    return numpy.where(river, 0, plants), river * 1.0, cloud


def main():
    with netCDF4.Dataset(sys.argv[1], "w") as file:
        file.Conventions = "CF-1.8"
        for name, labels, words in (
            ("t", DATES, {"units": "days since 1970-01-01", "standard_name": "time"}),
            ("y", range(5300000 + PIXEL * (SIDE - 1), 5299990, -PIXEL), {"standard_name": "projection_y_coordinate"}),
            ("x", range(500000, 500000 + PIXEL * SIDE, PIXEL), {"standard_name": "projection_x_coordinate"}),
        ):
            file.createDimension(name, len(labels))
            file.createVariable(name, "f8", (name,)).setncatts(words)
            file[name][:] = list(labels)
        file.createVariable("crs", "i4", ()).epsg_code = "EPSG:32633"
        for band in ("B04", "B08"):
            variable = file.createVariable(band, "i2", ("t", "y", "x"), fill_value=-9999)
            variable.setncatts({"scale_factor": 0.0001, "add_offset": 0.0, "grid_mapping": "crs"})
            variable.set_auto_maskandscale(False)
            for date in range(len(DATES)):
                plants, water, cloud = shares(date)
                land = SOIL[band] + plants * (PLANTS[band] - SOIL[band])
                packed = numpy.rint(land + water * (WATER[band] - land)).astype("i2")
                variable[date] = numpy.where(cloud, -9999, packed)


if __name__ == "__main__":
    if len(sys.argv) != 2:
        sys.exit("usage: make.py FILE")
    main()
