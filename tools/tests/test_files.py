"""Cube files, result texts, CSV tables, pictures and words: what needs the standard library alone."""
import os
import random
import re
import struct
import subprocess
import sys
import unittest

from common import ROOT, InFolder, needs_program, points_in, program

from cubes.files import TextCube, open_cube, write_file

CUBES, COLLECTIONS, GRAPHS = (f"{ROOT}/examples/{name}" for name in ("cubes", "collections", "graphs"))


def cube_text(dimensions, cells):
    return f'{{"type":"FractionCube","dimensions":[{dimensions}],"data":[{cells}]}}'


class Files(InFolder):
    def pack(self, text, name="Z"):
        """The cube file of a text."""
        self.keep("text", text)
        with open("file", "wb") as out:
            write_file(out, name, open_cube("text"))
        with open("file", "rb") as file:
            return file.read()

    def test_examples_are_packed_as_the_program_packs_them(self):
        """The files of examples/collections are those that `openeo pack` writes, as examples/check shows."""
        for name in sorted(os.listdir(CUBES)):
            with open(f"{CUBES}/{name}") as text, open(f"{COLLECTIONS}/{name[:-5]}.cube", "rb") as file:
                self.assertEqual(self.pack(text.read(), name[:-5]), file.read(), name)

    def test_bytes_by_hand(self):
        """The bytes are spelled out by docs/formats.md: 86, 77 and 69 of them."""
        begin = b'OEOCUBE2\0\0\0%c{"id":"Z","cells":"number","widths":[%d],"dimensions":[]}'
        three = bytes([3]) + bytes.fromhex("fffffffffffffffd0000000000000002")
        self.assertEqual(self.pack(cube_text("", '"-3/2"')), begin % (57, 17) + three)
        self.assertEqual(self.pack(cube_text("", "7")), begin % (56, 9) + bytes([5, 0, 0, 0, 0, 0, 0, 0, 7]))
        self.assertEqual(self.pack(cube_text("", "null")), begin % (56, 1) + bytes(1))

    def test_widths_of_sections(self):
        """A section of nulls is 1 wide, one of whole numbers 9, one with a fraction 17."""
        dates = '{"name":"t","type":"temporal","labels":["2024-01-01","2024-01-02","2024-01-03"]}'
        text = cube_text(dates, 'null,9223372036854775807,"1/9223372036854775807"')
        self.assertIn(b'"widths":[1,9,17]', self.pack(text))

    def test_texts_come_back(self):
        for name in sorted(os.listdir(CUBES)):
            with open(f"{CUBES}/{name}") as text:
                cells = ",".join(TextCube(name, lambda: open(f"{CUBES}/{name}")).words())
                self.assertIn(f'"data":[{cells}]', text.read())

    def test_version_1(self):
        header = b'{"id":"A","cells":"boolean","dimensions":[]}'
        self.keep("A.cube", b"OEOCUBE1" + struct.pack(">I", len(header)) + header + bytes([2]) + bytes(16))
        self.assertIn(b"least: true, greatest: true", self.cubes("show", "A.cube"))

    def test_damage_is_refused(self):
        """Each is a byte that no record of its width has; the line names the cell."""
        with open(f"{COLLECTIONS}/SCENE.cube", "rb") as file:
            whole = file.read()
        first = len(whole) - 24 * 9
        for place, byte in ((first, 3), (first, 4), (first + 9 * 3 + 8, 1), (first, 1)):
            self.keep("S.cube", whole[:place] + bytes([byte]) + whole[place + 1 :])
            line = self.cubes("show", "S.cube", status=2)
            self.assertIn("record is damaged", line)
            self.assertIn("y 10, x 0" if place == first else "y 0, x 10", line)
        for cut in (whole[:-1], whole + b"\0", whole[:40], b"OEOCUBE2", whole.replace(b",9,9]", b", 9,9")):
            self.cubes("show", self.keep("S.cube", cut), status=2)

    def test_texts_are_refused(self):
        for cells in ('"2/4"', "-0", "1.5", "01", '"1/1"', '"3/-2"', "9223372036854775808", "1,2", "", "7,true", "7]"):
            self.keep("text", cube_text("", cells))
            self.assertTrue(self.cubes("show", "text", status=2).startswith("cubes: "), cells)
        self.cubes("show", self.keep("text", cube_text("", "7")[:-2]), status=2)
        self.cubes("show", self.keep("text", "{}"), status=2)
        self.assertEqual(self.cubes("show", "nothing", status=2), "cubes: nothing: No such file or directory")
        self.keep("picture", b"\x89PNG\r\n\x1a\n")
        self.assertEqual(self.cubes("show", "picture", status=2), "cubes: picture is neither a cube file nor a result text")

    def test_shapes_are_refused(self):
        x = '{"name":"x","type":"spatial","axis":"x","reference_system":%d,"labels":[%s]}'
        for code, labels in ((1, "1,1"), (1, "2,1"), (0, "1,2"), (1000000, "1,2"), (1, "1,1000000001"), (1, "1.0,2")):
            self.cubes("show", self.keep("text", cube_text(x % (code, labels), "1,2")), status=2)
        bands = '{"name":"bands","type":"bands","labels":["B","%s"]}'
        for name in ("B", "", "a b", "a" * 65):
            self.cubes("show", self.keep("text", cube_text(bands % name, "1,2")), status=2)
        for date in ("2024-02-30", "24-01-01", "2024-01-01T00:00:60Z", "2024-01-01T00:00:00"):
            line = '{"name":"t","type":"temporal","labels":["%s"]}' % date
            self.cubes("show", self.keep("text", cube_text(line, "1")), status=2)


@needs_program
class Program(InFolder):
    """The program as the reference: what it reads, writes and packs again is what the tool has."""

    def table(self, chance, section):
        """Rows of 4 dates, 2 bands and 3 x 3 pixels in any order; a date has the cells of its section, some null."""
        rows = []
        for t in range(4):
            for number in range(18):
                labels = f"2024-01-0{t + 1}T0{t}:00:00Z,B{number // 9},{number // 3 % 3},{number % 3 - 1}"
                rows.append(f"{labels},{section(t) if chance.random() < 0.8 else ''}")
        chance.shuffle(rows)
        return "\n".join(["t,bands,y,x,value", *rows])

    def test_widths_and_cells(self):
        """`repack` writes each file again byte for byte, and the text of a load gives the file again."""
        chance = random.Random(1)
        largest = 2**63 - 1
        sections = [
            lambda t: "",
            lambda t: chance.randint(-largest, largest),
            lambda t: f"{chance.randint(-9, 9)}/{chance.randint(1, 9)}",
            lambda t: f"{chance.choice((-1, 1)) * chance.randint(1, largest)}/{chance.randint(1, largest)}",
        ]
        for make in (lambda t: sections[t](t), lambda t: chance.choice(("true", "false")), lambda t: ""):
            self.keep("S.csv", self.table(chance, make))
            written = self.cubes("from-csv", "S.csv", "--epsg", "32633", "--id", "S")
            self.keep("S.cube", written)
            text = self.load_result("S")
            repacked = subprocess.run([program(), "repack", "S"], capture_output=True)
            self.assertEqual((repacked.returncode, repacked.stdout), (0, written))
            with open("again", "wb") as out:
                write_file(out, "S", open_cube(text))
            with open("again", "rb") as file:
                # A cube of nulls alone is one of numbers.
                self.assertEqual(file.read(), written)


class Tables(InFolder):
    def test_exact_tables_come_back(self):
        for name in sorted(name for name in os.listdir(COLLECTIONS) if name.endswith(".cube")):
            table = self.cubes("to-csv", "--exact", f"{COLLECTIONS}/{name}")
            with open(f"{COLLECTIONS}/{name}", "rb") as file:
                packed = file.read()
            # A table has no EPSG code: the one of the file is given again.
            code = re.search(rb'"reference_system":(\d+)', packed).group(1).decode()
            again = self.cubes("from-csv", self.keep("table.csv", table), "--epsg", code, "--id", name[:-5])
            self.assertEqual(again, packed, name)

    def test_rows_in_any_order_and_missing_ones(self):
        text = "value,x,y\n0.1,0,0\n-2.5e1,10,10\nnan,0,10\n"
        self.keep("c.cube", self.cubes("from-csv", self.keep("c.csv", text), "--epsg", "32633"))
        exact = self.cubes("to-csv", "--exact", "c.cube").decode()
        self.assertEqual(exact, "y,x,numerator,denominator\n10,0,,\n10,10,-25,1\n0,0,1,10\n0,10,,\n")
        self.assertEqual(self.cubes("to-csv", "c.cube").decode(), "y,x,value\n10,0,\n10,10,-25\n0,0,0.1\n0,10,\n")

    def test_tables_are_refused(self):
        for text, words in (
            ("x,value\n0,1\n0,2\n", "line 3: an earlier row"),
            ("x,value\n0,1e-19\n", "line 2: 1e-19 is no cell"),
            ("x,value\n0.5,1\n", "line 2: '0.5' is no label of x"),
            ("x,value\n0,true\n1,2\n", "line 3: '2' is no cell"),
            ("x,value\n0,1/0\n", "line 2: '1/0' is no cell"),
            ("x,value\n0\n", "line 2: 1 columns"),
            ("x\n0\n", "no column value"),
            ("z,value\n0,1\n", "the column 'z'"),
        ):
            line = self.cubes("from-csv", self.keep("c.csv", text), "--epsg", "1", status=2)
            self.assertIn(words, line)
        self.assertIn("--epsg", self.cubes("from-csv", self.keep("c.csv", "x,value\n0,1\n"), status=2))


class Pictures(InFolder):
    def test_colours(self):
        """The least cell has the first colour, the greatest the last, and null is clear."""
        text = cube_text('{"name":"x","type":"spatial","axis":"x","reference_system":1,"labels":[0,1,2]}', "5,null,-5")
        row = points_in(self.cubes("picture", self.keep("text", text)))[8]
        self.assertEqual([*row[32:36]], [253, 231, 37, 255])
        self.assertEqual([*row[32 + 4 * 100 :][:4]], [0, 0, 0, 0])
        self.assertEqual([*row[32 + 4 * 150 :][:4]], [68, 1, 84, 255])

    def test_three_bands(self):
        text = cube_text('{"name":"bands","type":"bands","labels":["R","G","B"]}', "0,2,1")
        rows = points_in(self.cubes("picture", self.keep("text", text)))
        self.assertEqual([*rows[8][32:36]], [0, 255, 128, 255])
        rows = points_in(self.cubes("picture", "text", "--bands", "G", "--low", "0"))
        self.assertEqual([*rows[8][32:36]], [253, 231, 37, 255])

    def test_what_is_not_there(self):
        scene = f"{COLLECTIONS}/SCENE.cube"
        self.assertIn("no band B05", self.cubes("picture", scene, "--bands", "B05", status=2))
        self.assertIn("no date 2024-06-02", self.cubes("picture", scene, "--dates", "2024-06-02", status=2))
        self.assertIn("not 2", self.cubes("picture", scene, "--bands", "B04,B08", status=2))


class Words(InFolder):
    def test_the_program_of_the_tool(self):
        """One call from outside: status and streams are as the other tests see them inside."""
        words = [sys.executable, f"{ROOT}/tools/cubes", "show"]
        good = subprocess.run([*words, f"{COLLECTIONS}/ONE.cube"], capture_output=True)
        self.assertEqual((good.returncode, good.stderr), (0, b""))
        self.assertIn(b"least: 7, greatest: 7\n", good.stdout)
        bad = subprocess.run([*words, "nothing"], capture_output=True)
        self.assertEqual((bad.returncode, bad.stdout), (2, b""))
        self.assertIn(b"cubes: ", bad.stderr)

    def test_usage(self):
        for words in ([], ["nothing"], ["show"], ["show", "a", "b"], ["from-csv", "a", "--epsg", "0"]):
            self.cubes(*words, status=1)
        self.cubes("from-geotiff", "a", "--dates", "2024-13-01", status=1)

    def test_help_has_an_example(self):
        for name in "from-netcdf from-geotiff from-csv to-netcdf to-geotiff to-csv picture show".split():
            self.assertIn(f"example:\n  cubes {name} ", self.cubes(name, "--help").decode())

    def test_show(self):
        """The text of examples/cubes/SCENE.json: 24 cells, 4 of them null, from 1 to 9."""
        text = self.cubes("show", f"{CUBES}/SCENE.json").decode()
        self.assertIn("cells: 24 numbers, of which 4 null\nleast: 1, greatest: 9\n", text)
        self.assertIn("bands: 2 labels: B04, B08\n", text)
        table = self.cubes("show", "--table", f"{GRAPHS}/greenest.result.json").decode()
        self.assertIn("5/12 (0.416667)", table)

    def test_ids(self):
        self.keep("a b.csv", "value\n1\n")
        self.assertIn("--id", self.cubes("from-csv", "a b.csv", status=2))
        self.assertIn(b'"id":"A"', self.cubes("from-csv", "a b.csv", "--id", "A"))

    @needs_program
    def test_the_program_reads_what_is_written(self):
        with open("S.cube", "wb") as file:
            file.write(self.cubes("from-csv", self.keep("S.csv", "t,value\n2024-01-01,1/3\n2024-01-02,\n")))
        with open(self.load_result("S")) as text:
            self.assertIn('"data":["1/3",null]', text.read())


if __name__ == "__main__":
    unittest.main()
