"""What the tests of `tools/cubes` share."""
import contextlib
import importlib.util
import io
import json
import os
import struct
import subprocess
import sys
import tempfile
import unittest
import zlib

ROOT = os.path.dirname(os.path.dirname(os.path.dirname(os.path.abspath(__file__))))
sys.path.insert(0, f"{ROOT}/tools/python")

from cubes.commands import main  # noqa: E402


def program():
    """The path of the program: that of OPENEO, else the one that is built here, None where there is none."""
    path = os.environ.get("OPENEO") or f"{ROOT}/crates/openeo/out/openeo"
    return os.path.abspath(path) if os.access(path, os.X_OK) else None


def needs(*modules):
    """Skips a test, and says so, where one of the packages is missing."""
    missing = [module for module in modules if importlib.util.find_spec(module) is None]
    return unittest.skipIf(missing, f"python3-{', python3-'.join(missing).lower()} is missing")


def points_in(picture):
    """The rows of a PNG file as bytes of red, green, blue and how opaque, by the rules of the standard."""
    assert picture[:8] == b"\x89PNG\r\n\x1a\n"
    width, height = struct.unpack(">II", picture[16:24])
    length = struct.unpack(">I", picture[33:37])[0]
    rows = zlib.decompress(picture[41 : 41 + length])
    assert len(rows) == height * (1 + 4 * width)
    return [rows[row * (1 + 4 * width) + 1 :][: 4 * width] for row in range(height)]


needs_program = unittest.skipIf(program() is None, "no program openeo: `make program`, or OPENEO with its path")


class InFolder(unittest.TestCase):
    """Each test has a folder of its own as its current one."""

    def setUp(self):
        here = os.getcwd()
        folder = tempfile.TemporaryDirectory(prefix="cubes-test-")
        self.addCleanup(folder.cleanup)
        self.addCleanup(os.chdir, here)
        os.chdir(folder.name)

    def cubes(self, *words, status=0):
        """Does what `tools/cubes` does, and returns what it writes; with another status, the line of the refusal."""
        out, err = io.TextIOWrapper(io.BytesIO(), encoding="utf-8"), io.StringIO()
        with contextlib.redirect_stdout(out), contextlib.redirect_stderr(err):
            try:
                ended = main([*words])
            except SystemExit as exit:
                ended = exit.code
        self.assertEqual(ended, status, err.getvalue())
        out.flush()
        if status == 0:
            return out.buffer.getvalue()
        self.assertEqual(out.buffer.getvalue(), b"")
        return next(line for line in err.getvalue().splitlines() if line.startswith("cubes: "))

    def keep(self, name, content):
        """Writes a file, and returns its name."""
        with open(name, "wb") as file:
            file.write(content if isinstance(content, bytes) else content.encode())
        return name

    def copy_with_damage(self):
        """A copy of examples/collections/SCENE.cube whose last record is none."""
        with open(f"{ROOT}/examples/collections/SCENE.cube", "rb") as file:
            return self.keep("damaged.cube", file.read()[:-9] + bytes([7] * 9))

    def load_result(self, name):
        """The result text of the program for a lone `load_collection` of the cube file NAME.cube."""
        os.makedirs("collections", exist_ok=True)
        os.replace(f"{name}.cube", f"collections/{name}.cube")
        words = {"id": name, "spatial_extent": None, "temporal_extent": None}
        load = {"process_id": "load_collection", "arguments": words, "result": True}
        return self.keep(f"{name}.json", self.result_of(json.dumps({"process_graph": {"load": load}})))

    def result_of(self, graph):
        """The result text of the program for a graph over the folder `collections`."""
        ran = subprocess.run([program(), "run", "64", "64", "12", "1"], input=graph.encode(), capture_output=True)
        self.assertEqual(ran.returncode, 0, ran.stderr.decode())
        return ran.stdout
