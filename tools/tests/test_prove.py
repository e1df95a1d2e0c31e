"""The order in which `tools/prove` proves crates, where, and when it stops, by an `rt` that proves nothing.

It writes down how it is called, wants the libraries of its crate where it works, and that no other works there, and
makes a library of one more line than the last time.
"""
import os
import shutil
import subprocess
import tempfile
import unittest

from common import ROOT

RT = """#!/bin/sh
crate=$(basename "$PWD")
for it in $(sed -n "s/:.*//p" ../../crates.txt | grep -v "#"); do
  [ -d "../$it/src" ] || { echo "no folder of $it"; exit 1; }
done
mkdir ../../busy || exit 1
echo "$crate $*" >> "$CALLS"
for it in $(sed -n "s/^$crate://p" ../../crates.txt); do
  [ "$it" = kit_crate ] || [ -s ../$it/out/rlib/$it ] || { echo "no library $it for $crate"; exit 1; }
done
sleep 0.2
rmdir ../../busy
[ "$crate" != "$FAILS" ] || { echo "no proof of $crate"; exit 1; }
mkdir -p out/rlib
echo built >> out/rlib/$crate
"""
# A diamond with a crate beside it: `app` stands on all but `other`, `long` has the longest chain behind it.
CRATES = """# what each crate stands on
low: kit_crate
long: low
short: low
above: long
app: above short
other: low
"""


class Prove(unittest.TestCase):
    def setUp(self):
        self.root = tempfile.mkdtemp(prefix="prove-")
        self.addCleanup(shutil.rmtree, self.root)
        os.makedirs(f"{self.root}/tools")
        shutil.copy(f"{ROOT}/tools/prove", f"{self.root}/tools/prove")
        self.write("crates.txt", CRATES)
        for crate, lines in (("low", 1), ("long", 5), ("short", 5), ("above", 5), ("app", 1), ("other", 9)):
            self.write(f"crates/{crate}/src/lib.rt", "\n" * lines)
        self.write("bin/rt", RT)
        os.chmod(f"{self.root}/bin/rt", 0o755)

    def write(self, name, text):
        path = f"{self.root}/{name}"
        os.makedirs(os.path.dirname(path), exist_ok=True)
        with open(path, "w", encoding="utf-8") as file:
            file.write(text)

    def prove(self, *words, fails=""):
        """The status, both outputs, and the calls of rt in order."""
        calls = f"{self.root}/calls"
        open(calls, "w").close()
        path = f"{self.root}/bin:{os.environ['PATH']}"
        ran = subprocess.run(
            [f"{self.root}/tools/prove", *words],
            env={**os.environ, "PATH": path, "CALLS": calls, "FAILS": fails},
            capture_output=True,
            text=True,
        )
        with open(calls, encoding="utf-8") as file:
            return ran.returncode, ran.stdout, ran.stderr, file.read().split("\n")[:-1]

    def test_order(self):
        """On one processor: the lowest, then along the longest chain; neither the crate itself nor what it does not need."""
        status, _, said, calls = self.prove("app", "1")
        self.assertEqual((status, said), (0, ""))
        wanted = ["low lib --jobs 1", "long lib --jobs 1", "above lib --jobs 1", "short lib --jobs 1"]
        self.assertEqual(calls, wanted)

    def test_processors(self):
        """Of eight one crate takes four, the most; of six that two wait for each takes three, of three the longest chain two."""
        self.assertEqual(self.prove("app", "8")[3][0], "low lib --jobs 4")
        calls = self.prove("app", "6")[3]
        self.assertEqual((calls[0], sorted(calls[1:3])), ("low lib --jobs 4", ["long lib --jobs 3", "short lib --jobs 3"]))
        calls = self.prove("app", "3")[3]
        self.assertEqual((calls[0], sorted(calls[1:3])), ("low lib --jobs 3", ["long lib --jobs 2", "short lib --jobs 1"]))

    def test_libraries(self):
        """Each crate has its libraries, what it made stands in its own out/, and is there again the next time; no copy is left."""
        for times in (1, 2):
            status, out, said, calls = self.prove("app", "3")
            self.assertEqual((status, said, len(calls)), (0, "", 4), out)
            for crate in ("low", "long", "above", "short"):
                with open(f"{self.root}/crates/{crate}/out/rlib/{crate}", encoding="utf-8") as file:
                    self.assertEqual(file.read(), times * "built\n")
            self.assertEqual(os.listdir(f"{self.root}/crates/app/out"), [])

    def test_failure(self):
        """What stands on a crate that is not proved is not begun, and what rt said of it is printed."""
        status, out, said, calls = self.prove("app", "1", fails="long")
        self.assertEqual((status, said), (1, "long is not proved\n"))
        self.assertIn("no proof of long", out)
        self.assertEqual(calls, ["low lib --jobs 1", "long lib --jobs 1"])

    def test_usage(self):
        status, _, said, calls = self.prove("nobody")
        self.assertEqual((status, said, calls), (1, "prove: crates.txt names no crate nobody\n", []))
        status, _, said, calls = self.prove()
        self.assertEqual((status, said.split(":")[0], calls), (1, "Proves what a crate stands on, side by side", []))
