"""How many crates the gate proves side by side."""
import subprocess
import unittest

from common import ROOT

# Free megabytes and processors, and what is answered: 5000 for each processor, or nothing.
ROWS = [
    ("20000", "4", "4"),
    ("19999", "4", ""),
    ("64000", "4", "4"),
    ("5000", "1", "1"),
    ("4999", "1", ""),
    ("64000", "0", ""),
]


class Lanes(unittest.TestCase):
    def lanes(self, *words):
        ran = subprocess.run([f"{ROOT}/tools/lanes", *words], capture_output=True, text=True, check=True)
        return ran.stdout.strip()

    def test_five_gigabytes_for_each(self):
        for megabytes, processors, answer in ROWS:
            self.assertEqual(self.lanes(megabytes, processors), answer, (megabytes, processors))
