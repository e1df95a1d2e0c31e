#!/usr/bin/env python3
"""Makes the result of an ordinary year (year.py) in parts, joins them and compares the text with that of one run.

`parts.py PROGRAM [SIDE [PARTS [WORKERS]]]` does so with 1000 pixels a side, 8 parts and 1 worker where nothing else is said, and prints
seconds by the clock: of the one run, of the parts one after the other, of as many at once as there are processors, and of the join.
The exit status is 1 where the texts differ.
`parts.py --instructions PROGRAM ..` counts the instructions of each instead, by valgrind's callgrind: take 250 pixels, since it is slow.
"""
import concurrent.futures
import os
import re
import subprocess
import sys
import tempfile
import time

import year

HERE = os.path.dirname(os.path.abspath(__file__))
COUNTS = sys.argv[1:2] == ["--instructions"]
PROGRAM = os.path.abspath(sys.argv[2 if COUNTS else 1])
REST = [int(word) for word in sys.argv[3 if COUNTS else 2 :]]
SIDE, PARTS, WORKERS = (REST + [1000, 8, 1][len(REST) :])[:3]
SIZES = ["64", "64", "12", str(WORKERS)]


def call(folder, words, out):
    """Runs the program on the graph of the year, and answers its instructions, or 0 where they are not counted."""
    front = ["valgrind", "--tool=callgrind", "--callgrind-out-file=/dev/null"] if COUNTS else []
    with open(os.path.join(HERE, "year.json"), "rb") as given, open(f"{folder}/{out}", "wb") as text:
        done = subprocess.run([*front, PROGRAM, *words], stdin=given, stdout=text, stderr=subprocess.PIPE, cwd=folder)
    if done.returncode != 0:
        sys.exit(f"{words} ended with status {done.returncode}: {done.stderr.decode()}")
    return int(re.search(rb"Collected : (\d+)", done.stderr)[1]) if COUNTS else 0


def timed(what, work):
    begun = time.monotonic()
    counted = work()
    print(f"{what}: {counted} instructions" if COUNTS else f"{what}: {time.monotonic() - begun:.2f} s", flush=True)
    return counted


def main():
    with tempfile.TemporaryDirectory(prefix="openeo-parts-") as folder:
        os.mkdir(f"{folder}/collections")
        os.mkdir(f"{folder}/parts")
        year.write_year(f"{folder}/collections/YEAR.cube", SIDE)
        call(folder, ["plan", *SIZES], "plan")
        chunks = int(open(f"{folder}/plan").read().split()[-1])
        ends = [chunks * k // PARTS for k in range(PARTS + 1)]
        spans = [(first, end) for first, end in zip(ends, ends[1:]) if first < end]

        def part(span):
            return call(folder, ["part", *SIZES, *map(str, span)], f"parts/{span[0]}.part")

        def at_once():
            with concurrent.futures.ThreadPoolExecutor(os.cpu_count()) as pool:
                return sum(pool.map(part, spans))

        whole = timed("one run", lambda: call(folder, ["run", *SIZES], "whole"))
        apart = timed(f"{len(spans)} parts one after the other", lambda: sum(part(span) for span in spans))
        if not COUNTS:
            timed(f"{len(spans)} parts, {os.cpu_count()} at once", at_once)
        joined = timed("join", lambda: call(folder, ["join"], "joined"))
        same = open(f"{folder}/whole", "rb").read() == open(f"{folder}/joined", "rb").read()
        print("the joined text is", "that of the one run" if same else "ANOTHER")
        if COUNTS:
            print(f"parts and join: {(apart + joined) / whole:.3f} of the one run; join: {joined / SIDE**2:.0f} a cell of the result")
    sys.exit(not same)


if __name__ == "__main__":
    main()
