"""The database of jobs that the keeper writes, read by the system's SQLite."""
import json
import os
import subprocess
import unittest

from common import ROOT, InFolder, needs

ROWS = os.path.abspath(os.environ.get("ROWS") or f"{ROOT}/crates/oe_rows_messages/out/oe_rows_messages")

needs_rows = unittest.skipUnless(os.access(ROWS, os.X_OK), "no program oe_rows_messages: `make test`, or ROWS")


@needs("sqlite3")
@needs_rows
class Database(InFolder):
    def database_after(self, *lines):
        """A connection to the file that the keeper leaves once it has taken these steps of a row program."""
        import sqlite3

        rows = ["== database", *(f"keep {line}" for line in lines), "bytes", ""]
        ran = subprocess.run([ROWS], input="\n".join(rows).encode(), capture_output=True)
        self.assertEqual(ran.returncode, 0, ran.stderr.decode())
        self.keep("jobs.db", bytes.fromhex(ran.stdout.decode().splitlines()[-1]))
        conn = sqlite3.connect("jobs.db")
        self.addCleanup(conn.close)
        return conn

    def assert_sound(self, conn):
        self.assertEqual(conn.execute("PRAGMA integrity_check").fetchall(), [("ok",)])
        self.assertEqual(conn.execute("PRAGMA foreign_key_check").fetchall(), [])

    def test_a_new_database_has_empty_tables(self):
        conn = self.database_after("load")
        self.assert_sound(conn)
        self.assertEqual(conn.execute("SELECT * FROM book").fetchall(), [(1, 2, number(1))])
        for table in ("jobs", "assets", "processes"):
            self.assertEqual(conn.execute(f"SELECT count(*) FROM {table}").fetchall(), [(0,)], table)

    def test_rows_of_each_change(self):
        """Jobs put and put again, an asset, a process: the rows by hand, from what the changes name."""
        conn = self.database_after("load", *CHANGES[:5])
        self.assert_sound(conn)
        self.assertEqual(conn.execute("SELECT * FROM book").fetchall(), [(1, 2, number(3))])
        self.assertEqual(conn.execute("SELECT * FROM assets").fetchall(), [(number(1), 0, "a.json", b"111")])
        self.assertEqual(
            conn.execute("SELECT * FROM processes").fetchall(), [("u", "mine", GRAPH.encode())]
        )
        self.assertEqual(
            conn.execute("SELECT number, entry FROM jobs ORDER BY number").fetchall(),
            [(number(1), FINISHED.encode()), (number(2), CREATED.encode())],
        )

    def test_rows_that_are_dropped(self):
        """The last two changes drop the first job, with its asset, and the process."""
        conn = self.database_after("load", *CHANGES)
        self.assert_sound(conn)
        self.assertEqual(conn.execute("SELECT number FROM jobs").fetchall(), [(number(2),)])
        self.assertEqual(conn.execute("SELECT count(*) FROM assets").fetchall(), [(0,)])
        self.assertEqual(conn.execute("SELECT count(*) FROM processes").fetchall(), [(0,)])


def number(value):
    """A number as the tables have it."""
    return value.to_bytes(8, "big")


def compact(value):
    return json.dumps(value, separators=(",", ":"), sort_keys=True)


def entry(status, updated, logs, ran):
    """The entry of a job."""
    return compact({
        "created": 10, "description": None, "level": "info", "logs": logs, "process": GRAPH, "ran": ran,
        "status": status, "title": "t", "turn": "1", "updated": updated, "user": "u",
    })


GRAPH = compact({"process_graph": {"a": {"arguments": {}, "process_id": "p", "result": True}}})
RAN = {"process": GRAPH, "stored": []}
LOG = {"code": None, "level": "info", "message": "finished"}
CREATED = entry("created", 20, [], None)
FINISHED = entry("finished", 40, [LOG], RAN)
CHANGES = (
    f"put 2 0 j-1 {entry('running', 20, [], RAN)}",
    "asset j-1 1 30 asset a.json",
    f"store u mine {GRAPH}",
    f"put 2 3 j-1 {FINISHED}",
    f"put 3 0 j-2 {CREATED}",
    "drop j-1",
    "forget u mine",
)
