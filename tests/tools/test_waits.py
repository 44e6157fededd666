"""tools/waits: the state of every link, as the library answers it, and one line for a file that is no table."""

import os
import subprocess
import tempfile
import unittest
from pathlib import Path

from support import ROOT
from schedule_text import script_of, script_text

TABLE_BYTES = 15620
THREE = (ROOT / "docs" / "waits.sched").read_text()
LEGEND = "- nothing to deliver; ready; or site:clock, each put that the link's next one waits for"


def table_after(text):
    made = subprocess.run([ROOT / "build" / "table"], input=script_text(script_of(text)).encode(), capture_output=True, check=True)
    return made.stdout


def waits(table):
    with tempfile.TemporaryDirectory() as folder:
        file = Path(folder) / "a.table"
        file.write_bytes(table)
        run = subprocess.run([ROOT / "build" / "waits", file], capture_output=True, timeout=60, check=False)
        return run.returncode, run.stdout.decode(), run.stderr.decode().replace(str(file), "FILE")


def grid(table):
    """The lines without their padding."""
    code, out, err = waits(table)
    assert (code, err) == (0, ""), (code, err)
    return [" ".join(line.split()) for line in out.splitlines()]


def with_bytes(table, at, *new):
    return table[:at] + bytes(new) + table[at + len(new) :]


class Grids(unittest.TestCase):
    def test_a_link_that_waits_for_three_sites(self):
        before = THREE.partition("deliver 4 1")[0]
        self.assertEqual(
            grid(table_after(before)),
            [
                "from 0 from 1 from 2 from 3 from 4",
                "to 0 ready ready 1:2 2:1 -",
                "to 1 ready ready 0:1 2:1 -",
                "to 2 ready ready 0:1 1:2 -",
                "to 3 - - - -",
                "to 4 ready ready ready 0:1 1:2 2:1",
                LEGEND,
            ],
        )

    def test_the_grid_that_the_readme_shows(self):
        shown = (ROOT / "README.md").read_text().partition("```\n      from 0")[2].partition("```")[0]
        out = waits(table_after(THREE.partition("deliver 4 1")[0]))[1]
        self.assertEqual([line.rstrip() for line in out.splitlines()], ("      from 0" + shown).splitlines())

    def test_made_by_hand(self):
        def make(goal, file):
            return subprocess.run(["make", "--no-print-directory", goal, f"FILE={file}"], cwd=ROOT, capture_output=True, check=False)

        self.assertEqual(make("table", "docs/waits.sched").returncode, 0)
        self.assertEqual(make("waits", "build/waits.table").stdout.decode(), waits(table_after(THREE))[1])
        self.assertNotEqual(make("table", "docs/none.sched").returncode, 0)
        refused = subprocess.run([ROOT / "build" / "table"], input=b"sites 9 keys 1\n", capture_output=True, check=False)
        self.assertEqual((refused.returncode, refused.stdout), (1, b""))

    def test_retired_sites(self):
        before = THREE.partition("deliver 4 1")[0]
        lines = grid(table_after(before + "retire 3\nretire 1\n"))
        self.assertEqual(
            lines[1:7],
            [
                "to 0 ready ready 1:2 2:1 -",
                "to 1 retired retired retired retired",
                "to 2 ready ready 0:1 1:2 -",
                "to 3 retired retired retired retired",
                "to 4 ready ready ready 0:1 1:2 2:1",
                LEGEND,
            ],
        )
        self.assertIn("retired: nothing is delivered there any more", lines[7])
        # Site 0 may be retired too.
        self.assertEqual(grid(table_after(before + "retire 0\n"))[1], "to 0 retired retired retired retired")

    def test_after_a_site_has_caught_up(self):
        self.assertEqual(grid(table_after(THREE))[5], "to 4 - - - -")

    def test_a_cause_that_waits_itself(self):
        # 2 reads 1's put, which read 0's; 3 has neither: 1's link waits for 0, and 2's for both.
        text = "sites 4 keys 3\nput 0 0 1\ndrain 1\nget 1 0\nput 1 1 2\ndrain 2\nget 2 1\nput 2 2 3\n"
        self.assertEqual(grid(table_after(text))[4], "to 3 ready 0:1 0:1 1:1")

    def test_one_site_has_no_link(self):
        self.assertEqual(grid(table_after("sites 1 keys 1\nput 0 0 1\n")), ["from 0", "to 0", LEGEND])

    def test_a_clock_that_no_call_tells(self):
        # The vector of 1's first update, as document 01 lays it out, waits for the sites 2 and 7, which never put.
        table = table_after("sites 3 keys 1\nput 1 0 1\n")
        update = 12548 + 16 * 24
        table = with_bytes(table, update + 8 + 2 * 2, 0, 9)
        table = with_bytes(table, update + 8 + 2 * 7, 1, 0)
        lines = grid(table)
        self.assertEqual(lines[1], "to 0 2:9 7:? -")
        self.assertIn("? a clock that no call tells", lines[5])
        self.assertIn("sites from 3 on are none of the table's", lines[6])


class Refused(unittest.TestCase):
    def assert_refused(self, table, why):
        code, out, err = waits(table)
        self.assertEqual((code, out), (1, ""))
        self.assertEqual(err, f"FILE: {why}\n")

    def test_each_in_one_line(self):
        table = table_after("sites 3 keys 4\n")
        self.assert_refused(table[:-1], f"fewer than the {TABLE_BYTES} bytes of a table")
        self.assert_refused(b"", f"fewer than the {TABLE_BYTES} bytes of a table")
        self.assert_refused(table + b"\0", f"more than the {TABLE_BYTES} bytes of a table")
        self.assert_refused(with_bytes(table, 0, 9), "the table is not sound; fc_open() in forkcanyon.h says what that asks")

    def test_no_file(self):
        run = subprocess.run([ROOT / "build" / "waits", os.devnull + "/none"], capture_output=True, check=False)
        self.assertEqual((run.returncode, run.stdout, run.stderr.count(b"\n")), (1, b"", 1))
        self.assertEqual(subprocess.run([ROOT / "build" / "waits"], capture_output=True, check=False).returncode, 2)


unittest.main()
