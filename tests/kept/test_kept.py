"""What is named and not there, on this repository with something taken away, added or renamed."""

import shutil
import tempfile
import unittest
from pathlib import Path

from kept import HERE, faults


class Kept(unittest.TestCase):
    def setUp(self):
        folder = tempfile.TemporaryDirectory()
        self.addCleanup(folder.cleanup)
        self.root = Path(folder.name)
        for name in ["crates", "docs", "tests", "tools", "include", "examples", "bench", "twin"]:
            shutil.copytree(HERE / name, self.root / name, ignore=shutil.ignore_patterns("target", "out"))
        for name in ["crates.txt", "README.md", "CONTRIBUTING.md"]:
            shutil.copy(HERE / name, self.root / name)

    def edit(self, name, old, new):
        text = (self.root / name).read_text()
        self.assertIn(old, text)
        (self.root / name).write_text(text.replace(old, new))

    def found(self):
        return list(faults(self.root))

    def test_nothing_is_missing(self):
        self.assertEqual(self.found(), [])

    def test_an_edit_that_went_or_came(self):
        edits = self.root / "crates" / "clock" / "must-fail"
        (edits / "join_forgets_self.edit").rename(edits / "other.edit")
        listed = "tests/kept/edits.txt"
        lines = [f"{listed} names clock/join_forgets_self, which is not there", f"{listed} does not name clock/other"]
        self.assertEqual(self.found(), [*lines, "docs/PROMISES.md: there is no edit clock/join_forgets_self"])

    def test_a_crate_that_went_or_came(self):
        (self.root / "crates" / "more").mkdir()
        self.assertEqual(self.found(), ["crates.txt does not name more"])
        self.edit("crates.txt", "claims:", "other:")
        self.assertEqual(self.found()[0], "crates.txt names other, which is not there")

    def test_a_claim_that_went(self):
        self.edit("crates/claims/specs/Claims.antt", "  pub given : GivenExactly\n", "")
        self.assertIn("docs/PROMISES.md: no claim is made of GivenExactly", self.found())

    def test_a_name_in_a_later_table(self):
        self.edit("docs/READING.md", "`AdoptNever`", "`AdoptAlways`")
        self.assertEqual(self.found(), ["docs/READING.md: no claim is made of AdoptAlways"])
        self.edit("docs/READING.md", "`AdoptAlways`", "`AdoptNever`")
        self.edit("crates/claims/specs/Claims.antt", "  pub looking :", "  pub lookings :")
        self.assertEqual(self.found(), ["docs/READING.md: no claim is made of OfHistories.looking"])

    def test_a_field_that_went(self):
        self.edit("docs/READING.md", "`Ordered.put_first`", "`Ordered.handed`")
        self.assertEqual(self.found(), ["docs/READING.md: no claim is made of Ordered.handed"])

    def test_a_table_that_went(self):
        self.edit("docs/READING.md", "| sentence |", "| words |")
        self.assertEqual(self.found(), ["docs/READING.md: its table of each sentence names nothing"])

    def test_a_file_or_a_name_in_it_that_went(self):
        self.edit("docs/DECISIONS.md", "crates/laws/proofs/Keeps.antt", "crates/rules/proofs/Keeps.antt")
        self.assertEqual(self.found(), ["docs/DECISIONS.md: there is no crates/rules/proofs/Keeps.antt"])
        self.edit("docs/DECISIONS.md", "crates/rules/proofs/Keeps.antt", "crates/laws/proofs/Codes.antt")
        self.assertEqual(self.found(), ["docs/DECISIONS.md: there is no deliver_sound in crates/laws/proofs/Codes.antt"])
        self.edit("README.md", "(docs/scope.svg)", "(docs/scopes.svg)")
        self.assertIn("README.md: there is no docs/scopes.svg", self.found())
        (self.root / "twin" / "tests" / "looks.rs").unlink()
        self.assertIn("CONTRIBUTING.md: there is no twin/tests/looks.rs", self.found())


unittest.main()
