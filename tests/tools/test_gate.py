"""tests/run and .ci/run on a small repository: what can't be run fails, and lines appear as they come."""

import os
import re
import subprocess
import tempfile
import unittest
from pathlib import Path

from support import ROOT

# Stands in for rt: a line, then whatever waits for the file that shows that the line was seen, then the verdict.
RT = """\
#!/bin/sh
[ "$*" = ci ] || exit 3
echo "rt: clock proved"
echo "rt: layout proved"
cat seen
[ -z "$OK" ] || echo "$OK"
echo "$VERDICT"
exit "$STATUS"
"""
OK = "rt: ok; handles allowed: none; must-fail edits: 7 refused; done in this run: 2 of the 2 proofs"


class Gate(unittest.TestCase):
    def setUp(self):
        folder = tempfile.TemporaryDirectory()
        self.addCleanup(folder.cleanup)
        self.root = Path(folder.name)
        for name in ["tests/run", ".ci/run"]:
            self.script(name, (ROOT / name).read_text())
        (self.root / "tests" / "harness").mkdir()
        self.name("one")
        self.script("tests/one/run", "#!/bin/sh\necho one\n")

    def script(self, name, text, mode=0o755):
        file = self.root / name
        file.parent.mkdir(parents=True, exist_ok=True)
        file.write_text(text)
        file.chmod(mode)

    def name(self, names):
        """Has the small repository's tests/run name these tests."""
        text, times = re.subn(r"^names=\(.*\)$", f"names=({names})", (ROOT / "tests" / "run").read_text(), flags=re.M)
        self.assertEqual(times, 1)
        self.script("tests/run", text)

    def run_tests(self):
        run = subprocess.run([self.root / "tests" / "run"], capture_output=True, text=True, check=False)
        return run.returncode, run.stdout.splitlines()

    def test_what_is_named_is_run_in_order(self):
        self.assertEqual(self.run_tests(), (0, ["== tests/one/run", "one"]))
        self.script("tests/two/run", "#!/bin/sh\necho two\n")
        self.name("two one")
        self.assertEqual(self.run_tests(), (0, ["== tests/two/run", "two", "== tests/one/run", "one"]))

    def test_a_folder_that_is_not_named_fails(self):
        self.script("tests/two/run", "#!/bin/sh\n")
        self.assertEqual(self.run_tests(), (1, ["tests/two/: FAILED: tests/run does not name it"]))

    def test_what_says_nothing_fails(self):
        self.script("tests/one/run", "#!/bin/sh\n")
        said = "tests/one/run: FAILED: it says nothing, so it shows nothing"
        self.assertEqual(self.run_tests(), (1, ["== tests/one/run", said]))

    def test_what_can_not_be_run_fails(self):
        self.name("one two")
        self.script("tests/two/run", "#!/bin/sh\n", 0o644)
        self.assertEqual(self.run_tests(), (1, ["tests/two/run: FAILED: it can't be run"]))
        (self.root / "tests" / "two" / "run").unlink()
        self.assertEqual(self.run_tests(), (1, ["tests/two/run: FAILED: there is no such file"]))
        (self.root / "tests" / "two").rmdir()
        self.assertEqual(self.run_tests(), (1, ["tests/two/run: FAILED: there is no such file"]))

    def gate(self, verdict, ok=OK, status=0):
        """The gate's lines; it is shown the file that it waits for only once its first line was read."""
        self.script("bin/rt", RT)
        os.mkfifo(self.root / "seen")
        said = {"VERDICT": verdict, "OK": ok, "STATUS": str(status)}
        words = {**os.environ, **said, "PATH": f"{self.root}/bin:{os.environ['PATH']}"}
        command = [self.root / ".ci" / "run"]
        with subprocess.Popen(command, stdout=subprocess.PIPE, text=True, env=words) as run:
            first = run.stdout.readline()
            if first.startswith("rt: "):  # else nobody reads it
                (self.root / "seen").write_text("rt: seen\n")
            rest = run.stdout.read()
        return run.returncode, (first + rest).splitlines()

    def test_lines_as_they_come_and_the_verdict_last(self):
        lines = ["rt: clock proved", "rt: layout proved", "rt: seen", OK, "== tests/one/run", "one"]
        self.assertEqual(self.gate("2 passed, 0 failed"), (0, [*lines, "2 passed, 0 failed"]))

    def test_no_verdict_where_rt_or_a_test_fails(self):
        status, lines = self.gate("1 passed, 1 failed", "")
        self.assertEqual((status, lines[-1]), (1, "gate: FAILED: rt ci: 1 passed, 1 failed"))
        (self.root / "seen").unlink()
        status, lines = self.gate("2 passed, 0 failed", status=1)
        self.assertEqual((status, lines[-1]), (1, "gate: FAILED: rt ci: 2 passed, 0 failed"))
        (self.root / "seen").unlink()
        self.script("tests/one/run", "#!/bin/sh\nexit 1\n")
        status, lines = self.gate("2 passed, 0 failed")
        self.assertEqual((status, lines[-1]), (1, "gate: FAILED: tests/run"))

    def test_no_verdict_where_an_edit_is_bad(self):
        for refused in ("7 refused, 1 bad", "7 refused, 2 of them only by a limit, 12 bad", "0 refused, 7 bad"):
            ok = OK.replace("7 refused", refused)
            status, lines = self.gate("2 passed, 0 failed", ok)
            self.assertEqual((status, lines[-2:]), (1, [ok, f"gate: FAILED: {ok}"]))
            (self.root / "seen").unlink()
        status, lines = self.gate("2 passed, 0 failed", "")
        self.assertEqual((status, lines[-1]), (1, "gate: FAILED: rt ci: it has no line 'rt: ok'"))


unittest.main()
