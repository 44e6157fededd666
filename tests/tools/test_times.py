"""tools/times with a small rt."""

import os
import subprocess
import tempfile
import unittest
from pathlib import Path

from support import ROOT

# Stands in for rt: a second for one crate, two for the next, and the summary.
RT = """\
#!/bin/sh
[ "$*" = "all verdict --jobs 1" ] || exit 2
sleep 1 && echo "== clock" && echo "fn clock::join: proved"
sleep 2 && echo "== layout" && echo "fn layout::read: proved"
echo "== summary" && echo "clock: ok" && echo "layout: ok"
"""


class Times(unittest.TestCase):
    def of(self, rt):
        with tempfile.TemporaryDirectory() as folder:
            file = Path(folder) / "rt"
            file.write_text(rt)
            file.chmod(0o755)
            words = {**os.environ, "PATH": f"{folder}:{os.environ['PATH']}"}
            command = [ROOT / "tools" / "times"]
            return subprocess.run(command, capture_output=True, text=True, env=words, timeout=60, check=False)

    def test_each_crate_and_all_together(self):
        rows = [line.split() for line in self.of(RT).stdout.splitlines()]
        self.assertEqual([(row[0], row[2:]) for row in rows], [("clock", ["s"]), ("layout", ["s"]), ("together", ["s"])])
        clock, layout, together = (int(row[1]) for row in rows)
        self.assertTrue(clock >= 1 and layout >= 2 and together >= 3, rows)

    def test_a_run_without_a_crate_fails(self):
        run = self.of("#!/bin/sh\necho '== summary'\n")
        self.assertEqual((run.returncode, run.stderr), (1, "times: no crate was proved\n"))

    def test_a_crate_that_is_not_proved_fails(self):
        run = self.of(RT + "exit 1\n")
        self.assertEqual((run.returncode, run.stdout), (1, ""))
        self.assertTrue(run.stderr.endswith("layout: ok\ntimes: rt all verdict --jobs 1 has failed\n"), run.stderr)


unittest.main()
