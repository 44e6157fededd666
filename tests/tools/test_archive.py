"""tools/archive with a small rt: what it writes where, and that it stops."""

import os
import subprocess
import tempfile
import unittest
from pathlib import Path

from support import ROOT

# Stands in for rt: it writes the archive of the crate in whose folder it runs.
RT = """\
#!/bin/sh
[ "$*" = lib ] || exit 3
[ -z "$REFUSED" ] || exit 1
mkdir -p out && sleep 0.2 && mkdir "$LOCK" && basename "$PWD" >"out/lib$(basename "$PWD").a" && rmdir "$LOCK"
"""


class Archive(unittest.TestCase):
    def setUp(self):
        folder = tempfile.TemporaryDirectory()
        self.addCleanup(folder.cleanup)
        self.root = Path(folder.name)
        self.script("tools/archive", (ROOT / "tools" / "archive").read_text())
        self.script("bin/rt", RT)
        self.script("bin/uname", '#!/bin/sh\necho "$MACHINE"\n')
        (self.root / "crates" / "forkcanyon_c").mkdir(parents=True)
        self.archive = self.root / "build" / "x86_64" / "libforkcanyon.a"

    def script(self, name, text):
        file = self.root / name
        file.parent.mkdir(parents=True, exist_ok=True)
        file.write_text(text)
        file.chmod(0o755)

    def begin(self, machine="x86_64", **words):
        path = {"PATH": f"{self.root}/bin:{os.environ['PATH']}", "LOCK": f"{self.root}/at work"}
        words = {**os.environ, **path, "MACHINE": machine, **words}
        command = [self.root / "tools" / "archive"]
        return subprocess.Popen(command, stdout=subprocess.PIPE, stderr=subprocess.PIPE, text=True, env=words)

    def run_archive(self, *machine, **words):
        with self.begin(*machine, **words) as run:
            _, said = run.communicate()
        return run.returncode, said

    def test_it_has_the_calls_for_c(self):
        self.assertEqual(self.run_archive(), (0, ""))
        self.assertEqual(self.archive.read_text(), "forkcanyon_c\n")

    def test_two_at_once(self):
        runs = [self.begin() for _ in range(3)]
        self.assertEqual([(run.communicate()[1], run.returncode) for run in runs], [("", 0)] * 3)

    def test_one_that_is_not_proved(self):
        self.assertEqual(self.run_archive(REFUSED="1"), (1, ""))
        self.assertFalse(self.archive.exists())
        # Nor is one taken that an earlier run has left.
        self.script("bin/rt", "#!/bin/sh\n")
        self.script("crates/forkcanyon_c/out/libforkcanyon_c.a", "old\n")
        self.assertEqual(self.run_archive()[0], 1)
        self.assertFalse(self.archive.exists())

    def test_another_machine(self):
        self.assertEqual(self.run_archive("aarch64"), (2, "Rattle compiles for x86-64, and this machine is aarch64\n"))
        self.assertFalse((self.root / "build").exists())


unittest.main()
