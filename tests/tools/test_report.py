"""bench/report.py on a few figures of two layouts."""

import os
import tempfile
import unittest

from support import run_tool

HEAD = "table\tsites\tkeys\tscene\tmix\tours_ns\ttwins_ns\n"


class Report(unittest.TestCase):
    def of(self, *layouts):
        with tempfile.TemporaryDirectory() as folder:
            paths = [os.path.join(folder, name) for name in ("out", *map(str, range(len(layouts))))]
            for path, figures in zip(paths[1:], layouts):
                with open(path, "w", encoding="utf-8") as file:
                    file.write(HEAD + figures)
            run = run_tool("../bench/report.py", *paths)
            with open(paths[0], encoding="utf-8") as file:
                return run, file.read()

    def test_the_least_of_each_counts(self):
        run, out = self.of(
            "half\t2\t64\tput\t0\t40\t20\nhalf\t2\t64\teven\t1\t50\t100\n",
            "half\t2\t64\tput\t0\t30\t25\nhalf\t2\t64\teven\t1\t70\t80\n",
        )
        self.assertEqual(out, HEAD + "half\t2\t64\tput\t0\t30.0\t20.0\nhalf\t2\t64\teven\t1\t50.0\t80.0\n")
        self.assertEqual(
            run.stdout.decode().splitlines()[1:],
            [
                "table  sites keys     put  |    even",
                "half       2   64    1.50  |    0.62",
                "worst call 1.50: put, half, 2 sites, 64 keys",
                "worst mix  0.62: even, half, 2 sites, 64 keys",
            ],
        )
        self.assertEqual(run.returncode, 0)

    def test_short_lists_have_a_table_of_their_own(self):
        run, _ = self.of(
            "half\t2\t64\tput\t0\t30\t20\nhalf\t2\t64\tshort_put\t0\t10\t20\n"
            "half\t2\t64\teven\t1\t50\t100\nhalf\t2\t64\tshort_even\t1\t30\t40\n"
        )
        self.assertEqual(
            run.stdout.decode().splitlines(),
            [
                "time of forkcanyon over time of twin, less is better",
                "table  sites keys     put  |    even",
                "half       2   64    1.50  |    0.50",
                "the same with short lists",
                "table  sites keys     put  |    even",
                "half       2   64    0.50  |    0.75",
                "worst call 1.50: put, half, 2 sites, 64 keys",
                "worst mix  0.75: short_even, half, 2 sites, 64 keys",
            ],
        )

    def test_a_slower_mix_fails(self):
        run, _ = self.of("full\t1\t1\tput\t0\t1\t1\nfull\t1\t1\teven\t1\t51\t50\n")
        self.assertEqual((run.returncode, run.stderr), (1, b"bench: FAILED: a mix is slower than the second program\n"))


unittest.main()
