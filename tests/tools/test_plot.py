"""bench/plot.py on a few figures."""

import tempfile
import unittest
import xml.etree.ElementTree as ElementTree

from support import run_tool

HEAD = "table\tsites\tkeys\tscene\tmix\tours_ns\ttwins_ns\n"


class Plot(unittest.TestCase):
    def of(self, figures):
        with tempfile.NamedTemporaryFile("w") as file:
            file.write(HEAD + figures)
            file.flush()
            return run_tool("../bench/plot.py", file.name)

    def test_a_curve_for_each_program_table_and_key_count(self):
        run = self.of("fresh\t1\t16\teven\t1\t50\t90\nfresh\t2\t16\teven\t1\t70\t99\nfull\t8\t64\tlinks\t1\t900\t1500\n")
        tree = ElementTree.fromstring(run.stdout)
        curves = tree.findall("{http://www.w3.org/2000/svg}polyline")
        self.assertEqual(sorted(len(curve.get("points").split()) for curve in curves), [1, 1, 2, 2])

    def test_calls_alone_are_not_drawn(self):
        run = self.of("fresh\t1\t1\tput\t0\t50\t90\n")
        self.assertEqual((run.returncode, run.stderr), (1, b"plot: no mix among the figures\n"))


unittest.main()
