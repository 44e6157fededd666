"""tools/spacetime: the picture in docs/ is the one it draws, and each kind of step has its mark."""

import tempfile
import unittest
import xml.etree.ElementTree as ElementTree
from pathlib import Path

from support import ROOT, run_tool

NAMES = {"svg": "http://www.w3.org/2000/svg"}


def drawn(text, *words):
    with tempfile.TemporaryDirectory() as folder:
        file = Path(folder) / "one.sched"
        file.write_text(text)
        return run_tool("spacetime", str(file), *words)


def words_in(svg):
    return [text.text for text in ElementTree.fromstring(svg).iterfind("svg:text", NAMES)]


class Pictures(unittest.TestCase):
    def test_the_documents_schedule(self):
        run = run_tool("spacetime", str(ROOT / "docs" / "scope.sched"))
        self.assertEqual(run.stdout, (ROOT / "docs" / "scope.svg").read_bytes())
        tree = ElementTree.fromstring(run.stdout)
        # Two puts and two gets; a delivery, a refused one and a drain of two are four arrows.
        self.assertEqual(len(tree.findall("svg:circle", NAMES)), 4)
        self.assertEqual(len(tree.findall("svg:polygon", NAMES)), 4)
        for words in ("put 1 = 7", "0:1", "key 1 of 0:1", "waits for 0:1", "2 in 6 tries", "7 of 0:1"):
            self.assertIn(words, words_in(run.stdout))

    def test_a_retired_site(self):
        run = run_tool("spacetime", str(ROOT / "docs" / "closed.sched"))
        self.assertEqual(run.stdout, (ROOT / "docs" / "closed.svg").read_bytes())
        found = words_in(run.stdout)
        for words in ("retired", "get 2 0", "refused 16", "2 in 6 tries", "key 1 of 2:1"):
            self.assertIn(words, found)
        lines = ElementTree.fromstring(run.stdout).iterfind("svg:line", NAMES)
        # From its fourth step on, the line of site 2.
        dotted = [(line.get("x1"), line.get("y1")) for line in lines if line.get("stroke-dasharray") == "1 5"]
        self.assertEqual(dotted, [("464", "328")])

    def test_clocks_waited_for_where_a_site_is_retired(self):
        begun = (ROOT / "docs" / "waits.sched").read_text().partition("deliver 4 1")[0]
        found = words_in(drawn(begun.replace("deliver 4 3", "retire 3\ndeliver 4 3", 1)).stdout)
        for words in ("retired", "waits for 0:1", "1:2 2:1"):
            self.assertIn(words, found)

    def test_a_dashed_line_from_each_put_waited_for(self):
        run = run_tool("spacetime", str(ROOT / "docs" / "waits.sched"))
        found = words_in(run.stdout)
        for words in ("waits for 0:1", "1:2 2:1", "2:1"):
            self.assertIn(words, found)
        lines = ElementTree.fromstring(run.stdout).iterfind("svg:line", NAMES)
        dashed = [(line.get("x1"), line.get("y1")) for line in lines if line.get("stroke-dasharray")]
        # From 0:1, 1:2 and 2:1 to step 10, then from 0:1 and 2:1 to step 13.
        self.assertEqual(len(dashed), 5)
        self.assertEqual(dashed[0], dashed[3])
        self.assertEqual(dashed[2], dashed[4])
        self.assertEqual(len(set(dashed)), 3)

    def test_two_puts_that_cross_have_one_winner(self):
        run = drawn("sites 2 keys 1\nput 0 0 5\nput 1 0 6\ndeliver 1 0\ndeliver 0 1\nget 0 0\nget 1 0\n")
        found = words_in(run.stdout)
        # Both are delivered, and both sites then hold the same.
        self.assertEqual([found.count(words) for words in ("key 0 of 0:1", "key 0 of 1:1", "6 of 1:1")], [1, 1, 2])

    def test_a_cause_that_waits_itself(self):
        chain = "put 0 0 1\nput 0 0 2\ndrain 1\nget 1 0\nput 1 1 3\ndrain 2\nget 2 1\nput 2 2 4\ndeliver 3 2\n"
        picture = drawn("sites 4 keys 3\n" + chain).stdout
        self.assertIn("waits for 0:2", words_in(picture))
        lines = ElementTree.fromstring(picture).iterfind("svg:line", NAMES)
        # From 0:2 and from 1:1, on the lines of two sites.
        self.assertEqual(len({line.get("y1") for line in lines if line.get("stroke-dasharray")}), 2)

    def test_no_room_to_ask_for_a_clock(self):
        before = (ROOT / "docs" / "waits.sched").read_text().partition("deliver 4 1")[0]
        steps = len([line for line in before.splitlines() if line.partition("#")[0].strip()]) - 1
        run = drawn(before + "get 0 0\n" * (10922 - steps - 2) + "deliver 4 3\n")
        self.assertEqual((run.returncode, run.stdout), (1, b""))
        self.assertIn(b"step 10921: a schedule has no room behind it", run.stderr)

    def test_other_refusals(self):
        run = drawn("sites 2 keys 1\nput 7 0 0\ndeliver 1 0\nget 0 0\ndrain 0 key=1\n")
        found = words_in(run.stdout)
        for words in ("put 7 0 0", "refused 4", "refused 9", "never written", "refused 12"):
            self.assertIn(words, found)

    def test_a_listing_of_another_schedule(self):
        with tempfile.NamedTemporaryFile("w", suffix=".listing") as listing:
            listing.write("0 0 0 0 0 0\n1 0 0 0 3 4\nend 1\n")
            listing.flush()
            run = drawn("sites 2 keys 1\ndrain 0\n", listing.name)
            self.assertIn(b"step 1: the listing's drain made 3 deliveries, not 0", run.stderr)
            run = drawn("sites 2 keys 1\n", listing.name)
            self.assertIn(b"the listing has 1 steps and the schedule 0", run.stderr)

    def test_nothing_to_draw(self):
        self.assertIn(b"was not opened", drawn("sites 9 keys 1\n").stderr)
        self.assertIn(b"line 2: ", drawn("sites 2 keys 1\nput\n").stderr)


unittest.main()
