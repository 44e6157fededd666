"""tools/sched: text to bytes and back, and a line number in every error."""

import random
import subprocess
import unittest

from support import ROOT, TWIN, run_tool
from schedule_bytes import MOST_STEPS, Step, schedule_bytes, step_bytes, step_of
from schedule_text import BadLine, schedule_of, script_of, script_text, text_of

SCOPE = bytes.fromhex(
    "0304 000100000007 880000000000 480100000000 080200000009 910000000000 D00000000000 500100000000"
)


class RoundTrips(unittest.TestCase):
    def test_the_documents_schedule(self):
        text = (ROOT / "docs" / "scope.sched").read_text()
        self.assertEqual(schedule_of(text), SCOPE)
        self.assertEqual(schedule_of(text_of(SCOPE)), SCOPE)

    def test_any_bytes_come_back(self):
        rng = random.Random(1)
        for length in range(200):
            data = rng.randbytes(length)
            self.assertEqual(schedule_of(text_of(data)), data)

    def test_any_step_comes_back(self):
        rng = random.Random(2)
        for _ in range(500):
            data = rng.randbytes(6)
            self.assertEqual(step_bytes(step_of(data)), data)

    def test_text_comes_back(self):
        text = "sites 8 keys 64\nput 7 63 4294967295\nget 6 0 origin=2 value=9\ndeliver 0 5\ndrain 3\nbytes 48 01\n"
        self.assertEqual(text_of(schedule_of(text)), text)

    def test_a_text_with_a_retire_comes_back(self):
        text = "sites 8 keys 64\nput 7 63 1\nretire 7\ndrain 0 key=1\n"
        self.assertEqual(script_text(script_of("# a comment\n" + text)), text)

    def test_more_than_is_read_comes_back(self):
        data = schedule_bytes(1, 1, [Step("get")] * MOST_STEPS) + bytes(range(13))
        self.assertEqual(schedule_of(text_of(data)), data)


class Errors(unittest.TestCase):
    def assert_line(self, line, why, text):
        with self.assertRaises(BadLine) as caught:
            schedule_of(text)
        self.assertEqual(caught.exception.line, line)
        self.assertIn(why, str(caught.exception))

    def test_each_names_its_line(self):
        top = "# a comment\nsites 3 keys 4\n\n"
        self.assert_line(4, "put takes site key value", top + "put 0 1")
        self.assert_line(5, "'push' is none of", top + "put 0 1 7 # fine\npush 1")
        for call in ("look 0 1", "adopt 0 1 0 0", "touch 0 1 0 0 0", "cold 0 1 24"):
            self.assert_line(4, f"'{call.split()[0]}' is none of put, get, deliver, drain", top + call)
        self.assert_line(5, "a schedule has no retire", top + "put 0 1 7\nretire 1")
        self.assert_line(4, "site 8 is above 7", top + "drain 8")
        self.assert_line(4, "key 256 is above 255", top + "get 0 256")
        self.assert_line(4, "value 4294967296 is above", top + "put 0 0 4294967296")
        self.assert_line(4, "origin is a number, not '-1'", top + "deliver 0 -1")
        self.assert_line(4, "'site=' is not a field", top + "drain 0 site=1")
        self.assert_line(4, "'sites' is none of", top + "sites 3 keys 4")
        self.assert_line(4, "two hexadecimal digits", top + "bytes 0x1")
        self.assert_line(4, "are a step", top + "bytes 01 02 03 04 05 06")
        self.assert_line(5, "nothing follows", top + "bytes 01\ndrain 0")
        self.assert_line(1, "begins with", "put 0 1 7")
        self.assert_line(2, "begins with", "# nothing")
        self.assert_line(1, "sites 256 is above 255", "sites 256 keys 1")
        self.assert_line(1, "are a header", "bytes 01 02")
        self.assert_line(MOST_STEPS + 2, "only 10922", "sites 1 keys 1\n" + "get 0 0\n" * (MOST_STEPS + 1))


    def test_a_retire_too(self):
        for line, why, text in [
            (2, "retire takes site", "retire"),
            (2, "retire takes site", "retire 1 2"),
            (2, "site 8 is above 7", "retire 8"),
            (2, "'key=' is not a field", "retire 1 key=0"),
            (3, "bytes are a schedule's", "retire 1\nbytes 01"),
        ]:
            with self.assertRaises(BadLine) as caught:
                script_of("sites 3 keys 4\n" + text)
            self.assertEqual(caught.exception.line, line)
            self.assertIn(why, str(caught.exception))


class Played(unittest.TestCase):
    """build/table makes the calls of a text, with a retire among them or not."""

    def listing(self, text):
        run = subprocess.run([ROOT / "build" / "table", "listing"], input=text.encode(), capture_output=True, check=True)
        return run.stdout.decode()

    def test_as_the_program_for_schedules_plays_it(self):
        rng = random.Random(3)
        texts = [script_text(script_of((ROOT / "docs" / name).read_text())) for name in ("scope.sched", "waits.sched")]
        for sites in (1, 2, 3, 5, 8, 9):
            steps = []
            for _ in range(300):
                site, origin, key = rng.randrange(sites + 1) % 8, rng.randrange(sites) % 8, rng.randrange(4)
                put, get = Step("put", site, 0, key, rng.randrange(9)), Step("get", site, 0, key)
                steps.append(rng.choice((put, get, Step("deliver", site, origin), Step("drain", site), Step("drain", 0, 1))))
            texts.append(text_of(schedule_bytes(sites, 3, steps)))
        for text in texts:
            run = subprocess.run([TWIN], input=schedule_of(text), capture_output=True, check=True)
            self.assertEqual(self.listing(text), run.stdout.decode())

    def test_a_retire_and_what_comes_of_it(self):
        text = "sites 2 keys 1\n" + "put 0 0 1\n" * 17 + "retire 1\nput 0 0 1\nget 1 0\nretire 1\nretire 0\nretire 5\n"
        codes = [int(line.split()[1]) for line in self.listing(text).splitlines()[17:-1]]
        self.assertEqual(codes, [8, 0, 0, 16, 16, 17, 4])


class Tool(unittest.TestCase):
    def test_encode_and_decode(self):
        scope = str(ROOT / "docs" / "scope.sched")
        self.assertEqual(run_tool("sched", "encode", scope).stdout, SCOPE)
        self.assertEqual(run_tool("sched", "decode", data=SCOPE).stdout.decode(), text_of(SCOPE))

    def test_it_says_which_steps_there_are(self):
        run = run_tool("sched", "look")
        self.assertEqual((run.returncode, run.stdout), (1, b""))
        self.assertIn(b"steps put, get, deliver and drain. Look, adopt, touch and the cold list are", run.stderr)

    def test_plain_has_no_comments(self):
        plain = run_tool("sched", "plain", str(ROOT / "docs" / "closed.sched")).stdout.decode()
        self.assertEqual(plain.splitlines()[:2] + plain.splitlines()[4:6], ["sites 3 keys 2", "put 2 1 5", "retire 2", "get 2 0"])
        run = run_tool("sched", "encode", str(ROOT / "docs" / "closed.sched"))
        self.assertEqual((run.returncode, run.stdout), (1, b""))
        self.assertIn(b"closed.sched: line 6: a schedule has no retire", run.stderr)

    def test_an_error_ends_it(self):
        run = run_tool("sched", "encode", data=b"sites 3 keys 4\nput 0\n")
        self.assertEqual((run.returncode, run.stdout), (1, b""))
        self.assertEqual(run.stderr, b"standard input: line 2: put takes site key value\n")

    def test_play_sets_text_beside_answers(self):
        lines = run_tool("sched", "play", str(ROOT / "docs" / "scope.sched")).stdout.decode().splitlines()
        self.assertEqual(len(lines), 9)
        self.assertEqual(lines[5].split(None, 9)[:9], "deliver 2 1 5 10 0 0 1 1".split())
        self.assertTrue(lines[5].endswith("refused: waits for site 0, clock 1"))
        self.assertEqual(lines[8].strip(), "end 7")

    def test_play_says_of_a_delivery_what_was_applied_and_of_a_get_what_is_held(self):
        crossed = b"sites 2 keys 1\nput 0 0 5\nput 1 0 6\ndeliver 1 0\ndeliver 0 1\nget 0 0\nget 1 0\n"
        lines = run_tool("sched", "play", data=crossed).stdout.decode().splitlines()
        self.assertTrue(lines[3].endswith("applied put 1 of site 0: key 0, value 5"), lines[3])
        self.assertTrue(lines[4].endswith("applied put 1 of site 1: key 0, value 6"), lines[4])
        for held in lines[5:7]:
            self.assertTrue(held.endswith("key 0 is 6, put 1 of site 1"), held)

    def test_play_names_every_site_waited_for(self):
        lines = run_tool("sched", "play", str(ROOT / "docs" / "waits.sched")).stdout.decode().splitlines()
        self.assertTrue(lines[10].endswith("refused: waits for site 0, clock 1, and for sites 1 and 2"), lines[10])
        self.assertTrue(lines[13].endswith("refused: waits for site 0, clock 1, and for site 2"), lines[13])

    def test_play_says_every_refusal(self):
        refused = b"put 2 0 1\nget 0 1\ndeliver 0 0\ndeliver 0 1\ndrain 0 key=1\n"
        played = run_tool("sched", "play", data=b"sites 2 keys 1\n" + b"put 0 0 1\n" * 17 + refused)
        self.assertEqual(played.stderr, b"")
        self.assertEqual(played.stdout.count(b"refused: "), 6)
        self.assertEqual(run_tool("sched", "play", data=b"sites 9 keys 1\n").stdout.count(b"refused: "), 1)

    def test_play_says_who_is_retired(self):
        played = run_tool("sched", "play", data=b"sites 2 keys 1\nretire 1\nget 1 0\nretire 0\nput 0 0 5\n")
        words = [line.rsplit("   ", 1)[1] for line in played.stdout.decode().splitlines()[1:5]]
        last = "refused: the last live site stays"
        self.assertEqual(words, ["retired", "refused: the site is retired", last, "key 0 is 5, put 1 of site 0"])


unittest.main()
