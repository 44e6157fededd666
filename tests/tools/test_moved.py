"""tools/moved on a small repository of two commits."""

import subprocess
import sys
import tempfile
import unittest
from pathlib import Path

from support import ROOT
from declared import laws, promises

LAWS = """\
use Rattle.other.specs.Laws.{a}
-- a comment
unfoldable pub grow : ℕ → ℕ
grow zero = 1
grow (suc n) =
    n + 2

pub data Way : Type 0 where
  left : Way
  right : Way

module _ (n : ℕ)
  (m : ℕ) where
  abbrev pub within : n ≡ n
  unfolding grow
  within = refl

pub after : ℕ
after = 3
"""
CODE = """\
// fn ignored() ensures { no }
impl Cursor {
    pub fn read(self, at: u8) -> u8
        requires { at < 4 }
        ensures fits { record { fits = result } }
    {
        if at == b'{' { 0 } else { 1 }
    }
    fn silent() { let x = 1; }
}
pub fn body(s: &[u8]) -> u8 ensures { s.now } { s[0] }
"""
TRAITS = """\
pub trait Kind {
    ghost kind: { ℕ };

    // One.
    fn one(&self) -> [u8; 2];

    fn two(&self) -> u8
        requires { kind < 2 }
        ensures { result ≡ kind };

    fn three(&self) -> u8 ensures { result ≡ 3 } { 3 }
}

impl<T> From<Cursor> for Kept<T> where T: for<'a> Other<'a> {
    ghost use Rattle.a.specs.Laws.{grow};

    ghost from_gives = { λ c k. k ≡ grow c };

    fn from(c: Cursor) -> Kept<T> {
        let s = b"ghost from_gives = { }";
        Kept { c }
    }
}

impl TryFrom<usize> for Cursor {
    type Error = ();
    ghost try_from_gives = { λ n r. n < 4 };
    fn try_from(n: usize) -> Result<Cursor, ()> { Err(()) }
}
"""


class Declared(unittest.TestCase):
    def test_names_of_laws(self):
        found = laws(LAWS)
        self.assertEqual(list(found), ["grow", "Way", "within", "after"])
        self.assertEqual(found["grow"], "unfoldable pub grow : ℕ → ℕ grow zero = 1 grow (suc n) = n + 2")
        self.assertIn("right : Way", found["Way"])
        self.assertIn("(m : ℕ) where abbrev pub within : n ≡ n unfolding grow within = refl", found["within"])
        self.assertEqual(found["after"], "pub after : ℕ after = 3")

    def test_a_sections_parameter_changes_what_stands_in_it(self):
        before, after = laws(LAWS), laws(LAWS.replace("(m : ℕ) where", "(m : Bool) where"))
        self.assertEqual([name for name in before if before[name] != after[name]], ["within"])

    def test_clauses_go_to_their_own_name(self):
        found = laws("f : A\ng : B\nf x = 1\ng y = 2\n")
        self.assertEqual(found, {"f": "f : A f x = 1", "g": "g : B g y = 2"})

    def test_names_of_promises(self):
        found = promises(CODE)
        self.assertEqual(list(found), ["Cursor::read", "body"])
        self.assertTrue(found["Cursor::read"].endswith("requires { at < 4 } ensures fits { record { fits = result } }"))
        self.assertEqual(found["body"], "fn body(s: &[u8]) -> u8 ensures { s.now }")

    def test_names_of_laws_in_code(self):
        kept = "impl<T> From<Cursor> for Kept<T> where T: for<'a> Other<'a> ghost use Rattle.a.specs.Laws.{grow};"
        tried = "impl TryFrom<usize> for Cursor ghost try_from_gives = { λ n r. n < 4 };"
        self.assertEqual(
            promises(TRAITS),
            {
                "two": "fn two(&self) -> u8 requires { kind < 2 } ensures { result ≡ kind }",
                "three": "fn three(&self) -> u8 ensures { result ≡ 3 }",
                "Kind::kind": "trait Kind ghost kind: { ℕ };",
                "<Kept<T> as From<Cursor>>::from_gives": f"{kept} ghost from_gives = {{ λ c k. k ≡ grow c }};",
                "<Cursor as TryFrom<usize>>::try_from_gives": tried,
            },
        )


class Moved(unittest.TestCase):
    def setUp(self):
        self.folder = tempfile.TemporaryDirectory()
        self.addCleanup(self.folder.cleanup)
        self.git("init", "-q")

    def git(self, *words):
        name = ["-c", "user.name=t", "-c", "user.email=t@example.org"]
        subprocess.run(["git", "-C", self.folder.name, *name, *words], check=True, capture_output=True)

    def commit(self, tag, files):
        for path in Path(self.folder.name).glob("crates/**/*.*"):
            path.unlink()
        for name, text in files.items():
            path = Path(self.folder.name) / "crates" / name
            path.parent.mkdir(parents=True, exist_ok=True)
            path.write_text(text)
        self.git("add", "-A")
        self.git("commit", "-qm", tag)
        self.git("tag", tag)

    def moved(self, before, after):
        command = [sys.executable, str(ROOT / "tools" / "moved"), before, after]
        return subprocess.run(command, cwd=self.folder.name, capture_output=True, text=True, check=False)

    def test_each_kind_by_name(self):
        proof = "returns : goal.returns\nreturns c = search rules\n"
        self.commit("one", {"a/specs/Laws.antt": LAWS, "a/src/lib.rt": CODE, "a/proofs/body/Answers.antt": proof})
        changed = LAWS.replace("n + 2", "n + 3  -- more").replace("pub after : ℕ\nafter = 3\n", "pub new : ℕ\n")
        code = CODE.replace("at < 4", "at < 5").replace("s[0]", "s[1]")
        more = "pub after : ℕ\nafter  = 3\n"
        self.commit("two", {"a/specs/Laws.antt": changed, "a/specs/More.antt": more, "a/src/lib.rt": code})
        self.assertEqual(
            self.moved("one", "two").stdout.splitlines(),
            [
                "definitions: 1 changed, 1 added, 0 removed, 1 carried, 2 stayed",
                "  changed  a: Laws.grow",
                "  added    a: Laws.new",
                "  carried  a: Laws.after -> a: More.after",
                "promises: 1 changed, 0 added, 0 removed, 0 carried, 1 stayed",
                "  changed  a: lib.Cursor::read",
                "proofs: 0 changed, 0 added, 1 removed, 0 carried, 0 stayed",
                "  removed  a: body.Answers.returns",
            ],
        )

    def test_a_law_and_a_method_of_a_trait(self):
        self.commit("one", {"a/src/lib.rt": TRAITS})
        code = TRAITS.replace("grow c", "c").replace("        ensures { result ≡ kind }", "        ensures { ⊤ }")
        self.commit("two", {"a/src/lib.rt": code.replace("    ghost try_from_gives = { λ n r. n < 4 };\n", "")})
        self.assertEqual(
            self.moved("one", "two").stdout.splitlines()[1:-1],
            [
                "promises: 2 changed, 0 added, 1 removed, 0 carried, 2 stayed",
                "  changed  a: lib.<Kept<T> as From<Cursor>>::from_gives",
                "  changed  a: lib.two",
                "  removed  a: lib.<Cursor as TryFrom<usize>>::try_from_gives",
            ],
        )

    def test_an_unknown_commit_fails(self):
        self.commit("one", {"a/specs/Laws.antt": LAWS})
        run = self.moved("one", "none")
        self.assertEqual((run.returncode, run.stdout), (1, ""))


unittest.main()
