"""The check of the promises on this repository, with a promise taken away."""

import re
import shutil
import tempfile
import unittest
from pathlib import Path

from promises import HERE, faults

# A public function up to its promise, and the promise.
HEAD = re.compile(r"(pub (?:extern \"C\" )?fn (\w+)(?:<\w+: EngineValue>)?\([^{]*?)(?:\s+ensures (?:\w+ )?\{ (?:Promise|PromiseBy|Written) .*)+")


class Here(unittest.TestCase):
    def setUp(self):
        folder = tempfile.TemporaryDirectory()
        self.addCleanup(folder.cleanup)
        self.root = Path(folder.name)
        shutil.copytree(HERE / "crates", self.root / "crates", ignore=shutil.ignore_patterns("out"))
        shutil.copytree(HERE / "docs", self.root / "docs")
        shutil.copytree(HERE / "tests" / "promises", self.root / "tests" / "promises")

    def edited(self, name, old, new):
        """The faults of this repository with one change in a file of crates."""
        file = self.root / "crates" / name
        kept = file.read_text()
        self.assertEqual(kept.count(old), 1, old)
        file.write_text(kept.replace(old, new))
        found = list(faults(self.root))
        file.write_text(kept)
        return found

    def test_each_call_without_its_promise(self):
        counts = {"table": 3, "look": 2, "deliver": 1, "retire": 1, "touch": 1, "cold": 1, "drain": 1}
        counts |= {"host": 6, "both": 3, "forkcanyon_c": 9, "schedule": 3}
        files = {f"{crate}/src/lib.rt": calls for crate, calls in counts.items()}
        files |= {"both/src/cold_list.rt": 1, "forkcanyon_c/src/cold_list.rt": 1, "forkcanyon_c/src/short_lists.rt": 6}
        for name, calls in files.items():
            crate, kept = name.split("/")[0], (self.root / "crates" / name).read_text()
            found = list(HEAD.finditer(kept))
            self.assertEqual(len(found), calls, name)
            for head in found:
                self.assertIn(f"{crate}::{head[2]}: it", " ".join(self.edited(name, head[0], head[1])))

    def test_each_method_without_its_ensures(self):
        for name, begun, ended in [("lib", "pub trait Engine ", "pub struct Ranked"), ("by_value", "pub trait EngineValue", "pub struct ByType")]:
            kept = (self.root / "crates" / "rows" / "src" / f"{name}.rt").read_text()
            trait = kept[kept.index(begun) : kept.index(ended)]
            found = re.findall(r"fn (\w+)\([^{]*\{[^}]*\}(\s+ensures \{[^}]*\});", trait)
            self.assertEqual((len(found), trait.count("fn ")), (5, 5))
            for method, ensures in found:
                self.assertEqual(self.edited(f"rows/src/{name}.rt", ensures, ""), [f"rows::{method}: it has no ensures"])

    def test_each_conversion_without_its_law(self):
        for crate in ("answers", "numbers", "touch", "schedule"):
            kept = (self.root / "crates" / crate / "src" / "lib.rt").read_text()
            found = re.findall(r"    ghost ((?:try_)?from_gives) = (.*)\n", kept)
            self.assertEqual(len(found), len(re.findall(r"^impl\b.*From<", kept, re.M)), crate)
            for name, law in found:
                gone = self.edited(f"{crate}/src/lib.rt", f"    ghost {name} = {law}\n", "")
                self.assertIn(f"it has no {name}", " ".join(gone))

    def test_each_pinned_word_of_code(self):
        pinned = (self.root / "tests" / "promises" / "pinned.txt").read_text().splitlines()
        laws = [line.split(": ", 1) for line in pinned if " ghost " in line and ".rt: " in line]
        self.assertEqual({path.split("/")[1] for path, _ in laws}, {"rows", "answers", "numbers", "touch", "schedule"})
        for path, text in laws:
            line = text[text.index("ghost ") :]
            for other in [line.replace("{ ", "{ other "), ""]:
                found = self.edited(path.removeprefix("crates/"), line, other)
                self.assertIn(f"{path}: it no longer has, as tests/promises/pinned.txt says: {text}", found)

    def test_a_third_engine(self):
        impl = "    ghost engine = { rules.long };\n\n    ghost takes = { long_takes };\n}\n"
        for name, begun in [
            ("rows", "use crate::Engine as Kind;\n\nstruct Lazy;\n\nimpl Kind for Lazy {\n"),
            ("rows", "pub struct Lazy<T>(T);\n\nimpl<T: Drop> Engine for Lazy<T> {\n"),
            ("table", "pub struct Lazy;\n\nimpl rows::Engine for Lazy {\n"),
            ("rows", "pub struct Lazy<T>(T);\n\nimpl<T: Copy> EngineValue for Lazy<T> {\n"),
            ("table", "pub struct Lazy;\n\nimpl rows::by_value::EngineValue for Lazy {\n"),
        ]:
            first = "#![tactic(auto)]\n"
            self.assertEqual(len(self.edited(f"{name}/src/lib.rt", first, first + begun + impl)), 1)

    def test_an_engine_twice(self):
        first = "#![tactic(auto)]\n"
        for head, law in [("impl Engine for Ranked", "rules.ranked"), ("impl EngineValue for Ranked", "λ _. rules.ranked")]:
            twice = f"pub struct Ranked;\n\n{head} {{\n    ghost engine = {{ {law} }};\n}}\n"
            found = self.edited("rows/src/lib.rt", first, first + "pub mod other {\n" + twice + "}\n")
            self.assertIn(f"crates/rows/src/lib.rt: {head}: it stands twice", found)

    def test_the_library_under_other_names(self):
        found = self.edited("forkcanyon/src/lib.rt", "drain, get, put,", "drain, get as put, put as get,")
        self.assertIn("crates/forkcanyon/src/lib.rt: it is not what tests/promises/pinned.txt says", found)


unittest.main()
