"""What is named and not there, or there and not named, a line each:
- the wrong edits, in edits.txt and crates/*/must-fail;
- the crates, in crates.txt and crates/;
- what the tables of docs/PROMISES.md and docs/READING.md name, in the claims and what they are made of;
- the files that the docs name.

usage: kept.py [ROOT]
"""

import re
import sys
from pathlib import Path

HERE = Path(__file__).resolve().parents[2]
sys.path.insert(0, str(HERE / "tools"))
from declared import laws, report, uncommented  # noqa: E402

NAME = re.compile(r"[^\s(){};,.:]+")
PATH = re.compile(r"(?:crates|tests|tools|docs|include|examples|bench|twin)/[\w./*+-]*")
# Words of a path that stand for any name.
ANY = re.compile(r"\b(?:NAME|LABEL|FUNCTION|LETTER)\b")


def both_ways(listed, there, where):
    yield from (f"{where} names {each}, which is not there" for each in sorted(set(listed) - set(there)))
    yield from (f"{where} does not name {each}" for each in sorted(set(there) - set(listed)))


def edit_faults(root):
    edits = [f"{file.parts[-3]}/{file.stem}" for file in root.glob("crates/*/must-fail/*.edit")]
    yield from both_ways((root / "tests/kept/edits.txt").read_text().split(), edits, "tests/kept/edits.txt")
    named = re.findall(r"`(\w+/\w+)`", (root / "docs/PROMISES.md").read_text())
    yield from (f"docs/PROMISES.md: there is no edit {each}" for each in sorted(set(named) - set(edits)))


def crate_faults(root):
    listed = re.findall(r"^(\w+)[^:\n]*:", (root / "crates.txt").read_text(), re.M)
    yield from both_ways(listed, [folder.name for folder in root.glob("crates/*/")], "crates.txt")


def words(text):
    return set(NAME.findall(" ".join(line for _, line in uncommented(text))))


class Claimed:
    """The names of the claims and their proofs, and of what these are made of, definition by definition."""

    def __init__(self, root):
        self.made_of, self.fields = {}, {}
        for file in root.glob("crates/*/specs/**/*.antt"):
            for name, text in laws(file.read_text()).items():
                owner = name.partition("#")[0]
                self.made_of.setdefault(owner, set()).update(words(text))
                self.fields.setdefault(owner, set()).update(re.findall(r"\bpub (\S+) :", text))
        self.names = set()
        pages = [*root.glob("crates/claims/specs/*s.antt"), *root.glob("crates/claims/proofs/*ed.antt")]
        new = set().union(*(self.of(page.read_text()) for page in pages))
        while new:
            self.names |= new
            new = set().union(*(self.made_of.get(name, set()) for name in new)) - self.names

    @staticmethod
    def of(page):
        """The words of a page, but for its use lines: what is only brought in is not claimed."""
        return set().union(*(words(text) for text in laws(page).values()))

    def has(self, name):
        """A name, or a record's field as Record.field."""
        owner, _, field = name.partition(".")
        return owner in self.names and (not field or field in self.fields.get(owner, set()))


def column(text, head, which):
    """The back-quoted words in a column of the table with this head; '.field' is of the record before it."""
    tables = [each.partition("\n\n")[0] for each in text.split(f"\n| {head} |")[1:]]
    for row in (row for table in tables for row in table.splitlines()[2:]):
        owner = ""
        for name in re.findall(r"`([^`]+)`", row.split("|")[which]):
            owner = owner if name.startswith(".") else name.partition(".")[0]
            if "/" not in name and "::" not in name and not name.endswith(".antt"):
                yield owner + name if name.startswith(".") else name


def claim_faults(root):
    claimed = Claimed(root)
    tables = [("PROMISES", "theorem", (1, 3)), ("PROMISES", "call", (3, 4)), ("READING", "sentence", (2,))]
    for file, head, columns in tables:
        text = (root / "docs" / f"{file}.md").read_text()
        for which in columns:
            found = list(column(text, head, which))
            if not found:
                yield f"docs/{file}.md: its table of each {head} names nothing"
            yield from (f"docs/{file}.md: no claim is made of {name}" for name in found if not claimed.has(name))


def path_faults(root):
    for doc in sorted([*root.glob("docs/*.md"), root / "README.md", root / "CONTRIBUTING.md"]):
        text, said = doc.read_text(), doc.relative_to(root)
        named = {path for pair in re.findall(r"`([^`\s]+)`|\]\(([^)\s]+)\)", text) for path in pair}
        for path in sorted(filter(PATH.fullmatch, named)):
            if not list(root.glob(ANY.sub("*", path).rstrip("/"))):
                yield f"{said}: there is no {path}"
        for name, path in re.findall(r"`([^`\s/]+)`(?: in|,) `(crates/[^`\s]+\.antt)`", text):
            file = root / path
            if file.exists() and name.split(".")[-1] not in words(file.read_text()):
                yield f"{said}: there is no {name} in {path}"


def faults(root):
    for kind in (edit_faults, crate_faults, claim_faults, path_faults):
        yield from kind(root)


if __name__ == "__main__":
    report("kept", faults, "every edit, crate, claim and file that is named is there")
