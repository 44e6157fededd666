"""What is missing of the promises in the source, a line each. A method of a public trait is a public function, and an impl
of From, TryFrom or FromStr has the law that says what it gives. A public call is one that a C program makes, or a public
function that asks nothing of its caller and writes a lent buffer or has a call's name. Its ensures is, to the letter,

    Promise BUFFER.old.. (Call NUMBER..) (OUTCOME result BUFFER.new..)

with the engine of its last parameter where there is one, every lent buffer, the constructor of the function's name with
every number, and every lent buffer again, all in the order of the parameters; one that is only read is BUFFER.now in both
places. A cold list has the numbers alone: its promise knows the call, since it alone lends a list.
pinned.txt has the definitions that give these words their meaning, the engines, the laws of the numbers, and all that
crate forkcanyon hands on.

usage: promises.py [ROOT]
"""

import re
import sys
from pathlib import Path

HERE = Path(__file__).resolve().parents[2]
sys.path.insert(0, str(HERE / "tools"))
from declared import blocks, code, exported, functions, ghosts, given, implemented  # noqa: E402
from declared import laws, parameters, report, shell, tight  # noqa: E402

# Each promise by its file and name, and what puts a call's outcome together for it.
OUTCOMES = {
    ("answers.specs.Answers", "Promise"): ("answers.specs.Answers", "served"),
    ("answers.specs.Answers", "PromiseBy"): ("answers.specs.Answers", "served"),
    ("host.specs.Host", "Promise"): ("host.specs.Host", "left"),
    ("host.specs.Host", "PromiseBy"): ("host.specs.Host", "left"),
    ("forkcanyon.specs.ShortHost", "Promise"): ("host.specs.Host", "left"),
    ("cold.specs.Listing", "Promise"): ("cold.specs.Listing", "listed"),
    ("both.specs.ColdHost", "Promise"): ("both.specs.ColdHost", "left"),
    ("schedule.specs.Step", "Promise"): ("answers.specs.Answers", "served"),
}
WRITTEN = ("schedule.specs.Written", "Written")

# The promise of the calls with short lists, by their names, and of no other.
SHORT = ("forkcanyon.specs.ShortHost", "Promise")

# A type parameter that is the kind of the call's engine, which is its last parameter: the promise names it first.
ENGINE = re.compile(r"<([A-Z]): EngineValue>")

# Lower functions that ask of their caller by a type alone, a table or a reply of its size: these types.
SIZED = {"layout::set_counts", "layout::set_retired", "layout::clear", "reply::tell", "reply::answer"}
SIZES = {"&mut Bytes", "&mut [u8; Reply::BYTES]"}

# The law of an impl that makes one thing of another; Into and TryInto have none.
GIVES = {"From": "from_gives", "TryFrom": "try_from_gives", "FromStr": "from_str_gives", "Into": None, "TryInto": None}

# What the rules on impls know by name, so that no `use` may give it another, nor anything else its name.
KNOWN = re.compile(rf"\b(?:rows|by_value|Engine|EngineValue|ByType|Ranked|Short|{'|'.join(GIVES)})\b")

# The traits Engine and EngineValue, and an impl of either, by whatever path it is named.
OF_ENGINE = re.compile(r"\bEngine(?:Value)?(?:<\s*>)?\s*for\b|^trait (?:r#)?Engine(?:Value)?\b")

# The crate that has no code of its own: it hands on the library's calls.
LIBRARY = "crates/forkcanyon/"

# What a promise says in place of the constructor with the numbers; of Written, the place and the text.
SAID = {
    "host::drain": "(Drain site (min budget most_tries))",
    "forkcanyon_c::fc_drain": "(Drain site (min budget most_tries))",
    "forkcanyon_c::fc_short_drain": "(Drain site (min budget most_tries))",
    "cold::cold": "s hour threshold",
    "both::cold": "site hour threshold",
    "forkcanyon_c::fc_cold": "site hour threshold",
    "schedule::play": "p",
    "schedule::write_answer": "0 (line number (numbers_of a))",
    "schedule::write_listing": "0 (listing input.now)",
}

# Where other words of a promise come from; a constructor comes from CALLS.
CALLS = "rules.specs.Calls"
HOMES = {
    "min": "std.specs.Prelude",
    "most_tries": "host.specs.Host",
    "numbers_of": "answers.specs.Answers",
    "line": "schedule.specs.Text",
    "listing": "schedule.specs.Listing",
}

# A host's number, and the name that the rules have for it; `now` is a word of clauses.
RENAMED = {"sites": "n", "keys": "k", "hour": "now"}


def names(text):
    """(file, name) for each name that a use line brings in, the file without 'Rattle.'."""
    text = re.sub(r"(?://|--\s)[^\n]*", "", text)
    for module, brought in re.findall(r"\buse\s+([^\s{]+)\.\{([^}]*)\}", text):
        for name in brought.split(","):
            yield module.removeprefix("Rattle."), name.strip()


def used(text):
    """The use lines of code, each with the words before it."""
    return re.findall(r"(?:\b(?:ghost|pub(?:\([^)]*\))?) )*\buse\b[^;]*;", tight(text))


def held(path, text):
    """What pinned.txt can hold of a file: its definitions; of code its laws, its hand-outs, and `NAME of FILE` where no other
    file brings that name in."""
    if path.endswith(".antt"):
        return set(laws(text).values())
    lines = used(code(text))
    modules = [re.match(r"ghost use Rattle\.([^\s{]+) as (\w+);", line) for line in lines]
    brought = [*names(text), *(found.groups() for found in modules if found)]
    alone = [(file, name) for file, name in brought if [each for _, each in brought].count(name) == 1]
    handed = [line for line in lines if line.startswith("pub")]
    return {*given(text).values(), *handed, *(f"{name} of {file}" for file, name in alone)}


class Proved:
    """The theorems of no second outcome and the promises that they are about, what is pinned, the constructors."""

    def __init__(self, root):
        self.theorems, self.about = set(), set()
        for file in sorted(root.glob("crates/*/specs/**/*.antt")):
            text = file.read_text()
            found = re.findall(r"^pub (\S+)_no_second :", text, re.M)
            self.theorems.update(found)
            if found:
                self.about.update(names(text))
        self.pinned = [line.split(": ", 1) for line in (root / "tests/promises/pinned.txt").read_text().splitlines()]
        self.words = {(path, name) for path, text in self.pinned if path.endswith(".antt") for name in laws(text)}
        calls = laws((root / f"crates/{CALLS.replace('.', '/')}.antt").read_text())["Call"]
        self.fields = {name: fields.split() for name, fields in re.findall(r"(\w+) : \(([^:]*) : ℕ\) → Call", calls)}

    def of(self, path):
        """What is pinned of a file."""
        return {text for pin, text in self.pinned if pin == path}

    def pins(self, file, name):
        return (f"crates/{file.replace('.', '/')}.antt", name) in self.words


def constructor(name):
    return "".join(word.capitalize() for word in name.removeprefix("fc_").removeprefix("short_").split("_"))


def numbers_of(taken):
    by = ENGINE.match(taken)
    return [each for each, width in parameters(taken)[0] if not width.startswith("&") and not (by and width == by[1])]


def expected(said, name, taken, promise):
    """The one promise of this form that the call may have."""
    found, _ = parameters(taken)
    lent = [each for each, width in found if width.startswith("&")]
    written = [each for each, width in found if re.match(r"&(?:'\w+ )?mut\b", width)]
    numbers = numbers_of(taken)
    engine = f" ({by[1]}.engine engine)" if (by := ENGINE.match(taken)) else ""
    call = SAID.get(said) or f"({' '.join([constructor(name), *numbers])})"
    met = {each: f"{each}.old" if each in written else f"{each}.now" for each in lent}
    left = {each: f"{each}.new" if each in written else f"{each}.now" for each in lent}
    if promise == WRITTEN:
        before, after = (" ".join(each[name] for name in written) for each in (met, left))
        return f"Written {before} {call} result {after}"
    return f"{promise[1]}{engine} {' '.join(met.values())} {call} ({OUTCOMES[promise][1]} result {' '.join(left.values())})"


def foreign(wanted, promise, taken, brought):
    """The words of a promise that come from elsewhere than they should, or from there and elsewhere."""
    homes = {promise[1]: promise[0], **HOMES}
    if promise in OUTCOMES:
        home, outcome = OUTCOMES[promise]
        homes[outcome] = home
    known = {"result", *ENGINE.findall(taken), *(name for name, _ in parameters(taken)[0])}
    for word in re.findall(r"(?<![\w.])[A-Za-z]\w*", wanted):
        if word not in known:
            home = homes.get(word, CALLS)
            if {(file, name) for file, name in brought if name.split()[-1:] == [word]} != {(home, word)}:
                yield f"its {word} is not the one of {home}"


def call_faults(said, exports, taken, ensures, text, proved):
    name, brought = said.split("::")[-1], set(names(text))
    if taken.startswith("<") and not ENGINE.fullmatch(taken.partition("(")[0]):
        yield "its type parameter is not an EngineValue"
    if by := ENGINE.match(taken):
        found = parameters(taken)[0]
        if found[-1:] != [("engine", by[1])] or by[1] in [width for _, width in found[:-1]]:
            yield "it does not take one engine, at its end, as `engine`"
    clauses = [re.fullmatch(r"ensures (?:\w+ )?\{ ((\w+) .*) \}", clause) for clause in ensures]
    promises = brought & proved.about & {*OUTCOMES, *([] if exports else [WRITTEN])}
    found = [(clause, each) for clause in clauses if clause for each in promises if each[1] == clause[2]]
    if not found:
        yield "its ensures is not a promise that no second outcome is proved of"
        return
    for clause, promise in found:
        wanted = expected(said, name, taken, promise)
        if clause[1] == wanted:
            break
    else:
        yield f"its promise is not {wanted}"
        return
    if (promise == SHORT) != name.startswith("fc_short_"):
        yield f"its promise is of {'short lists' if promise == SHORT else 'our engine'}"
    yield from foreign(wanted, promise, taken, brought)
    for file, word in [promise, OUTCOMES.get(promise, promise)]:
        if not proved.pins(file, word):
            yield f"tests/promises/pinned.txt does not have its {word}"
    numbers = [RENAMED.get(each, each) for each in numbers_of(taken)]
    if exports and said not in SAID and numbers != proved.fields.get(constructor(name)):
        yield f"its numbers are not those of {constructor(name)}, by name and in order"
    if promise != WRITTEN and name not in proved.theorems:
        yield f"there is no theorem {name}_no_second"


def sized(taken):
    return SIZES.issuperset(width for _, width in parameters(taken)[0] if width.startswith("&"))


def function_faults(said, words, taken, clauses, text, proved):
    exports = exported(words)
    ensures = [clause for kind, clause in clauses if kind == "ensures"]
    asks = len(ensures) < len(clauses) or (said in SIZED and sized(taken))
    if not ensures:
        yield "it has no ensures"
    if exports and asks:
        yield "a C program can't know what it requires"
    named = "&" in taken and constructor(said.split("::")[-1]) in proved.fields
    if exports or (not asks and (named or re.search(r"&(?:'\w+\s+)?mut\b", taken))):
        if ensures:
            yield from call_faults(said, exports, taken, ensures, text, proved)
        if f"`{said}`" not in proved.table:
            yield "docs/PROMISES.md has no row for it"


def engine_faults(head, own, pinned):
    """The traits Engine and EngineValue and their impls are those that are pinned, each the rules' own."""
    if OF_ENGINE.search(shell(head)) and own.get("engine") not in pinned:
        yield f"{head}: tests/promises/pinned.txt does not have this engine"


def gives_faults(head, own):
    """A conversion says what it gives."""
    trait = shell((implemented(head) or [""])[0])
    word = (re.findall(r"\w+", trait) or [""])[-1]
    if word in GIVES and GIVES[word] not in own:
        yield f"{head}: it has no {GIVES[word] or 'law, and From would'}"


def word_faults(text):
    """What would hide an impl from these rules, or a call under another's name."""
    if re.search(r"\bmacro_rules\b", text):
        yield "a macro can write an impl that is not seen here"
    if re.search(r"#\s*\[\s*from\b", text):
        yield "the From that #[from] asks for has no law"
    renamed = [line for line in used(text) if not line.startswith("ghost ") and re.search(r"\bas\b", line)]
    for line in [*renamed, *re.findall(r"\btype\b[^;{]*;", tight(text))]:
        if KNOWN.search(line) or re.match(r"pub\b.*\buse\b", line):
            yield f"another name: {line}"


def code_faults(path, text, proved):
    said, pinned = code(text), proved.of(path)
    engines = []
    for _, head, begun, end in blocks(said):
        own = dict(ghosts(head, said[begun : end - 1]))
        engines += [head] if OF_ENGINE.search(shell(head)) else []
        yield from engine_faults(head, own, pinned)
        yield from gives_faults(head, own)
    yield from (f"{head}: it stands twice" for head in sorted({*engines}) if engines.count(head) > 1)
    yield from word_faults(said)
    # The library has no code of its own.
    if path.startswith(LIBRARY):
        handed = " ".join(each for pin, each in proved.pinned if pin == path)
        if tight(re.sub(r"#!\[[^\]]*\]", " ", said)) != handed:
            yield "it is not what tests/promises/pinned.txt says"


def faults(root):
    proved = Proved(root)
    proved.table = (root / "docs" / "PROMISES.md").read_text()
    has = {path: held(path, (root / path).read_text()) for path in {path for path, _ in proved.pinned}}
    for path, text in proved.pinned:
        if text not in has[path]:
            yield f"{path}: it no longer has, as tests/promises/pinned.txt says: {text}"
    for path in sorted(has):
        renamed = [name for _, name in names((root / path).read_text()) if " as " in name]
        yield from (f"{path}: a pinned word has another meaning: {name}" for name in renamed)
    excused = []
    for file in sorted(root.glob("crates/*/src/**/*.rt")):
        text, path = file.read_text(), str(file.relative_to(root))
        crate = path.split("/")[1]
        yield from (f"{path}: {each}" for each in code_faults(path, text, proved))
        for name, words, taken, clauses in functions(text):
            if exported(words) or re.search(r"\bpub\b", words):
                said = f"{crate}::{name}"
                excused += [said] if said in SIZED else []
                yield from (f"{said}: {each}" for each in function_faults(said, words, taken, clauses, text, proved))
    yield from (f"{said}: another function has its name" for said in sorted(SIZED) if excused.count(said) > 1)


if __name__ == "__main__":
    report("promises", faults, "every public function has one")
