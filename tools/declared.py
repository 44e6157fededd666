"""What a file of laws or of code declares, by name, with its text freed of comments and spacing; and how a test says what it finds wrong there."""

import re
import sys
from pathlib import Path

DECLARED = re.compile(r"(?:(?:abbrev|unfoldable|opaque|private|pub)\s+)*([^\s:=(){}]+)\s*:(?:\s|$)")
TYPE = re.compile(r"(?:pub\s+)?(?:record|data)\s+(\S+)")
SECTION = re.compile(r"(?:pub\s+)?(?:module|mutual)\b")
# Lines that name other files' things, or how an operator binds: no definitions of their own.
PASSED_OVER = re.compile(r"(?:pub\s+)?(?:use|open|mod|infix[lr]?)\b")


def tight(text):
    return " ".join(text.split())


def uncommented(text):
    """The lines that say something: (indentation, words)."""
    for line in text.splitlines():
        line = re.sub(r"(^|\s)--(\s.*|$)", "", line).rstrip()
        if line:
            yield len(line) - len(line.lstrip()), line.strip()


class Names(dict):
    """Name to text; a name that comes again (in another section, say) is numbered."""

    def declare(self, name, text):
        times = 1
        while name in self:
            times += 1
            name = f"{name.partition('#')[0]}#{times}"
        self[name] = text
        return name


class Laws:
    """Reads the declarations of an .antt file, at its top and in its sections."""

    def __init__(self, text):
        self.names = Names()
        self.sections = []  # (indentation of its head, its head)
        self.level = 0  # None: the next line sets it
        self.head = None  # a section's head that has not reached its 'where'
        self.current = None
        for indentation, line in uncommented(text):
            self.read(indentation, line)

    def read(self, indentation, line):
        if self.head is not None:
            self.section_head(*self.head, line)
            return
        while self.sections and indentation <= self.sections[-1][0]:
            self.level = self.sections.pop()[0]
        if self.level is None:
            self.level = indentation
        if indentation > self.level:
            self.go_on(self.current, line)
        elif SECTION.match(line):
            self.section_head(indentation, "", line)
        elif PASSED_OVER.match(line):
            self.current = None
        else:
            self.declaration(line)

    def section_head(self, indentation, begun, line):
        """What stands in a section depends on its parameters, so its head belongs to each declaration."""
        head = f"{begun} {line}"
        if re.search(r"\bwhere$", line) or head.strip() == "mutual":
            self.sections.append((indentation, head))
            self.level, self.head, self.current = None, None, None
        else:
            self.head = (indentation, head)

    def declaration(self, line):
        found = TYPE.match(line) or DECLARED.match(line)
        if found:
            within = " ".join(head for _, head in self.sections)
            self.current = self.names.declare(found[1], f"{within} {line}")
        else:
            # A clause of the name it begins with, else of the declaration above it.
            word = line.split()[0]
            self.go_on(word if word in self.names else self.current, line)

    def go_on(self, name, line):
        if name is not None:
            self.names[name] += f" {line}"


def laws(text):
    return {name: tight(text) for name, text in Laws(text).names.items()}


def closing(text, at):
    """Just past the brace that closes the one at this place."""
    depth = 0
    for brace in re.compile("[{}]").finditer(text, at):
        depth += 1 if brace[0] == "{" else -1
        if depth == 0:
            return brace.end()
    return len(text)


def ending(text, at, signs):
    """Where one of these signs stands outside brackets, the angled ones too, or the text's end."""
    depth = 0
    while at < len(text) and not (text[at] in signs and depth <= 0):
        if text[at] == "{":
            at = closing(text, at)
            continue
        if text[at - 1 : at + 1] not in ("->", "=>"):
            depth += {"(": 1, "[": 1, "<": 1, ")": -1, "]": -1, ">": -1}.get(text[at], 0)
        at += 1
    return at


# What no code stands in: a comment, a text, a character; but for a text of one word, as in extern "C".
NO_CODE = re.compile(r'//[^\n]*|/\*.*?\*/|\b[bc]?r(#*)".*?"\1|b?"(?:\\.|[^"\\])*"|b?\'(?:\\.|[^\'\\])\'', re.S)


def code(text):
    return NO_CODE.sub(lambda found: found[0] if re.fullmatch(r'"\w*"', found[0]) else " ", text)


def before(text, at):
    """The words before an item of code, its attributes among them."""
    return tight(re.split("[;{}]", text[:at])[-1])


def blocks(text):
    """Each impl and trait of code: the words before it, its head, where its body begins and where it ends."""
    for item in re.finditer(r"\b(?:impl|trait)\b", text):
        end = ending(text, item.start(), "{;")
        if text[end : end + 1] == "{":
            yield before(text, item.start()), tight(text[item.start() : end]), end + 1, closing(text, end)


def shell(head):
    """A head with nothing between its brackets, and its length."""
    found, depth = "", 0
    for at, sign in enumerate(head):
        closes = sign in ">)]}" and head[at - 1 : at + 1] not in ("->", "=>")
        depth -= closes
        found += " " if depth > 0 else sign
        depth += sign in "<([{"
    return found


def implemented(head):
    """(trait, type) of an impl's head, or nothing where it is no impl of a trait."""
    found = re.match(r"impl\b(?:\s*<\s*>)?\s*(.*?)\s*\bfor\b(?!\s*<\s*>(?!\s*::))\s*(.*?)(?:\s+where\b.*)?$", shell(head))
    return found and (head[found.start(1) : found.end(1)], head[found.start(2) : found.end(2)])


def functions(text):
    """Each function of an .rt file: its name, the words before fn, what it takes and gives, its clauses.

    A trait's method has the words before its trait too: it is as public as that.
    """
    text = code(text)
    places = [(0, len(text), "", "")]
    for item in re.finditer(r"\bimpl\s+(\w+)\s*\{", text):
        places.append((item.end(), closing(text, item.end() - 1), f"{item[1]}::", ""))
    for words, head, begun, end in blocks(text):
        if head.startswith("trait"):
            places.append((begun, end, "", f"{words} trait "))
    for item in re.finditer(r"\bfn\s+(\w+)", text):
        _, _, owner, within = max(place for place in places if place[0] <= item.start() < place[1])
        at, taken, clauses = item.end(), None, []
        while True:
            end = ending(text, at, "{;")
            clause = re.search(r"\b(requires|ensures)(?:\s+[\w-]+)?\s*$", text[at:end])
            said = at + clause.start() if clause else end
            taken = tight(text[item.end() : said]) if taken is None else taken
            if not clause or text[end : end + 1] != "{":
                break
            at = closing(text, end)
            clauses.append((clause[1], tight(text[said:at])))
        yield owner + item[1], within + before(text, item.start()), taken, clauses


def ghosts(head, body):
    """(name, law) for each `ghost` line of an impl or a trait, and none that stands deeper in it: with its head and the use
    lines within, which can give its words another meaning."""
    uses, at = re.findall(r"\bghost\s+use\b[^;]*;", body), 0
    while at < len(body):
        end = ending(body, at, "{;")
        law = re.search(r"\bghost\s+(\w+)\s*[:=]\s*$", body[at:end])
        if law:
            begun, end = at + law.start(), ending(body, end, ";")
            yield law[1], tight(" ".join([head, *uses, body[begun : end + 1]]))
        at = closing(body, end) if body[end : end + 1] == "{" else end + 1


def given(text):
    """Each law of an .rt file by name, as <TYPE as TRAIT>::LAW of an impl."""
    found, text = Names(), code(text)
    for _, head, begun, end in blocks(text):
        of = implemented(head)
        owner = f"<{of[1]} as {of[0]}>" if of else head.partition(" ")[2]
        for name, law in ghosts(head, text[begun : end - 1]):
            found.declare(f"{owner}::{name}", law)
    return found


def exported(words):
    """Whether a function with these words before it can be called from C."""
    return bool(re.search(r"\b(?:extern|no_mangle|export_name)\b", words))


def parameters(taken):
    """(name, type) for each parameter of what a function takes and gives, and the type of its result."""
    depth, found, begun = 0, [], 0
    for at, sign in enumerate(taken):
        depth += {"(": 1, "[": 1, ")": -1, "]": -1}.get(sign, 0)
        if sign == "(" and depth == 1:
            begun = at + 1
        elif (sign == "," and depth == 1) or (sign == ")" and depth == 0):
            name, _, width = taken[begun:at].partition(":")
            if name.strip():
                found.append((name.split()[-1], tight(width)))
            begun = at + 1
            if depth == 0:
                break
    return found, taken[begun:].strip().removeprefix("->").strip()


def exported_calls(root):
    """Name to (parameters, result) for each function of the crates that can be called from C."""
    return {
        name.split("::")[-1]: parameters(taken)
        for file in sorted(root.glob("crates/*/src/**/*.rt"))
        for name, words, taken, _ in functions(file.read_text())
        if exported(words)
    }


def promises(text):
    """The head of each function of an .rt file that requires or ensures something, and each law of a trait or an impl."""
    found = Names()
    for name, _, taken, clauses in functions(text):
        if clauses:
            found.declare(name, " ".join([f"fn {name.split('::')[-1]}{taken}", *(text for _, text in clauses)]))
    return {**found, **given(text)}


def report(name, faults, fine):
    """Says what faults(ROOT) finds, a line each, and fails; ROOT is the command's first word, or this repository."""
    found = list(faults(Path(sys.argv[1]) if len(sys.argv) > 1 else Path(__file__).resolve().parents[1]))
    for each in found or [fine]:
        print(f"{name}: {each}")
    raise SystemExit(bool(found))
