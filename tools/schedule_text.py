"""Schedules as people write them: a line a step, '#' for a comment. A text can have one step more, to retire a site.

    sites 3 keys 4
    put 0 1 7           site 0, key 1, value 7
    deliver 1 0         to site 1, from origin 0
    get 1 1             site 1, key 1
    drain 2             site 2
    drain 2 origin=1    a field that the step does not use: refused with 12
    bytes 48 01         last of all: bytes of a step or header that was cut, or that are not read
    retire 1            site 1: a call from C, which a table and a picture can have

A schedule has document 01's four steps and no other: no look and no adopt, no touch and no cold list, and no retire.
So a text with a retire has no bytes, and is played by build/table, which makes its calls from C.
"""

import re
from typing import NamedTuple

import schedule_bytes as form


class Script(NamedTuple):
    """What a text says: the header's bytes, the steps, and the bytes at the end."""

    header: bytes
    steps: list
    left: bytes = b""

    def retires(self):
        return any(one.operation == "retire" for one in self.steps)


class BadLine(Exception):
    def __init__(self, line, why):
        super().__init__(f"line {line}: {why}")
        self.line = line


def number(line, name, word, width):
    if not re.fullmatch("[0-9]+", word):
        raise BadLine(line, f"{name} is a number, not '{word}'")
    if int(word) >> width:
        raise BadLine(line, f"{name} {word} is above {(1 << width) - 1}")
    return int(word)


def header(line, words):
    if len(words) != 4 or words[0] != "sites" or words[2] != "keys":
        raise BadLine(line, "a schedule begins with 'sites N keys K'")
    return bytes([number(line, "sites", words[1], 8), number(line, "keys", words[3], 8)])


def step(line, words):
    operation, *rest = words
    if operation not in form.USES:
        raise BadLine(line, f"'{operation}' is none of {', '.join(form.USES)}, bytes")
    plain = [word for word in rest if "=" not in word]
    names = form.USES[operation]
    if len(plain) != len(names):
        raise BadLine(line, f"{operation} takes {' '.join(names)}")
    fields = dict(zip(names, plain))
    for name, _, word in (word.partition("=") for word in rest if "=" in word):
        if name not in form.WIDTHS or name in fields or operation == "retire":
            raise BadLine(line, f"'{name}=' is not a field that {operation} leaves unused")
        fields[name] = word
    return form.Step(operation, **{name: number(line, name, word, form.WIDTHS[name]) for name, word in fields.items()})


def raw(line, words, script):
    """The bytes at the end: less than a header or a step, or behind the last step that is read."""
    if not all(re.fullmatch("[0-9A-Fa-f]{2}", word) for word in words):
        raise BadLine(line, "bytes are written as two hexadecimal digits each")
    whole = form.STEP_BYTES if script.header else form.HEADER_BYTES
    if len(words) >= whole and len(script.steps) < form.MOST_STEPS:
        raise BadLine(line, f"{whole} bytes or more are a {'step' if script.header else 'header'}: write it as one")
    if script.retires():
        raise BadLine(line, "bytes are a schedule's, which has no retire")
    return bytes.fromhex("".join(words))


def lines_of(text):
    """The lines that say something: their number and words."""
    for at, line in enumerate(text.splitlines(), 1):
        words = line.partition("#")[0].split()
        if words:
            yield at, words


def script_of(text):
    script, ended = Script(b"", []), False
    for line, words in lines_of(text):
        if ended:
            raise BadLine(line, "nothing follows 'bytes'")
        if words[0] == "bytes":
            script, ended = script._replace(left=raw(line, words[1:], script)), True
        elif not script.header:
            script = script._replace(header=header(line, words))
        else:
            script.steps.append(step(line, words))
            if len(script.steps) > form.MOST_STEPS:
                raise BadLine(line, f"only {form.MOST_STEPS} steps are read")
    if not script.header and not ended:
        raise BadLine(len(text.splitlines()) + 1, "a schedule begins with 'sites N keys K'")
    return script


def bytes_of(script):
    return script.header + b"".join(map(form.step_bytes, script.steps)) + script.left


def schedule_of(text):
    """The bytes of a schedule."""
    for line, words in lines_of(text):
        if words[0] == "retire":
            raise BadLine(line, "a schedule has no retire; play, table and the picture make that call")
    return bytes_of(script_of(text))


def step_text(one):
    words = [one.operation] + [str(getattr(one, name)) for name in form.USES[one.operation]]
    return " ".join(words + [f"{name}={getattr(one, name)}" for name in one.unused()])


def script_text(script):
    """Without comments, a line a step; script_of gives the same script back."""
    lines = [f"sites {script.header[0]} keys {script.header[1]}"] if script.header else []
    lines += [step_text(one) for one in script.steps]
    if script.left or not lines:
        lines.append(" ".join(["bytes"] + [f"{byte:02X}" for byte in script.left]))
    return "\n".join(lines) + "\n"


def text_of(schedule):
    """The text of any bytes; schedule_of gives the same bytes back."""
    if len(schedule) < form.HEADER_BYTES:
        return script_text(Script(b"", [], schedule))
    steps = form.steps_of(schedule)
    left = schedule[form.HEADER_BYTES + form.STEP_BYTES * len(steps) :]
    return script_text(Script(schedule[: form.HEADER_BYTES], steps, left))
