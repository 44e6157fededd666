"""Each call that the header declares against the function of the source: names, widths and order, none missing here or
there. And no number of the header that reads.c does not expect.

usage: gcc -E -P HEADER | calls.py HEADER READS.c
"""

import re
import sys
from pathlib import Path

ROOT = Path(__file__).resolve().parents[2]
sys.path.insert(0, str(ROOT / "tools"))
from declared import closing, exported_calls, tight  # noqa: E402

WIDTHS = {"u8": "uint8_t", "u16": "uint16_t", "u32": "uint32_t", "u64": "uint64_t", "usize": "size_t"}
LENT = {"&mut [u8]": "uint8_t *", "&[u8]": "const uint8_t *"}
# A name that a contract can't have, and what stands for it there.
RENAMED = {"hour": "now"}


def in_c(name, parameters, result):
    """The declaration of a function of the source, as the header should have it."""
    taken = []
    for each, width in parameters:
        each = RENAMED.get(each, each)
        if width in LENT:
            taken += [f"{LENT[width]}{each}", f"size_t {each}_len"]
        else:
            taken.append(f"{WIDTHS.get(width, f'({width})')} {each}")
    return f"{WIDTHS.get(result, f'({result})')} {name}({', '.join(taken) or 'void'})"


def declared(header):
    """The declarations of a header that the preprocessor has been over; what stands in braces has none."""
    while (brace := header.find("{")) >= 0:
        header = header[:brace] + ";" + header[closing(header, brace) :]
    for each in header.split(";"):
        if re.search(r"\bfc_\w+\s*\(.*\)\s*$", each, re.S) and "static" not in each:
            yield re.sub(r"\s*\*\s*", " *", re.sub(r"\s*([(,)])\s*", r"\1", tight(each))).replace(",", ", ")


def faults(header, calls):
    wanted, found = {in_c(name, *call) for name, call in calls.items()}, list(declared(header))
    yield from (f"it does not declare {each}" for each in sorted(wanted - set(found)))
    yield from (f"no function of the source is {each}" for each in sorted(set(found) - wanted))
    if len(found) > len(set(found)):
        yield "it declares a call twice"


def unexpected(header, reads):
    """The constants of a header that reads.c does not expect; of its codes the compiler says so."""
    expected = re.findall(r"\bEXPECT\((FC_\w+),", reads)
    return [each for each in re.findall(r"^\s*#\s*define\s+(FC_\w+)", header, re.M) if each not in expected]


def main():
    header, reads = (Path(name).read_text() for name in sys.argv[1:])
    found = list(faults(sys.stdin.read(), exported_calls(ROOT)))
    found += [f"tests/header/reads.c does not expect {each}" for each in unexpected(header, reads)]
    for fault in found:
        print(f"header: FAILED: {fault}")
    raise SystemExit(bool(found))


if __name__ == "__main__":
    main()
