"""The archive exports the source's calls, each of them has its depth measured, and the archive needs no heap, no writable
global and no symbol of others.

usage: symbols.py ARCHIVE DEPTHS
"""

import re
import subprocess
import sys
from pathlib import Path

ROOT = Path(__file__).resolve().parents[2]
sys.path.insert(0, str(ROOT / "tools"))
from declared import exported_calls  # noqa: E402

WRITABLE = (".data", ".bss", ".tdata", ".tbss", ".init_array", ".fini_array")


def lines(*command):
    return subprocess.run(command, capture_output=True, text=True, check=True).stdout.splitlines()


def some(names):
    names = sorted(names)
    return ", ".join(names[:8]) + (f" and {len(names) - 8} more" if len(names) > 8 else "") or "none"


def main():
    archive, depths = sys.argv[1:]
    symbols = [line.split()[-2:] for line in lines("nm", archive) if len(line.split()) >= 2]
    undefined = {name for kind, name in symbols if kind in "Uwv"}
    defined = {name for kind, name in symbols if kind not in "Uwv"}
    exported = {name for kind, name in symbols if kind.isupper() and kind not in "UN"}
    globals_ = {name for kind, name in symbols if kind in "BbDdCGgSsu"}
    rows = [line.split() for line in lines("size", "-A", archive)]
    sections = [(row[0], int(row[1])) for row in rows if len(row) == 3 and row[1].isdigit()]
    written = [
        name
        for name, size in sections
        if size and name.startswith(WRITABLE) and not name.startswith(".data.rel.ro")
    ]
    foreign = undefined - defined

    print(f"symbols: exported {some(exported)}")
    print(f"symbols: of others {some(foreign)}")
    print(f"symbols: code {sum(size for name, size in sections if name.startswith('.text'))} bytes")
    faults = []
    calls = set(exported_calls(ROOT))
    if exported != calls:
        faults.append(f"not exported: {some(calls - exported)}; exported beside: {some(exported - calls)}")
    measured = set(re.findall(r"^ +(\w+) +\d+$", Path(depths).read_text(), re.M))
    if measured != calls:
        faults.append(f"not measured: {some(calls - measured)}; measured beside: {some(measured - calls)}")
    if foreign:
        faults.append(f"needs symbols of others: {some(foreign)}")
    if globals_ or written:
        faults.append(f"writable globals: {some(globals_)}; sections: {some(written)}")
    for fault in faults:
        print(f"symbols: FAILED: {fault}")
    return bool(faults)


sys.exit(main())
