#!/usr/bin/env python3
"""Makes README's table of refusals from the C header's enum: number, name and cause. The table of docs/RULES.md and the
comments of the enum in crates/series/src/lib.rt have to say the same causes.

    tests/refusals.py
"""
import re
import sys

sys.dont_write_bytecode = True
from interface import ROOT

ENTRY = re.compile(r"BASEFLOW_(\w+) = (\d+),?\s*/\* (.*) \*/")
ROW = re.compile(r"^\| (\d+) \| ([^|;]*?)(?:;.*)? \|$", re.MULTILINE)
VARIANT = re.compile(r"^    // (\d+): (.*)$", re.MULTILINE)


def main():
    entries = ENTRY.findall((ROOT / "include/baseflow.h").read_text())
    numbers = [int(number) for _, number, _ in entries]
    if numbers != list(range(1, len(numbers) + 1)) or len(numbers) < 24:
        sys.exit(f"include/baseflow.h has the refusals {numbers}")
    causes = [(number, cause.replace(" * ", " × ")) for _, number, cause in entries]
    rules = (ROOT / "docs/RULES.md").read_text()
    for where, stated in [
        ("docs/RULES.md", ROW.findall(rules[rules.index("## Refusal table") : rules.index("## Rivers worked through")])),
        ("crates/series/src/lib.rt", VARIANT.findall((ROOT / "crates/series/src/lib.rt").read_text())),
    ]:
        if stated != causes:
            sys.exit(f"{where} has other causes than include/baseflow.h: {sorted(set(stated) ^ set(causes))}")
    print("| number | in C, after `BASEFLOW_` | cause |\n|---|---|---|")
    for (name, number, _), (_, cause) in zip(entries, causes):
        print(f"| {number} | `{name}` | {cause} |")


main()
