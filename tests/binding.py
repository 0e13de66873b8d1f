#!/usr/bin/env python3
"""Checks docs/BINDING.md: a row for each rule of docs/RULES.md, in order, no empty cell, and every name still there.

    tests/binding.py
"""
import re
import sys

sys.dont_write_bytecode = True
from interface import ROOT

RULE = re.compile(r"^- \*\*(\d+\.\d+)\*\*", re.MULTILINE)
ROW = re.compile(r"^\| (\d+\.\d+) \|(.*)\|$", re.MULTILINE)
NAME = re.compile(r"`([^`]+)`")
COLUMNS = ["definition", "promise or theorem", "worked", "wrong program"]
# what may stand before a declared name
ANTT = r"^\s*(?:(?:pub|abbrev|unfoldable|data|record)\s+)*{}(?=[\s:]|$)"
TYPE = r"^\s*(?:pub\s+)?(?:struct|enum)\s+{}\b"
FUNCTION = r"^\s*(?:pub(?:\(crate\))?\s+)?(?:extern \"C\"\s+)?fn\s+{}\b"


def declared(crate, parts, pattern, name):
    """Whether a file under one of these parts of a crate declares the name."""
    line = re.compile(pattern.format(re.escape(name)), re.MULTILINE)
    files = (file for part in parts for file in sorted((ROOT / "crates" / crate / part).rglob("*")) if file.is_file())
    return any(line.search(file.read_text()) for file in files if file.suffix in {".antt", ".rt"})


def exists(column, entry):
    """Whether an entry of a column is in the repository."""
    if entry.startswith("tests/"):
        return column == "worked" and (ROOT / entry).is_file()
    if "::" in entry:
        crate, name = entry.split("::")
        return column == "promise or theorem" and declared(crate, ["src"], FUNCTION, name)
    crate, _, name = entry.partition("/")
    if column == "wrong program":
        return (ROOT / "crates" / crate / "must-fail" / f"{name}.edit").is_file()
    if column == "definition":
        return declared(crate, ["specs"], ANTT, name) or declared(crate, ["src"], TYPE, name)
    return declared(crate, ["proofs"], ANTT, name)


def faults(rules, rows):
    """What is wrong with the table, in words."""
    if rules != [number for number, _ in rows]:
        missing, more = set(rules) - {n for n, _ in rows}, {n for n, _ in rows} - set(rules)
        yield f"its rows are not the rules in their order (without a row: {sorted(missing)}; without a rule: {sorted(more)})"
    for number, cells in rows:
        cells = [cell.strip() for cell in cells.split("|")]
        if len(cells) != len(COLUMNS):
            yield f"rule {number} has {len(cells)} cells"
        for column, cell in zip(COLUMNS, cells):
            others = re.findall(r"\d+\.\d+", cell) if cell.startswith("as ") else []
            if not NAME.search(cell) and not others:
                yield f"rule {number} has no {column}"
            yield from (f"rule {number} points at rule {other}, which is none" for other in others if other not in rules)
            for entry in NAME.findall(cell):
                if not exists(column, entry):
                    yield f"rule {number}: {column} {entry} is not there"


def main():
    rules = RULE.findall((ROOT / "docs/RULES.md").read_text())
    rows = ROW.findall((ROOT / "docs/BINDING.md").read_text())
    found = list(faults(rules, rows))
    if found or not rules:
        sys.exit("\n".join(["docs/BINDING.md:"] + found))
    names = {entry for _, cells in rows for entry in NAME.findall(cells)}
    print(f"binding: {len(rules)} rules, {len(names)} names, all there")


main()
