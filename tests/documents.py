#!/usr/bin/env python3
"""Holds the documents to what the repository does.

    tests/documents.py              the gate: figures, then commands
    tests/documents.py figures      only the parts that a script makes
    tests/documents.py write        puts those parts into the documents

A part between `<!-- COMMAND -->` and `<!-- end -->` is what COMMAND prints. No other line of docs/GUARANTEES.md has a
figure with decimals. Each line of a block of README marked `sh` is run, from the repository's root, in order, and what
the block prints must be as the block marked `text` behind it shows: `..` stands there for any text within a line, and
alone on a line for any lines. Every test in tests/ is among README's commands. The time of each is printed.
"""
import re
import subprocess
import sys
import time
from pathlib import Path

ROOT = Path(__file__).resolve().parent.parent
README = ROOT / "README.md"
PAGE = ROOT / "docs/GUARANTEES.md"
MADE = re.compile(r"(<!-- (\S+/\S.*?) -->\n)(.*?)(<!-- end -->\n)", re.DOTALL)
BLOCK = re.compile(r"^```(\w+)\n(.*?)^```$", re.DOTALL | re.MULTILINE)

GATE = ".ci/run"  # runs this script
ENDLESS = "tests/differential forever"
ENDLESS_SECONDS = 8
HELD = {"tests/documents.py": "this script", "tests/guarantees.py": "makes a part of a page",
        "tests/refusals.py": "makes a part of a page", "tests/forgotten.py": "makes a part of a page",
        "tests/version.py": "makes a part of a page"}


def fail(message):
    sys.exit(f"documents: {message}")


# ---- parts that a script makes

def made_by(command):
    return subprocess.run(command, shell=True, cwd=ROOT, stdout=subprocess.PIPE, text=True, check=True).stdout


def with_made_parts(text):
    return MADE.sub(lambda part: part[1] + made_by(part[2]) + part[4], text)


def figures(write):
    parts = 0
    for path in (README, PAGE):
        text = path.read_text()
        parts += len(MADE.findall(text))
        wanted = with_made_parts(text)
        if wanted != text and write:
            path.write_text(wanted)
        elif wanted != text:
            differing = next(line for line in wanted.splitlines() if line not in text.splitlines())
            fail(f"{path.name} does not have what its script prints now: {differing}\n`tests/documents.py write` puts it there")
    loose = [line for line in MADE.sub("", PAGE.read_text()).splitlines() if re.search(r"\d\.\d", line)]
    if loose:
        fail(f"{PAGE.name} has a figure that no script makes: {loose[0]}")
    if parts < 8:
        fail(f"{parts} parts are made by scripts, where 8 are wanted")
    print(f"documents: {parts} parts are as their scripts print them")


# ---- commands

def pattern(text):
    """What a `text` block stands for, as an expression for the whole output."""
    lines = []
    for line in text.splitlines():
        lines.append("(.*\n)*?" if line == ".." else ".*".join(map(re.escape, line.split(".."))) + "\n")
    return "".join(lines)


def blocks(text):
    """The `sh` blocks, each with the `text` block behind it or None."""
    found = BLOCK.findall(text)
    for (kind, body), (next_kind, shown) in zip(found, [*found[1:], (None, None)]):
        if kind == "sh":
            yield body, shown if next_kind == "text" else None
        elif kind != "text":
            fail(f"a page has a block marked {kind}")


def commands(body):
    return [line.split("  #")[0].strip() for line in body.splitlines() if line.strip() and not line.startswith("#")]


def run(command):
    """What a command prints on standard output."""
    if command == GATE:
        return ""
    began = time.monotonic()
    limit = ENDLESS_SECONDS if command == ENDLESS else None
    words = ["timeout", "-s", "INT", str(limit)] if limit else []
    done = subprocess.run([*words, "bash", "-euo", "pipefail", "-c", command], cwd=ROOT, stdin=subprocess.DEVNULL,
                          capture_output=True, text=True)
    print(f"  {time.monotonic() - began:6.1f} s  {command}", flush=True)
    if command.startswith("tests/"):
        print("".join(f"             {line}\n" for line in done.stdout.splitlines()), end="", flush=True)
    if done.returncode != (124 if limit else 0):
        fail(f"`{command}` ends with exit status {done.returncode}\n{done.stdout[-3000:]}{done.stderr[-3000:]}")
    return done.stdout


def try_page(page):
    """Runs the commands of a page, and holds the page to what they print."""
    ran = []
    for body, shown in blocks(page.read_text()):
        lines = commands(body)
        printed = "".join(map(run, lines))
        ran += lines
        if shown is not None and not re.fullmatch(pattern(shown), printed):
            fail(f"after `{lines[-1]}` {page.name} shows\n{shown}where this was printed:\n{printed[-3000:]}")
    return ran


def try_commands():
    print("documents: README's commands, as run:")
    ran = try_page(README)
    words = {word for line in ran for word in line.split()}
    tests = {str(path.relative_to(ROOT)) for path in (ROOT / "tests").iterdir() if path.stat().st_mode & 0o100}
    left_out = sorted(tests - words - set(HELD))
    if left_out or GATE not in ran:
        fail(f"README's commands leave out {', '.join(left_out) or GATE}")
    print(f"documents: {len(ran)} commands of README print what it shows")


def main():
    words = sys.argv[1:]
    if words not in ([], ["figures"], ["write"]):
        sys.exit(__doc__)
    if not words:
        try_commands()
    figures(write=words == ["write"])


if __name__ == "__main__":
    main()
