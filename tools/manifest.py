"""What a release says of itself in its MANIFEST: version, revision, toolchain, gate, proofs, sizes, stack and each file's sum.

Nothing in it differs from run to run or from folder to folder.
"""
import hashlib
import re
import subprocess
from pathlib import Path
from typing import NamedTuple

NAME = "MANIFEST"
VERSION = re.compile(r"^#define BASEFLOW_VERSION_(?:MAJOR|MINOR|PATCH) (\d+)$", re.MULTILINE)
NEEDED = re.compile(r"Of the C library only ([\w, *\n]+?) are needed")
CHECK_TIMES = "docs/check-times.txt"  # made by tools/check_times
CHECK = re.compile(r"^(\w+): (\d+) s, (\d+) functions(?:, (.*))?$", re.MULTILINE)
PROVED = re.compile(r"^logic=proved functions=(\d+)", re.MULTILINE)
LINKED = re.compile(r"^axioms \w+: (?:(?!none|\d)(.*) \(\d+ of)?", re.MULTILINE)
LISTED = re.compile(r"^  (\S+)   reached$", re.MULTILINE)  # with --list-axioms, without which rt names three at most
STACK = re.compile(r"^(?!\w+: )(\S.{27})(?=.*\d\.\d\d).*?\s(\d+)$", re.MULTILINE)  # a row of bench/results, its stack at the end
MEMORY = "memory (malloc, realloc, free)"
PURPOSES = {"libc::read": "reading (read)", "libc::write": "writing (write)", "os::c::rattle_errno": "an error's number (errno)",
            "os::c::__xpg_strerror_r": "an error's words (strerror)", "libc::heap::rattle_alloc": MEMORY,
            "libc::heap::rattle_realloc": MEMORY, "libc::heap::rattle_dealloc": MEMORY}
INDENT = "\n           "
HEAD = """Kulitsabo {version}, the base flow engine of a sealed river gauging box

revision   {revision}
toolchain  {toolchain}
gate       {gate}
proved     {functions} functions in {crates} crates; {wrong} wrong programs are refused

{checks}

Seconds: of one processor, each crate from nothing, on {processor}.
Calls: what a proof takes as it stands of C's library, told of what is linked, the archive and the programs; - is a library.
Beside these every proof takes the checker, the compiler, and the kit's logic and libraries as they are: docs/GUARANTEES.md,
"What is assumed".

code, in bytes, and what it needs from outside
{sizes}

stack, in bytes, measured by bench/run on {bench}
{stacks}

SHA-256 of each file
"""


class Check(NamedTuple):
    """What a check of a crate took, what it proved, and what it took as it stands of C's library (None: nothing is linked)."""
    crate: str
    seconds: int
    functions: int
    reached: tuple | None

    def words(self):
        if self.reached is None:
            return "-"
        return ", ".join(dict.fromkeys(PURPOSES.get(name, name) for name in self.reached)) or "nothing"


class Told(NamedTuple):
    """What is read from a MANIFEST."""
    version: str
    revision: str
    toolchain: str


def run(*words):
    return subprocess.run(list(map(str, words)), stdout=subprocess.PIPE, text=True, check=True).stdout


# ---- facts of the sources and of the toolchain

def version(root):
    """The header's version."""
    return ".".join(VERSION.findall((root / "include/baseflow.h").read_text()))


def declared(root):
    """The header's functions."""
    return re.findall(r"^uint32_t (\w+)\(", (root / "include/baseflow.h").read_text(), re.MULTILINE)


def needed(root):
    """The functions of C's library that the header says the archive needs."""
    sentence = NEEDED.search((root / "include/baseflow.h").read_text())[1]
    return re.findall(r"\w+", sentence.replace(" and ", " "))


def crates(root):
    """The crates of crates.txt, those below first."""
    return re.findall(r"^(\w+)[ \w]*:", (root / "crates.txt").read_text(), re.MULTILINE)


def wrong_programs(root):
    return len(list(root.glob("crates/*/must-fail/*.edit")))


def closing(root):
    """The line with which the gate ends where it passes: it counts the crates that are proved and the wrong programs refused."""
    return f"{len(crates(root)) + wrong_programs(root)} passed, 0 failed"


def toolchain():
    """The kit's line, and the sums of its parts as its file WHAT has them."""
    kit = Path(run("rt", "doc").strip()).parent
    return INDENT.join([run("rt", "version").strip(), *(kit / "WHAT").read_text().splitlines()])


def checked(text):
    """What rt said of a crate, the last of those that it tells of: how many functions it proved, and what they reach of C's
    library (None: nothing is linked). None where it says nothing of a proof."""
    functions, named = PROVED.findall(text), LINKED.findall(text)
    names = LISTED.findall(text) or [name for names in named if names for name in names.split(", ")]
    return (int(functions[-1]), tuple(names) if named else None) if functions else None


def checks(root):
    """The rows of docs/check-times.txt."""
    for crate, seconds, functions, reached in CHECK.findall((root / CHECK_TIMES).read_text()):
        names = tuple(reached.split()) if reached != "nothing of C" else ()
        yield Check(crate, int(seconds), int(functions), names if reached else None)


def stacks(root, kit):
    """The heading of the kit's results that have the most rows, which are the newest, and the most stack of each kind of row."""
    texts = [path.read_text() for path in sorted((root / "bench/results").glob("*.txt"))]
    text = max((text for text in texts if f"\nkit: {kit}\n" in text), key=lambda text: len(dict(STACK.findall(text))))
    most = {}
    for row, stack in STACK.findall(text):
        kind = row.split(",")[0].strip()
        most[kind] = max(int(stack), most.get(kind, 0))
    return text.splitlines()[0].removeprefix("processor: "), most


# ---- the text

def table(rows):
    """Rows of words in columns, the numbers to the right."""
    rows = [list(map(str, row)) for row in rows]
    widths = [max(len(row[at]) for row in rows) for at in range(len(rows[0]))]
    cells = ([word.rjust(width) if word.isdigit() else word.ljust(width) for word, width in zip(row, widths)] for row in rows)
    return "\n".join("  ".join(row).rstrip() for row in cells)


def code(root, folder):
    """The sizes of archive and program, as `size` has them, and the names that they need."""
    for name, where in (("lib/libbaseflow.a", "of C's library"), ("bin/separate", "of the system's libc.so.6")):
        text, data, bss = run("size", folder / name).splitlines()[1].split()[:3]
        names = undefined(folder / name)
        yield f"{name}: text {text}, data {data}, bss {bss}; {', '.join(names)} {where}"


def undefined(path):
    """The names that an archive or a program needs from outside; those that may be missing are not among them."""
    table = run("nm", "--undefined-only", "--portability", *["--dynamic"] * (path.suffix != ".a"), path)
    return sorted({line.split("@")[0].split()[0] for line in table.splitlines() if re.search(r" U\b", line)})


def sums(folder):
    """Each file of a release but its MANIFEST, with its SHA-256."""
    for path in sorted(path for path in folder.rglob("*") if path.is_file()):
        name = str(path.relative_to(folder))
        if name != NAME:
            yield f"{hashlib.sha256(path.read_bytes()).hexdigest()}  {name}"


def manifest(root, folder, revision):
    """The text of the MANIFEST of a folder that has all the other files."""
    rows, kit = list(checks(root)), toolchain()
    processor = re.search(r"^processor: (.*)$", (root / CHECK_TIMES).read_text(), re.MULTILINE)[1]
    bench, most = stacks(root, kit.split()[0])
    return HEAD.format(
        version=version(root), revision=revision, toolchain=kit, gate=closing(root), processor=processor, bench=bench,
        functions=sum(row.functions for row in rows), crates=len(crates(root)), wrong=wrong_programs(root),
        checks=table([("crate", "functions", "seconds", "calls"),
                      *((row.crate, row.functions, row.seconds, row.words()) for row in rows)]),
        sizes="\n".join(code(root, folder)), stacks=table(most.items())) + "\n".join(sums(folder)) + "\n"


def read(folder):
    """What the MANIFEST of a release tells, or None where it is no MANIFEST."""
    path = folder / NAME
    text = path.read_text(errors="replace") if path.is_file() else ""
    found = [re.search(pattern, text, re.MULTILINE) for pattern in
             (r"^Kulitsabo ([\d.]+),", r"^revision   ([0-9a-f]{40})$", rf"^toolchain  (.*(?:{INDENT}.*)*)$")]
    return Told(*(part[1] for part in found)) if all(found) else None
