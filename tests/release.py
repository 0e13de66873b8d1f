#!/usr/bin/env python3
"""Tests tools/release: a release is built anew in another folder and compared, each of its files is changed by a bit, and what is
in it is used. Archive and program name no folder, user or time; the archive has and needs what the header says.

    tests/release.py
"""
import getpass
import importlib.machinery
import importlib.util
import os
import re
import shutil
import socket
import subprocess
import sys
import tempfile
from pathlib import Path
from unittest import mock

sys.dont_write_bytecode = True
from interface import ROOT, archive

TOOL = ROOT / "tools/release"
loader = importlib.machinery.SourceFileLoader("release_tool", str(TOOL))
tool = importlib.util.module_from_spec(importlib.util.spec_from_loader("release_tool", loader))
loader.exec_module(tool)
manifest = tool.manifest

SHOWN = re.compile(r"^```sh\n(.*?)^```\n\n^```text\n(.*?)^```$", re.MULTILINE | re.DOTALL)
SOURCES = ("README.md", "crates", "tests", "bench")  # where links may lead that are not of the release
LOADER = b"lib64/ld-linux-x86-64.so.2"  # of every program for this system
PLACE = re.compile(rb"[\w.+-]{2,}/[\w.+-]{3,}")
MONTHS = rb"Jan|Feb|Mar|Apr|May|Jun|Jul|Aug|Sep|Oct|Nov|Dec"
TIME = re.compile(rb"\b(?:19|20)\d\d-\d\d-\d\d\b|\b\d\d:\d\d:\d\d\b|\b(?:%s) [ \d]\d\b" % MONTHS)
MEMBER = re.compile(rb"[\w./ ]{16}(\d+) +(\d+) +(\d+) +\d+ +\d+ +`\n")  # in an archive: time, user and group
LINK = re.compile(r"\]\(([^)#\s:]+)(?:#[^)]*)?\)")


def check(holds, message):
    if not holds:
        sys.exit(f"release: {message}")


def run(*words, **how):
    return subprocess.run(list(map(str, words)), capture_output=True, text=True, **how)


# ---- archive and program

def check_symbols(path):
    """The archive has the header's functions and no other name, and needs no more than the header says."""
    names = {line.split()[0] for line in run("nm", "--defined-only", "--extern-only", "--portability", path).stdout.splitlines()
             if len(line.split()) > 1}
    declared = set(manifest.declared(ROOT))
    check(names == declared, f"archive and header differ by {sorted(names ^ declared)}")
    needs = manifest.undefined(path)
    check(needs == sorted(manifest.needed(ROOT)), f"the archive needs {needs}, and the header says {manifest.needed(ROOT)}")
    return len(names)


def check_names(path):
    """Nothing that can be read in a file names a folder, this user, this machine or a time."""
    names = (name.encode() for name in {getpass.getuser(), socket.gethostname(), Path.home().name} if len(name) > 2)
    named = [re.compile(rb"(?<!\w)%s(?!\w)" % re.escape(name)) for name in names]
    for text in re.findall(rb"[\x20-\x7e]{4,}", path.read_bytes()):
        found = [word for pattern in (PLACE, TIME, *named) for word in pattern.findall(text) if word != LOADER]
        check(not found, f"{path.name} names {found}")


def check_members(path):
    """The archive's members have no time and no owner."""
    found = MEMBER.findall(path.read_bytes())
    check(found and {number for member in found for number in member} == {b"0"}, f"the archive's members have {found}")


# ---- the release and the one that is built anew

def sources(room):
    """A repository of the files as they stand here, and its revision."""
    copy = room / "sources"
    listed = run("git", "ls-files", "-z", "--cached", "--others", "--exclude-standard", cwd=ROOT, check=True).stdout
    for name in filter(None, listed.split("\0")):
        if (ROOT / name).is_file():
            (copy / name).parent.mkdir(parents=True, exist_ok=True)
            shutil.copy2(ROOT / name, copy / name)
    run("git", "init", "--quiet", cwd=copy, check=True)
    return copy, commit(copy)


def commit(copy):
    run("git", "add", "--all", cwd=copy, check=True)
    run("git", "-c", "user.name=test", "-c", "user.email=test@test.example", "commit", "--quiet", "--message", "as it stands",
        cwd=copy, check=True)
    return run("git", "rev-parse", "HEAD", cwd=copy, check=True).stdout.strip()


def check_verified(folder, copy, kept, revision):
    """The sources, built anew in a folder of their own, come to the same release."""
    done = run(TOOL, "--verify", folder, "--from", copy, "--keep", kept)
    wanted = f"verified: {len(tool.files(folder))} files of {manifest.version(ROOT)} at {revision} match, built anew\n"
    check((done.returncode, done.stdout) == (0, wanted), f"{done.returncode} {done.stdout}{done.stderr}")


def differs(folder, kept, what, name):
    """One file differs, and it is told what became of it."""
    line, status = tool.told(folder, kept)
    check(status == 1 and line.startswith(f"differs: {what} {name}; "), f"where {name} is {what}: {line}")


def check_bits(folder, kept):
    """A changed bit is found, in each file."""
    for name in tool.files(folder):
        path = folder / name
        data = path.read_bytes()
        middle = len(data) // 2
        path.write_bytes(data[:middle] + bytes([data[middle] ^ 1]) + data[middle + 1:])
        differs(folder, kept, "changed", name)
        path.write_bytes(data)


def check_lists(folder, kept):
    """A file that is missing, added, a link or no longer to be run is found."""
    path = folder / "bin/separate"
    path.chmod(0o644)
    differs(folder, kept, "changed", "bin/separate")
    path.rename(folder.parent / "moved")
    differs(folder, kept, "missing", "bin/separate")
    path.symlink_to(folder.parent / "moved")
    differs(folder, kept, "changed", "bin/separate")
    path.unlink()
    (folder.parent / "moved").rename(path)
    path.chmod(0o755)
    (folder / "docs/MORE.md").write_text("more\n")
    differs(folder, kept, "added", "docs/MORE.md")
    (folder / "docs/MORE.md").unlink()
    check(tool.told(folder, kept)[1] == 0, "the release is as it was, and is told to differ")


def check_tars(folder, kept, room):
    """The tar is the same of two folders, whatever else their files have; and it unpacks to the release."""
    other = room / "elsewhere" / folder.name
    shutil.copytree(kept, other, copy_function=shutil.copyfile)
    for name, (may_run, _) in tool.files(kept).items():
        (other / name).chmod(0o700 if may_run else 0o600)
    tars = [path.with_name("packed.tar") for path in (folder, other)]
    for path, tar in zip((folder, other), tars):
        tool.pack(path, tar)
    check(tars[0].read_bytes() == tars[1].read_bytes(), "the tars of two folders differ")
    (room / "unpacked").mkdir()
    run("tar", "-xf", tars[0], "-C", room / "unpacked", check=True)
    check(tool.told(room / "unpacked" / folder.name, kept)[1] == 0, "the tar unpacks to another release")


# ---- what is refused

def check_refused(folder, copy):
    other = folder.with_name("other")
    shutil.copytree(folder, other)
    path = other / manifest.NAME
    for old, new, wanted in (
            (r"(?m)^revision   .*", "revision   " + "0" * 40, "has no revision 0000"),
            (r"(?m)^toolchain  ", "toolchain  another ", "the release is made by another rattle-kit"),
            (r"(?m)^revision ", "version ", "has no MANIFEST of a release")):
        path.write_text(re.sub(old, new, (folder / manifest.NAME).read_text()))
        done = run(TOOL, "--verify", other, "--from", copy)
        check(done.returncode == 2 and wanted in done.stderr, f"where '{wanted}' is wanted: {done.returncode} {done.stderr}")
    for words in ([], ["--verify"], [folder, "--verify", folder], ["--no-such-word"]):
        check(run(TOOL, *words).returncode == 2, f"the words {words} are taken")


def made(copy, room, ending):
    """What tools/release comes to in a copy whose gate ends so: its status, and what it made."""
    (copy / ".ci/run").write_text(f"#!/bin/sh\n{ending}\n")
    commit(copy)
    with mock.patch.multiple(tool, ROOT=copy, build=mock.DEFAULT, count=mock.DEFAULT) as called:
        with mock.patch.object(sys, "argv", ["release", str(room)]), open(os.devnull, "w") as null:
            with mock.patch.multiple(sys, stdout=null, stderr=null):
                return tool.main(), room.exists(), all(stub.called for stub in called.values())


def check_made(copy, room):
    """A release is made of a clean checkout whose gate passes, once."""
    for place in tool.BUILT.values():
        (copy / place).parent.mkdir(parents=True, exist_ok=True)
        shutil.copy2(ROOT / place, copy / place)
    passed = f"echo '{manifest.closing(copy)}'"
    for ending in ("echo '3 passed, 0 failed'", f"{passed}; exit 1", "exit 0", f"touch more; {passed}"):
        check(made(copy, room, ending)[1:] == (False, False), f"a release is made where the gate ends with `{ending}`")
    (copy / "more").unlink()
    check(made(copy, room, passed) == (0, True, True), "no release is made of a clean checkout")
    target = room / f"kulitsabo-{manifest.version(copy)}"
    check(manifest.read(target).revision == commit_of(copy), f"the MANIFEST says {manifest.read(target)}")
    check(target.with_name(f"{target.name}.tar").exists(), "there is no tar")
    check(made(copy, room, f"{passed} ")[0] == 2, "a release is made over another")


def commit_of(copy):
    return run("git", "rev-parse", "HEAD", cwd=copy, check=True).stdout.strip()


# ---- what is in it

def built(folder, source, name):
    done = run("gcc", "-std=c11", "-Iinclude", source, "lib/libbaseflow.a", "-o", name, cwd=folder)
    check(done.returncode == 0, f"{source} cannot be built in the release: {done.stderr}")
    return folder / name


def check_used(folder):
    """The tools, the program and the examples work in the release, with nothing else beside them, and agree."""
    run("tools/record", "to-record", "samples/river.csv", "river.record", cwd=folder, check=True)
    index = run("bin/separate", cwd=folder, stdin=open(folder / "river.record")).stdout.splitlines()[-1]
    check(index.startswith("index 0."), f"separate says {index}")
    examples = {path.stem: built(folder, path, path.stem) for path in sorted(folder.glob("examples/*.c"))}
    told = run(examples["separate_record"], "river.record", cwd=folder).stdout
    check(told.endswith(f"{index}\n"), f"separate says {index}, and separate_record {told[-50:]}")
    if (folder / "tools/baseflow").exists():
        table = run("tools/baseflow", "separate", "samples/river.csv", "--method", "1", "--p", "9250", cwd=folder)
        check(index.split()[1] in table.stdout, f"separate says {index}, and tools/baseflow {table.stdout}{table.stderr}")
    (folder / "version.c").write_text(
        '#include <stdio.h>\n#include "baseflow.h"\nint main(void) { return puts(BASEFLOW_VERSION) < 0; }\n')
    version = run(built(folder, "version.c", "version")).stdout.strip()
    check(version == manifest.version(ROOT) == manifest.read(folder).version, f"BASEFLOW_VERSION is {version}")
    return len(examples)


def check_documents(folder):
    """Each link of a document leads to a file of the release, or of the sources as docs/RELEASE.md says. What that page runs in a
    release prints what it shows."""
    links = {(ROOT / "docs" / link).resolve().relative_to(ROOT): page.name
             for page in folder.glob("docs/*.md") for link in LINK.findall(page.read_text())}
    for link, page in links.items():
        check((folder / link).exists() or link.parts[0] in SOURCES and (ROOT / link).exists(),
              f"docs/{page} has a link to {link}, which a release does not have")
    block, shown = SHOWN.search((folder / "docs/RELEASE.md").read_text()).groups()
    done = run("bash", "-euo", "pipefail", "-c", block, cwd=folder)
    check((done.returncode, done.stdout) == (0, shown), f"docs/RELEASE.md shows {shown}, and is told {done.stdout}{done.stderr}")


def main():
    if len(sys.argv) != 1:
        sys.exit(__doc__)
    program = ROOT / tool.BUILT["bin/separate"]
    archive()
    check(program.exists(), f"{program} is not there; `rt run` in crates/separate makes it")
    for needed in ("gcc", "nm", "size", "git", "tar"):
        check(shutil.which(needed), f"{needed} is not there")
    symbols = check_symbols(archive())
    check_members(archive())
    for path in (archive(), program):
        check_names(path)
    with tempfile.TemporaryDirectory() as room:
        room = Path(room)
        folder, kept, used = (room / name for name in ("kulitsabo", "anew", "used"))
        copy, revision = sources(room)
        tool.write(ROOT, folder, revision)
        check_verified(folder, copy, kept, revision)
        check_bits(folder, kept)
        check_lists(folder, kept)
        check_tars(folder, kept, room)
        check_refused(folder, copy)
        check_made(copy, room / "made")
        shutil.copytree(folder, used)
        check_documents(used)
        examples = check_used(used)
        count = len(tool.files(folder))
    print(f"release: {count} files of {manifest.version(ROOT)} match, built anew in another folder; a changed bit in each is "
          f"found; {symbols} functions, {examples} examples")


main()
