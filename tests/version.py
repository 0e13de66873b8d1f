#!/usr/bin/env python3
"""Makes README's line of the version from the C header, which alone has it. Each heading of docs/CHANGES.md has a version, the
newest the header's, each one step from the one before; the header names the major ones, and for each call a version.

    tests/version.py
"""
import re
import sys

sys.dont_write_bytecode = True
from interface import ROOT

sys.path.append(str(ROOT / "tools"))
import manifest

HEADING = re.compile(r"^## (.*?)(?: \((\d+)\.(\d+)\.(\d+)\))?$", re.MULTILINE)
BASE = 1, 0, 0
MAJOR = re.compile(r"^ \*   (\d+)\.0\.0  ", re.MULTILINE)
COMMENT = re.compile(r"/\*(?:[^*]|\*(?!/))*\*/\n((?:uint32_t baseflow_[^;]*;\n)+)")
SINCE = re.compile(r"^ \* Signatures? since (\d+)\.(\d+)\.(\d+)(?:, that of (\w+) since (\d+)\.(\d+)\.(\d+))?\.$", re.MULTILINE)


def check(holds, message):
    if not holds:
        sys.exit(f"version: {message}")


def numbers(words):
    return tuple(map(int, words))


def shown(version):
    return ".".join(map(str, version))


def landings():
    """The versions of docs/CHANGES.md, the oldest first."""
    for title, *words in reversed(HEADING.findall((ROOT / "docs/CHANGES.md").read_text())):
        check(all(words), f"docs/CHANGES.md has no version behind '{title}'")
        yield numbers(words)


def steps(version):
    """What may come behind a version: a major, a minor, a patch, or itself where nothing that is handed out changed."""
    major, minor, patch = version
    return (major + 1, 0, 0), (major, minor + 1, 0), (major, minor, patch + 1), version


def signatures(header):
    """Since when each call has its signature."""
    for comment in COMMENT.finditer(header):
        found = SINCE.search(comment[0])
        for call in re.findall(r"^uint32_t (\w+)\(", comment[1], re.MULTILINE):
            check(found, f"the header does not say since when {call} has its signature")
            yield call, numbers(found.groups()[4:] if call == found[4] else found.groups()[:3])


def main():
    if len(sys.argv) != 1:
        sys.exit(__doc__)
    header, landed = (ROOT / "include/baseflow.h").read_text(), [BASE, *landings()]
    for before, version in zip(landed, landed[1:]):
        check(version in steps(before), f"docs/CHANGES.md goes from {shown(before)} to {shown(version)}")
    check(shown(landed[-1]) == manifest.version(ROOT),
          f"docs/CHANGES.md is at {shown(landed[-1])}, and the header at {manifest.version(ROOT)}")
    majors = sorted({major for major, *_ in landed} - {BASE[0]})
    check(list(map(int, MAJOR.findall(header))) == majors, f"the header's table of versions is not of {majors}")
    calls = dict(signatures(header))
    check(set(calls) == set(manifest.declared(ROOT)), "the header has a call with no version of its signature")
    for call, version in calls.items():
        check(version in landed, f"the header has {call} since {shown(version)}, which docs/CHANGES.md does not have")
    print(f"This is version {manifest.version(ROOT)}. [include/baseflow.h](include/baseflow.h) has it as `BASEFLOW_VERSION`, and "
          "says for each call since which version it has its signature; [docs/CHANGES.md](docs/CHANGES.md) says what each "
          "version changed, and [docs/RELEASE.md](docs/RELEASE.md) how a buyer checks a release.")


main()
