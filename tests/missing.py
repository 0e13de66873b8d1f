#!/usr/bin/env python3
"""Runs each test without what it needs: it must say what is missing, and what makes it, and exit with another status than 0.

    tests/missing.py
"""
import os
import subprocess
import sys
import tempfile

sys.dont_write_bytecode = True
from interface import ROOT

NEED_ARCHIVE = ("tests/differential", "tests/exact.py", "tests/examples", "tests/record.py", "tests/office.py", "bench/run",
                "tests/release.py")
NEED_GCC = ("tests/differential planted", "tests/exact.py", "tests/examples", "tests/record.py", "tests/office.py", "tests/release.py")


def check(command, wanted, **environment):
    done = subprocess.run(command.split(), cwd=ROOT, capture_output=True, text=True, env={**os.environ, **environment})
    if done.returncode == 0 or wanted not in done.stderr or "Traceback" in done.stderr:
        sys.exit(f"missing: `{command}` ends with {done.returncode} and does not say '{wanted}':\n{done.stderr[-1000:]}")


def main():
    if len(sys.argv) != 1:
        sys.exit(__doc__)
    none = "target/there-is-none"
    for command in NEED_ARCHIVE:
        check(command, f"{none} is not there; `tools/archive` makes it", BASEFLOW_ARCHIVE=none)
    check(f"tests/separate.py {none}", f"{none} is not there; `rt run` in crates/separate makes it")
    with tempfile.TemporaryDirectory() as folder:
        os.symlink(sys.executable, f"{folder}/python3")
        for command in NEED_GCC:
            check(command, "gcc is not there", PATH=folder, BASEFLOW_ARCHIVE=__file__)
    print(f"missing: {len(NEED_ARCHIVE) + 1 + len(NEED_GCC)} tests say what they need")


main()
