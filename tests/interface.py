"""What the tests share: where things are, how C is built, and the engine's C interface, which is in tools/engine.py."""
import shutil
import subprocess
import sys
from pathlib import Path

sys.path.append(str(Path(__file__).resolve().parent.parent / "tools"))
from engine import ROOT, Bits, Engine, Refused, archive  # the tests take these from here

WARNINGS = ["-Wall", "-Wextra", "-Wconversion", "-std=c11", "-pedantic"]
INCLUDE = [f"-I{ROOT}/include", f"-I{ROOT}/tests"]


def products():
    """The folder for what the tests build."""
    folder = ROOT / "target/tests"
    folder.mkdir(parents=True, exist_ok=True)
    return folder


def compile_c(*words):
    if not shutil.which("gcc"):
        sys.exit("gcc is not there; it compiles the C that the engine is compared with")
    subprocess.run(["gcc", *WARNINGS, *INCLUDE, *map(str, words)], check=True)


def reference():
    """tests/reference.c under the same calls."""
    shared = products() / "libreference.so"
    compile_c("-O2", "-shared", "-fPIC", "-o", shared, ROOT / "tests/reference.c")
    return Engine("reference", shared)
