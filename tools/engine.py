"""The engine's C interface (include/baseflow.h) on plain python values: what tools/baseflow and the tests share.

The library is the first of these:

  - the shared library that the environment's BASEFLOW_LIBRARY names
  - lib/libbaseflow.so, where a release has one
  - an archive, which gcc links into target/ once, and anew where it has changed: the one that BASEFLOW_ARCHIVE names,
    or lib/libbaseflow.a, or target/staticlib/libbaseflow.a
"""
import ctypes
import os
import re
import shutil
import subprocess
import tempfile
import zlib
from pathlib import Path

ROOT = Path(__file__).resolve().parent.parent
HEADER = ROOT / "include/baseflow.h"
SHARED = ROOT / "lib/libbaseflow.so"
ARCHIVES = ROOT / "lib/libbaseflow.a", ROOT / "target/staticlib/libbaseflow.a"
CAUSE = re.compile(r"BASEFLOW_(\w+) = (\d+),?\s*/\* (.*) \*/")

MISSING = 2**32 - 1
NO_VALUE = 2**64 - 1
MOST_DAYS = 36525


class Absent(SystemExit):
    """What the engine needs is not there. Where nobody takes it, it ends the program with its message."""


# ---- the library

def archive():
    """The archive's path."""
    named = os.environ.get("BASEFLOW_ARCHIVE")
    path = Path(named) if named else next((path for path in ARCHIVES if path.exists()), ARCHIVES[-1])
    if not path.exists():
        raise Absent(f"{path} is not there; `tools/archive` makes it")
    return path


def shared_library():
    """The path of the engine as a shared library."""
    named = os.environ.get("BASEFLOW_LIBRARY")
    if named and not Path(named).exists():
        raise Absent(f"{named} is not there; BASEFLOW_LIBRARY names it")
    if named:
        return Path(named)
    return SHARED if SHARED.exists() and "BASEFLOW_ARCHIVE" not in os.environ else linked(archive())


def linked(path):
    """The shared library of an archive. Its time is the archive's, by which it is known to be of this one."""
    mark = "" if path in ARCHIVES else f"-{zlib.crc32(os.fsencode(path.resolve())):08x}"
    shared, time = ROOT / f"target/libbaseflow{mark}.so", path.stat().st_mtime_ns
    if not shared.exists() or shared.stat().st_mtime_ns != time:
        try:
            link(path, shared, time)
        except OSError as error:
            raise Absent(f"cannot write {shared}: {error.strerror}; BASEFLOW_LIBRARY may name a shared library") from None
    return shared


def link(path, shared, time):
    """Links under a name of its own and then renames, since two programs may do it at once."""
    if not shutil.which("gcc"):
        raise Absent("gcc is not there; it links the archive that `tools/archive` made into a shared library")
    shared.parent.mkdir(exist_ok=True)
    with tempfile.TemporaryDirectory(prefix=".link-", dir=shared.parent) as folder:
        made = f"{folder}/made.so"
        done = subprocess.run(["gcc", "-shared", "-o", made, "-Wl,--whole-archive", path, "-Wl,--no-whole-archive"],
                              capture_output=True, text=True)
        if done.returncode:
            raise Absent(f"gcc cannot link {path}; `tools/archive` makes it anew\n{done.stderr.rstrip()}")
        os.utime(made, ns=(time, time))
        os.replace(made, shared)


def causes():
    """What each refusal means, by its number, as the header has it."""
    if not HEADER.exists():
        raise Absent(f"{HEADER} is not there; it says what each refusal means")
    return {int(number): cause.replace(" * ", " × ") for _, number, cause in CAUSE.findall(HEADER.read_text())}


# ---- the calls

def listed(kind, values):
    """A ctypes array of values, with room for one where there are none, so that its address is never null."""
    return (kind * max(1, len(values)))(*values)


class Refused(Exception):
    def __init__(self, number):
        super().__init__(f"refused with {number}")
        self.number = number


class Bits:
    """Flows and the words of their presence."""

    def __init__(self, flows, words):
        self.flows, self.words = flows, words

    def __len__(self):
        return len(self.flows)


class Engine:
    """The calls on plain Python values: None is a missing day and no value. A refusal is raised.

    Days are a list or Bits; with Bits it is the call over presence bits."""

    def __init__(self, prefix="baseflow", library=None):
        path = Path(library or shared_library())
        try:
            self.library, self.prefix = ctypes.CDLL(str(path.resolve())), prefix
        except OSError as error:
            raise Absent(f"{path} cannot be loaded: {error}") from None

    def call(self, name, *arguments):
        """A call; one that refuses has to leave what it was lent as it was."""
        function = getattr(self.library, f"{self.prefix}_{name}", None)
        if function is None:
            raise Absent(f"the library has no {self.prefix}_{name}; `tools/archive` makes one that has it")
        function.restype = ctypes.c_uint32
        before = lent(arguments)
        number = function(*arguments)
        if number:
            assert lent(arguments) == before, f"{name} is refused with {number}, and has written"
            raise Refused(number)

    def call_over(self, days, name, before, *behind):
        """A call with days among its arguments, in either form."""
        if isinstance(days, Bits):
            words = listed(ctypes.c_uint64, days.words), size(days.words)
            self.call(f"{name}_bits", *before, listed(ctypes.c_uint32, days.flows), size(days), *words, *behind)
        else:
            self.call(name, *before, day_list(days), size(days), *behind)

    def read(self, data, room=MOST_DAYS):
        days, first, count = (ctypes.c_uint32 * max(1, room))(), ctypes.c_uint32(), ctypes.c_uint32()
        self.call("read", listed(ctypes.c_uint8, data), size(data), days, ctypes.c_size_t(room), ctypes.byref(first),
                  ctypes.byref(count))
        return first.value, [None if day == MISSING else day for day in days[:count.value]]

    def write(self, first, days, room=None):
        """The record of days, in room for any of so many days, or in as many bytes as wanted."""
        room, kept = 10 + 5 * len(days) if room is None else room, 0x5a
        data, length = listed(ctypes.c_uint8, [kept] * room), ctypes.c_uint32()
        self.call("write", ctypes.c_uint32(first), day_list(days), size(days), data, ctypes.c_size_t(room),
                  ctypes.byref(length))
        assert set(data[length.value:room]) <= {kept}, f"bytes behind the record's {length.value} were written"
        return bytes(data[:length.value])

    def filter(self, method, p, q, s, passes, days, start=None):
        """The base flow, from the usual start or from one that is given."""
        base, words = listed(ctypes.c_uint64, [7] * len(days)), (*setting(method, p, q, s), ctypes.c_uint32(passes))
        if start is None:
            self.call_over(days, "filter", words, base, size(days))
        else:
            self.call_over(days, "filter_from", (*words, ctypes.c_uint64(start)), base, size(days))
        return base_values(base, days)

    def line(self, block_days, factor, days):
        base = listed(ctypes.c_uint64, [0] * len(days))
        self.call_over(days, "line", map(ctypes.c_uint32, (block_days, factor)), base, size(days))
        return base_values(base, days)

    def staggered(self, block_days, factor, choice, days):
        """The chosen base list, and the lines of all shifts."""
        base = listed(ctypes.c_uint64, [0] * len(days))
        work = listed(ctypes.c_uint64, [0] * (block_days * len(days)))
        self.call_over(days, "staggered", map(ctypes.c_uint32, (block_days, factor, choice)), base, size(days), work,
                       ctypes.c_size_t(block_days * len(days)))
        lines = [work[o * len(days):(o + 1) * len(days)] for o in range(block_days)]
        return base_values(base, days), [base_values(line, days) for line in lines]

    def steps(self, method, p, q, s, days):
        """The values of daily steps from a fresh state."""
        state = ctypes.c_uint32(0), ctypes.c_uint32(0), ctypes.c_uint64(0)
        value, values = ctypes.c_uint64(), []
        for day in days:
            self.call("step", *setting(method, p, q, s), ctypes.c_uint32(MISSING if day is None else day),
                      *map(ctypes.byref, state), ctypes.byref(value))
            values.append(None if value.value == NO_VALUE else value.value)
        return values

    def totals(self, days, base):
        """Days with a value, flow total, base total, quick total and index."""
        m, index = ctypes.c_uint32(), ctypes.c_uint32()
        flow, slow, quick = ctypes.c_uint64(), ctypes.c_uint64(), ctypes.c_uint64()
        self.call_over(days, "totals", (), base_list(base), size(base),
                       *map(ctypes.byref, (m, flow, slow, quick, index)))
        return m.value, flow.value, slow.value, quick.value, index.value

    def recession(self, limb_days, days, base):
        """The number of ratios, the middle one, and the counted limbs as they are listed."""
        limbs = listed(ctypes.c_uint32, [0] * len(days))
        count, ratio = ctypes.c_uint32(), ctypes.c_uint32()
        self.call_over(days, "recession", [ctypes.c_uint32(limb_days)], base_list(base), size(base), limbs, size(days),
                       ctypes.byref(count), ctypes.byref(ratio))
        return count.value, ratio.value, [pair for pair in zip(limbs[::2], limbs[1::2]) if pair != (0, 0)]

    def half_life(self, p):
        days = ctypes.c_uint32()
        self.call("half_life", ctypes.c_uint32(p), ctypes.byref(days))
        return days.value

    def meter(self, data):
        """The day of a reading."""
        day = ctypes.c_uint32()
        self.call("meter", listed(ctypes.c_uint8, data), size(data), ctypes.byref(day))
        return None if day.value == MISSING else day.value

    def licence(self, daily_limit, quota, days, base, takings_len=None):
        """The takings and the quota left, with a taking for each day, or as many as wanted."""
        takings_len, left = len(days) if takings_len is None else takings_len, ctypes.c_uint64()
        takings = listed(ctypes.c_uint32, [7] * takings_len)
        self.call("licence", ctypes.c_uint32(daily_limit), ctypes.c_uint64(quota), day_list(days), size(days),
                  base_list(base), size(base), takings, ctypes.c_size_t(takings_len), ctypes.byref(left))
        return takings[:takings_len], left.value

    def bfimax(self, last_day, duration, p, days):
        """BFImax and the base list."""
        base, answer = listed(ctypes.c_uint64, [0] * len(days)), ctypes.c_uint32()
        self.call_over(days, "bfimax", map(ctypes.c_uint32, (last_day, duration, p)), base, size(days),
                       ctypes.byref(answer))
        return answer.value, base_values(base, days)

    def to_bits(self, days, words_len=None):
        """The flows and words of days, and how many are present; with a word for each 64 days, or as many as wanted."""
        flows, present = listed(ctypes.c_uint32, [7] * len(days)), ctypes.c_uint32()
        words_len = -(-len(days) // 64) if words_len is None else words_len
        words = listed(ctypes.c_uint64, [7] * words_len)
        self.call("to_bits", day_list(days), size(days), flows, size(days), words, ctypes.c_size_t(words_len),
                  ctypes.byref(present))
        return Bits(flows[:len(days)], words[:words_len]), present.value

    def from_bits(self, bits):
        """The days of flows and words, and how many are present."""
        days, present = listed(ctypes.c_uint32, [7] * len(bits)), ctypes.c_uint32()
        self.call_over(bits, "from", (), days, size(bits), ctypes.byref(present))
        return [None if day == MISSING else day for day in days[:len(bits)]], present.value


def lent(arguments):
    """What the lists and the out-parameters among the arguments hold."""
    return [bytes(getattr(argument, "_obj", argument)) for argument in arguments
            if isinstance(argument, ctypes.Array) or hasattr(argument, "_obj")]


def setting(method, p, q, s):
    return *map(ctypes.c_uint32, (method, p, q)), ctypes.c_int32(s)


def size(values):
    return ctypes.c_size_t(len(values))


def day_list(days):
    return listed(ctypes.c_uint32, [MISSING if day is None else day for day in days])


def base_list(base):
    return listed(ctypes.c_uint64, [NO_VALUE if value is None else value for value in base])


def base_values(base, days):
    return [None if value == NO_VALUE else value for value in base[:len(days)]]
