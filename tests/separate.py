#!/usr/bin/env python3
"""Checks what the program `separate` writes against document 01's rules (tests/rules.py).

    tests/separate.py [crates/separate/out/separate]

Runs the program on document 01's sample, on records at every limit, on each refusal that reading can give, on random
records and on damaged ones, with input or output closed, with words behind its name, and with a small stack. Ends with the
number of cases that passed, or exits with 1 and the smallest record that failed.
"""
import os
import random
import resource
import subprocess
import sys
import tempfile

sys.dont_write_bytecode = True
from rules import LAST_FIRST_DAY, MOST_DAYS, MOST_FLOW, Refusal, near, over_stretches, passes_over, read, totals

ROOT = os.path.join(os.path.dirname(os.path.abspath(__file__)), "..")
PROGRAM = os.path.join(ROOT, "crates/separate/out/separate")
MOST_BYTES, SPACE = 32768, 2048
STACK = 128 * 1024  # bytes of the program's own
SYSTEM = 16 * 1024  # what the system puts above them: up to 8 KiB at random, the program's name, a page begun
SAMPLE = bytes.fromhex("01000000000264000000 02C800000003 0232000000 0904000000")
SAMPLE_FILE = os.path.join(ROOT, "samples/sample.record")
SAMPLE_TEXT = b"day flow base\n0 100 50.000\n1 200 57.500\n2 missing\n3 50 25.000\nindex 0.3786\n"


# document 01, "Rivers worked through": rules 8.2 to 8.6
def text(record):
    if len(record) > MOST_BYTES:
        return "too long\n"
    answer = read(record, SPACE)
    if isinstance(answer, Refusal):
        return f"refused {answer}\n"
    first_day, days = answer
    base = over_stretches(lambda flows: passes_over(near, 1, 9250, 0, 0, 1, flows), days)
    lines = ["day flow base"]
    for day, (flow, value) in enumerate(zip(days, base), first_day):
        lines.append(f"{day} missing" if flow is None else f"{day} {flow} {value // 1000}.{value % 1000:03}")
    summed = totals(days, base)
    if isinstance(summed, Refusal):
        lines.append("index none")
    else:
        lines.append(f"index {summed[4] // 10000}.{summed[4] % 10000:04}")
    return "\n".join(lines) + "\n"


def number(value, size=4):
    return value.to_bytes(size, "little")


def record_of(first_day, days, end=None):
    body = b"".join(b"\x03" if flow is None else b"\x02" + number(flow) for flow in days)
    return b"\x01" + number(first_day) + body + b"\x09" + number(len(days) if end is None else end)


def gap(count):
    return b"\x04" + number(count, 2)


# records at the limits, each with the text that it must have where that is short; the rules above give all of them
def chosen():
    head, end = b"\x01" + number(0), b"\x09" + number(0)
    yield SAMPLE, SAMPLE_TEXT.decode()
    yield b"", "refused 1\n"
    yield head + end, "day flow base\nindex none\n"
    yield head, "refused 1\n"
    yield head + b"\x02\x01\x00", "refused 1\n"
    yield b"\x05", "refused 2\n"
    yield end, "refused 3\n"
    yield head + head + end, "refused 3\n"
    yield b"\x01" + number(LAST_FIRST_DAY) + end, "day flow base\nindex none\n"
    yield b"\x01" + number(LAST_FIRST_DAY + 1) + end, "refused 4\n"
    yield record_of(0, [MOST_FLOW]), "day flow base\n0 10000000 5000000.000\nindex 0.5000\n"
    yield record_of(0, [MOST_FLOW + 1]), "refused 4\n"
    yield head + gap(0) + end, "refused 4\n"
    yield head + gap(MOST_DAYS + 1), "refused 5\n"
    yield head + gap(MOST_DAYS), "refused 6\n"
    yield head + gap(SPACE) + b"\x09" + number(SPACE), None
    yield head + gap(SPACE + 1), "refused 6\n"
    yield record_of(0, [7] * SPACE), None
    yield record_of(0, [7] * SPACE + [7]), "refused 6\n"
    yield record_of(LAST_FIRST_DAY, [MOST_FLOW] * SPACE), None
    yield record_of(0, [1, 2], end=1), "refused 7\n"
    yield record_of(0, [1], end=2**32 - 1), "refused 7\n"
    yield SAMPLE + b"\x09", "refused 8\n"
    yield SAMPLE.ljust(MOST_BYTES, b"\0"), "refused 8\n"
    yield SAMPLE.ljust(MOST_BYTES + 1, b"\0"), "too long\n"
    yield bytes(200_000), "too long\n"
    yield record_of(5, [None] * 40), None
    yield record_of(5, [0] * 40), None
    yield record_of(0, [1000, 10]), "day flow base\n0 1000 500.000\n1 10 10.000\nindex 0.5050\n"
    yield record_of(0, [1, 0, 0, 1]), None


def made(seed, count):
    chance = random.Random(seed)
    for case in range(count):
        top = chance.choice([0, 1, 3, 40, 999, 70_000, MOST_FLOW])
        size = chance.choice([1, 2, 5, 12, 60, 400])
        gaps = chance.choice([0, 0.05, 0.3, 0.9])
        days = [None if chance.random() < gaps else chance.randint(0, top) for _ in range(chance.randint(0, size))]
        record = bytearray(record_of(chance.choice([0, 9, 36_524, LAST_FIRST_DAY]), days))
        for _ in range(chance.randint(1, 3) if case % 2 else 0):
            place = chance.randrange(len(record))
            damage = chance.randrange(5)
            if damage == 0:
                record[place] = chance.choice([0, 1, 2, 3, 4, 5, 9, 255])
            elif damage == 1:
                del record[place:]
            elif damage == 2:
                record[place:place] = gap(chance.choice([0, 1, 2, 300, SPACE, MOST_DAYS, 65_535]))
            elif damage == 3:
                record += bytes(chance.randint(1, 3))
            else:
                record[place] ^= 1 << chance.randrange(8)
            record = record or bytearray(1)
        yield bytes(record), None


def run(program, record, *words, **how):
    done = subprocess.run([program, *words], input=record, capture_output=True, timeout=10, **how)
    return done.returncode, done.stdout, done.stderr


# the program takes no words behind its name, and needs little stack, also for the longest text
def otherwise(program):
    yield "words behind its name", run(program, SAMPLE, "--help", "record") == (0, SAMPLE_TEXT, b"")
    longest = record_of(LAST_FIRST_DAY, [MOST_FLOW] * SPACE)
    limit = STACK + SYSTEM
    small = run(program, longest, env={}, preexec_fn=lambda: resource.setrlimit(resource.RLIMIT_STACK, (limit, limit)))
    yield f"a stack of {STACK} bytes", small == (0, text(longest).encode(), b"")


# input that cannot be read, and output that cannot be written: nothing on standard output, a line on standard error
def closed(program):
    with tempfile.NamedTemporaryFile() as sample:
        sample.write(SAMPLE)
        sample.flush()
        told_in = b"separate: standard input cannot be read\n"
        told_out = b"separate: standard output cannot be written\n"
        for name, shell, told in [
            ("closed input", '"$0" <&-', told_in),
            ("a folder as input", '"$0" </', told_in),
            ("closed output", '"$0" <"$1" >&-', told_out),
            ("a full device as output", '"$0" <"$1" >/dev/full', told_out),
        ]:
            done = subprocess.run(["/bin/sh", "-c", shell, program, sample.name], capture_output=True, timeout=10)
            yield name, (done.returncode, done.stdout, done.stderr) == (0, b"", told)
        reader, writer = os.pipe()
        os.close(reader)
        with open(sample.name, "rb") as record:
            done = subprocess.run([program], stdin=record, stdout=writer, stderr=subprocess.PIPE, timeout=10)
        os.close(writer)
        yield "a pipe that nobody reads", (done.returncode, done.stderr) == (0, told_out)


def main():
    if len(sys.argv) > 2:
        sys.exit(__doc__)
    program = os.path.abspath(sys.argv[1] if len(sys.argv) == 2 else PROGRAM)
    if not os.path.exists(program):
        sys.exit(f"{program} is not there; `rt run` in crates/separate makes it")
    with open(SAMPLE_FILE, "rb") as sample:
        if sample.read() != SAMPLE:
            sys.exit("samples/sample.record is not document 01's sample")
    passed, failed, seen = 0, [], set()
    for record, known in [*chosen(), *made(1900, 500)]:
        wanted = text(record)
        if known not in (None, wanted):
            sys.exit(f"the rules here give {wanted!r}, not {known!r}, for {record[:60].hex()}")
        seen.add(wanted.splitlines()[0])
        status, out, err = run(program, record)
        if (status, out, err) == (0, wanted.encode(), b""):
            passed += 1
        else:
            failed.append((len(record), record, wanted, out))
    for name, good in [*closed(program), *otherwise(program)]:
        passed += good
        if not good:
            failed.append((MOST_BYTES, name.encode(), "", b""))
    missing = {f"refused {n}" for n in range(1, 9)} - seen
    if missing:
        sys.exit(f"no case has {sorted(missing)}")
    if failed:
        size, record, wanted, out = min(failed)
        sys.exit(f"{len(failed)} of {passed + len(failed)} cases failed; the smallest, {size} bytes: {record[:200].hex()} ({record[:40]!r})\n"
                 f"wanted {wanted[:300]!r}\nwrote  {out[:300]!r}")
    print(f"separate: {passed} cases agree with document 01's rules")


main()
