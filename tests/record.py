#!/usr/bin/env python3
"""Tests tools/record: round trips, each of its errors, its records against the engine and tests/reference.c, and that
what it writes is whole or an error.

    tests/record.py
"""
import importlib.machinery
import importlib.util
import os
import random
import resource
import shlex
import shutil
import signal
import stat
import subprocess
import sys
import tempfile
from datetime import date, timedelta
from pathlib import Path
from unittest import mock

sys.dont_write_bytecode = True
from interface import ROOT, Engine, Refused, reference

TOOL = ROOT / "tools/record"
loader = importlib.machinery.SourceFileLoader("record_tool", str(TOOL))
tool = importlib.util.module_from_spec(importlib.util.spec_from_loader("record_tool", loader))
loader.exec_module(tool)

EMPTY = bytes.fromhex("01 00000000 09 00000000")
LONG = [9_000_000 + place for place in range(4000)]  # its record and its CSV are over twice LIMIT bytes
LIMIT = 8192

# CSV, unit or options, and what the message has to say
BAD_TABLES = (
    ("", "l", "line 1: there is no line with a date"),
    ("\n\n", "l", "line 1: there is no line with a date"),
    ("date,flow\n", "l", "line 1: there is no line with a date"),
    ("2024-01-01,5\n2024-01-32,6\n", "l", "line 2: '2024-01-32' is no date"),
    ("2024-01-01,5\n\n2024-02-30,6\n", "l", "line 3: '2024-02-30' is no date"),
    ("date,flow\n01.02.2024,5\n", "l", "line 2: '01.02.2024' is no date"),
    ("20240101,5\n", "l", "line 1: '20240101' is no date"),
    ("date,flow\ndate,flow\n", "l", "line 2: 'date' is no date"),
    ("day one,5\n", "l", "line 1: 'day one' is no date"),
    (",5\n", "l", "line 1: '' is no date"),
    ("2024-01-01,five\n", "l", "line 1: 'five' is no number"),
    ("2024-01-01,nan\n", "l", "line 1: 'nan' is no number"),
    ("2024-01-01,1e3\n", "l", "line 1: '1e3' is no number"),
    ('2024-01-01,"1,5"\n', "m3", "line 1: '1,5' is no number"),
    ("2024-01-01,5\n2024-01-02,-1\n", "l", "line 2: flow -1 is below zero"),
    ("2024-01-01,-0.0001\n", "m3", "line 1: flow -0.0001 is below zero"),
    ("2024-01-01,1.5\n", "l", "line 1: flow 1.5 is no whole number"),
    ("2024-01-01,10000001\n", "l", "line 1: flow 10000001 is over 10,000,000"),
    ("2024-01-01,10000.00050001\n", "m3", "line 1: flow 10000.00050001 is over 10,000,000"),
    ("2024-01-01,5\n2024-01-01,6\n", "l", "line 2: the date 2024-01-01 comes twice"),
    ("2024-01-02,5\n2024-01-01,6\n", "l", "line 2: 2024-01-01 comes after 2024-01-02; dates have to rise"),
    ("1899-12-31,5\n", "l", "line 1: 1899-12-31 is before 1900-01-01"),
    ("2173-10-16,5\n", "l", "line 1: 2173-10-16 is after 2173-10-15"),
    ("1900-01-01,5\n2000-01-02,5\n", "l", "line 2: 2000-01-02 is day 36,526; a record"),
    ("2024-01-01\n", "l", "line 1: two columns are wanted, date and flow, and 1 found"),
    ("2024-01-01,5,6\n", "l", "line 1: two columns are wanted, date and flow, and 3 found"),
    ("2024-01-01,5,6\n", "l", "; --columns says which two are meant"),
    ("2024-01-01,5,,6\n", "l", "line 1: two columns are wanted, date and flow, and 4 found"),
    ("2024-01-01;5\n", "l", "columns are separated by commas, or by what --delimiter says"),
    ("2024-01-01\t5\n", "l", "columns are separated by commas, or by what --delimiter says"),
    ("date,cubic_metres_a_second\n2024-01-01,5\n", "l", "line 1: the header says m3/s; give --unit m3"),
    ("date,litres_a_second\n2024-01-01,5\n", "m3", "line 1: the header says l/s; give --unit l"),
    ("date,m3/s or l/s\n2024-01-01,5\n", "l", "line 1: the header 'm3/s or l/s' names both of the units"),
    ("\n# by hand\n# date,flow m3/s\n2024-01-01,5\n", "l", "line 3: the header says m3/s; give --unit m3"),
    ("day,x,Q (m3/s)\n2024-01-01,,5\n", "--columns 1,3", "line 1: the header says m3/s; give --unit m3"),
    ("day,x,Q (cfs)\n2024-01-01,,5\n", "--columns day,3", "line 1: the header 'Q (cfs)' names another unit"),
    ('2024-01-01,"5\n', "l", "line 1: this is no CSV"),
    (b"date,flow\n2024-01-01,\xff\n", "l", "line 2: this is no UTF-8 text (byte FF)"),
    (b"\xef\xbb\xbfdate,flow\r2024-01-01,5\r2024-01-02,\xb3\r", "l", "line 3: this is no UTF-8 text (byte B3)"),
    (b"2024-01-01,5\r\n2024-01-02,5\0\r\n", "l", "line 2: this is no UTF-8 text (byte 00"),
    ("date,flow\n2024-01-01,5\n".encode("utf-16"), "l", "this is no UTF-8 text but UTF-16"),
    (b"\xfe\xff" + "date,flow\n".encode("utf-16-be"), "l", "this is no UTF-8 text but UTF-16"),
    ("date,flow\n2024-01-01,5\n".encode("utf-16-le"), "l", "line 1: this is no UTF-8 text (byte 00, as UTF-16 has)"),
    (EMPTY, "l", "this is a record; to-csv turns it into CSV"),
    ("2024-01-01,5\n# note,\n", "l", "line 2: '# note' is no date"),
    # times
    ("2024-01-01T09:00,5\n", "l", "line 1: '2024-01-01T09:00' is no midnight"),
    ("2024-01-01 00:15,5\n", "l", "line 1: '2024-01-01 00:15' is no midnight"),
    ("2024-01-01 00:00:01,5\n", "l", "line 1: '2024-01-01 00:00:01' is no midnight"),
    ("2024-01-01 00:00:00.001,5\n", "l", "line 1: '2024-01-01 00:00:00.001' is no midnight"),
    ("2024-01-01T23:00Z,5\n", "l", "line 1: '2024-01-01T23:00Z' is no midnight"),
    ("2024-01-01T24:00,5\n", "l", "line 1: '2024-01-01T24:00' is no midnight"),
    ("2024-01-01T00,5\n", "l", "line 1: '2024-01-01T00' is no date"),
    ("2024-01-01T00:00+1,5\n", "l", "line 1: '2024-01-01T00:00+1' is no date"),
    ("2024-01-01T00:00 CET,5\n", "l", "line 1: '2024-01-01T00:00 CET' is no date"),
    ("2024-02-30T00:00,5\n", "l", "line 1: '2024-02-30T00:00' is no date"),
    ("2024-01-01T00:00,5\n2024-01-01,5\n", "l", "line 2: the date 2024-01-01 comes twice"),
    # columns
    ("a,b,c\n2024-01-01,5\n", "--columns a,c", "line 2: column 3 is wanted, and 2 found"),
    ("2024-01-01,5,6\n2024-01-02\n", "--columns 1,3", "line 2: column 3 is wanted, and 1 found"),
    ("a,b, b \n2024-01-01,5,5\n", "--columns a,b", "line 1: the header has two columns of the name 'b'"),
    ("a,b\n2024-01-01,5\n", "--columns a,B", "line 1: the header has no column of the name 'B'"),
    ("2024-01-01,5\n", "--columns day,flow", "line 1: the header has no column of the name 'day'"),
    ("a,b\n2024-01-01,5\n", "--columns 1,a", "line 1: date and flow are both column 1"),
    ("a,b\na,b\n", "--columns a,b", "line 2: 'a' is no date"),
    ("a,b,c\n,,remark\n", "--columns a,b", "line 2: '' is no date"),
    # decimal commas
    ("2024-01-01;1.5\n2024-01-02;1,5\n", "--delimiter ; --unit m3", "line 2: flow 1,5 has another decimal mark"),
    ("2024-01-01;1.234,5\n", "--delimiter ; --unit m3", "'1.234,5' is no number (digits, with a point or a comma"),
    ("2024-01-01;1,5\n", "--delimiter ;", "line 1: flow 1,5 is no whole number"),
    ("2024-01-01;1,000\n", "--delimiter ;", "line 1: flow 1,000 can be read in two ways, 1 and 1000"),
    ("2024-01-01\t1.000\n", "--delimiter tab", "line 1: flow 1.000 can be read in two ways, 1 and 1000"),
    ("2024-01-01,5\n", "--delimiter ;", "line 1: two columns are wanted, date and flow, and 1 found"),
    # missing days
    ("2024-01-01,na\n", "--missing NA", "line 1: 'na' is no number"),
    ("2024-01-01,NA\n", "l", "'NA' is no number (digits, with a point before decimals) and no word of --missing"),
    ("2024-01-01,-998\n", "--missing -999", "line 1: flow -998 is below zero and no number of --missing"),
    ("NA,5\n2024-01-01,5\n", "--missing NA", "line 1: 'NA' is no date"),
)

# CSV, unit or options, first day and days
GOOD_TABLES = (
    ("1900-01-01,0\n", "l", 0, [0]),
    ("1900-01-02,\n", "l", 1, [None]),
    ("\ufeff1900-01-01,5\n", "l", 0, [5]),
    ("\ufeffdate,flow m3/s\r\n1900-01-01,1.5\r\n", "m3", 0, [1500]),
    ("\n Datum , Abfluss \n\n 1900-01-01 , 7 \n\n1900-01-04,8\n,\n", "l", 0, [7, None, None, 8]),
    ('"1900-01-01","7"\n"1900-01-02",""\n', "l", 0, [7, None]),
    # halves, to the even litre, and their neighbours
    ("1900-01-01,0.0005\n1900-01-02,0.00049999999999999999999999999999999999\n1900-01-03,0.0015\n", "m3", 0, [0, 0, 2]),
    ("1900-01-01,0.0025\n1900-01-02,0.00250000000000000000000000000000000001\n1900-01-03,2.0645\n1900-01-04,2.0655\n",
     "m3", 0, [2, 3, 2064, 2066]),
    ("1900-01-01,10000.0005\n1900-01-02,.5\n1900-01-03,5.\n", "m3", 0, [10_000_000, 500, 5000]),
    ("1900-01-01,7.000\n1900-01-02,10000000\n1900-01-03,+3\n", "l", 0, [7, 10_000_000, 3]),
    ("2173-10-15,1\n", "l", 99_999, [1]),
    ("1900-01-01,5\n2000-01-01,5\n", "l", 0, [5] + [None] * 36_523 + [5]),
    ("1900-02-28,1\n1900-03-01,2\n2000-01-31,3\n", "l", 58, [1, 2] + [None] * 36_494 + [3]),
    ("date,flow\r1900-01-01,1\r\r1900-01-02,2\r", "l", 0, [1, 2]),
    ("date,flow,,\n1900-01-01,1,,\n1900-01-02,,,\n1900-01-03,3\n", "l", 0, [1, None, 3]),
    ("date,\n1900-01-01,1\n", "l", 0, [1]),
    ('# "river\n#,"\n"# quoted, too"\ndate,flow\n # m3/s\n1900-01-01,1\n', "l", 0, [1]),
    ("# date,flow l/s\n1900-01-01,1\n", "l", 0, [1]),
    # times
    ("1900-01-01T00:00,1\n1900-01-02 00:00:00,2\n1900-01-03T00:00:00.000,3\n", "l", 0, [1, 2, 3]),
    ("1900-01-01T00:00Z,1\n1900-01-02 00:00:00+01:00,2\n1900-01-03 00:00:00.0-0930,3\n", "l", 0, [1, 2, 3]),
    # columns
    ("7,1900-01-01,x,1\n8,1900-01-02,,2,,\n", "--columns 2,4", 0, [1, 2]),
    (" Q , x , day\n1,,1900-01-01\n2,y,1900-01-02,z\n", "--columns day,Q", 0, [1, 2]),
    ("day1,,Q\n1900-01-01,,1\n,,\n", "--columns day1,3", 0, [1]),
    ("# USGS\nsite\tdatetime\tflow\tcode\n01\t1900-01-01\t5\tA\n", "--delimiter tab --columns datetime,flow", 0, [5]),
    # delimiters and decimal commas
    ("day;Q\n1900-01-01;1,5\n1900-01-02;,25\n1900-01-03;7\n", "--delimiter ; --unit m3", 0, [1500, 250, 7000]),
    ("1900-01-01;1.5\n1900-01-02;\n", "--delimiter ';' --unit m3", 0, [1500, None]),
    ("1900-01-01|1000,0\n1900-01-02|0,000\n", "--delimiter |", 0, [1000, 0]),
    ("1900-01-01\t1\t\n", "--delimiter tab", 0, [1]),
    ("1900-01-01 1\n", "--delimiter ' '", 0, [1]),
    # missing days
    ("1900-01-01,NA\n1900-01-02,-999.00\n1900-01-03,\n1900-01-04,4\n", "--missing NA,-999", 0, [None] * 3 + [4]),
    ("1900-01-01,NA\n1900-01-02,-999.00\n1900-01-03,4\n", "--missing -999,NA", 0, [None, None, 4]),
    ("1900-01-01,NA\n1900-01-02,-999\n1900-01-03,4\n", "--missing=-999,NA", 0, [None, None, 4]),
    ("1900-01-01,-999.0\n1900-01-02,4\n", "--missing -999", 0, [None, 4]),
    ("1900-01-01,--\n1900-01-02,4\n", "--missing --", 0, [None, 4]),
    ("1900-01-01,--\n1900-01-02,-h\n", "--missing=--,-h,", 0, [None, None]),
    ("1900-01-01,x=1\n1900-01-02,4\n", "--missing x=1", 0, [None, 4]),
    ("1900-01-01;-999,00\n1900-01-02;1,5\n1900-01-03;-99.9\n", "--missing -99.9,-999 --delimiter ; --unit m3", 0,
     [None, 1500, None]),
    ("1900-01-01,0.0\n1900-01-02,4\n", "--missing 0", 0, [None, 4]),
    ("1900-01-01, n/a \n1900-01-02,4\n", "--missing ' n/a ,x'", 0, [None, 4]),
)

# What headers say, separated by |
SAYS_M3 = """m3/s|m³/s|m^3/s|m3 s-1|m3s-1|m³ s⁻¹|m³·s⁻¹|m3.s-1|m**3/s|m^{3}/s|m3_s|flow_m3s|Q_m3_s|cumecs|Cumec|cms|CMS
    |discharge_cms|DischargeCMS|cubic metres per second|cubic meters a second|Cubic Meter/Second|cubic_metres_a_second
    |Discharge (m3/s)|Abfluss [m³/s]|M3/S|m3/sec|m³/sek|m3 / s|m3 per s|Q/(m3/s)|Q / m3 s-1|Q/m3 s-1|cu. m/s|cum/s|㎥/s
    |m<sup>3</sup>/s|Discharge..m3.s.|flow-m3/s|mètres cubes par seconde|Kubikmeter pro Sekunde|m³∕s|m3⋅s−1
    |metros cúbicos por segundo|m3 s^-1|m3 s^{-1}|cbm/s|metri cubi al secondo|Q, m3/s|Q:m3/s|cubic-metres-per-second"""
SAYS_L = """l/s|L/s|ls-1|l s-1|L·s⁻¹|lps|LPS|litres per second|liters/second|litre(s)/s|litres_a_second|Q_ls|flow (l/s)
    |Liter pro Sekunde|dm3/s|ℓ/s|l/sec|Liter je Sekunde|Q (L s^-1)"""
SAYS_OTHER = """ft3/s|ft³/s|cfs|Flow (CFS)|kcfs|cusecs|cubic feet per second|cubic foot a second|cu ft/s|cu.ft./sec|Ml/d
    |ML/day|Mgal/d|MGD|mld|Ml d-1|megalitres per day|ml/s|mL/s|m3/d|m3/day|m³ d⁻¹|m3 h-1|m3/h|l/min|l/h|litres per day
    |cubic metres per day|mm/d|mm|runoff_mm|mm d-1|kg/s|m/s|l/s/km2|l/s km2|l s-1 km-2|m3/s/km2|1000 m3/s|10^3 m3/s
    |10³ m³/s|thousand m3/s|10^6 m3|Mm3|hm3/yr|acre-feet/day|AF/day|gal/min|gpm|million gallons per day|m?/s|µl/s
    |85235_00060_00003|in/d|stage ft|GL/yr|stage (cm)|flow m3|daily volume (litres)|cubic feet|l per hour
    |l a minute|l per annum|l an hour|l per day|gallons per day|kl/d|runoff, inches|dam3/d|l s-1 ha-1|l/d|m d-1"""
SAYS_NONE = """Abfluss|flow|Q|discharge|Discharge|Durchfluss|débit|caudal|portata|daily mean discharge|streamflow
    |value|Q mean|flow a|HQ100|Q50|mills|levels|flow at mill|waterscms|cmsx|films|flow/day|mean flow per day||Q [1]
    |расход|flow in|Q_l|pulse|calls|flow (daily)|Qm|a day|all s|flow rate|small"""


def check(holds, message):
    if not holds:
        sys.exit(f"record: {message}")


def message_of(work, *arguments):
    try:
        work(*arguments)
    except tool.Wrong as wrong:
        return str(wrong), wrong.number
    return "no error", None


def form_of(options):
    words = shlex.split(f"--unit {options}" if options in ("l", "m3") else options)
    return tool.parse_words(["to-record", *words])[1]


def tables():
    for text, options, wanted in BAD_TABLES:
        data = text if isinstance(text, bytes) else text.encode()
        message, _ = message_of(tool.to_record, data, form_of(options))
        check(wanted in message, f"{text!r} with {options} gives '{message}', where '{wanted}' is due")
    for text, options, first, days in GOOD_TABLES:
        try:
            got = tool.read_record(tool.to_record(text.encode(), form_of(options)))
        except tool.Wrong as wrong:
            got = str(wrong), []
        check(got == (first, days), f"{text!r} with {options} gives {got[0]}, {got[1][:9]}")
    return len(BAD_TABLES) + len(GOOD_TABLES)


def headers():
    """A header's unit is the one in force, or it is refused, or the header names none."""
    other = "names another unit than the units that are taken, l/s (--unit l) and m3/s (--unit m3)"
    cases = (("l", SAYS_L, "line 1: the header says l/s; give --unit l"),
             ("m3", SAYS_M3, "line 1: the header says m3/s; give --unit m3"), (None, SAYS_OTHER, other),
             ("l m3", SAYS_NONE, ""))
    count = 0
    for units, names, refusal in cases:
        for name in map(str.strip, names.split("|")):
            for unit in ("l", "m3"):
                wanted = "no error" if unit in (units or "").split() else refusal
                message, _ = message_of(tool.to_record, f'date,"{name}"\n1900-01-01,5\n'.encode(), tool.Form(unit))
                check(wanted in message, f"the header '{name}' with --unit {unit} gives '{message}'")
                count += 1
    return count


def any_days(rng):
    gap = rng.choice((0, 0.1, 0.5, 1))
    most = rng.choice((3, 5000, 10_000_000))
    length = rng.choice((36_525, 3000)) if rng.random() < 0.02 else rng.randrange(0, 60)
    return [None if rng.random() < gap else rng.randrange(most + 1) for _ in range(length)]


def loosely(rng, first, days):
    """A record of these days that states its gaps in any parts."""
    out, left = bytearray(tool.entry(tool.HEAD, first)), [*days]
    while left:
        gap = next((place for place, day in enumerate(left) if day is not None), len(left))
        part = rng.randrange(1, gap + 1) if gap else 1
        if gap == 0:
            out += tool.entry(tool.FLOW, left[0])
        elif part == 1 and rng.random() < 0.5:
            out += tool.entry(tool.ONE_MISSING)
        else:
            out += tool.entry(tool.MISSING_DAYS, part)
        del left[:part]
    return bytes(out + tool.entry(tool.END, len(days)))


def round_trips(rng, engines):
    for _ in range(600):
        first, days = rng.choice((0, 99_999, rng.randrange(100_000))), any_days(rng)
        data = tool.write_record(first, days)
        check(tool.read_record(data) == (first, days), f"{first}, {days[:9]} does not come back")
        for engine in engines:
            check(engine.read(data) == (first, days), f"the {engine.prefix} reads {first}, {days[:9]} otherwise")
            check(engine.write(first, days) == data, f"the {engine.prefix} writes {first}, {days[:9]} otherwise")
        for form in (tool.Form("l"), tool.Form("m3")) if days else ():
            check(tool.to_record(tool.to_csv(data, form), form) == data, f"{first}, {days[:9]} by way of CSV")
        loose = loosely(rng, first, days)
        check(tool.read_record(loose) == (first, days), f"{first}, {days[:9]} in parts")
        check(tool.normalize(loose, None) == tool.normalize(data, None) == data, f"{first}, {days[:9]} has two forms")
    return 600


def damaged(rng, engines):
    seen = {}
    for _ in range(6000):
        data = bytearray(tool.write_record(rng.randrange(100_000), any_days(rng)[:40]))
        at = rng.randrange(len(data) + 1)
        harm = rng.randrange(5)
        if harm == 0:
            del data[at:]
        elif harm == 1:
            data.insert(at, rng.choice((0, 1, 2, 3, 4, 9, 255)))
        elif harm == 2:
            data[at:at + 3] = bytes([4]) + rng.choice((0, 1, 36_525, 65_535)).to_bytes(2, "little")
        elif harm == 3:
            data[at:at + 4] = rng.choice((10_000_001, 100_000, 2**32 - 1, 0)).to_bytes(4, "little")
        elif at < len(data):
            data[at] ^= 1 << rng.randrange(8)
        message, number = message_of(tool.read_record, data)
        told, _ = message_of(tool.to_csv, bytes(data), tool.Form())
        check(told == message, f"{data.hex()} is refused with '{message}', and as a command with '{told}'")
        for engine in engines:
            try:
                answer = None
                engine.read(data)
            except Refused as refused:
                answer = refused.number
            check(answer == number, f"{data.hex()} is refused with {number}, and with {answer} by the {engine.prefix}")
        seen[number] = seen.get(number, 0) + 1
    check(set(tool.CAUSES) <= set(seen), f"no damaged record was refused with {sorted(set(tool.CAUSES) - set(seen))}")
    return 6000


def run(*words, data=None, stdout=subprocess.PIPE, **more):
    return subprocess.run([str(TOOL), *map(str, words)], input=data, stdout=stdout, stderr=subprocess.PIPE, **more)


def fails(done, message, about, code=1):
    """The tool says why, in one line, and its exit status is not 0."""
    said = done.stderr.decode()
    check(done.returncode == code, f"{about}: exit status {done.returncode}, '{said}'")
    check(message in said and said.count("\n") == 1, f"{about}: '{said}', where '{message}' is due")


def command():
    """The tool as a person runs it."""
    sample = ROOT / "samples/river.csv"
    rows = [line.split(",") for line in sample.read_text().splitlines()[1:]]
    flows = {date.fromisoformat(day): int(flow) if flow else None for day, flow in rows}
    start, end = min(flows), max(flows)
    wanted = [flows.get(start + timedelta(place)) for place in range((end - start).days + 1)]
    check(None in wanted and len(flows) < len(wanted), "the sample has no empty cell or no date left out")
    with tempfile.TemporaryDirectory() as folder:
        record, table = Path(folder, "river"), Path(folder, "river.csv")
        made = run("to-record", sample, record)
        check(made.returncode == 0 and not made.stderr, f"the sample: {made.stderr.decode()}")
        check(tool.read_record(record.read_bytes()) == ((start - date(1900, 1, 1)).days, wanted), "the sample's days")
        check(run("to-record", data=sample.read_bytes()).stdout == record.read_bytes(), "by standard input and output")
        run("to-csv", "--unit", "m3", record, table)
        check(run("to-record", "--unit=m3", table).stdout == record.read_bytes(), "the sample by way of cubic metres")
        check(run("normalize", record).stdout == record.read_bytes(), "the sample in its one form")
        parts = bytes.fromhex("01 00000000 03 03 02 05000000 04 0100 09 04000000")
        check(run("normalize", data=parts).stdout == bytes.fromhex("01 00000000 04 0200 02 05000000 03 09 04000000"), "a gap in parts")
        fails(run("normalize", table), f"{table}: this is text and no record", "a table has no form")

        bad = run("to-record", data=b"2024-01-01,5\n2024-01-02,x\n")
        check((bad.returncode, bad.stdout) == (1, b""), "an error writes nothing and exits with 1")
        check(bad.stderr.startswith(b"tools/record: standard input, line 2: 'x' is no number"), bad.stderr.decode())
        bad = run("to-csv", table)
        wanted = f"tools/record: {table}: this is text and no record; to-record turns a CSV into a record\n"
        check(bad.stderr.decode() == wanted, bad.stderr.decode())
        bad = run("to-record", record)
        wanted = f"tools/record: {record}: this is a record; to-csv turns it into CSV\n"
        check(bad.stderr.decode() == wanted, bad.stderr.decode())
        bad = run("to-csv", data=b"\x64" + record.read_bytes()[1:])
        wanted = "tools/record: standard input, byte 0: refusal 2, this is no kind of entry (64)\n"
        check(bad.stderr.decode() == wanted, bad.stderr.decode())
        before = record.read_bytes()
        check(run("to-record", "-", record, data=b"").returncode == 1, "an empty table")
        check(record.read_bytes() == before, "an error leaves the file as it was")
        check(b"cannot read" in run("to-csv", Path(folder, "none")).stderr, "a file that is not there")
        check(b"cannot write" in run("to-csv", record, folder).stderr, "a target that is a folder")
        check(run("to-litres").returncode == 2, "an unknown word")
    empty = run("to-csv", data=EMPTY)
    check(empty.stdout == b"date,litres_a_second\n", "a record of no day")
    return 17


def texts():
    """What is text is told from a damaged record."""
    table = "date,Abfluß\r\n2024-01-01,5\r\n"
    for data in (table.encode(), table.encode("utf-8-sig"), table.encode("latin-1"), table.encode("utf-16"),
                 b"\n2024-01-01\t5\n", b"# x", "дата,расход\n".encode(), b"5"):
        message, number = message_of(tool.to_csv, data, tool.Form())
        check("this is text and no record" in message and number is None, f"{data!r} gives '{message}'")
    for data, number in ((b"", 1), (b"\xff", 2), (b"\t", 3), (b"\xff\xfe\0\0\0\2", 2), (b"5\0\0", 2), (b"\2\2", 3)):
        message, got = message_of(tool.to_csv, data, tool.Form())
        check(got == number and message.startswith("byte 0: refusal"), f"{data!r} gives '{message}'")
    return 14


def options():
    """Options stand anywhere, and are refused where they mean nothing."""
    data, wanted = b"x;d;q\nx;2024-01-01;-9\nx;2024-01-02;1,5\n", tool.write_record(45_290, [None, 1500])
    words = ["--delimiter", ";", "--missing", "-9,NA", "--columns", "d,q", "--unit", "m3"]
    for line in (["to-record", *words], [*words, "to-record"], [*words[:4], "to-record", *words[4:6], "-", *words[6:]]):
        made = run(*line, data=data)
        check(made.stdout == wanted, f"{line}: {made.stderr.decode()}")
    for option, value in (("--missing", "-999,NA"), ("--columns", "1,2"), ("--delimiter", ";")):
        fails(run("to-csv", option, value, data=EMPTY), f"{option} has no meaning for to-csv", option, 2)
        fails(run("to-record", option), f"{option} wants a value", f"{option} without a value", 2)
        fails(run("to-record", option, value, option, value), f"{option} is given twice", f"{option} twice", 2)
    for value in ("date", "a,b,c", "a,", ",b", "0,1", "a,a", "2,2", ""):
        fails(run("to-record", "--columns", value, data=b""), "--columns is date,flow (two names, or", value, 2)
    for value in ("", ";;", '"', "\n", "\\t"):
        done = run("to-record", "--delimiter", value, data=b"")
        check(done.returncode == 2 and b"--delimiter is one character, or tab" in done.stderr, f"delimiter {value!r}")
    for words, message in ((["to-record", "--unit", "cfs"], "--unit is l or m3, and not 'cfs'"),
                           (["to-record", "--un", "m3"], "there is no option --un"),
                           (["to-csv", "-x"], "there is no option -x"), ([], "to-record, to-csv or normalize is wanted"),
                           (["normalize", "--unit", "l"], "--unit has no meaning for normalize"),
                           (["to-litres"], "to-record, to-csv or normalize is wanted, and not to-litres"),
                           (["to-csv", "a", "b", "c"], "two files are wanted at most, and 'c' is one more")):
        fails(run(*words, data=b""), f"tools/record: {message}", words, 2)
    fails(run("to-csv", "--", "-x"), "cannot read -x: No such file", "a name that begins with a dash")
    shown = run("to-record", "--help")
    check((shown.returncode, shown.stdout.decode()) == (0, tool.__doc__), "--help")
    for option in ("--unit l|m3", "--columns DATE,FLOW", "--delimiter C", "--missing WORDS", "--help"):
        check(f"\n  {option}  " in tool.__doc__ or f"\n  -h, {option}  " in tool.__doc__, f"the help has no {option}")
    return 35


def few_bytes():
    """In the tool's process: no file may have over LIMIT bytes, so that a write is partial, and the next one fails."""
    signal.signal(signal.SIGXFSZ, signal.SIG_IGN)
    resource.setrlimit(resource.RLIMIT_FSIZE, (LIMIT, LIMIT))


def output():
    """Every byte is written, or the tool says so."""
    record, table = tool.write_record(0, LONG), tool.to_csv(tool.write_record(0, LONG), tool.Form())
    count = 0
    for way, data, whole in (("to-record", table, record), ("to-csv", record, table)):
        check(len(whole) > 2 * LIMIT, "the output is too short for this test")
        for buffering in ("", "1"):
            more = {"data": data, "env": {**os.environ, "PYTHONUNBUFFERED": buffering}}
            with tempfile.TemporaryDirectory() as folder:
                named = Path(folder, "named")
                check(run(way, **more).stdout == whole, f"{way} to a pipe")
                check(run(way, "-", named, **more).returncode == 0 and named.read_bytes() == whole, f"{way} to a file")
                with open("/dev/full", "wb") as full:
                    fails(run(way, stdout=full, **more), "cannot write standard output: No space left", "a full disk")
                with open(Path(folder, "shell"), "wb") as short:
                    done = run(way, stdout=short, preexec_fn=few_bytes, **more)
                fails(done, "cannot write standard output: File too large", f"a partial write of {way}")
                named.write_bytes(b"before")
                for target in (named, Path(folder, "new")):
                    done = run(way, "-", target, preexec_fn=few_bytes, **more)
                    fails(done, f"cannot write {target}: File too large", f"a partial write of {way} to a named file")
                check(named.read_bytes() == b"before", "a failed write leaves the file as it was")
                check(sorted(os.listdir(folder)) == ["named", "shell"], f"left behind: {os.listdir(folder)}")
            count += 6
    with open("/dev/full", "wb") as full:
        fails(run("--help", stdout=full), "cannot write standard output: No space left", "--help on a full disk")
    writer = subprocess.Popen([TOOL, "to-csv"], stdin=subprocess.PIPE, stdout=subprocess.PIPE, stderr=subprocess.PIPE)
    writer.stdout.close()
    writer.stdout = None
    _, said = writer.communicate(record)
    check((writer.returncode, said) == (1, b"tools/record: cannot write standard output: Broken pipe\n"), said.decode())
    return count + 2


def closed_streams():
    """A closed standard stream is told, and no other file is taken for it."""
    def closing(*numbers):
        return {"preexec_fn": lambda: [os.close(number) for number in numbers]}

    data = tool.write_record(0, [1, None])
    table = tool.to_csv(data, tool.Form())
    with tempfile.TemporaryDirectory() as folder:
        record, target = Path(folder, "record"), Path(folder, "table")
        record.write_bytes(data)
        for numbers in ((0,), (0, 1)):
            fails(run("to-csv", **closing(*numbers)), "cannot read standard input: it is closed", f"{numbers} closed")
        for numbers in ((1,), (0, 1)):
            fails(run("to-csv", record, **closing(*numbers)), "cannot write standard output: it is closed",
                  f"{numbers} closed")
        fails(run("to-csv", data=data, **closing(1)), "cannot write standard output: it is closed", "output closed")
        fails(run("--help", **closing(1)), "cannot write standard output: it is closed", "--help with output closed")
        for numbers in ((0,), (1,), (2,), (0, 1), (0, 1, 2)):
            done = run("to-csv", record, target, **closing(*numbers))
            check(done.returncode == 0 and target.read_bytes() == table, f"named files with {numbers} closed")
            target.unlink()
        done = run("to-record", record, target, **closing(0, 1, 2))
        check(done.returncode == 1 and not target.exists(), "an error with all closed")
        done = run("to-record", "--unit", "x", **closing(2))
        check((done.returncode, done.stdout) == (2, b""), "a wrong word with standard error closed")
        os.mkfifo(target)
        reader = subprocess.Popen([TOOL, "to-csv", target, "/dev/null"], **closing(0, 1, 2))
        with open(target, "wb") as pipe:  # waits until the tool has opened it
            taken = [os.readlink(f"/proc/{reader.pid}/fd/{number}") for number in range(3)]
            pipe.write(data)
        check(reader.wait() == 0 and taken == ["/dev/null"] * 3, f"files with a standard stream's number: {taken}")
        target.unlink()
        check(record.read_bytes() == data and os.listdir(folder) == ["record"], f"left behind: {os.listdir(folder)}")
    return 14


def files():
    """A named file is replaced at once; links, permissions and what is no regular file stay."""
    data = tool.write_record(0, [1, None])
    table = tool.to_csv(data, tool.Form())
    with tempfile.TemporaryDirectory() as folder:
        os.chmod(folder, 0o777)
        record, target, link, pipe = (Path(folder, name) for name in ("record", "table", "link", "pipe"))
        record.write_bytes(data)

        def made(path, **more):
            done = run("to-csv", record, path, **more)
            check(done.returncode == 0 and not done.stderr, f"{path}: {done.stderr.decode()}")
            return stat.S_IMODE(os.stat(path).st_mode)

        check(made(target, preexec_fn=lambda: os.umask(0o027)) == 0o640, "a new file's permissions")
        target.write_bytes(b"before")
        os.chmod(target, 0o604)
        if os.geteuid() == 0:
            os.chown(target, 1234, 2345)
        owner = os.stat(target).st_uid, os.stat(target).st_gid
        with open(target, "rb") as old:
            check(made(target) == 0o604, "the permissions of a file that is replaced")
            check(old.read() == b"before" and target.read_bytes() == table, "the file is replaced, and not overwritten")
        check((os.stat(target).st_uid, os.stat(target).st_gid) == owner, "the owner of a file that is replaced")

        for before in (b"before", None):
            target.unlink()
            if before:
                target.write_bytes(before)
            link.unlink(missing_ok=True)
            link.symlink_to("table")
            made(link)
            check(link.is_symlink() and not target.is_symlink() and target.read_bytes() == table, "a symbolic link")
        special_files(record, table, target, pipe)
        refused_files(folder, record, target)
        check(sorted(os.listdir(folder)) == ["link", "pipe", "record", "table"], f"left behind: {os.listdir(folder)}")
    return 15


def special_files(record, table, target, pipe):
    """What is no regular file is written to, and stays what it is."""
    os.mkfifo(pipe)
    writer = subprocess.Popen([TOOL, "to-csv", record, pipe])
    got = pipe.read_bytes() if pipe.is_fifo() else b""
    check(writer.wait() == 0 and got == table and pipe.is_fifo(), "a named pipe")
    done = run("to-csv", record, "/dev/null")
    check(done.returncode == 0 and stat.S_ISCHR(os.stat("/dev/null").st_mode), "/dev/null")
    fails(run("to-csv", record, "/dev/full"), "cannot write /dev/full: No space left", "/dev/full")
    check(stat.S_ISCHR(os.stat("/dev/full").st_mode), "/dev/full")
    with open(target, "wb") as shell:
        shell.write(b"first\n")
        shell.flush()
        check(run("to-csv", record, "/dev/stdout", stdout=shell).returncode == 0, "/dev/stdout")
    check(target.read_bytes() == b"first\n" + table, "/dev/stdout is standard output")


def refused_files(folder, record, target):
    """Files that may not be written."""
    target.write_bytes(b"before")
    os.chmod(target, 0o444)
    tool_copy = Path(folder, "tool")
    shutil.copy(TOOL, tool_copy)
    user = {"user": 65534, "group": 65534, "extra_groups": []} if os.geteuid() == 0 else {}
    done = subprocess.run([tool_copy, "to-csv", record, target], capture_output=True, cwd="/", **user)
    fails(done, f"cannot write {target}: Permission denied", "a file that may not be written")
    check(target.read_bytes() == b"before", "a file that may not be written stays")
    tool_copy.unlink()
    loop = Path(folder, "loop")
    loop.symlink_to("loop")
    fails(run("to-csv", record, loop), f"cannot write {loop}: Too many levels", "a link to itself")
    check(loop.is_symlink(), "a link to itself stays")
    loop.unlink()
    for path, cause in ((f"{folder}/none/table", "No such file"), (f"{folder}/none/", "No such file"),
                        (folder, "Is a directory"), (f"{record}/table", "Not a directory")):
        fails(run("to-csv", record, path), f"cannot write {path}: {cause}", path)
    fails(run("to-csv", folder, target), f"cannot read {folder}: Is a directory", "a folder as input")


def same_files():
    """The same file as input and output is refused by every name, and stays as it is."""
    data = b"2024-01-01,5\n"
    with tempfile.TemporaryDirectory() as folder:
        table, hard, soft = Path(folder, "table"), Path(folder, "hard"), Path(folder, "soft")
        table.write_bytes(data)
        os.link(table, hard)
        soft.symlink_to(table)
        around = f"{folder}/../{table.parent.name}/table"
        for source, target in ((table, table), (table, f"{folder}/./table"), (around, table), (table, hard),
                               (hard, table), (table, soft), (soft, table)):
            fails(run("to-record", source, target), f"{source} is both input and output", f"{source} to {target}")
        with open(table, "rb") as source:
            fails(run("to-record", "-", table, stdin=source), "standard input is both input and output", "by <")
        with open(table, "ab") as target:
            fails(run("to-record", table, stdout=target), f"{table} is both input and output", "by >>")
        check(table.read_bytes() == data and soft.is_symlink() and hard.samefile(table), "the same file stays")
    fails(run("to-record", "/dev/null", "/dev/null"), "/dev/null, line 1: there is no line", "no regular file")
    return 10


def calls():
    """What the tool asks of the system: every byte, then fsync, then the new name."""
    data, asked = bytes(range(256)), []
    write, replace = os.write, os.replace
    with tempfile.TemporaryDirectory() as folder:
        path = Path(folder, "file")
        with mock.patch("os.write", lambda number, rest: write(number, rest[:7])), \
                mock.patch("os.fsync", lambda number: asked.append(os.fstat(number).st_size)), \
                mock.patch("os.replace", lambda *names: (asked.append(os.path.dirname(names[0])), replace(*names))):
            tool.write_file(path, data)
        check(path.read_bytes() == data, "parts of seven bytes")
        check(asked == [256, os.path.realpath(folder)], f"fsync, and then a new name in the same folder: {asked}")
        for name in ("os.write", "os.fsync", "os.fchmod", "os.replace"):
            with mock.patch(name, side_effect=OSError(5, "broken")):
                try:
                    tool.write_file(path, b"new")
                    check(False, f"{name} fails, and the tool does not say so")
                except OSError:
                    check(path.read_bytes() == data and os.listdir(folder) == ["file"], f"{name} fails")
    with mock.patch("os.close", side_effect=OSError(28, "full")):
        try:
            tool.write_to("-", b"", set())
            check(False, "standard output is full when it is closed, and the tool does not say so")
        except OSError as error:
            check(error.errno == 28, "standard output is full when it is closed")
    return 7


def main():
    if len(sys.argv) != 1:
        sys.exit(__doc__)
    rng, engines = random.Random(1900), (Engine(), reference())
    counts = [tables(), headers(), round_trips(rng, engines), damaged(rng, engines)]
    counts.append(sum(test() for test in (command, texts, options, output, closed_streams, files, same_files, calls)))
    print("record: {} tables, {} headers, {} round trips, {} damaged records and {} commands are as they should be"
          .format(*counts))


main()
