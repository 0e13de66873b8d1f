#!/usr/bin/env python3
"""Measures demand 3 and BFImax through the C interface: the rounded run against one in exact fractions.

    tests/exact.py

Each record is written, read, separated, stepped through day by day and totalled by the engine (include/baseflow.h).
The days and the setting are worked out anew with fractions: document 01's rules, near left out. It fails with a message
where a figure lies outside its limit, a day has a value in one run only, or a refusal is not the one that the rules
give. What is written has to be the record that the rules make of the days. A licence is replayed over each base flow: what
is taken and what is left make up the quota, and no day's flow comes below its base.
BFImax has runs of its own: the limit of each of its values counts the days up to the next one behind it on which both
runs have the whole flow. Filters from a start that is given have runs of their own, too: each within the limit of its
filter, and for methods 1 to 6 any two of them as close to each other as their rule says; a river with more flow has no
less base flow. A meter's readings, with every upper half of a float's bits, have to be the nearest litre to the fraction
that the float is. Each call over presence bits has to give what the call over the days gives. It prints the largest
share of each limit that was reached, and keeps that in target/tests/exact.txt, from which the page of guarantees takes
its figures. Document 01's worked rivers are held to its figures first.
"""
import random
import struct
import sys
from fractions import Fraction

sys.dont_write_bytecode = True
import rules
from interface import Bits, Engine, Refused, products

HALF = Fraction(1, 2)
MARK = 2**32 - 1
LINE = "line"  # stands for the block-minima line where a method is asked for
METHODS = (1, 2, 3, 4, 5, 6, 7)
LEAST_RUNS = 1500
LATER = 10  # days from a value of BFImax to the one that its limit counts from, at least, for its second share


def refusal(method, p, q, s, n, days):
    if method == LINE:
        return rules.bad_line(n, p) or rules.no_line(n, p, days)
    return rules.bad_setting(method, p, q, s) or rules.bad_passes(method, n)


def exact_run(method, p, q, s, n, days):
    if method == LINE:
        return rules.over_stretches(lambda flows: rules.line_over(Fraction, n, p, flows), days)
    return rules.filter_over(Fraction, (method, p, q, s, n), days)


def daily_limit(method, p, q, s, n):
    if method == LINE:
        return HALF
    A, _, _, d = rules.weights(method, p, q, s)
    return Fraction(n * d, 2 * (d - A))


def storms(rng, days, gap):
    flow, river = 900.0, []
    for _ in range(days):
        flow = flow * 0.97 if rng.random() < 0.9 else flow + rng.expovariate(1 / 900)
        river.append(None if rng.random() < gap else int(flow))
    return river


def rivers(rng):
    yield "flow 1", [1] * 60
    yield "zeros", [0] * 40
    yield "zeros and ones", [rng.randrange(2) for _ in range(120)]
    yield "largest", [10_000_000] * 50
    yield "zero and largest", [rng.choice((0, 10_000_000)) for _ in range(120)]
    yield "one day", [7]
    yield "gaps only", [None] * 9
    yield "no day", []
    yield "gaps everywhere", [rng.choice((None, rng.randrange(50))) for _ in range(200)]
    yield "gaps at both ends", [None] * 3 + [rng.randrange(1000) for _ in range(60)] + [None] * 5
    yield "storms and recessions", storms(rng, 400, 0.02)
    yield "ten years with gaps", storms(rng, 3653, 0.03)
    yield "saw", [rng.randrange(3, 12) for _ in range(180)]
    yield "flow 1, then dry, again and again", ([1] * 25 + [0] * 5) * 6
    yield "dry summers", [flow if t % 365 < 240 else 0 for t, flow in enumerate(storms(rng, 1461, 0))]


def any_setting(rng):
    method = rng.choice((*METHODS, LINE))
    if method == LINE:
        return LINE, rng.randrange(1, 10000), 0, 0, rng.randrange(1, 31)
    return any_filter(rng, method)


def any_filter(rng, method):
    p = rng.randrange(3334 if method == 2 else 1, 10000)
    q = rng.randrange(1, 10000 if method == 5 else 10001) if method in (4, 5, 7) else 0
    s = rng.randrange(-9999, 10000) if method == 7 else 0
    return method, p, q, s, rng.randrange(1, 4) if method == 1 else 1


def settings(rng):
    for passes in (1, 2, 3):
        yield 1, 9250, 0, 0, passes
        yield 1, 100, 0, 0, passes
        yield 1, rng.randrange(1, 10000), 0, 0, passes
    yield 1, 9999, 0, 0, 3
    for method, p, q in ((2, 9500, 0), (2, 3334, 0), (3, 9700, 0), (4, 9000, 500), (4, 9999, 1), (5, 9780, 8000),
                         (5, 9999, 9999), (6, 5000, 0), (6, 9999, 0)):
        yield method, p, q, 0, 1
    for p, q, s in ((9700, 300, -2000), (9999, 1, -9999), (9999, 10000, 9999), (1, 10000, -9999), (5000, 10000, -6000),
                    (9999, 10000, -9999), (9500, 1000, 0)):
        yield 7, p, q, s, 1
    for days_per_block, factor in ((1, 9000), (5, 9000), (5, 9999), (3, 1), (16, 9500), (30, 9000)):
        yield LINE, factor, 0, 0, days_per_block


def cases():
    rng = random.Random(1900)
    for name, river in rivers(rng):
        for setting in [*settings(rng), *(any_setting(rng) for _ in range(50))]:
            yield name, setting, rng.randrange(100_000), river
    full = storms(rng, 36525, 0.03)
    for setting in ((1, 9250, 0, 0, 3), (5, 9780, 8000, 0, 1), (7, 9700, 300, -2000, 1), (LINE, 9000, 0, 0, 5)):
        yield "36,525 days", setting, 99_999, full
    yield "a rise that stops at a half", (6, 9950, 0, 0, 1), 0, [1] * 2000
    for _ in range(800):
        river = [rng.randrange(rng.choice((4, 100, 10_000_001))) for _ in range(rng.randrange(1, 60))]
        yield "any", any_setting(rng), 0, river
    for setting in ((0, 1, 0, 0, 1), (8, 9700, 300, 0, 1), (1, 0, 0, 0, 1), (3, 1, 1, 0, 1), (2, 3333, 0, 0, 1),
                    (7, 9700, 0, 0, 1), (7, 9700, 10001, 0, 1), (7, 9700, 300, 10000, 1), (7, 9700, 300, -10000, 1),
                    *((method, 9700, 300 if method in (4, 5) else 0, s, 1) for method in METHODS[:-1] for s in (1, -1)),
                    (1, 9250, 0, 0, 4), (2, 9500, 0, 0, 2), (7, 9700, 300, -2000, 2), (LINE, 9000, 0, 0, 31),
                    (LINE, 0, 0, 0, 5), (LINE, 9000, 0, 0, 5)):
        yield "three days", setting, 0, [5, 4, 6]


class Shares:
    """The largest distance reached, as a share of its limit, for each figure."""

    def __init__(self):
        self.reached = {}

    def within(self, figure, value, exact, limit):
        distance = abs(value - exact)
        share = distance / limit
        assert share <= 1, f"{figure}: {value} lies {float(distance)} from {float(exact)}, limit {float(limit)}"
        self.reached[figure] = max(share, self.reached.get(figure, Fraction(0)))

    def days_within(self, figure, days, base, exact, limit):
        for day, b, f in zip(days, base, exact, strict=True):
            assert (b is None) == (f is None), f"{figure}: a value in one run only"
            if b is not None:
                assert 0 <= b <= 1000 * day, f"{figure}: base {b} of flow {day}"
                self.within(figure, b, f, limit)


def refused(call, *arguments):
    """What a call answers: its number, and its result where that is None."""
    try:
        return None, call(*arguments)
    except Refused as refusing:
        return refusing.number, None


def measure_licence(engine, days, base):
    """A daily limit of a tenth of the largest flow, and quotas of half of what it lets through, and of all."""
    limit = max((y for y in days if y is not None), default=0) // 10
    most = rules.MOST_QUOTA - rules.replay(limit, rules.MOST_QUOTA, days, base)[1]
    for quota in (most // 2, most):
        takings, left = engine.licence(limit, quota, days, base)
        assert sum(takings) + left == quota, f"{sum(takings)} taken and {left} left of a quota of {quota}"
        for y, b, taking in zip(days, base, takings, strict=True):
            assert taking == 0 if b is None else 1000 * (y - taking) >= b, f"{taking} is taken of flow {y}, base {b}"
        assert (takings, left) == rules.replay(limit, quota, days, base), f"other takings than the rule gives: {takings}"


def measure(engine, setting, first, stated, shares):
    method, p, q, s, n = setting
    data, days = rules.record(first, stated), stated
    assert engine.write(first, days) == data, "another record than that of the days"
    assert engine.read(data) == (first, days), "other days than the record states"
    number, base = refused(engine.line, n, p, days) if method == LINE else refused(engine.filter, *setting, days)
    wanted = refusal(*setting, days)
    assert number == wanted, f"base flow answers {number}, where {wanted} is due"
    if wanted is not None:
        return
    exact, limit = exact_run(*setting, days), daily_limit(*setting)
    name = "line" if method == LINE else f"method 1, {n} pass{'es' * (n > 1)}" if method == 1 else f"method {method}"
    shares.days_within(name, days, base, exact, limit)
    measure_licence(engine, days, base)
    if method != LINE and n == 1:
        shares.days_within("daily steps", days, engine.steps(method, p, q, s, days), exact, limit)

    counted = [(y, f) for y, f in zip(days, exact) if f is not None]
    m, Y = len(counted), sum(y for y, _ in counted)
    number, totals = refused(engine.totals, days, base)
    assert number == (21 if Y == 0 else None), f"totals answer {number}, where the flow total is {Y}"
    if Y == 0:
        return
    got_m, got_Y, T, quick, index = totals
    T_exact = sum(f for _, f in counted)
    assert (got_m, got_Y) == (m, Y), f"m {got_m}, Y {got_Y}, where they are {m} and {Y}"
    shares.within("base total", T, T_exact, m * limit)
    shares.within("quick total", quick, 1000 * Y - T_exact, m * limit)
    shares.within("index", index, 10 * T_exact / Y, HALF + 10 * m * limit / Y)


# "Filters": a start that is given
def first_stretch(days):
    """Where the first stretch begins and where it ends; both the list's end where there is none."""
    start, flows = next(iter(rules.stretches(days)), (len(days), []))
    return start, start + len(flows)


def starts_of(rng, days):
    """Starts up to 1000 × the first present flow, and above it."""
    first, end = first_stretch(days)
    whole = 1000 * days[first] if first < end else 0
    return 0, whole, rng.randrange(whole + 1), whole + 1, rng.choice((2 * whole + 2**32, 10**10 + 1, 2**64 - 1))


def start_cases():
    rng = random.Random(12)
    short = [river for _, river in rivers(rng) if len(river) <= 400]
    short += [[None] + river for river in short[:4]] + [storms(rng, 200, gap) for gap in (0, 0.01, 0.1, 0.3)]
    for river in short:
        for setting in (*settings(rng), *(any_filter(rng, method) for method in METHODS)):
            if setting[0] != LINE:
                yield setting, starts_of(rng, river), river
    for setting in ((1, 9250, 0, 0, 3), (5, 9780, 8000, 0, 1), (7, 9700, 300, -2000, 1)):
        river = storms(rng, 3653, 0.03)
        yield setting, starts_of(rng, river), river
    for setting in ((8, 9700, 0, 0, 1), (1, 0, 0, 0, 1), (1, 9250, 0, 0, 4)):
        yield setting, (5001, 2**64 - 1), [5, 4, 6]


def measure_start(engine, setting, start, days, shares):
    """The base list from a start; None where it is refused."""
    number, base = refused(engine.filter, *setting, days, start)
    wanted = refusal(*setting, days) or rules.bad_start(start, days)
    assert number == wanted, f"the filter from {start} answers {number}, where {wanted} is due"
    if wanted is None:
        assert base == rules.filter_over(rules.near, setting, days, start), f"other values from {start} than the rule has"
        exact = rules.filter_over(Fraction, setting, days, start)
        shares.days_within("a filter from a start", days, base, exact, daily_limit(*setting))
        end = first_stretch(days)[1]
        assert base[end:] == engine.filter(*setting, days)[end:], f"a later stretch knows the start {start}"
    return base


def measure_apart(setting, low, high, days, shares):
    """A run from a start and one from a start at least as high: never lower on a day, and after one pass ever closer, but
    for what rounding adds."""
    first, end = first_stretch(days)
    for k, (a, b) in enumerate(zip(low[first:end], high[first:end])):
        assert a <= b, f"{k} days on {b} from the higher start, and {a} from the lower one"
        if setting[-1] == 1:
            left, added = rules.forgotten(*setting[:4], high[first] - low[first], k)
            shares.within("rounding between two starts", max(b - a, left), left, added)


def measure_starts(engine, setting, starts, days, shares):
    """How many runs were accepted."""
    bases = [measure_start(engine, setting, start, days, shares) for start in sorted(starts)]
    given = [base for base in bases if base is not None]
    for low, high in zip(given, given[1:]):
        if setting[0] != 7:
            measure_apart(setting, low, high, days, shares)
    return len(given)


def measure_order(engine):
    """A river with at least as much flow on each day has at least as much base flow; how many pairs that was."""
    rng, pairs = random.Random(21), 0
    for _, river in rivers(rng):
        for setting in [any_filter(rng, method) for method in METHODS[:-1] for _ in range(4)]:
            most = rng.choice((1, 3, 1000, 10_000_000))
            less = [None if day is None else max(0, day - rng.randrange(most + 1) * rng.randrange(2)) for day in river]
            days = zip(engine.filter(*setting, less), engine.filter(*setting, river), strict=True)
            assert all(a is None or a <= b for a, b in days), f"setting {setting}, {less} beside {river}"
            pairs += 1
    return pairs


# "Staggered blocks": 14.4
def staggered_cases():
    rng = random.Random(2026)
    for name, river in rivers(rng):
        any_line = rng.randrange(1, 31), rng.randrange(1, 10000)
        for block_days, factor in ((1, 9000), (2, 9000), (5, 9000), (7, 9999), (30, 9500), any_line):
            yield name, block_days, factor, river
    for _ in range(300):
        river = [rng.choice((None, *(rng.randrange(rng.choice((4, 100, 10_000_001))) for _ in range(12))))
                 for _ in range(rng.randrange(1, 80))]
        yield "any", rng.randrange(1, 9), rng.randrange(1, 10000), river


def measure_staggered(engine, block_days, factor, days, shares):
    """Each shifted line, and each of the three choices, beside the exact one; how many runs that was."""
    wanted = rules.no_lines(block_days, factor, days)
    exact = rules.lines_over(Fraction, block_days, factor, days)
    for choice, name in ((1, "lowest"), (2, "highest"), (3, "median")):
        number, given = refused(engine.staggered, block_days, factor, choice, days)
        assert number == wanted, f"choice {choice} answers {number}, where {wanted} is due"
        if wanted is not None:
            continue
        base, lines = given
        assert lines == rules.lines_over(rules.near, block_days, factor, days), "other lines than the rule gives"
        for line, fractions in zip(lines, exact, strict=True):
            shares.days_within("a shifted line", days, line, fractions, HALF)
        shares.days_within(f"{name} of the shifted lines", days, base, rules.chosen(choice, exact), HALF)
    return 0 if wanted else 3


# "BFImax": 13.5, 13.6
def recession(rng, p, days):
    """A river that keeps close to the rule: each flow is about the following day's value divided by p / 10000."""
    value, river = Fraction(1000 * rng.randrange(1, 500)), []
    for _ in range(days):
        flow = min(10_000_000, max(0, value // 1000 + rng.choice((-1, 0, 1, 1, 1, 30))))
        river.append(flow)
        value = min(value, 1000 * flow) * 10000 // p
    return river[::-1]


def bfimax_cases():
    rng = random.Random(2026)
    usual = (9500, 9700, 9800, 9900)
    for name, river in rivers(rng):
        for p in (*usual, 9999, 6400, 5000, 1, *(rng.randrange(1, 10000) for _ in range(4))):
            last = rng.randrange(max(1, len(river)))
            yield name, (len(river) - 1) % 2**32, len(river), p, river
            yield name, last, min(last + 1, 365), p, river
            yield name, last, rng.randrange(2, 6), p, river
    for p in (*usual, 9990, 9999, 9250):
        for days in (5, 30, 60, 60, 200):
            yield "a recession", days - 1, days, p, recession(rng, p, days)
            yield "a flood that nothing holds", days - 1, days, p, [10_000_000] * (days - 1) + [rng.randrange(1, 50)]
    yield "every rounding goes one way", 10, 11, 3333, [10_000_000] * 10 + [5]
    for _ in range(600):
        p = rng.choice((rng.choice(usual), rng.randrange(9000, 10000), rng.randrange(1, 10000)))
        river = recession(rng, p, rng.randrange(2, 90))
        last = rng.randrange(1, len(river))
        yield "a recession", last, rng.randrange(2, last + 2), p, river
    full = storms(rng, 36525, 0)
    for last in (3649, 20_000, 36_524):
        yield "36,525 days", last, 3650, 9700, full
    for last, duration, p in ((0, 2, 9700), (1, 2, 9700), (2, 3, 9700), (2, 4, 9700), (3, 2, 9700),
                              (2**32 - 1, 2, 9700), (2, 0, 9700), (2, 1, 9700), (2, 3650, 9700), (2, 3651, 9700),
                              (2, 3, 0), (2, 3, 10000)):
        yield "three days", last, duration, p, [5, 4, 6]
        yield "three days", last, duration, p, [0, 0, 0]
        yield "three days", last, duration, p, [5, None, 6]


def measure_bfimax(engine, last, duration, p, days, shares):
    """Whether it was accepted."""
    number, given = refused(engine.bfimax, last, duration, p, days)
    wanted = rules.bad_bfimax(last, duration, p, days, len(days))
    assert number == wanted, f"BFImax answers {number}, where {wanted} is due"
    if wanted is not None:
        return False
    answer, base = given
    assert given == rules.bfimax_over(rules.near, last, duration, p, days), f"other values than the rule gives: {given}"
    assert 0 <= answer <= 10000, f"BFImax {answer}"
    _, exact = rules.bfimax_over(Fraction, last, duration, p, days)
    limit, since = Fraction(0), 0
    for t in range(last, last - duration, -1):
        flow, value, fraction = 1000 * days[t], base[t], exact[t]
        assert 0 <= value <= flow and 0 <= fraction <= flow, f"{value} and {fraction} at place {t}, of {flow}"
        if value == fraction == flow:
            limit, since = Fraction(0), 0
            continue
        limit, since = limit * 10000 / p + HALF, since + 1
        assert since > 20 or limit == rules.stretched(p, since)
        shares.within("BFImax", value, fraction, limit)
        if since >= LATER:
            shares.within(f"BFImax {LATER} days back and more", value, fraction, limit)
    return True


# "Meter": 16.1 to 16.4
def float_readings():
    """Every upper half of a float's bits, with a lower half drawn for it, in both units."""
    rng = random.Random(1900)
    for upper in range(2**16):
        for kind in (1, 2):
            yield bytes([kind]) + (upper << 16 | rng.randrange(2**16)).to_bytes(4, "little")


def measure_meter(engine):
    """How many readings that was."""
    count = 0
    for count, data in enumerate(float_readings(), 1):
        given, due = refused(engine.meter, data), rules.meter(data)
        wanted = (due, None) if isinstance(due, rules.Refusal) else (None, due)
        assert given == wanted, f"number and day {given}, where {wanted} is due for {data.hex()}"
    return count


# "Presence bits"
def bits_cases():
    """Rivers with gaps, and one of 36,525 days."""
    rng = random.Random(64)
    yield from (river for _, river in rivers(rng))
    for count in (0, 1, 2, 63, 64, 65, 127, 128, 129, 640, 1000):
        for gap in (0, 0.1, 0.5, 1):
            yield storms(rng, count, gap)
    for _ in range(300):
        limit, gap = rng.choice((4, 100, 10_000_001)), rng.choice((0, 0.02, 0.3))
        yield [None if rng.random() < gap else rng.randrange(limit) for _ in range(rng.randrange(200))]
    yield storms(rng, 36525, 0.03)


def calls_over(rng, days):
    """The calls over days, as functions of an engine and of the days in either form."""
    setting, block_days, choice = any_filter(rng, rng.choice(METHODS)), rng.randrange(1, 6), rng.randrange(1, 4)
    last = rng.randrange(max(1, len(days)))
    limb_days, duration = rng.randrange(2, 7), rng.choice((2, last + 1, 7))
    base = [None if b is None or rng.random() < 0.1 else b if rng.random() < 0.8 else b // 2
            for b in rules.whole_flows(days)]
    if base and rng.random() < 0.2:
        base[last] = 10**10 + 1
    start = rng.choice(starts_of(rng, days))
    return (lambda engine, form: engine.filter(*setting, form),
            lambda engine, form: engine.filter(*setting, form, start),
            lambda engine, form: engine.line(block_days, 9000, form),
            lambda engine, form: engine.staggered(block_days, 9000, choice, form),
            lambda engine, form: engine.totals(form, base),
            lambda engine, form: engine.recession(limb_days, form, base),
            lambda engine, form: engine.bfimax(last, duration, 9700, form))


def measure_bits(engine):
    """There and back, and each of the calls over both forms; how many calls were made over bits, and how many of
    them accepted."""
    rng, made, accepted = random.Random(28), 0, 0
    for days in bits_cases():
        form, present = engine.to_bits(days)
        assert (form.flows, form.words, present) == rules.to_bits(days), f"bits {form.words} of {days}"
        assert engine.from_bits(form) == (days, present) == rules.from_bits(form.flows, form.words), f"back to {days}"
        for call in calls_over(rng, days):
            wanted, given = refused(call, engine, days), refused(call, engine, form)
            assert given == wanted, f"number and result {given} over bits, {wanted} over the days {days}"
            made, accepted = made + 1, accepted + (given[0] is None)
    return made, accepted


# document 01, "Rivers worked through": rule 8.1
def worked_rivers(engine):
    def ratios(limb_days, days):
        """With every day at base."""
        return engine.recession(limb_days, days, rules.whole_flows(days))

    def readings(kind, *values):
        """The refusal and the day of each."""
        return [refused(engine.meter, bytes([kind]) + struct.pack("<f", value)) for value in values]

    def of_bits(*bits):
        """The refusals of floats by their bits, in both units."""
        return {refused(engine.meter, bytes([kind]) + n.to_bytes(4, "little"))[0] for n in bits for kind in (1, 2)}

    def numbers(call, *forms):
        """What a call answers to each."""
        return [refused(call, form)[0] for form in forms]

    def record(entries, first=0):
        """A record by its entries between the head and the end, and the days that the end counts."""
        *parts, count = entries.split()
        return bytes.fromhex("01" + first.to_bytes(4, "little").hex() + "".join(parts) + f"09{count}000000")

    def bits_of(days):
        form, present = engine.to_bits(days)
        return form.flows, form.words, present

    def takings(quota):
        return engine.licence(60, quota, [100, 200, None, 50], [50000, 57500, None, 25000])

    line = [None, 8000, 8333, 8667, 9000, None]
    flows = [10, 8, 10, 20, 9, 30]
    falling = [100, 90, 81, 72]
    unlike = [18, 16, 12, 12, 14, 11, 14, 13, 15]
    stretches = [14, 14, 14, 17, 11, 19, 12, 19, 12, 11, 17, 12, 10, None, 15, None, 5, 10, 19, 6, 5, 13, 9, 5, 13, 11, 7,
                 12]
    dry_block = [12, 11, 10, 13, 14] + [0] * 5 + [15, 10, 12, 11, 13, 9, 8, 8, 9, 10, 10, 12, 13, 14, 15]
    return [
        ("method 1", engine.filter(1, 9250, 0, 0, 1, [100, 200]), [50000, 57500]),
        ("method 1, falling", engine.filter(1, 9250, 0, 0, 1, [1000, 10]), [500000, 10000]),
        ("method 5", engine.filter(5, 9770, 8000, 0, 1, [100, 100]), [72000, 72842]),
        ("method 6", engine.filter(6, 5000, 0, 0, 1, [1] * 6), [500, 750, 875, 938, 969, 984]),
        ("method 2, p 3333", refused(engine.filter, 2, 3333, 0, 0, 1, [1])[0], 12),
        ("method 2, p 3334", refused(engine.filter, 2, 3334, 0, 0, 1, [1])[0], None),
        ("method 7, below zero", engine.filter(7, 100, 1000, -5000, 1, [1000, 2]), [500000, 0]),
        ("method 7, below zero, exactly", exact_run(7, 100, 1000, -5000, 1, [1000, 2]), [500000, 0]),
        ("method 7, below zero, daily", engine.steps(7, 100, 1000, -5000, [1000, 2]), [500000, 0]),
        ("method 7, s 0", engine.filter(7, 9250, 500, 0, 1, flows), engine.filter(4, 9250, 500, 0, 1, flows)),
        ("methods 1 to 6, s 1", [refused(engine.filter, method, 9250, 500 if method in (4, 5) else 0, 1, 1, [1])[0]
                                 for method in METHODS[:-1]], [12] * 6),
        ("method 7, s at its ends and beyond", [refused(engine.filter, 7, 9250, 500, s, 1, [1])[0]
                                                for s in (-10000, -9999, 9999, 10000)], [12, None, None, 12]),
        ("method 7, two passes", refused(engine.filter, 7, 9250, 500, 0, 2, [1])[0], 13),
        ("from 0", engine.filter(1, 9250, 0, 0, 1, [100, 200], 0), [0, 11250]),
        ("from 1000 x the first flow", engine.filter(1, 9250, 0, 0, 1, [100, 200], 100_000), [100_000, 103_750]),
        ("from one above it", refused(engine.filter, 1, 9250, 0, 0, 1, [100, 200], 100_001)[0], 29),
        ("from any start, missing days only", [engine.filter(1, 9250, 0, 0, 1, [None] * 2, start)
                                               for start in (0, 10**10 + 1, 2**64 - 1)], [[None] * 2] * 3),
        ("from any start, no day", engine.filter(1, 9250, 0, 0, 1, [], 2**64 - 1), []),
        ("from 0, a first day that is missing", engine.filter(1, 9250, 0, 0, 1, [None, 100, 200], 0), [None, 0, 11250]),
        ("29, a first day that is missing", refused(engine.filter, 1, 9250, 0, 0, 1, [None, 100, 200], 100_001)[0], 29),
        ("from 0, two stretches", engine.filter(1, 9250, 0, 0, 1, [100, None, 100, 200], 0), [0, None, 50000, 57500]),
        ("from 0, three passes", [engine.filter(1, 9250, 0, 0, passes, [100, 200], 0) for passes in (1, 2, 3)],
         [[0, 11250], [0, 11250], [0, 422]]),
        ("from 1000 x the first flow, three passes",
         [engine.filter(1, 9250, 0, 0, passes, [100, 20], 100_000) for passes in (1, 2, 3)],
         [[100_000, 20000], [23000, 20000], [23000, 20000]]),
        ("29 after 10", [refused(engine.filter, 1, 9250, 0, 0, 1, [100, flow], 100_001)[0]
                         for flow in (10_000_001, 10_000_000)], [10, 29]),
        ("line", engine.line(1, 9000, flows), line),
        ("line's index", engine.totals(flows, line)[4], 7234),
        ("10 beside 9 does not turn", refused(engine.line, 1, 9000, [9, 10, 20, 8, 20])[0], 17),
        ("10 beside 10 turns", engine.line(1, 9000, [10, 10, 20, 8, 20])[1], 10000),
        ("dry days", engine.line(1, 9000, [5, 0, 0, 0, 5]), [None, 0, 0, 0, None]),
        ("two dry days", engine.line(1, 9000, [3, 0, 4, 6, 0, 5]), [None, 0, 0, 0, 0, None]),
        ("a dry block", engine.line(5, 9000, dry_block),
         [None] * 5 + [0] * 5 + [3636, 4364, 5091, 5818, 6545, 7273, 8000] + [None] * 8),
        ("no flow", engine.line(1, 9000, [0] * 5), [None, 0, 0, 0, None]),
        ("no flow, no totals", refused(engine.totals, [0] * 5, [None, 0, 0, 0, None])[0], 21),
        ("staggered, N 1", [engine.staggered(1, 9000, choice, flows)[0] for choice in (1, 2, 3)], [line] * 3),
        ("staggered, N 2", [engine.staggered(2, 9000, choice, unlike)[0][2:6] for choice in (1, 2, 3)],
         [[12000, 11667, 11333, 11000], [12000, 12000, 11500, 11000], [12000, 11667, 11333, 11000]]),
        ("staggered, N 2, the lines", [line[1:7] for line in engine.staggered(2, 9000, 1, unlike)[1]],
         [[None, 12000, 11667, 11333, 11000, None], [None, None, 12000, 11500, 11000, None]]),
        ("staggered, a stretch shorter than its shift", engine.staggered(3, 9000, 2, stretches)[0],
         [None] * 4 + [11000, 11500, 12000, 11000, 11000, 11000] + [None] * 10 + [5000] * 4 + [None] * 4),
        ("staggered, no line", refused(engine.staggered, 2, 9000, 1, [5, 4, 6])[0], 17),
        ("staggered, choice 0 and 4", [refused(engine.staggered, 2, 9000, choice, flows)[0] for choice in (0, 4)],
         [16, 16]),
        ("two dry blocks alone", refused(engine.line, 1, 9000, [0, 0])[0], 17),
        ("L 3", ratios(3, [100, 90, 81]), (2, 9000, [(0, 3)])),
        ("L 4", refused(ratios, 4, [100, 90, 81])[0], 19),
        ("the longest limb first", ratios(2, [9, 8, 9, 8, 7, 9, 8]), (4, 8889, [(2, 3), (0, 2), (5, 2)])),
        ("lower middle", ratios(3, [100, 50, 40]), (2, 5000, [(0, 3)])),
        ("a limb up to a day below its flow", engine.recession(2, falling, [100000, 90000, 80999, 72000]),
         (1, 9000, [(0, 2)])),
        ("a limb up to a day without a value", engine.recession(2, falling, [100000, 90000, None, 72000]),
         (1, 9000, [(0, 2)])),
        ("a limb behind a day without a value", engine.recession(2, falling, [100000, None, 81000, 72000]),
         (1, 8889, [(2, 2)])),
        ("half-lives", [engine.half_life(p) for p in (500, 501, 900, 990, 999, 1)], [1, 2, 7, 69, 693, 1]),
        ("half-lives, p 0 and 1000", [refused(engine.half_life, p)[0] for p in (0, 1000)], [12, 12]),
        ("half-lives of every p", [engine.half_life(p) for p in range(1, 1000)],
         [rules.half_life(p) for p in range(1, 1000)]),
        ("readings, litres", readings(2, 2.5, 3.5, 8_388_607.5, 10_000_000, 10_000_001),
         [(None, 2), (None, 4), (None, 8_388_608), (None, 10_000_000), (27, None)]),
        ("readings, cubic metres", readings(1, 1.5, 0.0005, 10_000, 10_000.0009765625),
         [(None, 1500), (None, 1), (None, 10_000_000), (27, None)]),
        ("readings, negative zero and the smallest subnormal", [readings(kind, -0.0, 2**-149) for kind in (1, 2)],
         [[(None, 0)] * 2] * 2),
        ("readings, infinities", of_bits(0x7f800000, 0xff800000), {26}),
        ("readings, NaNs", of_bits(0x7fc00000, 0xffc00000, 0x7f800001, 0xff800001, 0x7fffffff, 0xffffffff), {26}),
        ("readings, below zero", [readings(kind, -1e-45, -1, -3.4e38) for kind in (1, 2)], [[(26, None)] * 3] * 2),
        ("readings, the largest", [readings(kind, 3.4e38) for kind in (1, 2)], [[(27, None)]] * 2),
        ("no reading", engine.meter(b"\x03"), None),
        ("readings, bytes", [refused(engine.meter, bytes.fromhex(data))[0] for data in (
            "", "01", "02000080", "00", "04", "ff0000803f00", "0303", "010000803f00", "020000807f00")],
         [1, 1, 1, 2, 2, 2, 8, 8, 8]),
        ("BFImax, held to the flow in the middle", engine.bfimax(4, 5, 9000, [30, 12, 10, 20, 9]),
         (6476, [12346, 11111, 10000, 10000, 9000])),
        ("BFImax, never held to the flow", engine.bfimax(4, 4, 9500, [7, 100, 80, 50, 30, None]),
         (4993, [None, 34991, 33241, 31579, 30000, None])),
        ("BFImax, a dry last day", engine.bfimax(2, 3, 9500, [5, 0, 0, 7]), (0, [0, 0, 0, None])),
        ("BFImax, no flow", refused(engine.bfimax, 2, 2, 9500, [5, 0, 0, 7])[0], 21),
        ("method 1, halves, three passes", engine.filter(1, 5000, 0, 0, 3, [1] * 6), [500, 562, 687, 797, 875, 926]),
        ("method 5, a start at a half", [engine.filter(5, 9770, 50, 0, 1, [flow]) for flow in (1, 3)], [[4], [14]]),
        ("line, halves", engine.line(16, 9000, [30] * 16 + [20] + [30] * 15 + [21] + [30] * 31)[16:21],
         [20000, 20062, 20125, 20188, 20250]),
        ("index at a half", [engine.totals([20], [base])[4] for base in (1, 3)], [0, 2]),
        ("a ratio at a half", [ratios(2, [32, flow])[1] for flow in (1, 3)], [312, 938]),
        ("BFImax, a half", engine.bfimax(1, 2, 6400, [2, 1]), (8540, [1562, 1000])),
        ("BFImax, a half above an odd number", engine.bfimax(1, 2, 6400, [5, 3]), (9610, [4688, 3000])),
        ("BFImax, the answer at a half", [engine.bfimax(1, 2, 5000, flows)[0] for flows in ([31, 1], [29, 3])],
         [938, 2812]),
        ("bits, no day", bits_of([]), ([], [], 0)),
        ("bits, one day", [bits_of([flow]) for flow in (7, 0, None)], [([7], [1], 1), ([0], [1], 1), ([0], [0], 0)]),
        ("bits, the lowest first", bits_of([None, 5, 6, None]), ([0, 5, 6, 0], [6], 2)),
        ("bits, 63, 64, 65 and 128 days", [bits_of([3] * n)[1:] for n in (63, 64, 65, 128)],
         [([2**63 - 1], 63), ([2**64 - 1], 64), ([2**64 - 1, 1], 65), ([2**64 - 1] * 2, 128)]),
        ("bits, all missing", bits_of([None] * 65), ([0] * 65, [0, 0], 0)),
        ("bits, the last of 65 missing", bits_of([3] * 64 + [None])[1:], ([2**64 - 1, 0], 64)),
        ("bits, a word more and one less", [refused(engine.to_bits, [3] * 65, n)[0] for n in (1, 2, 3)],
         [28, None, 28]),
        ("bits, 28 and then 10", [refused(engine.to_bits, [10_000_001], n)[0] for n in (0, 1, 2)], [28, 10, 28]),
        ("from bits", engine.from_bits(Bits([0, 5, 6, 0], [6])), ([None, 5, 6, None], 2)),
        ("from bits, no day", engine.from_bits(Bits([], [])), ([], 0)),
        ("from bits, a word more and one less",
         numbers(engine.from_bits, *(Bits([3] * 64, [2**64 - 1, 0, 0][:n]) for n in (1, 2, 3)), Bits([3], [])),
         [None, 28, 28, 28]),
        ("from bits, a one past the end", numbers(engine.from_bits, Bits([3], [3]), Bits([3], [1 + 2**63])), [28, 28]),
        ("from bits, numbers under a zero bit",
         numbers(engine.from_bits, *(Bits([flow, 3], [2]) for flow in (0, 1, MARK))), [None, 28, 28]),
        ("from bits, numbers under a one bit",
         numbers(engine.from_bits, *(Bits([flow], [1]) for flow in (10_000_000, 10_000_001, MARK))), [None, 10, 10]),
        ("from bits, 28 before 10", numbers(engine.from_bits, Bits([MARK, 1], [1])), [28]),
        ("over bits, the filter", engine.filter(1, 9250, 0, 0, 1, Bits([100, 200, 0, 50], [11])),
         engine.filter(1, 9250, 0, 0, 1, [100, 200, None, 50])),
        ("over bits, from 0", engine.filter(1, 9250, 0, 0, 1, Bits([0, 100, 200, 0, 100], [22]), 0),
         [None, 0, 11250, None, 50000]),
        ("over bits, from any start, all absent", engine.filter(1, 9250, 0, 0, 1, Bits([0], [0]), 2**64 - 1), [None]),
        ("over bits, 28, 10 and 29", [refused(engine.filter, 1, 9250, 0, 0, 1, Bits([7, flow], [word]), 7001)[0]
                                     for flow, word in ((1, 1), (MARK, 3), (1, 3))], [28, 10, 29]),
        ("over bits, the line", engine.line(1, 9000, Bits(flows, [63])), line),
        ("over bits, 14, 28 and 10", [refused(engine.totals, Bits([MARK, flow], [1]), base)[0]
                                    for flow, base in ((1, [None]), (1, [None] * 2), (0, [None] * 2))], [14, 28, 10]),
        ("over bits, before 28", [refused(call, *words, Bits([1], [1, 0]))[0] for call, *words in (
            (engine.filter, 1, 9250, 0, 0, 4), (engine.line, 31, 9000), (engine.staggered, 2, 9000, 4),
            (engine.bfimax, 0, 2, 0), (engine.bfimax, 0, 1, 9700))], [13, 16, 16, 12, 23]),
        ("written, no day", engine.write(0, []), record("00")),
        ("written, a missing day", engine.write(7, [5, None, 7]), record("02 05000000 03 02 07000000 03", 7)),
        ("written, two missing days", engine.write(0, [None] * 2), record("04 0200 02")),
        ("written, gaps at both ends", engine.write(0, [None, 5, None, None]), record("03 02 05000000 04 0200 04")),
        ("written, gaps of 3, 255, 256 and all days", [engine.write(0, [None] * n)[5:-5].hex()
                                                       for n in (3, 255, 256, 36525)],
         ["040300", "04ff00", "040001", "04ad8e"]),
        ("written, what was read", engine.write(*engine.read(record("03 03 04 0100 04 0200 02 05000000 06", 99_999))),
         record("04 0500 02 05000000 06", 99_999)),
        ("written, room to the byte", [refused(engine.write, 0, [None] * 2, room)[0] for room in (0, 12, 13, 14)],
         [30, 30, None, None]),
        ("written, first day 99,999 and 100,000", numbers(lambda first: engine.write(first, []), 99_999, 100_000),
         [None, 4]),
        ("written, 36,525 and 36,526 days", numbers(lambda n: engine.write(0, [1] * n), 36525, 36526), [None, 9]),
        ("written, 9, 4, 10 and 30", [refused(engine.write, first, [flow] * n, 0)[0] for first, flow, n in (
            (100_000, 10_000_001, 36526), (100_000, 10_000_001, 1), (99_999, 10_000_001, 1), (99_999, 10_000_000, 1))],
         [9, 4, 10, 30]),
        ("licence, Q is enough", takings(150), ([50, 60, 0, 25], 15)),
        ("licence, Q runs out within a day's amount", takings(120), ([50, 60, 0, 10], 0)),
        ("licence, Q runs out with a day's amount", takings(110), ([50, 60, 0, 0], 0)),
        ("licence, base beside whole litres",
         engine.licence(10**7, 10**12, [10] * 7, [3000, 3001, 2999, 10000, 9001, 0, None]),
         ([7, 6, 7, 0, 0, 10, 0], 10**12 - 30)),
        ("licence, the most of a day", engine.licence(10**7, 10**12, [10**7], [0]), ([10**7], 10**12 - 10**7)),
        ("licence, M 0 and Q 0", [engine.licence(*words, [10, 10], [0, 0]) for words in ((0, 5), (5, 0))],
         [([0, 0], 5), ([0, 0], 0)]),
        ("licence, no day", engine.licence(5, 5, [], []), ([], 5)),
        ("licence, M and Q at their ends and beyond", [refused(engine.licence, *words, [], [])[0] for words in (
            (10**7, 10**12), (10**7 + 1, 10**12), (10**7, 10**12 + 1))], [None, 31, 31]),
        ("licence, 31, 9, 14, 14, 10 and 20", [refused(engine.licence, limit, 0, [None, *flows], base, room)[0]
                                               for limit, flows, base, room in (
            (10**7 + 1, [10**7 + 1] * 36525, [0], 1), (10**7, [10**7 + 1] * 36525, [0], 1),
            (10**7, [10**7 + 1], [0], 2), (10**7, [10**7 + 1], [0, 0], 1), (10**7, [10**7 + 1], [0, 0], 2),
            (10**7, [10**7], [0, 0], 2))], [31, 9, 14, 14, 10, 20]),
        ("licence, 20 above the flow", [refused(engine.licence, 0, 0, [7], [base])[0] for base in (7000, 7001)],
         [None, 20]),
        ("zero days", engine.read(bytes.fromhex("01 00000000 09 00000000")), (0, [])),
        ("no bytes", refused(engine.read, b"")[0], 1),
    ]


def held(where, measuring, *arguments):
    """What a measurement comes to; one that fails ends the run, and says where."""
    try:
        return measuring(*arguments)
    except AssertionError as wrong:
        sys.exit(f"{where}: {str(wrong)[:2000]}")


def main():
    if len(sys.argv) != 1:
        sys.exit(__doc__)
    engine, shares, runs = Engine(), Shares(), 0
    for name, given, wanted in held("worked rivers", worked_rivers, engine):
        if given != wanted:
            sys.exit(f"worked river '{name}': {given}, where document 01 has {wanted}")
    for name, setting, first, days in cases():
        held(f"river '{name}', setting {setting}", measure, engine, setting, first, days, shares)
        runs += 1
    if runs < LEAST_RUNS:
        sys.exit(f"{runs} runs, where at least {LEAST_RUNS} are wanted")
    start_runs = sum(held(f"setting {setting}, starts {starts}, days {days[:400]}", measure_starts, engine, setting, starts,
                          days, shares) for setting, starts, days in start_cases())
    in_order = held("more flow and less base flow", measure_order, engine)
    bfimax_runs = sum(held(f"river '{name}', BFImax with {arguments[:3]}", measure_bfimax, engine, *arguments, shares)
                      for name, *arguments in bfimax_cases())
    staggered_runs = sum(held(f"river '{name}', staggered lines with {arguments[:2]}", measure_staggered, engine,
                              *arguments, shares) for name, *arguments in staggered_cases())
    readings = held("meter", measure_meter, engine)
    over_bits, accepted = held("presence bits", measure_bits, engine)
    lines = [f"exact: {runs} runs through the C interface lie within their limits; the largest share of each:"]
    lines += [f"  {figure}: {float(share):.3f}" for figure, share in sorted(shares.reached.items())]
    lines.append(f"exact: {bfimax_runs} further runs, of BFImax, and {staggered_runs}, of staggered lines, lie within "
                 "theirs")
    lines.append(f"exact: {start_runs} more, of filters from a start, lie within theirs; {in_order} pairs of rivers have "
                 "base flow in the order of their flow")
    lines.append(f"exact: {readings:,} readings of a meter are the nearest litre to a fraction, or refused")
    lines.append(f"exact: {over_bits:,} calls over presence bits, {accepted:,} of them accepted, give what those over "
                 "the days give")
    (products() / "exact.txt").write_text("\n".join(lines) + "\n")
    print("\n".join(lines))


main()
