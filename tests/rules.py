"""Document 01's rules in python, for the tests; nothing is shared with the engine.

Whole numbers of any size; a missing day and a day without a value are None. `over` divides: near for the rounded run,
Fraction for the exact one. A call answers its values, or the number of its refusal as a Refusal. The sections are those
of docs/RULES.md, with its numbers.
"""
import math
import struct
from fractions import Fraction

MOST_DAYS, MOST_FLOW, LAST_FIRST_DAY = 36525, 10_000_000, 99_999
MOST_LIMIT, MOST_QUOTA = 10_000_000, 10**12
BODIES = {1: 4, 2: 4, 3: 0, 4: 2, 9: 4}


class Refusal(int):
    """The number of a refusal."""


# "Units": 1.4
def near(a, b):
    below, rest = divmod(a, b)
    return below if 2 * rest < b or 2 * rest == b and below % 2 == 0 else below + 1


# "The record": 2.1 to 2.7
def read(data, room):
    """The first day and the stated days."""
    first, days, at = None, [], 0
    while at < len(data):
        kind = data[at]
        if kind not in BODIES:
            return Refusal(2)
        if (kind == 1) != (at == 0):
            return Refusal(3)
        body = data[at + 1:at + 1 + BODIES[kind]]
        if len(body) < BODIES[kind]:
            return Refusal(1)
        value = int.from_bytes(body, "little")
        at += 1 + len(body)
        if kind == 1 and value > LAST_FIRST_DAY or kind == 2 and value > MOST_FLOW or kind == 4 and value == 0:
            return Refusal(4)
        stated = [value] if kind == 2 else [None] * {3: 1, 4: value}.get(kind, 0)
        if len(days) + len(stated) > MOST_DAYS:
            return Refusal(5)
        if len(days) + len(stated) > room:
            return Refusal(6)
        if kind == 1:
            first = value
        if kind == 9:
            if value != len(days):
                return Refusal(7)
            return Refusal(8) if at < len(data) else (first, days)
        days += stated
    return Refusal(1)


def record(first, days):
    """The record of some days, with a run of missing ones as one entry."""
    parts, t = [b"\x01" + first.to_bytes(4, "little")], 0
    while t < len(days):
        if days[t] is not None:
            parts.append(b"\x02" + days[t].to_bytes(4, "little"))
            t += 1
            continue
        start = t
        while t < len(days) and days[t] is None:
            t += 1
        parts.append(b"\x03" if t - start == 1 else b"\x04" + (t - start).to_bytes(2, "little"))
    parts.append(b"\x09" + len(days).to_bytes(4, "little"))
    return b"".join(parts)


def write(first, days, room):
    """The record of days, which may hold a number above the limit, if there is room for it."""
    if len(days) > MOST_DAYS:
        return Refusal(9)
    if first > LAST_FIRST_DAY:
        return Refusal(4)
    if any(day is not None and day > MOST_FLOW for day in days):
        return Refusal(10)
    data = record(first, days)
    return data if len(data) <= room else Refusal(30)


# "Filters": 3.1 to 3.7, and a start that is given
def stretches(days):
    """The first place and the flows of each longest list of neighbouring present days."""
    found, start = [], None
    for place, flow in enumerate([*days, None]):
        if flow is not None and start is None:
            start = place
        if flow is None and start is not None:
            found.append((start, days[start:place]))
            start = None
    return found


def over_stretches(rule, days):
    """A rule on each stretch alone; missing days get no value."""
    values = [None] * len(days)
    for start, flows in stretches(days):
        values[start:start + len(flows)] = rule(flows)
    return values


NAMES = {1: "1 Lyne-Hollick", 2: "2 Chapman 1991", 3: "3 Chapman-Maxwell", 4: "4 Boughton", 5: "5 Eckhardt",
         6: "6 Tularam-Ilahee", 7: "7 Jakeman-Hornberger"}


def weights(method, p, q, s):
    """A, B, C and d. C may be below zero."""
    return {
        1: (2 * p, 10000 - p, 10000 - p, 20000),
        2: (3 * p - 10000, 10000 - p, 10000 - p, 30000 - p),
        3: (p, 10000 - p, 0, 20000 - p),
        4: (p, q, 0, 10000 + q),
        5: (p * (10000 - q), (10000 - p) * q, 0, 10**8 - p * q),
        6: (p, 10000 - p, 0, 10000),
        7: (10000 * p, 10000 * q, q * s, 10000 * (10000 + q)),
    }[method]


def one_pass(over, w, u, start):
    A, B, C, d = w
    f = [start]
    for today, before in zip(u[1:], u):
        quotient = over(A * f[-1] + B * today + C * before, d)
        f.append(0 if quotient < 0 else min(today, quotient))
    return f


def passes_over(over, method, p, q, s, passes, flows, start=None):
    """The filter of one stretch, from the usual start or from another."""
    w = weights(method, p, q, s)
    if start is None:
        start = over(9 * q * flows[0], 100) if method == 5 else 500 * flows[0]
    f = one_pass(over, w, [1000 * y for y in flows], start)
    for n in range(2, passes + 1):
        u = f[::-1] if n == 2 else f
        f = one_pass(over, w, u, u[0])
        f = f[::-1] if n == 2 else f
    return f


def filter_over(over, setting, days, start=None):
    """The filter of a day list. A start that is given serves the first stretch."""
    starts = iter([start])
    return over_stretches(lambda flows: passes_over(over, *setting, flows, next(starts, None)), days)


def bad_setting(method, p, q, s):
    """11 or 12, or None."""
    if not 1 <= method <= 7:
        return Refusal(11)
    least_p, most_q = 3334 if method == 2 else 1, {4: 10000, 5: 9999, 7: 10000}.get(method, 0)
    most_s = 9999 if method == 7 else 0
    if not least_p <= p <= 9999 or not (1 if most_q else 0) <= q <= most_q or not -most_s <= s <= most_s:
        return Refusal(12)
    return None


def bad_passes(method, passes):
    return None if 1 <= passes <= (3 if method == 1 else 1) else Refusal(13)


def bad_start(start, days):
    """29 for a start that is given and lies above 1000 × the first present flow, or None."""
    first = next((y for y in days if y is not None), None)
    return Refusal(29) if start is not None and first is not None and start > 1000 * first else None


def forgotten(method, p, q, s, apart, k):
    """How far two runs of one pass may lie apart, k days after a start on which they were so far apart: what is left of
    that, and what rounding may add to it."""
    A, _, _, d = weights(method, p, q, s)
    return apart * Fraction(A, d)**k, Fraction(d, d - A)


# "Block-minima line": 4.1 to 4.4
def turning_days(block_days, factor, flows, shift=0):
    lowest = []
    for start in range(shift, len(flows) - block_days + 1, block_days):
        block = flows[start:start + block_days]
        lowest.append(start + block.index(min(block)))
    return [
        j for i, j, k in zip(lowest, lowest[1:], lowest[2:])
        if flows[j] == 0 or factor * flows[j] < 10000 * min(flows[i], flows[k])
    ]


def line_over(over, block_days, factor, flows, shift=0):
    """The line of one stretch, whose blocks begin `shift` days into it."""
    values, turns = [None] * len(flows), turning_days(block_days, factor, flows, shift)
    for i, j in zip(turns, turns[1:]):
        for t in range(i, j + 1):
            straight = over(1000 * (flows[i] * (j - t) + flows[j] * (t - i)), j - i)
            values[t] = min(1000 * flows[t], straight)
    return values


def bad_line(block_days, factor):
    return None if 1 <= block_days <= 30 and 1 <= factor <= 9999 else Refusal(16)


def no_line(block_days, factor, days):
    few = all(len(turning_days(block_days, factor, flows)) < 2 for _, flows in stretches(days))
    return Refusal(17) if few else None


# "Staggered blocks": 14.1 to 14.4
def lines_over(over, block_days, factor, days):
    """The lines of all shifts over a day list."""
    return [over_stretches(lambda flows, o=o: line_over(over, block_days, factor, flows, o), days)
            for o in range(block_days)]


def chosen(choice, lines):
    """On each day, of the lines that have a value there, the lowest (1), the highest (2) or the one at rank
    (c + 1) / 2, rounded down (3)."""
    result = []
    for values in zip(*lines):
        there = sorted(value for value in values if value is not None)
        rank = {1: 1, 2: len(there), 3: (len(there) + 1) // 2}[choice]
        result.append(there[rank - 1] if there else None)
    return result


def bad_staggered(block_days, factor, choice, days, base_len, work_len):
    """The first cause of refusal, or None; `days` are views, so 10 is for the caller to test before 17."""
    if bad_line(block_days, factor) or choice not in (1, 2, 3):
        return Refusal(16)
    if len(days) > MOST_DAYS:
        return Refusal(9)
    if base_len != len(days):
        return Refusal(14)
    return None if work_len == block_days * len(days) else Refusal(25)


def no_lines(block_days, factor, days):
    few = all(value is None for line in lines_over(near, block_days, factor, days) for value in line)
    return Refusal(17) if few else None


# "Totals and index": 5.1, 5.2
def bad_base(days, base):
    """20 for a value on a missing day or above the flow of its day, or None."""
    bad = any(b is not None and (y is None or b > 1000 * y) for y, b in zip(days, base))
    return Refusal(20) if bad else None


def totals(days, base):
    """m, Y, T, quick total and index of days and base values that pass their checks."""
    counted = [(y, b) for y, b in zip(days, base) if b is not None]
    Y, T = sum(y for y, _ in counted), sum(b for _, b in counted)
    return Refusal(21) if Y == 0 else (len(counted), Y, T, 1000 * Y - T, near(10 * T, Y))


# "Half-life": 15.1
def half_life(p):
    """The least n of at least 1 with 2 x p^n at most 1000^n."""
    if not 1 <= p <= 999:
        return Refusal(12)
    n = 1
    while 2 * p**n > 1000**n:
        n += 1
    return n


# "Meter": 16.1 to 16.4
UNITS = {1: 1000, 2: 1, 3: None}  # litres a second, by kind


def meter(data):
    """The day of a reading."""
    if not data:
        return Refusal(1)
    if data[0] not in UNITS:
        return Refusal(2)
    unit, body = UNITS[data[0]], data[1:]
    size = 4 if unit else 0
    if len(body) != size:
        return Refusal(1 if len(body) < size else 8)
    if not unit:
        return None
    value, = struct.unpack("<f", body)
    if not math.isfinite(value) or value < 0:
        return Refusal(26)
    exact = unit * Fraction(value)  # python's floats have every binary32
    litres = near(exact.numerator, exact.denominator)
    return Refusal(27) if litres > MOST_FLOW else litres


# "Licence"
def bad_licence(daily_limit, quota):
    return None if daily_limit <= MOST_LIMIT and quota <= MOST_QUOTA else Refusal(31)


def replay(daily_limit, quota, days, base):
    """The takings and the quota left of a licence, days and base values that pass their checks."""
    takings = []
    for y, b in zip(days, base, strict=True):
        taking = 0 if b is None else min(daily_limit, y - math.ceil(Fraction(b, 1000)), quota)
        takings.append(taking)
        quota -= taking
    return takings, quota


# "Presence"
EARLIER = 11, 12, 13, 16, 18, 23, 9, 14, 25  # what a call over presence bits tests before 28


def words_for(count):
    return -(-count // 64)


def to_bits(days):
    """The flows, the words, and how many days are present."""
    flows = [0 if day is None else day for day in days]
    words = [sum((day is not None) << i for i, day in enumerate(days[at:at + 64])) for at in range(0, len(days), 64)]
    return flows, words, sum(day is not None for day in days)


def bits(words):
    return [word >> i & 1 for word in words for i in range(64)]


def from_bits(flows, words):
    """The days, and how many are present."""
    days = [flow if bit else None for flow, bit in zip(flows, bits(words))]
    return days, sum(bits(words))


def bad_words(flows, words):
    """28 or None."""
    if len(words) != words_for(len(flows)):
        return Refusal(28)
    ones = bits(words)
    kept = any(flow != 0 and not bit for flow, bit in zip(flows, ones))
    return Refusal(28) if any(ones[len(flows):]) or kept else None


def bad_to_bits(days, flows_len, words_len):
    """The first cause to refuse days that may hold a number above the limit, or None."""
    if len(days) > MOST_DAYS:
        return Refusal(9)
    if flows_len != len(days):
        return Refusal(14)
    if words_len != words_for(len(days)):
        return Refusal(28)
    return Refusal(10) if any(day is not None and day > MOST_FLOW for day in days) else None


def bad_from_bits(flows, words, days_len):
    """The first cause to refuse, or None."""
    if len(flows) > MOST_DAYS:
        return Refusal(9)
    if days_len != len(flows):
        return Refusal(14)
    return bad_words(flows, words) or (Refusal(10) if any(flow > MOST_FLOW for flow in flows) else None)


def over_bits(call, flows, words):
    """What a call over a day list, which `call` makes of it, answers over flows and words. What it tests before 28 does
    not look at a day, and of days that are all refused it writes nothing."""
    if not bad_words(flows, words):
        return call(from_bits(flows, words)[0])
    answer = call([MOST_FLOW + 1] * len(flows))
    return answer if isinstance(answer, Refusal) and answer in EARLIER else Refusal(28)


# "Recession ratios": 6.1 to 6.6
def whole_flows(days):
    """A base list with every present day at base."""
    return [None if y is None else 1000 * y for y in days]


def at_base(days, base):
    """The days at base; any other day is None."""
    return [y if y is not None and b == 1000 * y else None for y, b in zip(days, base, strict=True)]


def counted_limbs(limb_days, days, base):
    """The first place and the flows of each limb that counts, in the order of the limb list: one with more days before
    any with fewer, and of two with the same number of days the one that begins earlier."""
    counted = []
    for start, flows in stretches(at_base(days, base)):
        first = 0
        for t in range(1, len(flows) + 1):
            if t == len(flows) or flows[t] >= flows[t - 1]:
                if t - first >= max(2, limb_days):
                    counted.append((start + first, flows[first:t]))
                first = t
    return sorted(counted, key=lambda limb: (-len(limb[1]), limb[0]))


def ratios(limbs):
    return sorted(near(10000 * b, a) for _, flows in limbs for a, b in zip(flows, flows[1:]))


# "BFImax": 13.1 to 13.6
def spell(last_day, duration, days):
    """The flows of the D days; None where one of them is missing or not in the list."""
    first = last_day + 1 - duration
    if first < 0 or last_day >= len(days) or None in days[first:last_day + 1]:
        return None
    return days[first:last_day + 1]


def backwards(over, p, flows):
    """The values of the D days."""
    values = [1000 * flows[-1]]
    for flow in flows[-2::-1]:
        values.append(min(1000 * flow, over(10000 * values[-1], p)))
    return values[::-1]


def bad_bfimax(last_day, duration, p, days, base_len):
    """The first cause to refuse, or None."""
    if not 1 <= p <= 9999:
        return Refusal(12)
    if not 2 <= duration <= 3650:
        return Refusal(23)
    if len(days) > MOST_DAYS:
        return Refusal(9)
    if base_len != len(days):
        return Refusal(14)
    if any(flow is not None and flow > MOST_FLOW for flow in days):
        return Refusal(10)
    flows = spell(last_day, duration, days)
    return Refusal(24) if flows is None else Refusal(21) if sum(flows) == 0 else None


def bfimax_over(over, last_day, duration, p, days):
    """The answer and the base list of arguments that pass their checks."""
    flows = spell(last_day, duration, days)
    values = backwards(over, p, flows)
    first = last_day + 1 - duration
    base = [None] * first + values + [None] * (len(days) - 1 - last_day)
    return over(10 * sum(values), sum(flows)), base


def stretched(p, j):
    """How far a value may lie from the exact one, j days before a day on which both are 1000 × y: 13.5."""
    return sum(Fraction(10000, p)**i for i in range(j)) / 2
