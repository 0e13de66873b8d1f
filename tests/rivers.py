#!/usr/bin/env python3
"""Works out, by document 01's rules, what the test program `rivers` has to print.

    tests/rivers.py > crates/rivers/stdout
    tests/rivers.py check crates/rivers/stdout     fails where the stored text is another

The rules are those of tests/rules.py; nothing is shared with the engine. The figures that the source documents publish are asserted where the made river settles them.
"""
import struct
import sys
from fractions import Fraction

sys.dont_write_bytecode = True
import rules
from rules import Refusal, near

MISSING = 2**32 - 1
NO_VALUE = 2**64 - 1
out = []


# ---- the calls over lists in memory, with their marks

def views(days):
    return [None if d == MISSING else d for d in days]


def marks(values):
    return [NO_VALUE if v is None else v for v in values]


def base_views(base):
    return [None if b == NO_VALUE else b for b in base]


def whole_flows(days):
    return marks(rules.whole_flows(views(days)))


def bad_days(days):
    return Refusal(10) if any(rules.MOST_FLOW < d < MISSING for d in days) else None


def bad_lists(days, *others):
    if len(days) > rules.MOST_DAYS:
        return Refusal(9)
    return Refusal(14) if any(len(days) != len(other) for other in others) else bad_days(days)


def filter_call(method, p, q, s, passes, days, base, start=None):
    cause = rules.bad_setting(method, p, q, s) or rules.bad_passes(method, passes) or bad_lists(days, base)
    cause = cause or rules.bad_start(start, views(days))
    if not cause:
        base[:] = marks(rules.filter_over(near, (method, p, q, s, passes), views(days), start))
    return cause


def line_call(block_days, factor, days, base):
    cause = rules.bad_line(block_days, factor) or bad_lists(days, base) or rules.no_line(block_days, factor, views(days))
    if not cause:
        base[:] = marks(rules.over_stretches(lambda y: rules.line_over(near, block_days, factor, y), views(days)))
    return cause


def staggered_call(block_days, factor, choice, days, base, work):
    cause = rules.bad_staggered(block_days, factor, choice, days, len(base), len(work)) or bad_days(days)
    cause = cause or rules.no_lines(block_days, factor, views(days))
    if not cause:
        lines = rules.lines_over(near, block_days, factor, views(days))
        work[:] = [value for line in lines for value in marks(line)]
        base[:] = marks(rules.chosen(choice, lines))
    return cause


def totals_call(days, base):
    cause = bad_lists(days, base) or rules.bad_base(views(days), base_views(base))
    return cause or rules.totals(views(days), base_views(base))


def bfimax_call(last_day, duration, p, days, base):
    cause = rules.bad_bfimax(last_day, duration, p, views(days), len(base))
    if cause:
        return cause
    found, values = rules.bfimax_over(near, last_day, duration, p, views(days))
    base[:] = marks(values)
    return (found,)


def ratios_call(limb_days, days, base, limbs):
    if not 2 <= limb_days <= 60:
        return Refusal(18)
    cause = bad_lists(days, base) or rules.bad_base(views(days), base_views(base))
    if cause:
        return cause
    counted = rules.counted_limbs(limb_days, views(days), base_views(base))
    found = rules.ratios(counted)
    if not found:
        return Refusal(19)
    if len(limbs) < 2 * len(counted):
        return Refusal(22)
    for n, (place, flows) in enumerate(counted):
        limbs[2 * n:2 * n + 2] = [place, len(flows)]
    return len(found), found[(len(found) + 1) // 2 - 1]


def licence_call(daily_limit, quota, days, base, takings):
    cause = rules.bad_licence(daily_limit, quota) or bad_lists(days, base, takings)
    cause = cause or rules.bad_base(views(days), base_views(base))
    if cause:
        return cause
    takings[:], left = rules.replay(daily_limit, quota, views(days), base_views(base))
    return (left,)


def over_bits(call, flows, words):
    """What a call over a day list, with its other arguments bound, answers over flows and words."""
    def over_days(days):
        return call([MISSING if d is None else min(d, MISSING - 1) for d in days])

    return rules.over_bits(over_days, flows, words)


def to_bits_call(days, flows, words):
    cause = rules.bad_to_bits(views(days), len(flows), len(words))
    if cause:
        return cause
    flows[:], words[:], present = rules.to_bits(views(days))
    return (present,)


def from_bits_call(flows, words, days):
    cause = rules.bad_from_bits(flows, words, len(days))
    if cause:
        return cause
    given, present = rules.from_bits(flows, words)
    days[:] = [MISSING if d is None else d for d in given]
    return (present,)


def read_call(data, days):
    answer = rules.read(data, len(days))
    if isinstance(answer, Refusal):
        return answer
    first, stated = answer
    days[:len(stated)] = [MISSING if d is None else d for d in stated]
    return first, len(stated)


def write_call(first, days, output):
    data = rules.write(first, views(days), len(output))
    if isinstance(data, Refusal):
        return data
    output[:len(data)] = data
    return (len(data),)


# ---- the rivers

def river(count, seed, gaps):
    drawn, store, days = seed, 4_000_000, []
    for i in range(count):
        drawn = (drawn * 1_664_525 + 1_013_904_223) % 2**32
        store -= store // 16
        if drawn < 429_496_730 and store < 100_000_000:
            store += drawn // 64
        gap = [False, i < 100, i >= count - 100, drawn % 13 == 0, False][gaps]
        dry = gaps == 4 and i % 365 >= 240
        days.append(MISSING if gap else 0 if dry else store // 16)
    return days


def fall(count, constant):
    days = [10_000_000]
    while len(days) < count:
        days.append(near(days[-1] * constant, 10000))
    return days


def steady(count, flow, apart, storm):
    return [storm if apart and i % apart == 0 else flow for i in range(count)]


# ---- the text

MODULUS = 1_000_000_007


def mixed(total, n):
    return (total % MODULUS * 31 + n % MODULUS + 1) % MODULUS


def check_sum(numbers):
    total = 0
    for n in numbers:
        total = mixed(total, n)
    return total


def words(*parts):
    return ' '.join(str(p) for p in parts)


def base_text(base):
    return words(', base', check_sum(base), base[0], base[len(base) // 2], base[-1])


def answer(result, accepted):
    """A refusal and its number, or the word for an accepted call and its values, if it has any."""
    return words(': refused', result) if isinstance(result, Refusal) else words(': ' + accepted, *(result or ()))


def filter_text(setting, start):
    return words('filter', *setting) + ('' if start is None else words(' from', start))


def show_filter(method, p, q, s, passes, days, base, start=None):
    setting = method, p, q, s, passes
    cause = filter_call(*setting, days, base, start)
    out.append(filter_text(setting, start) + answer(cause, 'accepted') + base_text(base))


def show_line(block_days, factor, days, base):
    cause = line_call(block_days, factor, days, base)
    out.append(words('line', block_days, factor) + answer(cause, 'accepted') + base_text(base))


def show_staggered(block_days, factor, choice, days, base, work):
    cause = staggered_call(block_days, factor, choice, days, base, work)
    out.append(words('staggered', block_days, factor, choice) + answer(cause, 'accepted') + base_text(base))
    out.append('work' + base_text(work))


def show_bfimax(last_day, duration, p, days, base):
    result = bfimax_call(last_day, duration, p, days, base)
    out.append(words('bfimax', last_day, duration, p) + answer(result, 'found') + base_text(base))


def show_totals(days, base):
    result = totals_call(days, base)
    out.append('totals' + answer(result, 'summed'))
    return result


def show_ratios(limb_days, days, base, limbs):
    result = ratios_call(limb_days, days, base, limbs)
    out.append(words('ratios', limb_days) + answer(result, 'found') + words(', limbs', check_sum(limbs)))
    return result


def show_licence(daily_limit, quota, days, base, takings):
    result = licence_call(daily_limit, quota, days, base, takings)
    out.append(words('licence', daily_limit, quota) + answer(result, 'left') + words(', takings', check_sum(takings)))
    return result


def show_read(data, days):
    result = read_call(data, days)
    out.append(words('read', len(data)) + answer(result, 'stated') + words(', days', check_sum(days)))


def show_write(first, days, output):
    result = write_call(first, days, output)
    out.append(words('write', first, len(days)) + answer(result, 'written') + words(', bytes', check_sum(output)))
    return 0 if isinstance(result, Refusal) else result[0]


def there_and_back(first, days, room, again):
    output = bytearray([7] * room)
    length = show_write(first, days, output)
    show_read(bytes(output[:length]), again)
    assert again[:len(days)] == days
    return output[:length]


def show_steps(method, p, q, s, days):
    base = [0] * len(days)
    assert filter_call(method, p, q, s, 1, days, base) is None    # steps from a fresh state give pass 1
    out.append(words('steps', method, check_sum(base)))


def show_step(flow, base, method, p, day):
    cause = rules.bad_setting(method, p, 0, 0)
    if not cause and (flow > rules.MOST_FLOW or base > 1000 * flow):
        cause = Refusal(15)
    cause = cause or bad_days([day])
    assert cause
    out.append(words('step: refused', cause))


def metered(result):
    if isinstance(result, Refusal):
        return answer(result, '')
    return words(': day', MISSING if result is None else result)


def show_meter(data):
    out.append(words('meter', len(data)) + metered(rules.meter(data)))


def show_float(kind, data):
    result = metered(rules.meter(bytes([kind]) + data))    # over bytes and as a value
    out.append(words('meter', kind, int.from_bytes(data, 'little')) + result + ', reading' + result)


def show_to_bits(days, flows, words_of):
    result = to_bits_call(days, flows, words_of)
    text = words(', words', check_sum(words_of)) + words(', flows', check_sum(flows))
    out.append(words('to bits', len(days)) + answer(result, 'present') + text)


def show_from_bits(flows, words_of, days):
    result = from_bits_call(flows, words_of, days)
    out.append(words('from bits', len(flows)) + answer(result, 'present') + words(', days', check_sum(days)))


def show_bits_filter(method, p, q, s, passes, flows, words_of, base, start=None):
    setting = method, p, q, s, passes
    cause = over_bits(lambda days: filter_call(*setting, days, base, start), flows, words_of)
    out.append('bits ' + filter_text(setting, start) + answer(cause, 'accepted') + base_text(base))


def show_bits_line(block_days, factor, flows, words_of, base):
    cause = over_bits(lambda days: line_call(block_days, factor, days, base), flows, words_of)
    out.append(words('bits line', block_days, factor) + answer(cause, 'accepted') + base_text(base))


def show_bits_staggered(block_days, factor, choice, flows, words_of, base, work):
    cause = over_bits(lambda days: staggered_call(block_days, factor, choice, days, base, work), flows, words_of)
    out.append(words('bits staggered', block_days, factor, choice) + answer(cause, 'accepted') + base_text(base))
    out.append('work' + base_text(work))


def show_bits_totals(flows, words_of, base):
    out.append('bits totals' + answer(over_bits(lambda days: totals_call(days, base), flows, words_of), 'summed'))


def show_bits_ratios(limb_days, flows, words_of, base, limbs):
    result = over_bits(lambda days: ratios_call(limb_days, days, base, limbs), flows, words_of)
    out.append(words('bits ratios', limb_days) + answer(result, 'found') + words(', limbs', check_sum(limbs)))


def show_bits_bfimax(last_day, duration, p, flows, words_of, base):
    result = over_bits(lambda days: bfimax_call(last_day, duration, p, days, base), flows, words_of)
    out.append(words('bits bfimax', last_day, duration, p) + answer(result, 'found') + base_text(base))


def in_bits(days, filters, lines, spell):
    """A river as flows and words, and back. Over these the calls have to give what they gave over the days."""
    flows, words_of, began = [0] * len(days), [0] * rules.words_for(len(days)), len(out)
    base, work, again = [0] * len(days), [0] * (lines[0] * len(days)), [0] * len(days)
    show_to_bits(days, flows, words_of)
    show_bits_filter(1, 9250, 0, 0, 3, flows, words_of, base, 0)
    show_bits_filter(1, 9250, 0, 0, 3, flows, words_of, base)
    show_bits_totals(flows, words_of, base)
    show_bits_line(5, 9000, flows, words_of, base)
    show_bits_totals(flows, words_of, base)
    show_bits_ratios(2, flows, words_of, base, [0] * 8192)
    for setting in filters:
        show_bits_filter(*setting, flows, words_of, base)
        show_bits_filter(*setting, flows, words_of, base, 0)
    show_bits_staggered(*lines, flows, words_of, base, work)
    show_bits_bfimax(*spell, flows, words_of, base)
    assert {line.removeprefix('bits ') for line in out[began + 1:] if ': refused' not in line} <= set(out[:began])
    show_from_bits(flows, words_of, again)
    assert again == days


def thirty_years(seed, gaps):
    days, base = river(10957, seed, gaps), [0] * 10957
    out.append(words('thirty years', gaps) + words(', days', check_sum(days)))
    for setting in ((1, 9250, 0, 0, 1), (1, 9250, 0, 0, 2), (1, 9250, 0, 0, 3), (2, 9500, 0, 0, 1), (3, 9250, 0, 0, 1),
                    (4, 9780, 500, 0, 1), (5, 9780, 8000, 0, 1), (6, 9250, 0, 0, 1), (7, 9700, 300, -9999, 1)):
        show_filter(*setting, days, base)
        show_totals(days, base)
    whole = 1000 * next(y for y in views(days) if y is not None)
    for start in (0, whole, whole + 1):
        for setting in ((1, 9250, 0, 0, 3), (5, 9780, 8000, 0, 1), (7, 9700, 300, -9999, 1)):
            show_filter(*setting, days, base, start)
    show_steps(1, 9250, 0, 0, days)
    show_steps(5, 9780, 8000, 0, days)
    show_steps(7, 9700, 300, -9999, days)
    for setting in ((1, 9000), (5, 9000), (5, 9999), (7, 1), (30, 9500)):
        show_line(*setting, days, base)
        show_totals(days, base)
    work = [0] * (5 * 10957)
    for choice in (1, 2, 3):
        show_staggered(5, 9000, choice, days, base, work)
    base = whole_flows(days)
    for limb_days in (2, 5, 10, 60):
        show_ratios(limb_days, days, base, [0] * 8192)
    show_line(5, 9000, days, base)
    for limb_days in (2, 5, 10, 60):
        show_ratios(limb_days, days, base, [0] * 8192)
    for spell in ((10_956, 60, 9800), (5000, 3650, 9500), (29, 30, 9999)):
        show_bfimax(*spell, days, base)
    licensed_years(days, base)
    there_and_back(0, days, 10 + 5 * len(days), [7] * len(days))
    in_bits(days, [(7, 9700, 300, -9999, 1)], (5, 9000, 3), (5000, 3650, 9500))


def licensed_years(days, base):
    """Against a filter: by flow and base alone, held to M, and until Q runs out; and so against a line."""
    takings, results = [7] * len(days), []
    show_filter(1, 9250, 0, 0, 1, days, base)
    for licence in ((10_000_000, 10**12), (50_000, 10**12), (50_000, 100_000_000)):
        results += show_licence(*licence, days, base, takings)
    show_line(5, 9000, days, base)
    results += show_licence(50_000, 20_000_000, days, base, takings)
    assert results[0] < results[1] < 10**12 and results[2:] == [0, 0], results


def full_record():
    days, base = river(36525, 7, 3), [0] * 36525
    data = bytearray([1]) + (99_999).to_bytes(4, 'little')
    for d in days:
        data += bytes([3]) if d == MISSING else bytes([2]) + d.to_bytes(4, 'little')
    data += bytes([9]) + (36525).to_bytes(4, 'little')
    show_read(data, days)
    show_filter(1, 9250, 0, 0, 3, days, base, 0)
    show_filter(1, 9250, 0, 0, 3, days, base)
    show_totals(days, base)
    show_line(5, 9000, days, base)
    show_totals(days, base)
    show_ratios(2, days, base, [0] * 8192)
    show_staggered(2, 9000, 3, days, base, [0] * (2 * 36525))
    show_bfimax(36_524, 3650, 9780, days, base)
    show_filter(1, 9250, 0, 0, 1, days, base)
    show_licence(50_000, 10**12, days, base, [7] * 36525)
    there_and_back(99_999, days, 10 + 5 * len(days), [7] * len(days))
    in_bits(days, [], (2, 9000, 3), (36_524, 3650, 9780))


def floats(*values):
    return [struct.pack('<f', value) for value in values]


def refusals():
    days = [7, 7]
    head = [1, 0, 0, 0, 0]
    for data in (head + [9, 0, 0, 0, 0], [1, 0, 0], [5], [2, 1, 0, 0, 0], [1, 160, 134, 1, 0], head + [4, 174, 142],
                 head + [3, 3, 3], head + [9, 1, 0, 0, 0], head + [9, 0, 0, 0, 0, 0]):
        show_read(bytes(data), days)
    output = [7] * 14
    for first, days in ((100_000, [10_000_001] * 36526), (100_000, [10_000_001]), (99_999, [10_000_001]),
                        (99_999, [10_000_000])):
        show_write(first, days, output)
    show_write(0, [], [7] * 9)
    days, base, limbs = [100, 200], [7, 7], [7, 7]
    for setting in ((8, 9250, 0, 0, 1), (2, 3333, 0, 0, 1), (4, 9250, 500, 1, 1), (7, 9250, 500, -10_000, 1),
                    (2, 9250, 0, 0, 2), (2, 3334, 0, 0, 1)):
        show_filter(*setting, days, base)
    for setting in ((31, 9000), (5, 10_000)):
        show_line(*setting, days, base)
    for limb_days in (1, 61):
        show_ratios(limb_days, days, base, limbs)
    days, base = [100, 10_000_001], [7, 7]
    show_filter(1, 9250, 0, 0, 1, [1] * 36526, base)
    show_filter(1, 9250, 0, 0, 1, days, [7])
    show_filter(1, 9250, 0, 0, 1, days, base)
    show_line(5, 9000, days, base)
    show_totals(days, base)
    show_ratios(2, [1] * 36526, base, limbs)
    show_ratios(2, days, [7], limbs)
    show_ratios(2, days, base, limbs)
    days, base = [MISSING, 100, 10_000_001], [7] * 3
    for setting in ((8, 9250, 0, 0, 1), (2, 3333, 0, 0, 1), (2, 9250, 0, 0, 2), (1, 9250, 0, 0, 1)):
        show_filter(*setting, days, base, 100_001)
    show_filter(1, 9250, 0, 0, 1, [1] * 36526, base, 1001)
    show_filter(1, 9250, 0, 0, 1, days, [7, 7], 100_001)
    for start in (100_001, 2**64 - 1):
        show_filter(1, 9250, 0, 0, 1, [MISSING, 100, 10_000_000], base, start)
    show_step(5, 5001, 0, 0, 10_000_001)
    show_step(5, 5001, 1, 0, 10_000_001)
    show_step(5, 5001, 1, 9250, 10_000_001)
    show_step(5, 5000, 1, 9250, 10_000_001)
    days, base, limbs = [0, 100, 90, 81], [NO_VALUE] * 4, [7]
    show_line(1, 9000, days, base)
    show_ratios(2, days, base, limbs)
    at_base = [0, 100_000, 90_000, 81_000]
    show_ratios(4, days, at_base, limbs)
    show_ratios(3, days, at_base, limbs)
    show_ratios(2, days, [0, 0, 90_001, 0], limbs)
    show_totals(days, base)
    show_totals(days, [0, 0, 90_001, 0])
    days, base = [100, 0, 0, MISSING], [7] * 4
    for spell in ((2, 2, 0), (2, 1, 9500), (2, 3651, 9500), (4, 2, 9500), (0, 2, 9500), (3, 2, 9500), (2, 2, 9500),
                  (2, 3, 9500)):
        show_bfimax(*spell, days, base)
    days, base, work = [5, 4, 6], [7] * 3, [7] * 6
    for setting in ((31, 9000, 1), (2, 9000, 0), (2, 9000, 4), (2, 9000, 1)):
        show_staggered(*setting, days, base, work)
    show_staggered(2, 9000, 1, [1] * 36526, base, work)
    show_staggered(2, 9000, 1, days, [7], work)
    show_staggered(1, 9000, 1, days, base, work)
    show_staggered(2, 9000, 1, [5, 10_000_001, 6], base, work)
    licence_refusals()
    for data in ([], [1], [2, 0, 0, 128], [0], [4, 0, 0, 128, 63], [255, 0, 0, 128, 63, 0], [3, 3],
                 [1, 0, 0, 128, 127, 0]):
        show_meter(bytes(data))
    infinities = floats(float('inf'), float('-inf'))
    nans = [bytes.fromhex(bits) for bits in ('0000c07f', '0000c0ff', '0100807f', '010080ff')]
    for data in (*infinities, *nans, *floats(-1e-45, -1, -3.4e38)):
        show_float(1, data)
        show_float(2, data)
    for kind, value in ((2, 10_000_001), (1, 10_000.0009765625), (2, 3.4e38), (1, 3.4e38)):
        show_float(kind, *floats(value))
    bits_refusals()
    seen = {line.split(': refused ')[1].split(',')[0] for line in out if ': refused ' in line}
    assert seen == {str(n) for n in range(1, 32)}, seen


def licence_refusals():
    days, base, takings = [MISSING, 10_000_001], [7, 7], [7, 7]
    for licence in ((10_000_001, 10**12), (10_000_000, 10**12 + 1), (10_000_000, 10**12)):
        show_licence(*licence, [1] * 36526, base, takings)
    show_licence(10_000_000, 10**12, days, [7], takings)
    show_licence(10_000_000, 10**12, days, base, [7] * 3)
    show_licence(10_000_000, 10**12, days, base, takings)
    days = [MISSING, 100]
    show_licence(10_000_000, 10**12, days, base, takings)
    show_licence(0, 0, days, [NO_VALUE, 100_001], takings)


def bits_refusals():
    flows, words_of = [7, 7], [7]
    show_to_bits([1] * 36526, flows, words_of)
    show_to_bits([1] * 3, flows, words_of)
    show_to_bits([1, 1], flows, [])
    show_to_bits([1, 10_000_001], flows, [7, 7])
    show_to_bits([1, 10_000_001], flows, words_of)
    show_to_bits([MISSING, 10_000_000], flows, words_of)
    days = [7, 7]
    for flows, words_of in (([1] * 36526, [3]), ([1] * 3, [7]), ([1, 1], []), ([1, 1], [3, 0]), ([1, 1], [7]),
                            ([1, 1], [2**63 + 3]), ([1, 1], [2]), ([MISSING, MISSING], [2]), ([1, 10_000_001], [3]),
                            ([1, MISSING], [3]), ([0, 10_000_000], [2])):
        show_from_bits(flows, words_of, days)
    flows, days = [7] * 65, [7] * 65
    show_to_bits([1] * 65, flows, [7])
    show_to_bits([1] * 65, flows, [7, 7])
    show_to_bits([1] * 64, [7] * 64, [7])
    show_to_bits([], [], [])
    show_to_bits([], [], [7])
    for ones in ([2**64 - 1], [2**64 - 1, 1], [2**64 - 1, 3]):
        show_from_bits([1] * 65, ones, days)
    show_from_bits([], [], [])
    form, base, work, limbs = ([100, 200], [1]), [7, 7], [7] * 4, [7, 7]
    for setting in ((8, 9250, 0, 0, 1), (2, 3333, 0, 0, 1), (2, 9250, 0, 0, 2)):
        show_bits_filter(*setting, *form, base)
    for setting in ((8, 9250, 0, 0, 1), (2, 3333, 0, 0, 1), (2, 9250, 0, 0, 2)):
        show_bits_filter(*setting, *form, base, 100_001)
    show_bits_line(31, 9000, *form, base)
    show_bits_staggered(2, 9000, 4, *form, base, work)
    show_bits_staggered(1, 9000, 1, *form, base, work)
    show_bits_ratios(61, *form, base, limbs)
    show_bits_bfimax(1, 2, 0, *form, base)
    show_bits_bfimax(1, 1, 9500, *form, base)
    for form in (([1] * 36526, [3]), ([1] * 3, [3]), ([1, 1], [3, 0]), ([1, 1], []), ([1, 1], [7]), ([1, 1], [1]),
                 ([MISSING, MISSING], [1]), ([1, MISSING], [3]), ([1, 10_000_001], [3])):
        each_call(form)
    bits_values()


def each_call(form):
    base = [7, 7]
    show_bits_filter(1, 9250, 0, 0, 1, *form, base)
    show_bits_filter(1, 9250, 0, 0, 1, *form, base, 1001)
    show_bits_line(1, 9000, *form, base)
    show_bits_staggered(1, 9000, 1, *form, base, [7, 7])
    show_bits_totals(*form, base)
    show_bits_ratios(2, *form, base, [7, 7])
    show_bits_bfimax(1, 2, 9500, *form, base)


def bits_values():
    form, base, limbs = ([0, 100, 90, 81, 0], [15]), [NO_VALUE] * 5, [7]
    show_bits_line(1, 9000, *form, base)
    show_bits_staggered(1, 9000, 1, *form, base, [7] * 5)
    show_bits_totals(*form, base)
    show_bits_ratios(2, *form, base, limbs)
    show_bits_bfimax(4, 2, 9500, *form, base)
    show_bits_filter(1, 9250, 0, 0, 1, *form, base, 1)
    show_bits_filter(1, 9250, 0, 0, 1, [0, 100], [2], [7, 7], 100_001)
    show_bits_ratios(2, *form, [0, 100_000, 90_000, 81_000, NO_VALUE], limbs)
    show_bits_totals(*form, [0] * 5)
    show_bits_ratios(2, *form, [0] * 5, limbs)
    form, base = ([0, 100, 0, 0], [14]), [7] * 4
    show_bits_bfimax(3, 2, 9500, *form, base)
    show_bits_bfimax(3, 3, 9500, *form, base)


LICENCES = (  # M, Q, days, base list, and the takings and the quota left
    (60, 150, [100, 200, MISSING, 50], [50000, 57500, NO_VALUE, 25000], [50, 60, 0, 25], 15),
    (60, 120, [100, 200, MISSING, 50], [50000, 57500, NO_VALUE, 25000], [50, 60, 0, 10], 0),
    (60, 110, [100, 200, MISSING, 50], [50000, 57500, NO_VALUE, 25000], [50, 60, 0, 0], 0),
    (10_000_000, 10**12, [10] * 7, [3000, 3001, 2999, 10000, 9001, 0, NO_VALUE], [7, 6, 7, 0, 0, 10, 0], 10**12 - 30),
    (10_000_000, 10**12, [10_000_000], [0], [10_000_000], 10**12 - 10**7),
    (0, 5, [10, 10], [0, 0], [0, 0], 5),
    (5, 0, [10, 10], [0, 0], [0, 0], 0),
    (5, 5, [], [], [], 5),
)


def licences():
    for daily_limit, quota, days, base, wanted, left in LICENCES:
        takings = [7] * len(days)
        assert show_licence(daily_limit, quota, days, base, takings) == (left,) and takings == wanted, (takings, left)


def records():
    again = [7] * 4
    for first, days, room, body in ((0, [], 12, ''), (7, [5, MISSING, 7], 21, '02 05000000 03 02 07000000'),
                                    (0, [MISSING], 11, '03'), (0, [MISSING] * 2, 13, '04 0200'),
                                    (0, [MISSING, 5, MISSING, MISSING], 20, '03 02 05000000 04 0200')):
        data = there_and_back(first, days, room, again)
        assert data[5:-5] == bytes.fromhex(body), (days, data)
    assert show_write(99_999, [MISSING] * 36525, [7] * 14) == 13
    assert show_write(99_999, [10_000_000] * 36525, [7] * 182635) == 182635
    days = [7] * 7
    show_read(bytes.fromhex('01 03000000 03 03 04 0100 04 0300 02 05000000 09 07000000'), days)
    data = there_and_back(3, days, 18, [7] * 8)
    assert data == bytes.fromhex('01 03000000 04 0600 02 05000000 09 07000000'), data


STARTS = (  # days, start, and the values after one, two and three passes
    ([100, 200], 0, ([0, 11250], [0, 11250], [0, 422])),
    ([100, 200], 100_000, ([100_000, 103_750], [100_000, 103_750], [100_000, 100_141])),
    ([100, 200], 100_001, ([7, 7], [7, 7], [7, 7])),
    ([100, 20], 100_000, ([100_000, 20000], [23000, 20000], [23000, 20000])),
    ([MISSING] * 2, 0, ([NO_VALUE] * 2,) * 3),
    ([MISSING] * 2, 2**64 - 1, ([NO_VALUE] * 2,) * 3),
    ([MISSING, 100, 200], 0, ([NO_VALUE, 0, 11250], [NO_VALUE, 0, 11250], [NO_VALUE, 0, 422])),
    ([100, MISSING, 100, 200], 0, ([0, NO_VALUE, 50000, 57500], [0, NO_VALUE, 50000, 57500], [0, NO_VALUE, 50000, 50281])),
)


def starts():
    for days, start, wanted in STARTS:
        base = [7] * len(days)
        for passes, values in enumerate(wanted, 1):
            show_filter(1, 9250, 0, 0, passes, days, base, start)
            assert base == values, (days, start, passes, base)
    for flows, words_of, *given in (([0, 0], [0], 2**64 - 1), ([0, 100, 200], [6], 0, 100_001),
                                    ([100, 0, 100, 200], [13], 0)):
        base = [7] * len(flows)
        for start in given:
            show_bits_filter(1, 9250, 0, 0, 3, flows, words_of, base, start)


def half_lives():
    for p in (0, 1, 500, 501, 900, 990, 999, 1000):
        result = rules.half_life(p)
        out.append(words('half-life', p) + (answer(result, '') if isinstance(result, Refusal) else words(': days', result)))


def readings():
    for data in floats(2.5, 3.5, 0.5, 1.5, -0.0, 1e-45, 8_388_607.5, 10_000_000):
        show_float(2, data)
    for data in floats(1.5, 0.0005, 0.00049999997, 0.0625, 0.1875, -0.0, 2**-126 - 2**-149, 10_000):
        show_float(1, data)
    out.append('meter 3' + metered(rules.meter(b'\x03')) + ', reading' + metered(None))


def metered_years():
    days = river(10957, 4, 3)
    sent = [b'\x03' if day == MISSING else b'\x02' + struct.pack('<f', day) for day in days]
    assert [rules.meter(data) for data in sent] == views(days)
    out.append(words('metered years, days', check_sum(days)))
    for setting in ((1, 9250, 0, 0), (5, 9780, 8000, 0), (7, 9700, 300, -9999)):
        show_steps(*setting, days)


def published():
    for constant in (9730, 9800, 9500, 9770, 9780, 9160, 9450, 8990):
        days = fall(20, constant)
        assert show_ratios(5, days, whole_flows(days), [0, 0]) == (19, constant)
    days, base = steady(10957, 1_000_000, 0, 0), [0] * 10957
    for method, p, q, known in ((5, 9780, 8000, 8000), (5, 9780, 5000, 5000), (5, 9780, 2500, 2500), (1, 9000, 0, 10000),
                                (1, 9250, 0, 10000), (1, 9500, 0, 10000)):
        show_filter(method, p, q, 0, 1, days, base)
        assert_index(show_totals(days, base)[4], known, method, p, q, len(days), 1_000_000)
    days, base = steady(1000, 100, 10, 1000), [0] * 1000
    show_line(5, 9000, days, base)
    # every block's minimum is 100 and turns: the line goes from day 5 to day 991, with storms on days 10, 20, .. 990
    m, Y = 987, 987 * 100 + 99 * 900
    assert show_totals(days, base) == (m, Y, 100_000 * m, 1000 * Y - 100_000 * m, near(10 * 100_000 * m, Y))


def assert_index(index, known, method, p, q, count, flow):
    """A steady river's base flow is the published share of its flow, but for the start: what the start lacks shrinks by A/d a
    day, so that it lacks that by d / (d - A) in all. The index lies within demand 3's limit of this."""
    A, _, _, d = rules.weights(method, p, q, 0)
    lacking = Fraction(known, 10) if method == 5 else Fraction(10000, 2)
    exact = known - lacking * Fraction(d, d - A) / count
    assert abs(index - exact) <= Fraction(1, 2) + 10 * Fraction(d, 2 * (d - A)) / flow, (index, exact)


def main():
    for seed, gaps in ((1, 0), (2, 1), (3, 2), (4, 3), (5, 4)):
        thirty_years(seed, gaps)
    full_record()
    refusals()
    records()
    starts()
    licences()
    half_lives()
    readings()
    metered_years()
    published()
    if sys.argv[1:2] != ['check']:
        print('\n'.join(out))
        return
    with open(sys.argv[2]) as stored:
        lines = stored.read().split('\n')
    for n, (expected, found) in enumerate(zip(out + [''], lines), 1):
        if expected != found:
            sys.exit(f'{sys.argv[2]}:{n}: is "{found}", should be "{expected}"')
    if len(lines) != len(out) + 1:
        sys.exit(f'{sys.argv[2]} has {len(lines) - 1} lines, should have {len(out)}')
    print(f'rivers: {len(out)} lines as document 01 gives them')


main()
