"""Faults for tests/differential to find: edits of tests/reference.c, each of which makes a wrong engine.

A fault is a name, what stands in the file, and what takes its place where it first stands. Any white space of the first
matches any of the file's.
"""
import re

TIE = "if (with_half % b < (whole & 1)) whole -= (b & 1) == 0;"
DAYS_TEST = "if (!are_days(days, days_len)) return 10;"
LENGTHS_TEST = "if (base_len != days_len) return 14;"
COUNT_TEST = "if (four_bytes(body) != count) return 7;"
REST_TEST = "if (left > 4) return 8;"
TOTAL_TEST = "if (count > MOST_DAYS) return 5;"
ROOM_TEST = "if (count > days_len) return 6;"
FIRST_DAY_TEST = "if (first_day > MOST_FIRST_DAY) return 4;"
LENGTH = "uint32_t length = record_length(days, days_len);"
OUTPUT_TEST = "if (bytes_len < length) return 30;"
GAP_DAYS = "return end - t;"
GAP_WRITTEN = "put(at, MISSING_DAYS, (uint32_t)gap, 2);"
END_WRITTEN = "put(at, END, (uint32_t)days_len, 4);"
BACKWARD = "if (passes >= 2) later_pass(&w, base + t - 1, t - start, -1);"
FORWARD = "if (passes == 3) later_pass(&w, base + start, t - start, 1);"
SUM = "w->a * f + w->b * u + (uint64_t)w->c * u_before"
AT_ZERO = "sum < 0 ? 0 : smaller(u, near((uint64_t)sum, w->d))"
S_TEST = "method == 7 ? s < -9999 || s > 9999 : s != 0"
FIRST_DAY = "f = given != NULL && start == first_day ? *given : first(method, q, days[t]);"
STARTED = "given != NULL && start == first_day"
START_29_TEST = "if (given != NULL && first_day < days_len && *given > 1000 * (uint64_t)days[first_day]) return 29;"
FIRST_PRESENT = "size_t first_day = first_present(days, days_len);"
FORM_STARTED = "return filter_form(method, p, q, s, passes, &start, flows,"
PASSES_OVER_BITS = ("uint32_t refusal = weigh_passes(method, p, q, s, passes, &w); if (refusal != 0) return refusal; "
                    "refusal = find_days")
NEXT_DAY = "f = next(&w, f, u, u_before); base[t] = f;"
BY_DAY_COUNT = ("if (left->day_count != right->day_count) "
                "return left->day_count > right->day_count ? -1 : 1;")
BY_FIRST_DAY = "(left->first_day > right->first_day) - (left->first_day < right->first_day)"
SORT = "qsort(found, limb_count, sizeof *found, by_list_order);"
LIMBS_TEST = "if (limbs_len < 2 * limb_count)"
LIMB_DAYS_TEST = "if (!within(limb_days, 2, 60)) return 18;"
MOST_DAYS_TEST = "if (days_len > MOST_DAYS) return 9;"
COUNTS = "uint32_t counts[MOST_RATIO + 1] = {0};"
NO_VALUE_TEST = "if (base[start] == NO_VALUE) continue;"
WHOLE = "uint64_t whole = 1000 * (uint64_t)days[start];"
VALUE_TEST = "if (days[start] == MISSING || base[start] > whole) return 20;"
START_TEST = "if (base[start] < whole) continue;"
FALL = "while (end < days_len && days[end] < days[end - 1] && base[end] == 1000 * (uint64_t)days[end]) end++;"
NOT_REFUSED = "(base[end] == NO_VALUE || base[end] <= 1000 * (uint64_t)days[end])"
MEDIAN = "uint32_t place = 0, below = counts[0];"
SPELL_TEST = "if (!are_present(days, days_len, last_day, duration)) return 24;"
NO_FLOW_TEST = "if (Y == 0) return 21; for"
SHIFTED = "draw_lines(block_days, factor, o, days, days_len, work + o * days_len)"
CHOICE_TEST = "|| !within(choice, 1, 3)) return 16; if (days_len > MOST_DAYS) return 9;"
WORK_TEST = "if (work_len != block_days * days_len) return 25;"
OF_VALUES = "if (next == NO_VALUE) continue;"
LENGTH_TESTS = "if (bytes_len < reading_len) return 1; if (bytes_len > reading_len) return 8;"
KIND_TEST = "if (!within(bytes[0], CUBIC_METRES, NO_READING)) return 2;"
FLOAT_TEST = "if (bits >= INFINITE && bits != MINUS_ZERO) return 26;"
READING_NEAR = "(2 * m + ((uint64_t)1 << k) - 1 + (m >> k & 1)) >> (k + 1)"
READING_SCALED = "near_shifted(units[bytes[0]] * reading.m, 150 - reading.exponent)"
READING_TEST = "if (litres > MOST_FLOW) return 27;"
LICENCE_TEST = "if (daily_limit > MOST_LIMIT || quota > most_quota) return 31;"
TAKINGS_TEST = "if (base_len != days_len || takings_len != days_len) return 14;"
VALUES_TEST = "if (!are_values(days, base, days_len)) return 20;"
TO_SPARE = "return base == NO_VALUE ? 0 : (1000 * (uint64_t)flow - base) / 1000;"
AMOUNT = "smaller(daily_limit, to_spare(days[t], base[t]))"
TAKING = f"uint64_t taking = smaller({AMOUNT}, left);"
TAKEN = "takings[t] = (uint32_t)taking; left -= taking;"
LEFT_WRITTEN = "*quota_left = left;"
EIGHT = "eight |= (uint64_t)(days[j + k] != MISSING) << k;"
TO_WORDS_TEST = "if (words_len != words_for(days_len)) return 28;"
FROM_WORDS_TEST = "if (words_len != words_for(flows_len)) return 28;"
END_TEST = "if (flows_len % 64 != 0 && words[words_len - 1] >> flows_len % 64 != 0) return 28;"
ABSENT_TEST = "if (absent != 0) return 28;"
DAYS_LEN_TEST = "if (days_len != flows_len) return 14;"
BITS_TEST = "uint32_t refusal = test_bits(flows, flows_len, words, words_len);"
SET_MISSING = "days[64 * i + (size_t)__builtin_ctzll(zeros)] = MISSING;"
FLOW_OF_DAY = "flows[t] = days[t] == MISSING ? 0 : days[t];"
FOUND_DAYS = "= find_days(flows, flows_len, words, words_len, base_len, days);"
WORK_BITS_TEST = "if (flows_len <= MOST_DAYS && base_len == flows_len && work_len != block_days * flows_len) return 25;"
BACKWARDS = "value = smaller(1000 * (uint64_t)days[t], near(10000 * value, p));"


def at_base_if(test):
    """Finds limbs by another test of the days at base."""
    first, later = (test.replace("value", f"base[{at}]").replace("flow", f"(uint64_t)days[{at}]")
                    for at in ("start", "end"))
    return f"if (!({first})) continue; while (end < days_len && days[end] < days[end - 1] && {later}) end++;"


FAULTS = (
    ("halves go up", TIE, ""),
    ("halves go down", TIE, "if (with_half % b == 0) whole -= (b & 1) == 0;"),
    ("halves go to the odd number", TIE, "if (with_half % b < (~whole & 1)) whole -= (b & 1) == 0;"),
    ("a half goes by whether the remainder is odd", TIE, "if (with_half % b < (a % b & 1)) whole -= (b & 1) == 0;"),
    ("a half is found where b is odd, too", TIE, "if (with_half % b < (whole & 1)) whole -= 1;"),
    ("a half goes up at the start of method 5", "near(9 * q * flow, 100)", "(9 * q * flow + 50) / 100"),
    ("a half goes up where s is below zero", "near((uint64_t)sum, w->d)", "((uint64_t)sum + w->d / 2) / w->d"),
    ("a half goes up in pass 2 or 3", "f = next(w, f, u, u_before);",
     "f = smaller(u, (w->a * f + w->b * u + (uint64_t)w->c * u_before + w->d / 2) / w->d);"),
    ("a half goes up on the line", "near(1000 * ((uint64_t)days[i] * (j - t) + (uint64_t)days[j] * (t - i)), j - i)",
     "(1000 * ((uint64_t)days[i] * (j - t) + (uint64_t)days[j] * (t - i)) + (j - i) / 2) / (j - i)"),
    ("a half goes up in the index", "near(10 * T, Y)", "((10 * T + Y / 2) / Y)"),
    ("a half goes up in a ratio", "near(10000 * (uint64_t)days[t], days[t - 1])",
     "(10000 * (uint64_t)days[t] + days[t - 1] / 2) / days[t - 1]"),
    ("a half goes up in a backward value", "near(10000 * value, p)", "(10000 * value + p / 2) / p"),
    ("a half goes up in BFImax", "near(10 * sum, Y)", "((10 * sum + Y / 2) / Y)"),
    ("A / d is rounded before multiplying", f"near({SUM}, w->d)",
     "w->a * 10000 / w->d * f / 10000 + near(w->b * u + (uint64_t)w->c * u_before, w->d)"),
    ("only the written base is held to the flow", NEXT_DAY,
     "f = w.c < 0 ? next(&w, f, u, u_before) : near(w.a * f + w.b * u + (uint64_t)w.c * u_before, w.d); "
     "base[t] = smaller(u, f);"),
    ("only the written base is kept at zero", NEXT_DAY,
     "int64_t raw = ((int64_t)(w.a * f + w.b * u) + w.c * (int64_t)u_before) / (int64_t)w.d; "
     "f = raw < 0 ? (uint64_t)raw : next(&w, f, u, u_before); base[t] = raw < 0 ? 0 : f;"),
    ("below zero is wrapped", AT_ZERO, "smaller(u, near((uint64_t)sum, w->d))"),
    ("below zero is the flow", AT_ZERO, "sum < 0 ? u : smaller(u, near((uint64_t)sum, w->d))"),
    ("below zero is its distance from zero", AT_ZERO, "smaller(u, near((uint64_t)(sum < 0 ? -sum : sum), w->d))"),
    ("the sign of s is dropped", "(int64_t)Q * s", "(int64_t)Q * (s < 0 ? -s : s)"),
    ("s counts today's flow", "w->c * (int64_t)u_before", "w->c * (int64_t)u"),
    ("s is left out", "(int64_t)Q * s", "0"),
    ("method 4 takes s", S_TEST, "method == 7 ? s < -9999 || s > 9999 : s != 0 && method != 4"),
    ("method 7 takes s -10000", S_TEST, "method == 7 ? s < -10000 || s > 9999 : s != 0"),
    ("method 7 takes s 10000", S_TEST, "method == 7 ? s < -9999 || s > 10000 : s != 0"),
    ("method 7 takes no s below zero", S_TEST, "method == 7 ? s < 0 || s > 9999 : s != 0"),
    ("method 7 takes two passes", "method == 1 ? 3 : 1", "method == 1 ? 3 : method == 7 ? 2 : 1"),
    ("method 8 is taken", "within(method, 1, 7)", "within(method, 1, 8)"),
    ("a filter carries base over a gap", FIRST_DAY,
     "f = t > 1 && days[t - 2] != MISSING ? base[t - 2] : first(method, q, days[t]);"),
    ("a start is passed over", FIRST_DAY, "f = first(method, q, days[t]);"),
    ("a start serves every stretch", STARTED, "given != NULL"),
    ("a start serves the list's first day alone", STARTED, "given != NULL && start == 0"),
    ("a start serves pass 2", BACKWARD, f"if (passes >= 2 && {STARTED}) base[t - 1] = *given; {BACKWARD}"),
    ("a start serves pass 3", FORWARD, f"if (passes == 3 && {STARTED}) base[start] = *given; {FORWARD}"),
    ("a start serves method 1 alone", STARTED, f"method == 1 && {STARTED}"),
    ("a start of 0 is none", STARTED, f"{STARTED} && *given != 0"),
    ("a start is the day before's base", FIRST_DAY,
     f"f = {STARTED} ? next(&w, *given, u, u) : first(method, q, days[t]);"),
    ("the lowest 32 bits of a start", "*given : first", "(uint32_t)*given : first"),
    ("a start above the flow is the flow", START_29_TEST, "uint64_t held; if (given != NULL && first_day < days_len) "
     "{ held = smaller(*given, 1000 * (uint64_t)days[first_day]); given = &held; }"),
    ("a start above the flow is taken", START_29_TEST, ""),
    ("a start of the whole flow is refused", "*given > 1000", "*given >= 1000"),
    ("29 compares with litres", "*given > 1000 * (uint64_t)days[first_day]", "*given / 1000 > days[first_day]"),
    ("29 by the usual start", "*given > 1000 * (uint64_t)days[first_day]", "*given > first(method, q, days[first_day])"),
    ("29 by the list's first day", "first_day < days_len && *given > 1000 * (uint64_t)days[first_day]",
     "days_len > 0 && *given > 1000 * (uint64_t)days[0]"),
    ("29 by the largest flow", START_29_TEST, "if (given != NULL && *given > 1000 * (uint64_t)MOST_FLOW) return 29;"),
    ("29 without a present day", "first_day < days_len && *given > 1000 * (uint64_t)days[first_day]",
     "*given > (first_day < days_len ? 1000 * (uint64_t)days[first_day] : 0)"),
    ("29 before 10", f"{DAYS_TEST} {FIRST_PRESENT} {START_29_TEST}", f"{FIRST_PRESENT} {START_29_TEST} {DAYS_TEST}"),
    ("29 before 14", f"{LENGTHS_TEST} {DAYS_TEST} {FIRST_PRESENT}",
     f"{FIRST_PRESENT} if (base_len != days_len) {START_29_TEST} {LENGTHS_TEST} {DAYS_TEST}"),
    ("a value is written before 29", START_29_TEST, f"if (first_day < days_len) base[first_day] = 0; {START_29_TEST}"),
    ("a start over bits is passed over", FORM_STARTED, FORM_STARTED.replace("&start", "NULL")),
    ("a step carries yesterday over a gap", "*has_yesterday = 0;", ";"),
    ("a step tests a fresh state", "*has_yesterday != 0 && (*flow", "(*flow"),
    ("pass 2 over the flow", BACKWARD,
     f"for (size_t i = start; i < t && passes > 1; i++) base[i] = 1000 * (uint64_t)days[i]; {BACKWARD}"),
    ("passes 2 and 3 are copies", f"{BACKWARD} if (passes == 3)", "if (passes == 4)"),
    ("method 2 takes p 3333", "3334", "3333"),
    ("10 before 14", f"{LENGTHS_TEST} {DAYS_TEST}", f"{DAYS_TEST} {LENGTHS_TEST}"),
    ("a filter takes 36,526 days", f"{MOST_DAYS_TEST} {LENGTHS_TEST}",
     f"if (days_len > MOST_DAYS + 1) return 9; {LENGTHS_TEST}"),
    ("the middle bytes of a number are exchanged", "two_bytes(at) | two_bytes(at + 2) << 16",
     "at[0] | (uint32_t)at[2] << 8 | (uint32_t)at[1] << 16 | (uint32_t)at[3] << 24"),
    ("the high byte of a number is one place off", "two_bytes(at) | two_bytes(at + 2) << 16",
     "two_bytes(at) | (uint32_t)at[2] << 16 | (uint32_t)at[2] << 24"),
    ("reading takes flow 10,000,001", "four_bytes(body) > MOST_FLOW", "four_bytes(body) > MOST_FLOW + 1"),
    ("8 before 7", f"{COUNT_TEST} {REST_TEST}", f"{REST_TEST} {COUNT_TEST}"),
    ("6 before 5", f"{TOTAL_TEST} {ROOM_TEST}", f"{ROOM_TEST} {TOTAL_TEST}"),
    ("reading goes a byte too far", "if (left < 4)", "if (left < 3)"),
    ("a day count is written on a refusal", "if (refusal != 0) return refusal; const uint8_t *at",
     "*day_count = 0; if (refusal != 0) return refusal; const uint8_t *at"),
    ("a gap of two days is written as two of one", GAP_DAYS, "return end - t == 2 ? 1 : end - t;"),
    ("a gap is written day by day", GAP_DAYS, "return end > t;"),
    ("a gap of over 255 days is written as two", GAP_DAYS, "return smaller(end - t, 255);"),
    ("a gap's number of days has one byte", GAP_WRITTEN, GAP_WRITTEN.replace("(uint32_t)gap", "(uint8_t)gap")),
    ("a gap's days are written high byte first", GAP_WRITTEN,
     GAP_WRITTEN.replace("(uint32_t)gap", "(uint16_t)(gap << 8 | gap >> 8)")),
    ("a dry day is written as a missing one", LENGTH,
     "uint32_t wet[MOST_DAYS]; for (size_t t = 0; t < days_len; t++) wet[t] = days[t] == 0 ? MISSING : days[t]; "
     f"days = wet; {LENGTH}"),
    ("a gap at the end is left out", LENGTH,
     f"while (days_len > 0 && days[days_len - 1] == MISSING) days_len--; {LENGTH}"),
    ("a gap at the start is left out", LENGTH,
     f"for (; days_len > 0 && days[0] == MISSING; days_len--) {{ days++; first_day++; }} {LENGTH}"),
    ("a number is written high byte first", "for (; body > 0; body--, number >>= 8) *at++ = (uint8_t)number;",
     "while (body-- > 0) *at++ = (uint8_t)(number >> 8 * body);"),
    ("the end counts the flows alone", END_WRITTEN,
     "uint32_t flows = 0; for (size_t t = 0; t < days_len; t++) flows += days[t] != MISSING; put(at, END, flows, 4);"),
    ("the end counts the entries", END_WRITTEN,
     "uint32_t entries = 0; for (size_t t = 0; t < days_len; t++) "
     "entries += t == 0 || days[t] != MISSING || days[t - 1] != MISSING; put(at, END, entries, 4);"),
    ("no day is no record", OUTPUT_TEST, f"if (days_len == 0) {{ *record_len = 0; return 0; }} {OUTPUT_TEST}"),
    ("a record's length is one off", "*record_len = length;", "*record_len = length - 1;"),
    ("a record's length is the output's", "*record_len = length;", "*record_len = (uint32_t)bytes_len;"),
    ("a byte behind the record is changed", "*record_len = length;",
     "if (length < bytes_len) bytes[length] = 0; *record_len = length;"),
    ("the output behind the record is cleared", "*record_len = length;",
     "memset(bytes + length, 0, bytes_len - length); *record_len = length;"),
    ("a writer takes 36,526 days", f"{MOST_DAYS_TEST} {FIRST_DAY_TEST}",
     f"if (days_len > MOST_DAYS + 1) return 9; {FIRST_DAY_TEST}"),
    ("first day 100,000 is written", FIRST_DAY_TEST, "if (first_day > MOST_FIRST_DAY + 1) return 4;"),
    ("first day 99,999 is refused", FIRST_DAY_TEST, "if (first_day >= MOST_FIRST_DAY) return 4;"),
    ("4 before 9", f"{MOST_DAYS_TEST} {FIRST_DAY_TEST}", f"{FIRST_DAY_TEST} {MOST_DAYS_TEST}"),
    ("10 before 4", f"{FIRST_DAY_TEST} {DAYS_TEST}", f"{DAYS_TEST} {FIRST_DAY_TEST}"),
    ("30 before 4", FIRST_DAY_TEST,
     "if (first_day > MOST_FIRST_DAY) return bytes_len < record_length(days, days_len) ? 30 : 4;"),
    ("30 before 10", f"{DAYS_TEST} {LENGTH} {OUTPUT_TEST}", f"{LENGTH} {OUTPUT_TEST} {DAYS_TEST}"),
    ("room for a byte less is enough", OUTPUT_TEST, "if (bytes_len + 1 < length) return 30;"),
    ("the output has to be just as long", OUTPUT_TEST, "if (bytes_len != length) return 30;"),
    ("the output has to have room without gaps", OUTPUT_TEST, "if (bytes_len < 10 + 5 * days_len) return 30;"),
    ("a head is written before 30", OUTPUT_TEST, f"if (bytes_len > 5) put(bytes, HEAD, first_day, 4); {OUTPUT_TEST}"),
    ("a length is written before 30", OUTPUT_TEST, f"*record_len = length; {OUTPUT_TEST}"),
    ("the latest of equal minima", "days[t] < days[low]", "days[t] <= days[low]"),
    ("a turning point at equality", "factor * middle < 10000 * left", "factor * middle <= 10000 * left"),
    ("a dry block is compared like any other", "if (middle == 0) return 1;", ";"),
    ("a dry neighbour makes a block turn", "if (middle == 0)", "if (middle == 0 || left == 0)"),
    ("a litre a second counts as dry", "if (middle == 0)", "if (middle <= 1)"),
    ("only the first dry block of a spell turns", "if (middle == 0) return 1;", "if (middle == 0) return left != 0;"),
    ("an incomplete block is kept", "(end - t - shift) / block_days;",
     "(end - t - shift + block_days - 1) / block_days;"),
    ("a write before 17", "if (done == 0) return 0;",
     "if (days_len > 0 && done == 0) base[0] = NO_VALUE; if (done == 0) return 0;"),
    ("a value too many is written", "while (done < days_len)", "while (done <= days_len)"),
    ("the shift counts from the list's start", "t += shift;",
     "t += (shift + block_days - t % block_days) % block_days;"),
    ("every line has shift 0", SHIFTED, "draw_lines(block_days, factor, 0, days, days_len, work + o * days_len)"),
    ("the shifts count from 1", SHIFTED, "draw_lines(block_days, factor, o + 1, days, days_len, work + o * days_len)"),
    ("a stretch shorter than its shift is read on", "end - t < shift ? 0 : (end - t - shift) / block_days",
     "(end - t - shift) / block_days"),
    ("the lines in falling order of the shift", SHIFTED,
     "draw_lines(block_days, factor, block_days - 1 - o, days, days_len, work + o * days_len)"),
    ("the upper of two in the middle", "rising[(count + 1) / 2 - 1]", "rising[count / 2]"),
    ("the rank goes by all lines", "rising[(count + 1) / 2 - 1]", "rising[smaller((lines + 1) / 2, count) - 1]"),
    ("no value counts as the mark", OF_VALUES, ""),
    ("no value counts as 0", OF_VALUES, "if (next == NO_VALUE) next = 0;"),
    ("no value is the lowest", "low = smaller(low, value[o * apart]);",
     "low = value[o * apart] == NO_VALUE ? 0 : smaller(low, value[o * apart]);"),
    ("no value is the highest", "high - 1;", "high == 0 ? 0 : high - 1;"),
    ("lowest and highest exchanged", "base[t] = choice == 1", "base[t] = choice == 2"),
    ("17 by shift 0 alone", "if (!any) return 17;", "if (!has_line[0]) return 17;"),
    ("a line without values keeps what was there", "t < days_len && !has_line[o]", "t < days_len && !any"),
    ("the choice is tested behind 9", f"if (!within(block_days, 1, 30) || !within(factor, 1, 9999) {CHOICE_TEST}",
     "if (!within(block_days, 1, 30) || !within(factor, 1, 9999)) return 16; if (days_len > MOST_DAYS) return 9; "
     "if (!within(choice, 1, 3)) return 16;"),
    ("25 behind 10", f"{WORK_TEST} {DAYS_TEST}", f"{DAYS_TEST} {WORK_TEST}"),
    ("25 before 14", f"{LENGTHS_TEST} {WORK_TEST}", f"{WORK_TEST} {LENGTHS_TEST}"),
    ("a longer work list is taken", WORK_TEST, "if (work_len < block_days * days_len) return 25;"),
    ("the index is cut off", "near(10 * T, Y)", "(10 * T / Y)"),
    ("base equal to flow is refused", "|| base[t] > 1000", "|| base[t] >= 1000"),
    ("equal days fall", "days[end] < days[end - 1]", "days[end] <= days[end - 1]"),
    ("limbs are found without the base list", f"{NO_VALUE_TEST} {WHOLE} {VALUE_TEST} {START_TEST} {FALL}",
     f"{WHOLE} if (base[start] != NO_VALUE) {VALUE_TEST} if (days[start] == MISSING) continue; "
     f"while (end < days_len && days[end] < days[end - 1] && {NOT_REFUSED}) end++;"),
    ("a day with a base value is at base", f"{START_TEST} {FALL}", at_base_if("value <= 1000 * flow")),
    ("base is rounded to litres and then compared", f"{START_TEST} {FALL}",
     at_base_if("value <= 1000 * flow && near(value, 1000) == flow")),
    ("the lowest 32 bits of base are compared", f"{START_TEST} {FALL}",
     at_base_if("value <= 1000 * flow && (uint32_t)value == (uint32_t)(1000 * flow)")),
    ("a dry day is not at base", f"{START_TEST} {FALL}", at_base_if("flow > 0 && value == 1000 * flow")),
    ("a limb begins on a day below its flow", START_TEST, ""),
    ("a limb ends on a day below its flow", FALL,
     f"{FALL} if (end < days_len && days[end] < days[end - 1] && base[end] < 1000 * (uint64_t)days[end]) end++;"),
    ("a limb ends on a day without a value", FALL,
     f"{FALL} if (end < days_len && days[end] < days[end - 1] && base[end] == NO_VALUE) end++;"),
    ("a day not at base is bridged", FALL,
     "while (end < days_len && days[end] < days[end - 1] && (base[end] == 1000 * (uint64_t)days[end] || "
     f"({NOT_REFUSED} && end + 1 < days_len && days[end + 1] < days[end] && "
     "base[end + 1] == 1000 * (uint64_t)days[end + 1]))) end++;"),
    ("a missing day's mark counts as a flow", VALUE_TEST, "if (base[start] > whole) return 20;"),
    ("a value on a missing day is passed over", VALUE_TEST, f"if (days[start] == MISSING) continue; {VALUE_TEST}"),
    ("a value above the flow is passed over", VALUE_TEST, "if (days[start] == MISSING) return 20;"),
    ("14 before 9", f"{LIMB_DAYS_TEST} {MOST_DAYS_TEST} {LENGTHS_TEST}",
     f"{LIMB_DAYS_TEST} {LENGTHS_TEST} {MOST_DAYS_TEST}"),
    ("20 before 10", f"{DAYS_TEST} {COUNTS}",
     "for (size_t t = 0; t < days_len; t++) if (base[t] != NO_VALUE && (days[t] == MISSING || "
     f"base[t] > 1000 * (uint64_t)days[t])) return 20; {DAYS_TEST} {COUNTS}"),
    ("19 before 20", COUNTS,
     "size_t fallen = 0, most = 0; for (size_t t = 0; t < days_len; t++) { "
     "if (days[t] == MISSING || base[t] != 1000 * (uint64_t)days[t]) fallen = 0; "
     "else fallen = fallen > 0 && days[t] < days[t - 1] ? fallen + 1 : 1; "
     f"most = fallen > most ? fallen : most; }} if (most < limb_days) return 19; {COUNTS}"),
    ("22 before 20", VALUE_TEST,
     "if (days[start] == MISSING || base[start] > whole) return limbs_len < 2 * limb_count ? 22 : 20;"),
    ("a longer base list is taken", f"{LIMB_DAYS_TEST} {MOST_DAYS_TEST} {LENGTHS_TEST}",
     f"{LIMB_DAYS_TEST} {MOST_DAYS_TEST} if (base_len < days_len) return 14;"),
    ("the base list of the ratios is written", START_TEST, f"{START_TEST} ((uint64_t *)base)[start] = NO_VALUE;"),
    ("the upper of two middle ratios", "(k + 1) / 2", "(k / 2 + 1)"),
    ("a limb's number of days is one short", "*limbs++ = found[i].day_count;", "*limbs++ = found[i].day_count - 1;"),
    ("the shortest limb first", "left->day_count > right->day_count ? -1 : 1",
     "left->day_count > right->day_count ? 1 : -1"),
    ("the latest of equally long limbs first", BY_FIRST_DAY,
     "(left->first_day < right->first_day) - (left->first_day > right->first_day)"),
    ("limbs in the order of their first days", "if (left->day_count != right->day_count)", "if (0)"),
    ("limbs of 255 days and more are one length", BY_DAY_COUNT,
     "uint64_t a_days = smaller(left->day_count, 255), b_days = smaller(right->day_count, 255); "
     "if (a_days != b_days) return a_days > b_days ? -1 : 1;"),
    ("a limb of more than 269 days is lost", "found[limb_count++]", "if (end - start <= 269) found[limb_count++]"),
    ("only neighbouring limbs change places", SORT,
     "for (size_t i = 1; i < limb_count; i++) if (by_list_order(&found[i - 1], &found[i]) > 0) "
     "{ struct limb later = found[i]; found[i] = found[i - 1]; found[i - 1] = later; }"),
    ("only the first 256 limbs are put in order", "qsort(found, limb_count,", "qsort(found, smaller(limb_count, 256),"),
    ("a limb is written in another's place", "= found[i].first_day;", "= found[i == 1 ? 0 : i].first_day;"),
    ("the rest of the limb list is cleared", MEDIAN,
     f"for (size_t i = 2 * limb_count; i < limbs_len; i++) *limbs++ = 0; {MEDIAN}"),
    ("limbs are written before 22", LIMBS_TEST, f"if (limbs_len > 0) *limbs = found[0].first_day; {LIMBS_TEST}"),
    ("k is written before 22", LIMBS_TEST, f"*ratio_count = k; {LIMBS_TEST}"),
    ("'below' for 'at most'", "return 1; } // The least n", "return 0; } // The least n"),
    ("a half-life one day short", "*days = known[p];", "*days = known[p] > 1 ? known[p] - 1u : 1;"),
    ("the half-life of the p before", "known[p] = days_to_half(p);", "known[p] = days_to_half(p > 1 ? p - 1 : p);"),
    ("the half-life of p 1000 is none", "if (!within(p, 1, 999)) return 12;",
     "if (p == 1000) { *days = 0; return 0; } if (!within(p, 1, 999)) return 12;"),
    ("a reading is cut off", READING_NEAR, "m >> k"),
    ("a half goes up in a reading", READING_NEAR, "(2 * m + ((uint64_t)1 << k)) >> (k + 1)"),
    ("a half goes down in a reading", READING_NEAR, "(2 * m + ((uint64_t)1 << k) - 1) >> (k + 1)"),
    ("a half goes to the odd number in a reading", READING_NEAR,
     "(2 * m + ((uint64_t)1 << k) - (m >> k & 1)) >> (k + 1)"),
    ("a reading is shifted by at most 31 bits", "k = k < 35 ? k : 35;", "k &= 31;"),
    ("cubic metres are rounded before the factor", READING_SCALED,
     "units[bytes[0]] * near_shifted(reading.m, 150 - reading.exponent)"),
    ("the units of the kinds are exchanged", "[CUBIC_METRES] = 1000, [LITRES] = 1",
     "[CUBIC_METRES] = 1, [LITRES] = 1000"),
    ("a float is read from its high byte on", "uint32_t bits = four_bytes(bytes + 1);",
     "uint32_t bits = bytes[4] | (uint32_t)bytes[3] << 8 | (uint32_t)bytes[2] << 16 | (uint32_t)bytes[1] << 24;"),
    ("a large number below zero is too large", FLOAT_TEST,
     f"if (bits > MINUS_ZERO && bits < 0xff800000 && parts_of(bits).exponent > 150) return 27; {FLOAT_TEST}"),
    ("infinity is too large", FLOAT_TEST, f"if (bits == INFINITE) return 27; {FLOAT_TEST}"),
    ("a NaN without a sign is too large", FLOAT_TEST, "if (bits == INFINITE || bits > MINUS_ZERO) return 26;"),
    ("a NaN with a sign is no reading", FLOAT_TEST,
     f"if (bits > 0xff800000) {{ *day = MISSING; return 0; }} {FLOAT_TEST}"),
    ("negative zero is refused", FLOAT_TEST, "if (bits >= INFINITE) return 26;"),
    ("a subnormal below zero is 0", FLOAT_TEST, "if (bits >= INFINITE && bits - MINUS_ZERO >= 0x800000) return 26;"),
    ("what rounds to 0 from below zero is 0", FLOAT_TEST,
     "if (bits >= INFINITE && (bits < MINUS_ZERO || bits - MINUS_ZERO > 0x3a000000)) return 26;"),
    ("a reading takes 10,000,001 litres", READING_TEST, "if (litres > MOST_FLOW + 1) return 27;"),
    ("a reading takes no 10,000,000 litres", READING_TEST, "if (litres >= MOST_FLOW) return 27;"),
    ("a reading that is too large is the most", READING_TEST, "litres = smaller(litres, MOST_FLOW);"),
    ("a reading that is too large is missing", READING_TEST, "if (litres > MOST_FLOW) litres = MISSING;"),
    ("no reading is 0", "*day = MISSING;", "*day = 0;"),
    ("bytes behind no reading are passed over", LENGTH_TESTS,
     "if (bytes_len < reading_len) return 1; if (bytes_len > reading_len && reading_len > 1) return 8;"),
    ("a reading is taken from a longer list", LENGTH_TESTS, "if (bytes_len < reading_len) return 1;"),
    ("a short body is passed over", LENGTH_TESTS, "if (bytes_len > reading_len) return 8;"),
    ("2 behind 1 and 8", KIND_TEST,
     f"if (bytes[0] > NO_READING && bytes_len != 5) return bytes_len < 5 ? 1 : 8; {KIND_TEST}"),
    ("26 before 8", LENGTH_TESTS,
     "if (bytes_len < reading_len) return 1; if (reading_len == 5 && four_bytes(bytes + 1) >= INFINITE && "
     "four_bytes(bytes + 1) != MINUS_ZERO) return 26; if (bytes_len > reading_len) return 8;"),
    ("a day is written before 27", READING_TEST, f"*day = (uint32_t)litres; {READING_TEST}"),
    ("base is rounded down", TO_SPARE, "return base == NO_VALUE ? 0 : flow - base / 1000;"),
    ("base is rounded to the nearest litre", TO_SPARE,
     "return base == NO_VALUE || near(base, 1000) > flow ? 0 : flow - near(base, 1000);"),
    ("a day without a value has base 0", TO_SPARE,
     f"if (base == NO_VALUE && flow != MISSING) return flow; {TO_SPARE}"),
    ("a missing day's mark is taken from", TO_SPARE, f"if (flow == MISSING) return flow; {TO_SPARE}"),
    ("a taking is not held to Q", f"{TAKING} {TAKEN}",
     f"uint64_t taking = {AMOUNT}; takings[t] = (uint32_t)taking; left -= smaller(taking, left);"),
    ("each day is held to Q anew", TAKING, TAKING.replace("left", "quota")),
    ("Q is not counted down", TAKEN, "takings[t] = (uint32_t)taking;"),
    ("Q is counted down by M", TAKEN,
     "takings[t] = (uint32_t)taking; left -= base[t] == NO_VALUE ? 0 : smaller(daily_limit, left);"),
    ("Q begins anew behind a gap", TAKEN, f"{TAKEN} if (days[t] == MISSING) left = quota;"),
    ("Q left is Q less the last taking", LEFT_WRITTEN, "*quota_left = days_len > 0 ? quota - takings[days_len - 1] : quota;"),
    ("a day without a value keeps its taking", TAKEN,
     "if (base[t] != NO_VALUE) takings[t] = (uint32_t)taking; left -= taking;"),
    ("a taking beyond the last day is written", LEFT_WRITTEN, f"takings[days_len] = 0; {LEFT_WRITTEN}"),
    ("a licence takes M 10,000,001", LICENCE_TEST, LICENCE_TEST.replace("MOST_LIMIT", "MOST_LIMIT + 1")),
    ("a licence takes Q 10^12 + 1", LICENCE_TEST, LICENCE_TEST.replace("most_quota", "most_quota + 1")),
    ("31 after 9", f"{LICENCE_TEST} {MOST_DAYS_TEST}", f"{MOST_DAYS_TEST} {LICENCE_TEST}"),
    ("14 before 9 in a replay", f"{MOST_DAYS_TEST} {TAKINGS_TEST}", f"{TAKINGS_TEST} {MOST_DAYS_TEST}"),
    ("the length of the takings is not tested", TAKINGS_TEST, "if (base_len != days_len) return 14;"),
    ("a longer list for the takings is taken", TAKINGS_TEST,
     "if (base_len != days_len || takings_len < days_len) return 14;"),
    ("the takings are as long as the base list", TAKINGS_TEST, "if (base_len != takings_len) return 14;"),
    ("14 of the takings after 10", f"{TAKINGS_TEST} {DAYS_TEST}",
     f"if (base_len != days_len) return 14; {DAYS_TEST} if (takings_len != days_len) return 14;"),
    ("20 before 10 in a replay", f"{DAYS_TEST} {VALUES_TEST}", f"{VALUES_TEST} {DAYS_TEST}"),
    ("20 up to the day on which Q runs out", f"{VALUES_TEST} uint64_t left = quota;",
     "size_t end = 0; for (uint64_t rest = quota; rest > 0 && end < days_len && are_values(days + end, base + end, 1); "
     "end++) rest -= smaller(rest, smaller(daily_limit, to_spare(days[end], base[end]))); "
     "if (!are_values(days, base, end < days_len ? end + 1 : end)) return 20; uint64_t left = quota;"),
    ("20 is found as the days go by", f"{VALUES_TEST} uint64_t left = quota;", "uint64_t left = quota; "
     "for (size_t t = 0; t < days_len; t++) { if (!are_values(days + t, base + t, 1)) return 20; takings[t] = 0; }"),
    ("Q left is written before 20", VALUES_TEST, f"*quota_left = quota; {VALUES_TEST}"),
    ("base equal to flow is refused in a replay", "(base[t] <= 1000 * (uint64_t)days[t]));",
     "(base[t] < 1000 * (uint64_t)days[t]));"),
    ("a value on a missing day is taken for none", "((days[t] != MISSING) & (base[t]", "((days[t] == MISSING) | (base[t]"),
    ("the highest bit first", EIGHT, "word |= (uint64_t)(days[j + k] != MISSING) << (63 - j - k);"),
    ("the highest bit first, from bits", SET_MISSING, "days[64 * i + 63 - (size_t)__builtin_ctzll(zeros)] = MISSING;"),
    ("a dry day is absent", EIGHT, "eight |= (uint64_t)(days[j + k] != MISSING && days[j + k] != 0) << k;"),
    ("bits past the last day are ones", "uint64_t word = 0; for (size_t j = 0; j < count; j += 8)",
     "uint64_t word = count < 64 ? ~(uint64_t)0 << count : 0; for (size_t j = 0; j < count; j += 8)"),
    ("the last word is left out of the count", "ones += ones_of(words[full]);", ""),
    ("an absent day keeps its mark", FLOW_OF_DAY, "flows[t] = days[t];"),
    ("a word per day", "return days_len / 64 + (days_len % 64 != 0);", "return days_len;"),
    ("a word more behind a full one", "return days_len / 64 + (days_len % 64 != 0);", "return days_len / 64 + 1;"),
    ("a word too many is taken", TO_WORDS_TEST, "if (words_len < words_for(days_len)) return 28;"),
    ("a word too many is taken, from bits", FROM_WORDS_TEST, "if (words_len < words_for(flows_len)) return 28;"),
    ("28 after 10, to bits", f"{TO_WORDS_TEST} {DAYS_TEST}", f"{DAYS_TEST} {TO_WORDS_TEST}"),
    ("28 before 14, from bits", f"{DAYS_LEN_TEST} {BITS_TEST}",
     f"{BITS_TEST} if (refusal == 28) return 28; {DAYS_LEN_TEST}"),
    ("28 after 10, from bits", ABSENT_TEST,
     "if (absent != 0) { for (size_t t = 0; t < flows_len; t++) "
     "if (flows[t] > MOST_FLOW && (words[t / 64] >> t % 64 & 1) != 0) return 10; return 28; }"),
    ("the last partial word is not tested", END_TEST, ""),
    ("only the first bit past the end is tested", END_TEST,
     "if (flows_len % 64 != 0 && (words[words_len - 1] >> flows_len % 64 & 1) != 0) return 28;"),
    ("ones past the end are counted, and taken", f"{END_TEST} uint32_t absent = 0;",
     "uint32_t absent = 0; if (flows_len % 64 != 0 && ones_of(words[words_len - 1]) > flows_len % 64) return 28;"),
    ("a flow under a zero bit is passed over", ABSENT_TEST, ""),
    ("the mark under a one bit is a missing day", "good &= flows[t] <= MOST_FLOW;", "good &= is_day(flows[t]);"),
    ("from bits an absent day is dry", SET_MISSING, ";"),
    ("days are written before 28", BITS_TEST, f"if (days_len > 0) days[0] = flows[0]; {BITS_TEST}"),
    ("the present days are written before 28", BITS_TEST, f"*present = 0; {BITS_TEST}"),
    ("28 before 13", PASSES_OVER_BITS,
     "uint32_t refusal = weigh(method, p, q, s, &w); if (refusal != 0) return refusal; "
     f"refusal {FOUND_DAYS} if (refusal == 28) return 28; refusal = weigh_passes(method, p, q, s, passes, &w); "
     "if (refusal != 0) return refusal; refusal = find_days"),
    ("29 before 28", f"{PASSES_OVER_BITS}(flows, flows_len, words, words_len, base_len, days);",
     f"{PASSES_OVER_BITS}(flows, flows_len, words, words_len, base_len, days); if (refusal == 28 && given != NULL && "
     "flows_len > 0 && *given > 1000 * (uint64_t)flows[0]) return 29;"),
    ("28 before 25", WORK_BITS_TEST,
     f"uint32_t early {FOUND_DAYS} if (early == 28) return 28; {WORK_BITS_TEST}"),
    ("25 behind 10 over bits", WORK_BITS_TEST,
     f"uint32_t early {FOUND_DAYS} if (early == 10) return 10; {WORK_BITS_TEST}"),
    ("the D days end before the last day", SPELL_TEST, f"last_day -= 1; {SPELL_TEST}"),
    ("the last day's place counts from 1", "if (!within(p, 1, 9999)) return 12; if (!within(duration",
     "last_day -= last_day > 0; if (!within(p, 1, 9999)) return 12; if (!within(duration"),
    ("a backward value is rounded down", BACKWARDS, "value = smaller(1000 * (uint64_t)days[t], 10000 * value / p);"),
    ("a backward value may be above the flow", BACKWARDS, "value = near(10000 * value, p);"),
    ("only the written value is held to the flow", f"{BACKWARDS} base[t] = value;",
     "value = near(10000 * value, p); base[t] = smaller(1000 * (uint64_t)days[t], value);"),
    ("values of other days are kept", "for (size_t t = last_day + 1; t < days_len; t++) base[t] = NO_VALUE;", ""),
    ("24 before 10", f"{DAYS_TEST} {SPELL_TEST}", f"{SPELL_TEST} {DAYS_TEST}"),
    ("BFImax by the flow of all days", "for (size_t t = first_day; t <= last_day; t++) Y += days[t];",
     "for (size_t t = 0; t < days_len; t++) Y += days[t] == MISSING ? 0 : days[t];"),
    ("a value is written before 21", f"{NO_FLOW_TEST} (size_t t = 0; t < first_day;",
     f"base[last_day] = 0; {NO_FLOW_TEST} (size_t t = 0; t < first_day;"),
)


def planted(source, fault):
    """The source with the fault."""
    name, old, new = fault
    edited, count = re.subn(r"\s+".join(map(re.escape, old.split())), lambda _: new, source, count=1)
    assert count == 1, f"there is no place to plant '{name}'"
    return edited
