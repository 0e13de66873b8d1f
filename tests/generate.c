// The generator of the differential runs. It aims at the edges of document 01: limits and their neighbours, marks,
// ties, quotients at a half, falls through gaps, dry spells, limbs of chosen lengths, falls that are not at base
// everywhere, recessions as BFImax sees them, full lists, lists of different lengths, records damaged by cutting,
// flipping and inserting, gaps of one, two and some 256 days anywhere and room for just their record, floats of every
// exponent, at halves between two litres, and beside the limits, lists that end round a word's last bit, with damaged
// words, starts at both ends of their range and beyond, base flow a thousandth beside whole litres, and quotas that run
// out within a day's amount, with it, or not at all.
#include <string.h>

#include "differential.h"
#include "reference.h"

static uint64_t state;

// splitmix64
static uint64_t draw(void)
{
    uint64_t z = (state += 0x9e3779b97f4a7c15u);
    z = (z ^ (z >> 30)) * 0xbf58476d1ce4e5b9u;
    z = (z ^ (z >> 27)) * 0x94d049bb133111ebu;
    return z ^ (z >> 31);
}

static uint32_t below(uint32_t limit)
{
    return (uint32_t)((draw() >> 32) * limit >> 32);
}

static uint32_t between(uint32_t least, uint32_t most)
{
    return least + below(most - least + 1);
}

static int one_in(uint32_t n)
{
    return below(n) == 0;
}

#define AMONG_OF(type, ...)                                                                                            \
    (((const type[]){__VA_ARGS__})[below((uint32_t)(sizeof((const type[]){__VA_ARGS__}) / sizeof(type)))])
#define AMONG(...) AMONG_OF(uint32_t, __VA_ARGS__)
#define AMONG_SIGNED(...) AMONG_OF(int32_t, __VA_ARGS__)

// Whether a case gets a certain cause to be refused. A rough case gets several, so that their order shows.
static int rough;
static int spoil(void)
{
    return one_in(rough ? 2 : 60);
}

// ---- day lists

static int by_words; // whether lengths round a multiple of 64 are wanted

static size_t day_list_length(void)
{
    if (by_words && one_in(2))
        return AMONG(0, 1, 63, 64, 65, 127, 128, 129, 192);
    if (one_in(by_words ? 40 : 200))
        return one_in(3) ? between(10000, MOST_DAYS + 20) : AMONG(MOST_DAYS - 1, MOST_DAYS, MOST_DAYS, MOST_DAYS + 1);
    if (one_in(12))
        return below(one_in(10) ? 4000 : 400);
    return below(one_in(3) ? 8 : 40);
}

enum { TINY, SMALL, ANY, ENDS, RIVER, DRY, CONSTANT, SAW, STYLES };

static uint32_t flow_of(uint32_t style, uint32_t before)
{
    switch (style) {
    case TINY:
        return below(4);
    case SMALL:
        return below(40);
    case ANY:
        return below(MOST_FLOW + 1);
    case ENDS:
        return AMONG(0, 0, 1, 2, MOST_FLOW - 1, MOST_FLOW, MOST_FLOW);
    case RIVER: // storms and long recessions
        if (one_in(30) || before == 0)
            return between(1, one_in(4) ? MOST_FLOW : 5000);
        return before - (before + 39) / 40;
    case DRY: // a river that dries up, for days or for weeks
        if (before == 0)
            return one_in(one_in(3) ? 40 : 4) ? between(1, 300) : 0;
        return one_in(8) ? 0 : one_in(6) ? before + below(50) : before - before / 8;
    case CONSTANT:
        return before;
    default: // a fall with ties and small rises
        return before > 0 && below(4) != 0 ? before - below(2) - (before > 1) : before + below(30);
    }
}

static void spoil_day(struct test_case *c)
{
    if (c->days_len > 0 && spoil())
        c->days[one_in(3) ? c->days_len - 1 : below((uint32_t)c->days_len)] =
            AMONG(MOST_FLOW + 1, MISSING - 1, MOST_FLOW + 2, 0x80000000, 0x7fffffff);
}

static void fill_days(struct test_case *c)
{
    uint32_t style = below(STYLES), gaps = below(6), flow = below(one_in(4) ? MOST_FLOW + 1 : 300);
    c->days_len = day_list_length();
    for (size_t t = 0, gap = 0; t < c->days_len; t++) {
        if (gap == 0 && ((gaps == 1 && one_in(20)) || (gaps == 2 && one_in(3)) || (gaps == 3 && t == 0)))
            gap = gaps == 2 ? 1 : 1 + below(4);
        flow = flow_of(style, flow);
        c->days[t] = gap > 0 ? MISSING : flow;
        gap -= gap > 0;
    }
    if (gaps == 3 && c->days_len > 0)
        c->days[c->days_len - 1] = MISSING;
    if (gaps == 4 && one_in(20))
        memset(c->days, 0xff, c->days_len * sizeof *c->days);
    spoil_day(c);
}

// How the lengths of limbs go on: all alike, each a day longer than the one before, the same backwards, each length
// once or twice in any order, few lengths at random, or one limb for all days.
enum { ALIKE, RISING, FALLING, ONCE, TWICE, FEW, WHOLE, ORDERS };

static void swap(uint32_t *a, uint32_t *b)
{
    uint32_t old = *a;
    *a = *b;
    *b = old;
}

// Draws the lengths of limbs that fill up to `room` days, and gives their number.
static uint32_t draw_lengths(uint32_t *lengths, uint32_t room)
{
    uint32_t order = below(ORDERS), most = room < 900 ? 2 + room / 3 : 302, count = 0;
    uint32_t least = order == WHOLE ? room : one_in(3) ? between(2, most) : 2;
    const uint32_t few[] = {2, between(2, most), between(2, most), between(2, most)};
    for (uint32_t length = least; 2 <= length && length <= room;) {
        room -= length;
        lengths[count++] = length;
        if (order == FEW)
            length = few[below(4)];
        else
            length += order == TWICE ? count % 2 == 0 : order != ALIKE;
    }
    for (uint32_t i = 0; i < count / 2 && order == FALLING; i++)
        swap(&lengths[i], &lengths[count - 1 - i]);
    for (uint32_t i = count; i > 1 && (order == ONCE || order == TWICE); i--)
        swap(&lengths[i - 1], &lengths[below(i)]);
    return count;
}

// Limbs one behind the other, with or without a gap here and there. Each ends with the same flow, below any first one.
static void fill_limbs(struct test_case *c)
{
    static uint32_t lengths[ROOM_DAYS];
    uint32_t low = below(5), step = between(1, 200);
    int gaps = one_in(4);
    c->days_len = one_in(200) ? MOST_DAYS : day_list_length();
    uint32_t count = draw_lengths(lengths, (uint32_t)c->days_len);
    size_t t = 0;
    for (uint32_t i = 0; i < count; i++) {
        if (gaps && one_in(5) && t < c->days_len)
            c->days[t++] = MISSING;
        for (uint32_t left = lengths[i]; left > 0 && t < c->days_len; left--)
            c->days[t++] = low + step * (left - 1);
    }
    while (t < c->days_len)
        c->days[t++] = low;
    spoil_day(c);
}

static size_t other_length(size_t length)
{
    size_t other = one_in(2) ? length + 1 + below(3) : length > 0 && one_in(2) ? length - 1 : below(40);
    return other < ROOM_DAYS ? other : ROOM_DAYS;
}

// A base list that is only written: any content, of the day list's length or not.
static void fill_base(struct test_case *c)
{
    c->base_len = spoil() ? other_length(c->days_len) : c->days_len;
    for (size_t t = 0; t < c->base_len; t++)
        c->base[t] = draw();
}

// ---- settings

// Settings with which many sums lie at a half: A, 1000 times B and d have so much in common that little is left of d,
// and that is even. In method 5 the first q does it for the sums, any other for the start of an odd flow.
static void fill_halving(struct test_case *c)
{
    static const uint32_t p[] = {5000, 4400, 4000, 8000, 5000, 5000, 8000};
    c->p = p[c->method - 1];
    if (c->method == 4 || c->method == 7)
        c->q = 6000;
    if (c->method == 5)
        c->q = one_in(2) ? 8000 : 50 * (1 + 2 * below(100));
    if (c->method == 7)
        c->s = AMONG_SIGNED(-5000, 5000);
}

static void fill_setting(struct test_case *c)
{
    c->method = spoil() ? AMONG(0, 8, 9, MISSING, 0x80000001, 257) : between(1, 7);
    uint32_t least = c->method == 2 ? 3334 : 1, most_q = c->method == 5 ? 9999 : 10000;
    int has_q = c->method == 4 || c->method == 5 || c->method == 7, has_s = c->method == 7;
    c->p = one_in(3) ? AMONG(least, 9999, 5000, 9250, 9998, least + 1) : between(least, 9999);
    c->q = !has_q ? 0 : one_in(3) ? AMONG(1, most_q, 5000, 8000) : between(1, most_q);
    c->s = !has_s ? 0 : one_in(3) ? AMONG_SIGNED(-9999, 9999, -1, 0, 1, -5000) : (int32_t)below(19999) - 9999;
    if (1 <= c->method && c->method <= 7 && one_in(6))
        fill_halving(c);
    if (spoil())
        c->p = AMONG(0, least - 1, 10000, 10001, MISSING);
    else if (spoil())
        c->q = c->q == 0 ? AMONG(1, 5000, MISSING) : AMONG(0, most_q + 1, 20000, MISSING);
    else if (spoil())
        c->s = has_s ? AMONG_SIGNED(-10000, 10000, INT32_MIN, INT32_MAX, -10001, 65536)
                     : AMONG_SIGNED(1, -1, 9999, -9999, INT32_MIN, INT32_MAX);
    c->passes = c->method == 1 ? between(1, 3) : 1;
    if (spoil())
        c->passes = c->method == 1 ? AMONG(0, 4, MISSING) : AMONG(0, 2, 3, 4);
}

static void make_filter(struct test_case *c)
{
    fill_setting(c);
    fill_days(c);
    fill_base(c);
}

// A start from 0 to 1000 x the first present flow, at an end or between them, or one above; with no present day any.
static void fill_start(struct test_case *c)
{
    size_t t = first_present(c);
    uint64_t whole = t < c->days_len ? 1000 * (uint64_t)c->days[t] : 0;
    uint64_t above = one_in(2) ? whole + 1
                               : AMONG_OF(uint64_t, whole + 2, whole + 1000, whole + 4294967296, 10000000001, NO_VALUE,
                                          NO_VALUE - 1);
    if (t == c->days_len ? !one_in(3) : spoil() || one_in(10))
        c->start = above;
    else
        c->start = one_in(4) ? 0 : one_in(3) ? whole : one_in(8) && whole > 0 ? whole - 1 : draw() % (whole + 1);
}

static void make_filter_from(struct test_case *c)
{
    make_filter(c);
    fill_start(c);
}

static void make_step(struct test_case *c)
{
    fill_setting(c);
    uint32_t style = below(CONSTANT), day = flow_of(style, below(5000)), flow = flow_of(style, day);
    c->day = spoil() ? AMONG(MOST_FLOW + 1, MISSING - 1, 0x80000000) : one_in(8) ? MISSING : day;
    c->outs.small[0] = one_in(3) ? 0 : one_in(4) ? (uint32_t)draw() : 1;
    if (c->outs.small[0] == 0 && one_in(2))
        return;
    c->outs.small[1] = spoil() ? AMONG(MOST_FLOW + 1, MISSING, 0x80000000) : flow;
    uint64_t whole = 1000 * (uint64_t)c->outs.small[1];
    c->outs.large[0] = spoil() ? (one_in(2) ? whole + 1 : NO_VALUE)
                       : one_in(4) ? whole
                                   : ((draw() >> 32) * whole >> 32);
}

static void make_steps(struct test_case *c)
{
    rough = 0;
    c->outs.small[0] = 0; // fresh, beside any flow and base
    do
        fill_setting(c);
    while (reference_filter(c->method, c->p, c->q, c->s, 1, c->days, 0, c->base, 0) != 0);
    do
        fill_days(c);
    while (reference_filter(c->method, c->p, c->q, c->s, 1, c->days, c->days_len, c->base, c->days_len) != 0);
}

// Every block of 16 days turns, on the same of its days, and at nearly the same flow: between two that differ by an odd
// number the line lies at a half on every other day.
static void fill_halved_line(struct test_case *c)
{
    uint32_t low = between(30, one_in(4) ? MOST_FLOW / 3 : 300), place = below(16);
    c->days_len = 16 * between(4, 8) + below(16);
    for (size_t t = 0; t < c->days_len; t++)
        c->days[t] = t % 16 == place ? low + below(3) : 2 * low + below(8);
    spoil_day(c);
}

static void make_line(struct test_case *c)
{
    int halves = one_in(8);
    c->block_days = spoil()     ? AMONG(0, 31, 32, MISSING)
                    : halves    ? 16
                    : one_in(2) ? between(1, 3)
                    : one_in(2) ? 5
                                : between(1, 30);
    c->factor = spoil()     ? AMONG(0, 10000, 10001, MISSING)
                : halves    ? AMONG(9000, 5000, 1)
                : one_in(2) ? AMONG(9000, 9999, 9998, 5000, 1, 2)
                            : between(1, 9999);
    if (halves)
        fill_halved_line(c);
    else
        fill_days(c);
    fill_base(c);
}

// Rivers whose lines differ from shift to shift: short blocks with few turning points, stretches of every length around
// N, and lists in which only one shift, or none, has a line.
static void fill_stretches(struct test_case *c)
{
    uint32_t style = below(3), limit = AMONG(3, 10, 1000);
    c->days_len = 0;
    for (uint32_t parts = between(1, 6); parts > 0; parts--) {
        uint32_t count = style == 0 ? between(1, c->block_days + 2) : between(2 * c->block_days, 6 * c->block_days + 3);
        while (count-- > 0)
            c->days[c->days_len++] = below(limit) + (one_in(3) ? limit : 0);
        c->days[c->days_len] = MISSING;
        c->days_len += !one_in(3);
    }
    spoil_day(c);
}

static void make_staggered(struct test_case *c)
{
    make_line(c);
    uint32_t days_per_block = c->block_days >= 1 && c->block_days <= 30 ? c->block_days : between(1, 3);
    if (days_per_block == c->block_days && c->days_len * days_per_block <= 4000 && one_in(2)) {
        fill_stretches(c);
        fill_base(c);
    }
    if (c->days_len * days_per_block > ROOM_WORK - 10) // a long list has few lines
        c->block_days = days_per_block = between(1, 5);
    c->choice = spoil() ? AMONG(0, 4, 5, MISSING) : between(1, 3);
    c->work_len = days_per_block * c->days_len;
    if (spoil())
        c->work_len = one_in(4)   ? c->days_len
                      : one_in(3) ? 0
                      : one_in(2) && c->work_len > 0 ? c->work_len - 1
                                                     : c->work_len + between(1, 9);
    uint64_t content = one_in(2) ? NO_VALUE : draw();
    for (size_t i = 0; i < c->work_len; i++)
        c->work[i] = content + i;
}

// Base flow with which the index lies at a half: one day's flow makes Y a multiple of 20, and T is an odd number of
// twentieths of Y, on the days from the first on as far as it goes.
static void halve_index(struct test_case *c)
{
    size_t count = c->days_len < c->base_len ? c->days_len : c->base_len, last = count;
    uint64_t flow = 0;
    for (size_t t = 0; t < count; t++) {
        flow += c->days[t] <= MOST_FLOW ? c->days[t] : 0;
        last = c->days[t] <= MOST_FLOW ? t : last;
    }
    if (last == count)
        return;
    uint32_t over = (uint32_t)(flow % 20), more = c->days[last] < 20 ? 20 : 0;
    c->days[last] += more - over;
    uint64_t left = (flow + more - over) / 20 * (1 + 2 * below(10000));
    for (size_t t = 0; t < count; t++) {
        uint64_t whole = c->days[t] <= MOST_FLOW ? 1000 * (uint64_t)c->days[t] : 0;
        c->base[t] = c->days[t] > MOST_FLOW ? NO_VALUE : left < whole ? left : whole;
        left -= left < whole ? left : whole;
    }
}

// A value that 20 refuses: one on a missing day, or one above the flow of its day. Now and then it is the flow itself.
static void spoil_value(struct test_case *c)
{
    size_t count = c->days_len < c->base_len ? c->days_len : c->base_len;
    if (count == 0 || !spoil())
        return;
    size_t t = below((uint32_t)count);
    for (size_t left = one_in(2) ? count : 0; left > 0 && c->days[t] != MISSING; left--)
        t = (t + 1) % count;
    uint64_t whole = 1000 * (uint64_t)c->days[t];
    if (c->days[t] == MISSING)
        c->base[t] = AMONG_OF(uint64_t, 0, 1, 1000, whole, whole, whole + 1, NO_VALUE - 1);
    else
        c->base[t] = AMONG_OF(uint64_t, whole + 1, whole + 1, whole + 1000, whole + 4294967296, NO_VALUE - 1, whole);
}

static void make_totals(struct test_case *c)
{
    fill_days(c);
    fill_base(c);
    if (one_in(3)) // what a filter or the line gives
        (void)(one_in(2) ? reference_filter(1, between(1, 9999), 0, 0, 1, c->days, c->days_len, c->base, c->base_len)
                         : reference_line(1, between(1, 9999), c->days, c->days_len, c->base, c->base_len));
    uint32_t share = below(5);
    for (size_t t = 0; t < c->base_len; t++) {
        int present = t < c->days_len && c->days[t] != MISSING;
        uint64_t whole = present ? 1000 * (uint64_t)c->days[t] : 0;
        if (c->base[t] > whole)
            c->base[t] = !present || (share > 2 && one_in(3)) ? NO_VALUE
                         : share == 0                         ? 0
                         : share == 1                         ? whole
                                                              : ((draw() >> 32) * whole >> 32);
    }
    if (share == 4 && one_in(10))
        memset(c->base, 0xff, c->base_len * sizeof *c->base);
    if (one_in(8))
        halve_index(c);
    spoil_value(c);
}

// Limbs of two days, the second with an odd number of 32nds of the first: every ratio lies at a half.
static void fill_halved_limbs(struct test_case *c)
{
    uint32_t part = between(1, one_in(2) ? 4 : MOST_FLOW / 32);
    c->days_len = 2 * between(1, one_in(2) ? 1 : 8) + below(2);
    for (size_t t = 0; t < c->days_len; t++)
        c->days[t] = part * (t % 2 == 0 ? 32 : 1 + 2 * below(16));
    spoil_day(c);
}

// Which days are not at base: one of a fall, some, every second to seventh, the first days of falls, their last days,
// or all. Or the base flow is that of a filter or a line.
enum { ONE_OF_A_FALL, SOME_DAYS, REGULAR_DAYS, FIRST_DAYS, LAST_DAYS, ALL_DAYS, FILTERED, LINED, PATTERNS };

// Whether the flow falls from day t - 1 to day t.
static int falls(const struct test_case *c, size_t t)
{
    return 0 < t && t < c->days_len && c->days[t - 1] != MISSING && c->days[t] < c->days[t - 1];
}

// A day that is not at base: no value, one below its flow, anything below it, or its flow without the highest bits.
static void take_off_base(struct test_case *c, size_t t, uint32_t way)
{
    uint64_t whole = 1000 * (uint64_t)c->days[t];
    c->base[t] = way == 0 || whole == 0 || c->days[t] == MISSING ? NO_VALUE
                 : way == 1                                      ? whole - 1
                 : whole > UINT32_MAX && one_in(4)               ? (uint32_t)whole
                                                                 : ((draw() >> 32) * whole >> 32);
}

static void take_days_off_base(struct test_case *c, size_t count, uint32_t pattern)
{
    uint32_t way = below(4), apart = between(2, 7), share = between(1, 3), turn = below(apart);
    size_t place = below((uint32_t)count);
    for (size_t left = count; left > 0 && !falls(c, place) && !falls(c, place + 1); left--)
        place = (place + 1) % count;
    for (size_t t = 0; t < count; t++) {
        int off = pattern == ONE_OF_A_FALL  ? t == place
                  : pattern == SOME_DAYS    ? one_in(apart)
                  : pattern == REGULAR_DAYS ? t % apart == turn
                  : pattern == FIRST_DAYS   ? !falls(c, t) && falls(c, t + 1) && one_in(share)
                  : pattern == LAST_DAYS    ? falls(c, t) && !falls(c, t + 1) && one_in(share)
                                            : 1;
        if (off)
            take_off_base(c, t, way < 3 ? way : below(3));
    }
}

// Base flow for the ratios: every day at base, or not all of them.
static void fill_given_base(struct test_case *c)
{
    fill_base(c);
    size_t count = c->days_len < c->base_len ? c->days_len : c->base_len;
    for (size_t t = 0; t < count; t++)
        c->base[t] = c->days[t] == MISSING ? NO_VALUE : 1000 * (uint64_t)c->days[t];
    uint32_t pattern = one_in(2) ? PATTERNS : below(PATTERNS);
    if (pattern == FILTERED)
        (void)reference_filter(AMONG(1, 3, 6), between(1, 9999), 0, 0, 1, c->days, c->days_len, c->base, c->base_len);
    else if (pattern == LINED)
        (void)reference_line(between(1, 5), AMONG(9000, 9999, 5000, 1), c->days, c->days_len, c->base, c->base_len);
    else if (pattern < PATTERNS && count > 0)
        take_days_off_base(c, count, pattern);
    spoil_value(c);
}

static void make_recession(struct test_case *c)
{
    int halves = one_in(10);
    c->limb_days = spoil()     ? AMONG(0, 1, 61, 62, MISSING)
                   : halves    ? 2
                   : one_in(8) ? between(2, 60)
                               : between(2, 5);
    if (one_in(40))
        c->limb_days = 60;
    if (halves)
        fill_halved_limbs(c);
    else if (one_in(3))
        fill_limbs(c);
    else
        fill_days(c);
    fill_given_base(c);
    size_t enough = 2 * view_limbs(c).counted;
    c->limbs_len = one_in(3) ? enough : one_in(2) ? enough + below(4) : one_in(2) ? below(40) : c->days_len;
    if (spoil() && enough > 0)
        c->limbs_len = one_in(2) ? enough - 1 : below((uint32_t)enough);
    c->limbs_len = c->limbs_len < ROOM_DAYS ? c->limbs_len : ROOM_DAYS;
    for (size_t i = 0; i < c->limbs_len; i++)
        c->limbs[i] = (uint32_t)draw();
}

// ---- BFImax

// A river that keeps close to the rule: going back from the list's last day, a flow is about what the following day's
// value divided by p / 10000 comes to, in whole litres. With a litre less it is held to its flow, with one more it is
// not.
static void fill_backwards(struct test_case *c)
{
    uint32_t mood = below(4), flow = one_in(2) ? below(4) : below(one_in(4) ? MOST_FLOW + 1 : 3000);
    c->days_len = one_in(60) ? between(MOST_DURATION - 2, MOST_DURATION + 3) : day_list_length();
    uint64_t value = 1000 * (uint64_t)flow;
    for (size_t t = c->days_len; t-- > 0;) {
        c->days[t] = flow;
        value = 1000 * (uint64_t)flow < value ? 1000 * (uint64_t)flow : value;
        uint64_t litres = 10 * value / c->p + (mood < 2 ? mood : mood == 2 ? below(2) : below(one_in(20) ? 3000 : 4));
        litres -= mood == 3 && litres > 0 && one_in(4);
        flow = litres < MOST_FLOW ? (uint32_t)litres : MOST_FLOW;
        value = 10000 * value / c->p;
    }
    if (one_in(4) && c->days_len > 0)
        c->days[below((uint32_t)c->days_len)] = MISSING;
    spoil_day(c);
}

// The D days: within a stretch, up to its ends, or a day beyond them.
static void choose_spell(struct test_case *c)
{
    uint32_t count = (uint32_t)c->days_len, start = count > 0 ? below(count) : 0, end = start;
    while (start > 0 && c->days[start - 1] != MISSING)
        start--;
    while (end < count && c->days[end] != MISSING)
        end++;
    c->last_day = start == end ? start : one_in(2) ? end - 1 : between(start, end - 1);
    if (one_in(20))
        c->last_day++;
    uint32_t most = c->last_day + 1 - start;
    if (most > MOST_DURATION && one_in(2))
        most = between(MOST_DURATION - 1, MOST_DURATION);
    c->duration = most < 2 || one_in(2) ? most : between(2, most < MOST_DURATION ? most : MOST_DURATION);
    if (one_in(20))
        c->duration++;
    if (c->duration < 2 && !one_in(20))
        c->duration = between(2, 3);
}

// A spell whose BFImax lies at a half: p is 5000, the last day has an odd number of 32nds of the flow, at most 9, and
// the day before it has the rest, of which twice the last day's is base flow. Days before these are dry.
static void halve_bfimax(struct test_case *c)
{
    if (c->days_len < 2)
        return;
    uint32_t part = between(1, one_in(2) ? 4 : MOST_FLOW / 32), odd = 1 + 2 * below(5);
    c->p = 5000;
    c->last_day = between(1, (uint32_t)c->days_len - 1);
    c->days[c->last_day] = odd * part;
    c->days[c->last_day - 1] = (32 - odd) * part;
    for (c->duration = 2; c->duration <= c->last_day && one_in(2); c->duration++)
        c->days[c->last_day - c->duration] = 0;
}

static void make_bfimax(struct test_case *c)
{
    c->p = one_in(2) ? AMONG(1, 2, 9999, 9998, 5000, 6400, 256, 9700) : between(one_in(2) ? 9000 : 1, 9999);
    if (one_in(2))
        fill_backwards(c);
    else
        fill_days(c);
    fill_base(c);
    choose_spell(c);
    if (one_in(12))
        halve_bfimax(c);
    if (spoil())
        c->p = AMONG(0, 10000, 10001, MISSING, 0x80000001);
    if (spoil())
        c->duration = AMONG(0, 1, MOST_DURATION + 1, MOST_DURATION + 2, 65538, 0x80000002, MISSING);
    if (spoil())
        c->last_day = one_in(2) ? (uint32_t)c->days_len
                                : AMONG(0, MISSING, MISSING - 1, 0x80000000, c->last_day + 65536);
}

// ---- records

static void put(struct test_case *c, uint8_t kind, uint32_t value, size_t body)
{
    c->bytes[c->bytes_len++] = kind;
    for (size_t i = 0; i < body; i++)
        c->bytes[c->bytes_len++] = (uint8_t)(value >> 8 * i);
}

static uint32_t put_entry(struct test_case *c, uint32_t style)
{
    if (one_in(style == 0 ? 100 : 3)) {
        if (one_in(2)) {
            put(c, 3, 0, 0);
            return 1;
        }
        uint32_t count = one_in(50) ? AMONG(0xff, 0x100, 0x101) : between(1, 5);
        put(c, 4, count, 2);
        return count;
    }
    put(c, 2, flow_of(between(TINY, ENDS), 0), 4);
    return 1;
}

static size_t a_place(const struct test_case *c)
{
    return below((uint32_t)c->bytes_len + 1);
}

static void cut_out(struct test_case *c, size_t at, size_t count)
{
    memmove(c->bytes + at, c->bytes + at + count, c->bytes_len - at - count);
    c->bytes_len -= count;
}

static void insert(struct test_case *c, size_t at, size_t count)
{
    memmove(c->bytes + at + count, c->bytes + at, c->bytes_len - at);
    c->bytes_len += count;
    for (size_t i = at; i < at + count; i++)
        c->bytes[i] = (uint8_t)(one_in(2) ? draw() : AMONG(0, 1, 2, 3, 4, 9, 0xff));
}

// Writes a value to the body of the first entry of a kind, as far as it goes; `kind` in any place will do.
static void overwrite(struct test_case *c, uint8_t kind, uint32_t value, size_t body)
{
    uint8_t *found = memchr(c->bytes, kind, c->bytes_len);
    for (size_t i = 1; found != NULL && i <= body && found + i < c->bytes + c->bytes_len; i++, value >>= 8)
        found[i] = (uint8_t)value;
}

static void damage(struct test_case *c, uint32_t total)
{
    size_t at = a_place(c), left = c->bytes_len - at;
    switch (below(11)) {
    case 0:
        c->bytes_len = at;
        break;
    case 1:
        c->bytes_len -= c->bytes_len > 0;
        break;
    case 2:
        if (left > 0)
            c->bytes[at] ^= (uint8_t)(1u << below(8));
        break;
    case 3:
        if (left > 0)
            c->bytes[at] = (uint8_t)(one_in(2) ? draw() : AMONG(0, 1, 2, 3, 4, 5, 8, 9, 10, 0xff));
        break;
    case 4:
        insert(c, at, between(1, 5));
        break;
    case 5:
        cut_out(c, at, left < 5 ? left : between(1, 5));
        break;
    case 6:
        insert(c, c->bytes_len, between(1, 3));
        break;
    case 7:
        overwrite(c, 1, AMONG(MOST_FIRST_DAY, MOST_FIRST_DAY + 1, MISSING), 4);
        break;
    case 8:
        overwrite(c, 2, AMONG(MOST_FLOW, MOST_FLOW + 1, MISSING, MISSING - 1), 4);
        break;
    case 9:
        overwrite(c, 4, AMONG(0, 1, 65535, MOST_DAYS), 2);
        break;
    default:
        if (c->bytes_len >= 5) { // the end's count
            c->bytes_len -= 5;
            put(c, 9, AMONG(total + 1, total - 1, total + 65536, MISSING, 0), 4);
        }
    }
}

static void make_read(struct test_case *c)
{
    uint32_t total = 0, style = below(3);
    put(c, 1, one_in(3) ? AMONG(0, 1, MOST_FIRST_DAY) : below(MOST_FIRST_DAY + 1), 4);
    size_t entries = one_in(3000) ? MOST_DAYS - below(3) : one_in(20) ? below(300) : below(12);
    for (size_t i = 0; i < entries && total <= MOST_DAYS; i++)
        total += put_entry(c, style);
    if (one_in(150) && total < MOST_DAYS) { // up to the limit, and a little over it
        uint32_t rest = MOST_DAYS - 1 - total + below(3);
        put(c, 4, rest, 2);
        total += rest;
        while (one_in(2) && total <= MOST_DAYS)
            total += put_entry(c, style);
    }
    put(c, 9, total, 4);

    if (one_in(2))
        do
            damage(c, total);
        while (one_in(3));
    c->days_len = total;
    if (one_in(4))
        c->days_len = one_in(3) ? below(total + 1) : one_in(2) && total > 0 ? total - 1 : total + below(6);
    c->days_len = c->days_len < ROOM_DAYS ? c->days_len : ROOM_DAYS;
    for (size_t t = 0; t < c->days_len; t++)
        c->days[t] = (uint32_t)draw();
}

// Gaps, one to three days from each other, of which many have one day, two, or about 256 or 512; or one gap, or none.
// The list begins and ends with either.
static void fill_gaps(struct test_case *c)
{
    uint32_t style = below(STYLES), flow = below(300);
    uint32_t room = one_in(100) ? MOST_DAYS : one_in(6) ? 1200 : between(1, 30);
    int gap = one_in(2), alone = one_in(8);
    for (c->days_len = 0; c->days_len < room; gap = !gap) {
        uint32_t count = gap && one_in(2) ? AMONG(2, 2, 2, 3, 254, 255, 256, 257, 511, 512, 513) : between(1, 3);
        for (count = alone ? room : count; count > 0 && c->days_len < room; count--) {
            flow = flow_of(style, flow);
            c->days[c->days_len++] = gap ? MISSING : flow;
        }
    }
    spoil_day(c);
}

size_t record_length(const uint32_t *days, size_t days_len)
{
    size_t length = 10, gap = 0; // the days of the gap so far
    for (size_t t = 0; t < days_len; t++) {
        gap = days[t] == MISSING ? gap + 1 : 0;
        length += gap == 0 ? 5 : gap == 1 ? 1 : gap == 2 ? 2 : 0;
    }
    return length;
}

// Room for the record, to the byte or not, with any bytes in it or the same one everywhere.
static void fill_room(struct test_case *c)
{
    size_t length = record_length(c->days, c->days_len), more = length + between(1, one_in(4) ? 300 : 6);
    uint8_t content = (uint8_t)AMONG(0, 3, 9, 0xff);
    int same = one_in(2);
    c->bytes_len = one_in(2) ? length : more < ROOM_BYTES ? more : ROOM_BYTES;
    if (spoil() || one_in(10))
        c->bytes_len = one_in(2) ? length - 1 : one_in(2) ? length - between(2, 7) : below((uint32_t)length);
    for (size_t i = 0; i < c->bytes_len; i++)
        c->bytes[i] = same ? content : (uint8_t)draw();
}

static void make_write(struct test_case *c)
{
    c->first_day = one_in(3) ? AMONG(0, 1, 255, 256, 65535, 65536, MOST_FIRST_DAY - 1, MOST_FIRST_DAY)
                             : below(MOST_FIRST_DAY + 1);
    if (spoil())
        c->first_day = AMONG(MOST_FIRST_DAY + 1, MOST_FIRST_DAY + 2, 0x10000000, 0x80000000, MISSING);
    if (one_in(3))
        fill_days(c);
    else
        fill_gaps(c);
    if (spoil() && one_in(20)) // 9 beside other causes
        for (size_t count = MOST_DAYS + AMONG(1, 1, 2, 60); c->days_len < count;)
            c->days[c->days_len++] = MISSING;
    fill_room(c);
}

static void make_half_life(struct test_case *c)
{
    c->p = spoil()     ? AMONG(0, 1000, 1001, MISSING, 65536 + 500)
           : one_in(4) ? AMONG(1, 499, 500, 501, 998, 999)
                       : between(1, 999);
}

// ---- the meter

// The bits of the float m / 2^k, for m below 2^24 that is not 0.
static uint32_t float_of(uint32_t m, uint32_t k)
{
    uint32_t exponent = 150 - k;
    for (; m < 0x800000; exponent--)
        m *= 2;
    return exponent << 23 | (m & 0x7fffff);
}

// Litres at a half, in the unit of a kind: an odd number of halves of a litre, or of sixteenths of a cubic metre. Most
// are within the limit.
static uint32_t at_a_half(uint8_t kind)
{
    uint32_t odd = 1 + 2 * below(one_in(4) ? 4 : kind == 1 ? 81000 : 0x800000u >> below(12));
    return float_of(odd, kind == 1 ? 4 : 1);
}

// A zero, an infinity, a NaN, a subnormal or the number beside it, of either sign; or any number below zero.
static uint32_t odd_float(void)
{
    uint32_t sign = one_in(2) ? 0x80000000 : 0;
    switch (below(6)) {
    case 0:
        return sign | AMONG(0, 0x7f800000);
    case 1:
        return sign | AMONG(0x7f800001, 0x7fbfffff, 0x7fc00000, 0x7fc00001, 0x7fffffff);
    case 2:
        return sign | 0x7f800000 | below(0x800000);
    case 3:
        return sign | AMONG(1, 2, 0x400000, 0x7fffff, 0x800000);
    case 4:
        return sign | below(0x800000);
    default:
        return 0x80000000 | (one_in(2) ? AMONG(1, 0x3f800000, 0x3f000000, 0x4b189681, 0x7f7fffff) : below(0x7f800000));
    }
}

// Exponents at which an answer is 0 or 1, at which it meets the limit, and at which the last of a fraction goes.
static uint32_t near_an_edge(uint8_t kind)
{
    uint32_t exponent = kind == 1 ? AMONG(114, 115, 116, 117, 139, 140, 141) : AMONG(124, 125, 126, 127, 149, 150, 151);
    return exponent << 23 | (one_in(3) ? AMONG(0, 1, 0x7fffff, 0x400000) : below(0x800000));
}

static uint32_t float_bits(uint8_t kind)
{
    switch (below(8)) {
    case 0:
        return (uint32_t)draw();
    case 1: // of every exponent
        return below(255) << 23 | (one_in(4) ? AMONG(0, 1, 0x7fffff) : below(0x800000));
    case 2:
        return at_a_half(kind);
    case 3: // beside a half
        return at_a_half(kind) + AMONG(1, 2, UINT32_MAX, UINT32_MAX - 1);
    case 4: // the limit, in litres and in cubic metres, and the largest half
        return AMONG(float_of(MOST_FLOW, 0), float_of(MOST_FLOW, 0), float_of(10000, 0), float_of(10000, 0),
                     float_of(16777215, 1)) + AMONG(0, 0, 1, 2, UINT32_MAX, UINT32_MAX - 1);
    case 5: // half a litre as a float of cubic metres, and the largest float
        return AMONG(0x3a03126f, 0x3a03126f, 0x7f7fffff) + AMONG(0, UINT32_MAX, UINT32_MAX - 1);
    case 6:
        return near_an_edge(kind);
    default:
        return odd_float();
    }
}

static void make_meter(struct test_case *c)
{
    uint8_t kind = (uint8_t)(one_in(8) ? 3 : between(1, 2));
    put(c, kind, float_bits(kind), kind == 3 ? 0 : 4);
    if (spoil())
        c->bytes[0] = (uint8_t)(one_in(2) ? AMONG(0, 3, 4, 0xff) : draw());
    if (spoil())
        c->bytes_len = one_in(4) ? 0 : 1 + below((uint32_t)c->bytes_len);
    else if (spoil())
        insert(c, c->bytes_len, between(1, one_in(2) ? 1 : 5));
}

// ---- licences

// None, 0, all of the flow, whole litres, a thousandth more or less, a part of the flow's last litre, or any of it.
enum { NONE, NOTHING, WHOLE_FLOW, LITRES, ABOVE_LITRES, BELOW_LITRES, LAST_LITRE, ANY_VALUE, VALUES };

static uint64_t value_of(uint32_t kind, uint32_t flow)
{
    uint64_t whole = 1000 * (uint64_t)flow, litres = 1000 * (uint64_t)below(flow + 1);
    switch (flow == MISSING ? NONE : kind) {
    case NONE:
        return NO_VALUE;
    case NOTHING:
        return 0;
    case WHOLE_FLOW:
        return whole;
    case LITRES:
        return litres;
    case ABOVE_LITRES:
        return litres + (litres < whole);
    case BELOW_LITRES:
        return litres - (litres > 0);
    case LAST_LITRE:
        return whole - (whole > 0 ? below(1000) : 0);
    default:
        return draw() % (whole + 1);
    }
}

// Base flow at the edges of a litre: of one kind on all days, or of any kind on each.
static void fill_litres(struct test_case *c)
{
    uint32_t same = below(2 * VALUES);
    fill_base(c);
    for (size_t t = 0; t < c->base_len && t < c->days_len; t++)
        c->base[t] = value_of(same < VALUES ? same : below(VALUES), c->days[t]);
    spoil_value(c);
}

// A daily limit at an end of its range, as large as what some day has to spare, or any.
static void fill_limit(struct test_case *c)
{
    uint32_t spare = c->days_len > 0 ? to_spare(c, below((uint32_t)c->days_len)) : 0;
    c->daily_limit = one_in(4)   ? AMONG(0, 1, MOST_LIMIT - 1, MOST_LIMIT, MOST_LIMIT)
                     : one_in(3) ? spare
                     : one_in(2) ? below(40)
                                 : below(MOST_LIMIT + 1);
    if (spoil())
        c->daily_limit = AMONG(MOST_LIMIT + 1, MOST_LIMIT + 1, MOST_LIMIT + 2, 0x80000000, MISSING);
}

// A quota that runs out with the amount of some day, a litre before or behind that, or within the amount; one at an end
// of its range, or any.
static void fill_quota(struct test_case *c)
{
    uint64_t sum = 0, amount = 0;
    size_t end = c->days_len == 0 || one_in(4) ? c->days_len : below((uint32_t)c->days_len) + 1;
    for (size_t t = 0; t < end; t++) {
        amount = to_spare(c, t) < c->daily_limit ? to_spare(c, t) : c->daily_limit;
        sum += amount;
    }
    c->quota = one_in(6)              ? AMONG_OF(uint64_t, 0, 1, MOST_QUOTA - 1, MOST_QUOTA, MOST_QUOTA)
               : one_in(6)            ? draw() % (MOST_QUOTA + 1)
               : one_in(3)            ? sum
               : one_in(4)            ? sum + 1
               : sum > 0 && one_in(4) ? sum - 1
                                      : sum - draw() % (amount + 1);
    if (spoil())
        c->quota = AMONG_OF(uint64_t, MOST_QUOTA + 1, MOST_QUOTA + 1, MOST_QUOTA + 2, (uint64_t)1 << 63, NO_VALUE);
}

static void make_licence(struct test_case *c)
{
    if (one_in(3)) {
        make_totals(c);
    } else {
        fill_days(c);
        fill_litres(c);
    }
    if (spoil() && one_in(20)) // 9 beside other causes
        for (size_t count = MOST_DAYS + AMONG(1, 1, 2, 60); c->days_len < count;)
            c->days[c->days_len++] = MISSING;
    fill_limit(c);
    fill_quota(c);
    c->takings_len = spoil() ? (one_in(4) ? 0 : one_in(4) ? c->base_len : other_length(c->days_len)) : c->days_len;
    for (size_t t = 0; t < c->takings_len; t++)
        c->takings[t] = (uint32_t)draw();
}

// ---- presence bits

static void fill_words(struct test_case *c, size_t count)
{
    c->words_len = count < ROOM_WORDS ? count : ROOM_WORDS;
    for (size_t i = 0; i < c->words_len; i++)
        c->words[i] = one_in(2) ? 0 : draw();
}

// Another number of words than the lists want: one more or less, none, or a word for each day.
static size_t other_word_count(size_t days)
{
    size_t right = words_for(days);
    if (one_in(2))
        return one_in(2) || right == 0 ? right + 1 : right - 1;
    return one_in(3) ? 0 : one_in(2) ? days : between(1, 9);
}

// Puts the case's days into flows and words. The words that there are too many are any.
static void turn_into_bits(struct test_case *c)
{
    fill_words(c, spoil() ? other_word_count(c->days_len) : words_for(c->days_len));
    c->flows_len = c->days_len;
    for (size_t t = 0; t < c->days_len; t++)
        c->flows[t] = c->days[t] == MISSING ? 0 : c->days[t];
    for (size_t t = 0; t < 64 * c->words_len && t < 64 * words_for(c->days_len); t++) {
        uint64_t bit = (uint64_t)1 << t % 64;
        if (t < c->days_len && c->days[t] != MISSING)
            c->words[t / 64] |= bit;
        else
            c->words[t / 64] &= ~bit;
    }
}

// A flow that no call takes, on a day with this bit, if there is one: any under a zero, above the limit under a one.
static void spoil_flow(struct test_case *c, int bit)
{
    size_t count = c->flows_len < 64 * c->words_len ? c->flows_len : 64 * c->words_len;
    if (count == 0)
        return;
    size_t t = one_in(4) ? count - 1 : below((uint32_t)count);
    for (size_t left = count; left > 0 && bit_of(c, t) != bit; left--)
        t = (t + 1) % count;
    c->flows[t] = bit ? AMONG(MISSING, MISSING, MOST_FLOW + 1, MISSING - 1, 0x80000000)
                      : AMONG(1, 2, 1000, MOST_FLOW, MOST_FLOW + 1, MISSING, 0x80000000);
}

static void spoil_bits(struct test_case *c)
{
    uint32_t end = (uint32_t)c->flows_len, bits = 64 * (uint32_t)c->words_len;
    if (bits > end && spoil()) { // a one past the end
        uint32_t t = one_in(2) ? end : one_in(2) ? bits - 1 : between(end, bits - 1);
        c->words[t / 64] |= (uint64_t)1 << t % 64;
    }
    if (spoil())
        spoil_flow(c, 0);
    if (spoil())
        spoil_flow(c, 1);
    if (spoil() && c->flows_len > 0 && c->words_len > 0) // a present day's bit goes, and its flow stays
        c->words[below((uint32_t)c->words_len)] &= ~((uint64_t)1 << below(64));
}

static void make_to_bits(struct test_case *c)
{
    fill_days(c);
    fill_words(c, spoil() ? other_word_count(c->days_len) : words_for(c->days_len));
    c->flows_len = spoil() ? other_length(c->days_len) : c->days_len;
    for (size_t t = 0; t < c->flows_len; t++)
        c->flows[t] = (uint32_t)draw();
}

static void make_from_bits(struct test_case *c)
{
    fill_days(c);
    turn_into_bits(c);
    spoil_bits(c);
    c->days_len = spoil() ? other_length(c->flows_len) : c->flows_len;
    for (size_t t = 0; t < c->days_len; t++)
        c->days[t] = (uint32_t)draw();
}

// Any call over days, with these in the other form.
static void make_over_bits(struct test_case *c)
{
    static void (*const make[])(struct test_case *) = {make_filter, make_line,      make_totals,     make_recession,
                                                       make_bfimax, make_staggered, make_filter_from};
    make[c->call - FILTER_BITS](c);
    turn_into_bits(c);
    spoil_bits(c);
    c->days_len = 0;
}

void generate(struct test_case *c, uint64_t seed, uint64_t number)
{
    static void (*const make[CALLS])(struct test_case *) = {
        [READ] = make_read, [WRITE] = make_write, [FILTER] = make_filter, [FILTER_FROM] = make_filter_from,
        [STEP] = make_step, [STEPS] = make_steps, [LINE] = make_line, [TOTALS] = make_totals,
        [RECESSION] = make_recession, [BFIMAX] = make_bfimax, [STAGGERED] = make_staggered,
        [HALF_LIFE] = make_half_life, [METER] = make_meter, [LICENCE] = make_licence, [TO_BITS] = make_to_bits,
        [FROM_BITS] = make_from_bits, [FILTER_BITS] = make_over_bits, [LINE_BITS] = make_over_bits,
        [TOTALS_BITS] = make_over_bits, [RECESSION_BITS] = make_over_bits, [BFIMAX_BITS] = make_over_bits,
        [STAGGERED_BITS] = make_over_bits, [FILTER_FROM_BITS] = make_over_bits,
    };
    state = seed << 40 ^ number;
    state = draw();
    c->bytes_len = c->days_len = c->base_len = c->limbs_len = 0;
    c->work_len = c->flows_len = c->words_len = c->takings_len = 0;
    for (size_t i = 0; i < 4; i++) {
        c->outs.small[i] = (uint32_t)draw();
        c->outs.large[i] = draw();
    }
    rough = one_in(5);
    uint32_t turn = below(100);
    c->call = turn < 12   ? READ
              : turn < 16 ? WRITE
              : turn < 22 ? (enum call)(TO_BITS + below(CALLS - TO_BITS))
              : turn < 24 ? METER
              : turn < 33 ? FILTER
              : turn < 40 ? FILTER_FROM
              : turn < 48 ? STEP
              : turn < 52 ? STEPS
              : turn < 60 ? LINE
              : turn < 65 ? TOTALS
              : turn < 68 ? LICENCE
              : turn < 80 ? RECESSION
              : turn < 91 ? BFIMAX
              : turn < 99 ? STAGGERED
                          : HALF_LIFE;
    by_words = c->call >= TO_BITS;
    make[c->call](c);
}
