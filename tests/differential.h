// What the parts of the differential driver share: a case, its generator and the branches that are counted.
#ifndef DIFFERENTIAL_H
#define DIFFERENTIAL_H

#include <stddef.h>
#include <stdint.h>

#define MISSING UINT32_MAX
#define NO_VALUE UINT64_MAX
#define MOST_QUOTA ((uint64_t)1000000000000)

enum { MOST_FLOW = 10000000, MOST_DAYS = 36525, MOST_FIRST_DAY = 99999, MOST_DURATION = 3650, MOST_LIMIT = 10000000 };

// STEPS is no call of its own: daily steps from a fresh state over a day list, held to pass 1 of the filter.
enum call {
    READ, WRITE, FILTER, FILTER_FROM, STEP, STEPS, LINE, TOTALS, RECESSION, BFIMAX, STAGGERED, HALF_LIFE, METER,
    LICENCE, TO_BITS, FROM_BITS, FILTER_BITS, LINE_BITS, TOTALS_BITS, RECESSION_BITS, BFIMAX_BITS, STAGGERED_BITS,
    FILTER_FROM_BITS, CALLS
};

// The call over days that goes with a call over presence bits; any other call itself.
static inline enum call sister_of(enum call call)
{
    static const enum call sisters[] = {FILTER, LINE, TOTALS, RECESSION, BFIMAX, STAGGERED, FILTER_FROM};
    return call < FILTER_BITS ? call : sisters[call - FILTER_BITS];
}

// The room that a case has for each list, in elements.
enum { ROOM_BYTES = 6 * MOST_DAYS, ROOM_DAYS = MOST_DAYS + 100, ROOM_WORK = 5 * MOST_DAYS + 100, ROOM_WORDS = 1000 };

// The out-parameters of any call. Those that a call does not have are compared as well.
struct outs {
    uint32_t small[4];
    uint64_t large[4];
};

// The arguments of one call. Lists and out-parameters that it writes have their content before the call here. A call
// over presence bits has those of its sister, with flows and words in place of the days.
struct test_case {
    enum call call;
    uint32_t first_day;            // WRITE
    uint32_t method, p, q, passes; // FILTER, FILTER_FROM, STEP and STEPS; p also BFIMAX and HALF_LIFE
    int32_t s;                     // FILTER, FILTER_FROM, STEP and STEPS
    uint64_t start;                // FILTER_FROM
    uint32_t day;                  // STEP
    uint32_t block_days, factor;   // LINE and STAGGERED
    uint32_t choice;               // STAGGERED
    uint32_t limb_days;            // RECESSION
    uint32_t last_day, duration;   // BFIMAX
    uint32_t daily_limit;          // LICENCE
    uint64_t quota;                // LICENCE
    struct outs outs;              // STEP: has_yesterday small[0], flow small[1], base large[0]
    size_t bytes_len, days_len, base_len, limbs_len, work_len, flows_len, words_len, takings_len;
    uint8_t bytes[ROOM_BYTES];
    uint32_t days[ROOM_DAYS];
    uint64_t base[ROOM_DAYS];
    uint32_t limbs[ROOM_DAYS];
    uint64_t work[ROOM_WORK];
    uint32_t flows[ROOM_DAYS];
    uint64_t words[ROOM_WORDS];
    uint32_t takings[ROOM_DAYS];
};

static inline size_t words_for(size_t days)
{
    return (days + 63) / 64;
}

// What a day's flow has above its base flow, in whole litres; nothing where there is no base value, or 20 or 10 holds.
static inline uint32_t to_spare(const struct test_case *c, size_t t)
{
    uint64_t whole = t < c->days_len && c->days[t] <= MOST_FLOW ? 1000 * (uint64_t)c->days[t] : 0;
    return t < c->base_len && c->base[t] < whole ? (uint32_t)((whole - c->base[t]) / 1000) : 0;
}

static inline int bit_of(const struct test_case *c, size_t t)
{
    return c->words[t / 64] >> t % 64 & 1;
}

// The place of the first present day, or the number of days.
static inline size_t first_present(const struct test_case *c)
{
    size_t t = 0;
    while (t < c->days_len && c->days[t] == MISSING)
        t++;
    return t;
}

// The number of bytes of the record of days.
size_t record_length(const uint32_t *days, size_t days_len);

// The counted limbs of a case of RECESSION, and what else is seen on the way.
struct limb_view {
    size_t counted, exact, shorter, at_gap;
    size_t lengths, twice;          // different lengths of counted limbs, and those that exactly two of them have
    size_t most, rises, long_rises; // the most days of one; one longer than the one before, and both over 255 days
    size_t at_base, dry;            // days at base, and counted limbs whose last day is dry
    // Counted limbs that a day not at base cuts off from a longer fall: behind the limb a day below its flow, one
    // without a value, a dry one, or one from which the fall goes on to a day at base; and a day before the limb.
    size_t ends_low, ends_none, ends_dry, goes_on, begins;
};
struct limb_view view_limbs(const struct test_case *c);

// Makes case `number` of a seed. Any case can be made without those before it.
void generate(struct test_case *c, uint64_t seed, uint64_t number);

// Counts the branch that a case took, from its arguments, the agreed answer and what was written.
void count_branch(const struct test_case *c, uint32_t answer, const struct outs *outs, const uint32_t *days,
                  const uint64_t *base, const uint64_t *work, const uint32_t *takings);
void print_branches(void);

#endif
