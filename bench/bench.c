// Times each call of the engine beside tests/reference.c, and measures the engine's peak stack. bench/run builds it in
// several layouts and puts together what they print.
//
//     bench RUNS MICROSECONDS [TEXT]      a line for each row (whose name has the text) and each of three lengths, of RUNS
//                                         pairs of runs that take MICROSECONDS each
//
// Both sides are called from the same place, get the same input, write to the same lists and must give the same result.
// They take turns. A figure is the median over the pairs, in processor time of this thread, so that other work on the
// machine counts as little as possible.
#define _GNU_SOURCE
#include <inttypes.h>
#include <stdio.h>
#include <stdlib.h>
#include <string.h>
#include <time.h>
#include <ucontext.h>

#include "baseflow.h"
#include "reference.h"

enum { MOST_RUNS = 99, STACK = 1 << 19, PAINT = 0xc3, SIZES = 3, MOST = BASEFLOW_MOST_DAYS };
static const uint32_t sizes[SIZES] = {1000, 10000, MOST};

// ---- the two sides

#define CALLS(EACH)                                                                                                    \
    EACH(read) EACH(write) EACH(filter) EACH(filter_from) EACH(step) EACH(line) EACH(staggered) EACH(totals)           \
    EACH(recession) EACH(half_life) EACH(meter) EACH(licence) EACH(bfimax) EACH(to_bits) EACH(from_bits)               \
    EACH(filter_bits) EACH(filter_from_bits) EACH(line_bits) EACH(staggered_bits) EACH(totals_bits)                    \
    EACH(recession_bits) EACH(bfimax_bits)

#define POINTER(call) __typeof__(baseflow_##call) *call;
#define ENGINE(call) .call = baseflow_##call,
#define REFERENCE(call) .call = reference_##call,

static const struct side {
    CALLS(POINTER)
} engine = {CALLS(ENGINE)}, reference = {CALLS(REFERENCE)};

// ---- rows

// Days without a gap, with one, with one day in 50 missing, or every second one, or gaps of 2 to 5 days as often as flows; a
// line that comes late; a third of each year dry; limbs of all lengths, or of two days each.
enum input { WHOLE, ONE_GAP, FEW_GAPS, MANY_GAPS, SHORT_GAPS, LATE, SUMMERS, LENGTHS, TWOS };

struct job {
    const char *name, *call;
    uint32_t (*perform)(const struct side *side, const struct job *job);
    enum input input;
    uint32_t first, p, q; // method, p, q; or N, g, choice; or L, N and g of the line; or D, p; or M and Q for each day
    int32_t s;
    uint32_t passes;
};

static uint8_t bytes[5 * (MOST + 2)];
static size_t bytes_len;
static uint32_t days[MOST];
static uint64_t given_base[MOST];
static uint8_t readings[MOST][5];
static uint32_t given_flows[MOST];
static uint64_t given_words[(MOST + 63) / 64];
static uint32_t count;

static struct result {
    uint32_t answer, small[2];
    uint64_t large[3];
    uint32_t days[MOST], limbs[MOST], takings[MOST], flows[MOST];
    uint64_t base[MOST], words[(MOST + 63) / 64];
    uint8_t bytes[5 * (MOST + 2)];
} out, kept;
static uint64_t work[30 * MOST], kept_work[30 * MOST];

static uintptr_t stack_before;

// Where the stack stands as a call is made.
#define NOTE_STACK() __asm__ volatile("mov %%rsp, %0" : "=m"(stack_before))

#define DAYS days, count
#define BITS given_flows, count, given_words, (count + 63) / 64
#define BASE out.base, count
#define GIVEN_BASE given_base, count
#define SETTING job->first, job->p, job->q, job->s, job->passes
#define STAGGERED job->first, job->p, job->q
#define WORK work, job->first * count
#define SPELL count - 1, job->first < count ? job->first : count, job->p
#define TOTALS &out.small[0], &out.large[0], &out.large[1], &out.large[2], &out.small[1]
#define RATIOS out.limbs, count, &out.small[0], &out.small[1]

// One call over a whole list.
#define CALL_ONCE(call, ...)                                                                                           \
    static uint32_t perform_##call(const struct side *side, const struct job *job)                                     \
    {                                                                                                                  \
        (void)job;                                                                                                     \
        NOTE_STACK();                                                                                                  \
        return side->call(__VA_ARGS__);                                                                                \
    }

static struct {
    uint32_t has, flow;
    uint64_t base;
} yesterday;

// A call a day.
#define CALL_DAILY(call, ...)                                                                                          \
    static uint32_t perform_##call(const struct side *side, const struct job *job)                                     \
    {                                                                                                                  \
        (void)job;                                                                                                     \
        uint32_t answer = 0;                                                                                           \
        yesterday.has = 0;                                                                                             \
        NOTE_STACK();                                                                                                  \
        for (uint32_t t = 0; t < count; t++)                                                                           \
            answer |= side->call(__VA_ARGS__);                                                                         \
        return answer;                                                                                                 \
    }

CALL_ONCE(read, bytes, bytes_len, out.days, MOST, &out.small[0], &out.small[1])
CALL_ONCE(write, 0, DAYS, out.bytes, sizeof out.bytes, &out.small[0])
CALL_ONCE(filter, SETTING, DAYS, BASE)
CALL_ONCE(filter_from, SETTING, 0, DAYS, BASE)
CALL_ONCE(line, job->first, job->p, DAYS, BASE)
CALL_ONCE(staggered, STAGGERED, DAYS, BASE, WORK)
CALL_ONCE(totals, DAYS, GIVEN_BASE, TOTALS)
CALL_ONCE(recession, job->first, DAYS, GIVEN_BASE, RATIOS)
CALL_ONCE(licence, job->first, (uint64_t)job->p * count, DAYS, GIVEN_BASE, out.takings, count, &out.large[0])
CALL_ONCE(bfimax, SPELL, DAYS, BASE, &out.small[0])
CALL_ONCE(to_bits, DAYS, out.flows, count, out.words, (count + 63) / 64, &out.small[0])
CALL_ONCE(from_bits, BITS, out.days, count, &out.small[0])
CALL_ONCE(filter_bits, SETTING, BITS, BASE)
CALL_ONCE(filter_from_bits, SETTING, 0, BITS, BASE)
CALL_ONCE(line_bits, job->first, job->p, BITS, BASE)
CALL_ONCE(staggered_bits, STAGGERED, BITS, BASE, WORK)
CALL_ONCE(totals_bits, BITS, GIVEN_BASE, TOTALS)
CALL_ONCE(recession_bits, job->first, BITS, GIVEN_BASE, RATIOS)
CALL_ONCE(bfimax_bits, SPELL, BITS, BASE, &out.small[0])
CALL_DAILY(step, job->first, job->p, job->q, job->s, days[t], &yesterday.has, &yesterday.flow, &yesterday.base, &out.base[t])
CALL_DAILY(half_life, 1 + t % 999, &out.days[t])
CALL_DAILY(meter, readings[t], sizeof readings[t], &out.days[t])

#define CALL(call) #call, perform_##call

static const struct job jobs[] = {
    {"read, flows only", CALL(read), WHOLE, 0, 0, 0, 0, 0},
    {"read, one gap", CALL(read), ONE_GAP, 0, 0, 0, 0, 0},
    {"read, few gaps", CALL(read), FEW_GAPS, 0, 0, 0, 0, 0},
    {"read, kinds mixed", CALL(read), MANY_GAPS, 0, 0, 0, 0, 0},
    {"read, short gaps", CALL(read), SHORT_GAPS, 0, 0, 0, 0, 0},
    {"write, one gap", CALL(write), ONE_GAP, 0, 0, 0, 0, 0},
    {"write, few gaps", CALL(write), FEW_GAPS, 0, 0, 0, 0, 0},
    {"write, many gaps", CALL(write), MANY_GAPS, 0, 0, 0, 0, 0},
    {"filter, method 1, 1 pass", CALL(filter), FEW_GAPS, 1, 9250, 0, 0, 1},
    {"filter, method 1, 2 passes", CALL(filter), FEW_GAPS, 1, 9250, 0, 0, 2},
    {"filter, method 1, 3 passes", CALL(filter), FEW_GAPS, 1, 9250, 0, 0, 3},
    {"filter, method 1, many gaps", CALL(filter), MANY_GAPS, 1, 9250, 0, 0, 1},
    {"filter, 3 passes, many gaps", CALL(filter), MANY_GAPS, 1, 9250, 0, 0, 3},
    {"filter, method 1, one gap", CALL(filter), ONE_GAP, 1, 9250, 0, 0, 1},
    {"filter, method 1, dry summers", CALL(filter), SUMMERS, 1, 9250, 0, 0, 1},
    {"filter, method 2", CALL(filter), FEW_GAPS, 2, 9500, 0, 0, 1},
    {"filter, method 3", CALL(filter), FEW_GAPS, 3, 9500, 0, 0, 1},
    {"filter, method 4", CALL(filter), FEW_GAPS, 4, 9500, 300, 0, 1},
    {"filter, method 5", CALL(filter), FEW_GAPS, 5, 9780, 8000, 0, 1},
    {"filter, method 6", CALL(filter), FEW_GAPS, 6, 9250, 0, 0, 1},
    {"filter, method 7", CALL(filter), FEW_GAPS, 7, 9700, 300, -2000, 1},
    {"filter from start, method 1", CALL(filter_from), FEW_GAPS, 1, 9250, 0, 0, 1},
    {"filter from start, method 5", CALL(filter_from), FEW_GAPS, 5, 9780, 8000, 0, 1},
    {"step, method 1", CALL(step), FEW_GAPS, 1, 9250, 0, 0, 1},
    {"step, method 2", CALL(step), FEW_GAPS, 2, 9500, 0, 0, 1},
    {"step, method 3", CALL(step), FEW_GAPS, 3, 9500, 0, 0, 1},
    {"step, method 4", CALL(step), FEW_GAPS, 4, 9500, 300, 0, 1},
    {"step, method 5", CALL(step), FEW_GAPS, 5, 9780, 8000, 0, 1},
    {"step, method 6", CALL(step), FEW_GAPS, 6, 9250, 0, 0, 1},
    {"step, method 7", CALL(step), FEW_GAPS, 7, 9700, 300, -2000, 1},
    {"line, N 1", CALL(line), FEW_GAPS, 1, 9000, 0, 0, 0},
    {"line, N 1, many gaps", CALL(line), MANY_GAPS, 1, 9000, 0, 0, 0},
    {"line, N 5", CALL(line), FEW_GAPS, 5, 9000, 0, 0, 0},
    {"line, N 5, one gap", CALL(line), ONE_GAP, 5, 9000, 0, 0, 0},
    {"line, N 30, no gaps", CALL(line), WHOLE, 30, 9000, 0, 0, 0},
    {"line, N 5, at the end", CALL(line), LATE, 5, 9999, 0, 0, 0},
    {"line, N 5, dry summers", CALL(line), SUMMERS, 5, 9000, 0, 0, 0},
    {"staggered, N 5, lowest", CALL(staggered), FEW_GAPS, 5, 9000, 1, 0, 0},
    {"staggered, N 5, highest", CALL(staggered), FEW_GAPS, 5, 9000, 2, 0, 0},
    {"staggered, N 5, median", CALL(staggered), FEW_GAPS, 5, 9000, 3, 0, 0},
    {"staggered, N 5, dry summers", CALL(staggered), SUMMERS, 5, 9000, 3, 0, 0},
    {"staggered, N 30, median", CALL(staggered), WHOLE, 30, 9000, 3, 0, 0},
    {"totals, one gap", CALL(totals), ONE_GAP, 0, 0, 0, 0, 0},
    {"totals, few gaps", CALL(totals), FEW_GAPS, 0, 0, 0, 0, 0},
    {"totals, many gaps", CALL(totals), MANY_GAPS, 0, 0, 0, 0, 0},
    {"totals, dry summers", CALL(totals), SUMMERS, 0, 0, 0, 0, 0},
    {"recession, L 2", CALL(recession), FEW_GAPS, 2, 0, 0, 0, 0},
    {"recession, L 5", CALL(recession), FEW_GAPS, 5, 0, 0, 0, 0},
    {"recession, L 5, one gap", CALL(recession), ONE_GAP, 5, 0, 0, 0, 0},
    {"recession, L 2, many gaps", CALL(recession), MANY_GAPS, 2, 0, 0, 0, 0},
    {"recession, L 5, dry summers", CALL(recession), SUMMERS, 5, 0, 0, 0, 0},
    {"recession, all lengths", CALL(recession), LENGTHS, 2, 0, 0, 0, 0},
    {"recession, 18,000 limbs", CALL(recession), TWOS, 2, 0, 0, 0, 0},
    {"recession, from the line", CALL(recession), FEW_GAPS, 2, 5, 9000, 0, 0},
    {"half-life, a call for a day", CALL(half_life), WHOLE, 0, 0, 0, 0, 0},
    {"meter, a call for a reading", CALL(meter), WHOLE, 0, 0, 0, 0, 0},
    {"licence, few gaps", CALL(licence), FEW_GAPS, 500, 300, 0, 0, 0},
    {"licence, many gaps", CALL(licence), MANY_GAPS, 500, 245, 0, 0, 0},
    {"bfimax, D 365", CALL(bfimax), WHOLE, 365, 9700, 0, 0, 0},
    {"bfimax, D 3650 or all", CALL(bfimax), WHOLE, 3650, 9700, 0, 0, 0},
    {"to bits, one gap", CALL(to_bits), ONE_GAP, 0, 0, 0, 0, 0},
    {"to bits, few gaps", CALL(to_bits), FEW_GAPS, 0, 0, 0, 0, 0},
    {"to bits, many gaps", CALL(to_bits), MANY_GAPS, 0, 0, 0, 0, 0},
    {"from bits, one gap", CALL(from_bits), ONE_GAP, 0, 0, 0, 0, 0},
    {"from bits, few gaps", CALL(from_bits), FEW_GAPS, 0, 0, 0, 0, 0},
    {"from bits, many gaps", CALL(from_bits), MANY_GAPS, 0, 0, 0, 0, 0},
    {"filter over bits, method 1", CALL(filter_bits), FEW_GAPS, 1, 9250, 0, 0, 1},
    {"filter from start over bits", CALL(filter_from_bits), FEW_GAPS, 1, 9250, 0, 0, 1},
    {"line over bits, N 5", CALL(line_bits), FEW_GAPS, 5, 9000, 0, 0, 0},
    {"staggered over bits, median", CALL(staggered_bits), FEW_GAPS, 5, 9000, 3, 0, 0},
    {"totals over bits, few gaps", CALL(totals_bits), FEW_GAPS, 0, 0, 0, 0, 0},
    {"totals over bits, many gaps", CALL(totals_bits), MANY_GAPS, 0, 0, 0, 0, 0},
    {"ratios over bits, L 2", CALL(recession_bits), FEW_GAPS, 2, 0, 0, 0, 0},
    {"bfimax over bits, D 365", CALL(bfimax_bits), WHOLE, 365, 9700, 0, 0, 0},
};
enum { JOBS = sizeof jobs / sizeof *jobs };

// ---- input

static uint32_t state;

static uint32_t below(uint32_t limit)
{
    state = state * 1664525u + 1013904223u;
    return (uint32_t)((uint64_t)state * limit >> 32);
}

static void put(uint8_t kind, uint32_t value, size_t body)
{
    bytes[bytes_len++] = kind;
    for (size_t i = 0; i < body; i++, value >>= 8)
        bytes[bytes_len++] = (uint8_t)value;
}

// A steady rise, by so much that nothing turns at g 9999, and two dips at its very end: the only turning points.
static uint32_t late_flow(uint32_t t)
{
    uint32_t flow = 1000 + 5 * t;
    return t + 20 == count || t + 8 == count ? flow / 2 : flow;
}

// One limb of each length from 2 days up, as far as they fit, in no order; then days without a fall.
static void lay_lengths(void)
{
    static uint32_t lengths[MOST];
    uint32_t limbs = 0, at = 0;
    for (uint32_t room = count; limbs + 2 <= room; limbs++) {
        uint32_t other = below(limbs + 1);
        room -= limbs + 2;
        lengths[limbs] = lengths[other];
        lengths[other] = limbs + 2;
    }
    for (uint32_t i = 0; i < limbs; i++)
        for (uint32_t left = lengths[i]; left > 0; left--)
            days[at++] = 900 + 10 * left;
    while (at < count)
        days[at++] = 910;
}

// Two days a limb: every second flow is high.
static uint32_t two_day_flow(uint32_t t)
{
    return t % 2 == 0 ? 1000 + below(1000) : 100 + below(800);
}

// Storms and recessions.
static uint32_t river_flow(uint32_t before)
{
    return below(10) == 0 ? before + below(4000) : before - before / 32;
}

static void lay_flows(enum input input)
{
    uint32_t flow = 900;
    for (uint32_t t = 0; t < count; t++) {
        flow = input == LATE ? late_flow(t) : input == TWOS ? two_day_flow(t) : river_flow(flow);
        days[t] = input == SUMMERS && t % 365 >= 240 ? 0 : flow;
    }
}

// How many days are missing from day t on: 0 where it is present.
static uint32_t gap_at(enum input input, uint32_t t)
{
    switch (input) {
    case ONE_GAP:
        return t == count / 2;
    case FEW_GAPS:
        return below(50) == 0;
    case MANY_GAPS:
        return below(2) == 0;
    case SHORT_GAPS:
        return below(2) == 0 ? 2 + below(4) : 0;
    default:
        return 0;
    }
}

// The entry of day t, or of the gap that begins there, and the missing days of the gap; gives how many more days than one it
// has. A gap of one day is of either kind.
static uint32_t lay_entry(uint32_t t, uint32_t gap)
{
    gap = gap < count - t ? gap : count - t;
    for (uint32_t i = 0; i < gap; i++)
        days[t + i] = BASEFLOW_MISSING;
    if (gap == 0)
        put(BASEFLOW_FLOW, days[t], 4);
    else if (gap == 1 && below(2) == 0)
        put(BASEFLOW_ONE_MISSING, 0, 0);
    else
        put(BASEFLOW_MISSING_DAYS, gap, 2);
    return gap > 1 ? gap - 1 : 0;
}

// The days and their record.
static void lay_days(enum input input)
{
    if (input == LENGTHS)
        lay_lengths();
    else
        lay_flows(input);
    bytes_len = 0;
    put(BASEFLOW_HEAD, 0, 4);
    for (uint32_t t = 0; t < count; t++)
        t += lay_entry(t, gap_at(input, t));
    put(BASEFLOW_END, count, 4);
}

// A reading a day, in either unit, of exponents from that of a few ten-thousandths of a litre to that of 8,000,000.
static void lay_readings(void)
{
    for (uint32_t t = 0; t < count; t++) {
        int cubic = below(2) == 0;
        uint32_t exponent = (cubic ? 139 : 149) - below(35), bits = exponent << 23 | below(0x800000);
        readings[t][0] = cubic ? 1 : 2;
        for (size_t i = 0; i < 4; i++)
            readings[t][1 + i] = (uint8_t)(bits >> 8 * i);
    }
}

// Base flow that a call reads: for ratios that of the line with N and g, or with N 0 the flow of every day; else that of a
// filter.
static void give_base(const struct job *job)
{
    uint32_t refusal = 0;
    int ratios = job->perform == perform_recession || job->perform == perform_recession_bits;
    if (!ratios)
        refusal = reference_filter(1, 9250, 0, 0, 1, DAYS, GIVEN_BASE);
    else if (job->p != 0)
        refusal = reference_line(job->p, job->q, DAYS, GIVEN_BASE);
    else
        for (uint32_t t = 0; t < count; t++)
            given_base[t] = days[t] == BASEFLOW_MISSING ? BASEFLOW_NO_VALUE : 1000 * (uint64_t)days[t];
    if (refusal != 0)
        abort();
}

// The same days as flows and words.
static void give_bits(void)
{
    memset(given_words, 0, sizeof given_words);
    for (uint32_t t = 0; t < count; t++) {
        given_flows[t] = days[t] == BASEFLOW_MISSING ? 0 : days[t];
        given_words[t / 64] |= (uint64_t)(days[t] != BASEFLOW_MISSING) << t % 64;
    }
}

static void prepare(const struct job *job, uint32_t size)
{
    state = 1900;
    count = size;
    lay_days(job->input);
    lay_readings();
    give_bits();
    give_base(job);
}

// ---- result

static void perform(const struct side *side, const struct job *job)
{
    out.answer |= job->perform(side, job);
}

// Both sides accept, and leave the same everywhere.
static void check(const struct job *job)
{
    size_t work_bytes = job->perform == perform_staggered || job->perform == perform_staggered_bits
                            ? job->first * count * sizeof *work : 0;
    memset(&out, 0, sizeof out);
    memset(work, 0, work_bytes);
    perform(&engine, job);
    kept = out;
    memcpy(kept_work, work, work_bytes);
    memset(&out, 0, sizeof out);
    memset(work, 0, work_bytes);
    perform(&reference, job);
    if (kept.answer != 0 || memcmp(&out, &kept, sizeof out) != 0 || memcmp(work, kept_work, work_bytes) != 0) {
        fprintf(stderr, "bench: %s, %" PRIu32 " days: the engine refuses, or gives another result than the reference\n",
                job->name, count);
        exit(1);
    }
}

// ---- time

static double now(void)
{
    struct timespec time;
    clock_gettime(CLOCK_THREAD_CPUTIME_ID, &time);
    return 1e9 * (double)time.tv_sec + (double)time.tv_nsec;
}

// Nanoseconds a day.
static double measure(const struct side *side, const struct job *job, uint32_t times)
{
    double start = now();
    for (uint32_t i = 0; i < times; i++)
        perform(side, job);
    return (now() - start) / times / count;
}

static int by_size(const void *a, const void *b)
{
    double left = *(const double *)a, right = *(const double *)b;
    return (left > right) - (left < right);
}

static double median(double *values, uint32_t runs)
{
    qsort(values, runs, sizeof *values, by_size);
    return values[runs / 2];
}

// Pairs of runs, of which each side begins every second one; the ratio is the median of those of the pairs.
static void compare(const struct job *job, uint32_t runs, double nanoseconds)
{
    double engine_runs[MOST_RUNS], reference_runs[MOST_RUNS], ratios[MOST_RUNS];
    double once = (measure(&engine, job, 1) + measure(&reference, job, 1)) / 2;
    uint32_t times = 1 + (uint32_t)(nanoseconds / (once * count));
    for (uint32_t i = 0; i < runs; i++) {
        if (i % 2 == 0)
            engine_runs[i] = measure(&engine, job, times);
        reference_runs[i] = measure(&reference, job, times);
        if (i % 2 != 0)
            engine_runs[i] = measure(&engine, job, times);
        ratios[i] = engine_runs[i] / reference_runs[i];
    }
    printf("\t%.4f\t%.4f\t%.4f", median(engine_runs, runs), median(reference_runs, runs), median(ratios, runs));
}

// ---- stack

static uint8_t stack[STACK];
static ucontext_t here, there;
static const struct job *job_there;

static void on_painted_stack(void)
{
    perform(&engine, job_there);
}

// Bytes below the stack pointer that the engine wrote, its return address and arguments included.
static size_t peak_stack(const struct job *job)
{
    memset(stack, PAINT, STACK);
    job_there = job;
    getcontext(&there);
    there.uc_stack.ss_sp = stack;
    there.uc_stack.ss_size = STACK;
    there.uc_link = &here;
    makecontext(&there, on_painted_stack, 0);
    swapcontext(&here, &there);
    size_t untouched = 0;
    while (stack[untouched] == PAINT)
        untouched++;
    return (stack_before - (uintptr_t)(stack + untouched) + 7) / 8 * 8;
}

int main(int words, char **word)
{
    uint32_t runs = words >= 3 ? (uint32_t)atoi(word[1]) : 0;
    if (runs == 0 || runs > MOST_RUNS) {
        fprintf(stderr, "bench RUNS MICROSECONDS [TEXT], with at most %d runs\n", MOST_RUNS);
        return 2;
    }
    for (const struct job *job = jobs; job < jobs + JOBS; job++)
        for (size_t i = 0; i < SIZES && strstr(job->name, words > 3 ? word[3] : "") != NULL; i++) {
            prepare(job, sizes[i]);
            check(job);
            printf("%s\t%s\t%" PRIu32, job->name, job->call, count);
            compare(job, runs, 1e3 * atof(word[2]));
            printf("\t%zu\n", peak_stack(job));
        }
    return 0;
}
