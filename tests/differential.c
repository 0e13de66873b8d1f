// Runs generated cases through the engine and through tests/reference.c and compares answers, out-parameters and lists
// byte for byte.
//
//     differential SEED FIRST COUNT
//
// runs the cases FIRST to FIRST + COUNT - 1 of a seed, and prints how often each branch was hit. Where the two differ
// it prints the smallest failing case that it finds, and exits with 1.
//
// Each list ends where readable memory ends, so that a call that reads or writes behind it is stopped, and has guard
// bytes before it. Lists that a call has no business to write, and everything after a refusal, are held to what they
// were before the call. What the engine writes as a record, it has to read as the days that it wrote; the days of a
// record that it reads, it has to write, and to read again. What it takes by a licence and the quota left have to make up
// the quota, and to leave every day its base flow.
#define _GNU_SOURCE
#include <inttypes.h>
#include <setjmp.h>
#include <signal.h>
#include <stdio.h>
#include <stdlib.h>
#include <string.h>
#include <sys/mman.h>
#include <unistd.h>

#include "baseflow.h"
#include "differential.h"
#include "reference.h"

enum list { BYTES, DAYS, BASE, LIMBS, WORK, FLOWS, WORDS, TAKINGS, LISTS };
enum { GUARD = 64, GUARD_BYTE = 0x5a };

static const char *const call_names[CALLS] = {
    "read", "write", "filter", "filter_from", "step", "steps", "line", "totals", "recession", "bfimax", "staggered",
    "half_life", "meter", "licence", "to_bits", "from_bits", "filter_bits", "line_bits", "totals_bits",
    "recession_bits", "bfimax_bits", "staggered_bits", "filter_from_bits",
};
static const char *const list_names[LISTS] = {"bytes", "days", "base", "limbs", "work", "flows", "words", "takings"};
static const size_t widths[LISTS] = {1, 4, 8, 4, 8, 4, 8, 4};
static const size_t rooms[LISTS] = {ROOM_BYTES, ROOM_DAYS, ROOM_DAYS,  ROOM_DAYS,
                                    ROOM_WORK,  ROOM_DAYS, ROOM_WORDS, ROOM_DAYS};

struct side {
    const char *name;
    uint32_t (*call)(const struct test_case *c, void *const *lists, uint32_t *small, uint64_t *large);
    uint8_t *ends[LISTS]; // where readable memory ends, for each list
    void *lists[LISTS];   // lent in the last run, and as it left them
    struct outs outs;
    uint32_t answer;
};

static size_t *length_of(struct test_case *c, enum list list)
{
    return (size_t *[]){&c->bytes_len, &c->days_len,  &c->base_len,  &c->limbs_len,
                        &c->work_len,  &c->flows_len, &c->words_len, &c->takings_len}[list];
}

static size_t length(const struct test_case *c, enum list list)
{
    return (const size_t[]){c->bytes_len, c->days_len,  c->base_len,  c->limbs_len,
                            c->work_len,  c->flows_len, c->words_len, c->takings_len}[list];
}

static size_t size(const struct test_case *c, enum list list)
{
    return length(c, list) * widths[list];
}

static const void *content(const struct test_case *c, enum list list)
{
    return (const void *[]){c->bytes, c->days, c->base, c->limbs, c->work, c->flows, c->words, c->takings}[list];
}

static int may_write(enum call of, enum list list)
{
    enum call call = sister_of(of);
    return (call == WRITE && list == BYTES) || ((call == READ || call == FROM_BITS) && list == DAYS) ||
           (call == RECESSION && list == LIMBS) || (call == LICENCE && list == TAKINGS) ||
           ((call == FILTER || call == FILTER_FROM || call == LINE || call == BFIMAX || call == STAGGERED) &&
            list == BASE) ||
           (call == STAGGERED && list == WORK) || (call == TO_BITS && (list == FLOWS || list == WORDS));
}

// ---- the calls of each side, with out-parameters in fixed places

#define BITS lists[FLOWS], c->flows_len, lists[WORDS], c->words_len

#define MAKE_CALL(prefix)                                                                                              \
    static uint32_t prefix##call(const struct test_case *c, void *const *lists, uint32_t *small, uint64_t *large)      \
    {                                                                                                                  \
        switch (c->call) {                                                                                             \
        case READ:                                                                                                     \
            return prefix##read(lists[BYTES], c->bytes_len, lists[DAYS], c->days_len, &small[0], &small[1]);           \
        case WRITE:                                                                                                    \
            return prefix##write(c->first_day, lists[DAYS], c->days_len, lists[BYTES], c->bytes_len, &small[0]);       \
        case FILTER:                                                                                                   \
            return prefix##filter(c->method, c->p, c->q, c->s, c->passes, lists[DAYS], c->days_len, lists[BASE],       \
                                  c->base_len);                                                                        \
        case FILTER_FROM:                                                                                              \
            return prefix##filter_from(c->method, c->p, c->q, c->s, c->passes, c->start, lists[DAYS], c->days_len,     \
                                       lists[BASE], c->base_len);                                                      \
        case LINE:                                                                                                     \
            return prefix##line(c->block_days, c->factor, lists[DAYS], c->days_len, lists[BASE], c->base_len);         \
        case TOTALS:                                                                                                   \
            return prefix##totals(lists[DAYS], c->days_len, lists[BASE], c->base_len, &small[0], &large[0], &large[1], \
                                  &large[2], &small[1]);                                                               \
        case RECESSION:                                                                                                \
            return prefix##recession(c->limb_days, lists[DAYS], c->days_len, lists[BASE], c->base_len, lists[LIMBS],   \
                                     c->limbs_len, &small[0], &small[1]);                                              \
        case HALF_LIFE:                                                                                                \
            return prefix##half_life(c->p, &small[0]);                                                                 \
        case METER:                                                                                                    \
            return prefix##meter(lists[BYTES], c->bytes_len, &small[0]);                                               \
        case LICENCE:                                                                                                  \
            return prefix##licence(c->daily_limit, c->quota, lists[DAYS], c->days_len, lists[BASE], c->base_len,       \
                                   lists[TAKINGS], c->takings_len, &large[0]);                                         \
        case TO_BITS:                                                                                                  \
            return prefix##to_bits(lists[DAYS], c->days_len, BITS, &small[0]);                                         \
        case FROM_BITS:                                                                                                \
            return prefix##from_bits(BITS, lists[DAYS], c->days_len, &small[0]);                                       \
        case FILTER_BITS:                                                                                              \
            return prefix##filter_bits(c->method, c->p, c->q, c->s, c->passes, BITS, lists[BASE], c->base_len);        \
        case FILTER_FROM_BITS:                                                                                         \
            return prefix##filter_from_bits(c->method, c->p, c->q, c->s, c->passes, c->start, BITS, lists[BASE],       \
                                            c->base_len);                                                              \
        case LINE_BITS:                                                                                                \
            return prefix##line_bits(c->block_days, c->factor, BITS, lists[BASE], c->base_len);                        \
        case TOTALS_BITS:                                                                                              \
            return prefix##totals_bits(BITS, lists[BASE], c->base_len, &small[0], &large[0], &large[1], &large[2],     \
                                       &small[1]);                                                                     \
        case RECESSION_BITS:                                                                                           \
            return prefix##recession_bits(c->limb_days, BITS, lists[BASE], c->base_len, lists[LIMBS],                  \
                                          c->limbs_len, &small[0], &small[1]);                                         \
        case BFIMAX_BITS:                                                                                              \
            return prefix##bfimax_bits(c->last_day, c->duration, c->p, BITS, lists[BASE], c->base_len, &small[0]);     \
        case STAGGERED_BITS:                                                                                           \
            return prefix##staggered_bits(c->block_days, c->factor, c->choice, BITS, lists[BASE], c->base_len,         \
                                          lists[WORK], c->work_len);                                                   \
        case STAGGERED:                                                                                                \
            return prefix##staggered(c->block_days, c->factor, c->choice, lists[DAYS], c->days_len, lists[BASE],       \
                                     c->base_len, lists[WORK], c->work_len);                                           \
        case BFIMAX:                                                                                                   \
            return prefix##bfimax(c->last_day, c->duration, c->p, lists[DAYS], c->days_len, lists[BASE], c->base_len,  \
                                  &small[0]);                                                                          \
        default:                                                                                                       \
            return prefix##step(c->method, c->p, c->q, c->s, c->day, &small[0], &small[1], &large[0], &large[1]);      \
        }                                                                                                              \
    }
MAKE_CALL(baseflow_)
MAKE_CALL(reference_)

static struct side engine = {.name = "engine", .call = baseflow_call};
static struct side reference = {.name = "reference", .call = reference_call};

// ---- lending

static void make_room(struct side *side)
{
    size_t page = (size_t)sysconf(_SC_PAGESIZE);
    for (enum list list = 0; list < LISTS; list++) {
        size_t room = (widths[list] * rooms[list] / page + 2) * page;
        uint8_t *start = mmap(NULL, room + page, PROT_READ | PROT_WRITE, MAP_PRIVATE | MAP_ANONYMOUS, -1, 0);
        if (start == MAP_FAILED || mprotect(start + room, page, PROT_NONE) != 0) {
            perror("differential: memory");
            exit(2);
        }
        side->ends[list] = start + room;
    }
}

static sigjmp_buf before_call;
static volatile sig_atomic_t was_stopped; // whether a signal ended the last call
static const struct side *running;

static void stop(int number)
{
    (void)number;
    was_stopped = 1;
    siglongjmp(before_call, 1);
}

static void catch_signals(void)
{
    static const int numbers[] = {SIGSEGV, SIGBUS, SIGFPE, SIGILL, SIGABRT, SIGTRAP};
    struct sigaction action = {.sa_handler = stop, .sa_flags = SA_NODEFER};
    for (size_t i = 0; i < sizeof numbers / sizeof *numbers; i++)
        sigaction(numbers[i], &action, NULL);
}

static void run(struct side *side, const struct test_case *c)
{
    for (enum list list = 0; list < LISTS; list++) {
        uint8_t *at = side->ends[list] - size(c, list);
        memcpy(at, content(c, list), size(c, list));
        memset(at - GUARD, GUARD_BYTE, GUARD);
        side->lists[list] = at;
    }
    side->outs = c->outs;
    running = side;
    side->answer = side->call(c, side->lists, side->outs.small, side->outs.large);
}

// ---- comparing

// What is wrong with a side that refused, or that was lent a list to read only; NULL for nothing.
static const char *meddling(const struct side *side, const struct test_case *c)
{
    uint8_t guard[GUARD];
    memset(guard, GUARD_BYTE, GUARD);
    for (enum list list = 0; list < LISTS; list++) {
        int stays = side->answer != 0 || !may_write(c->call, list);
        if (memcmp((uint8_t *)side->lists[list] - GUARD, guard, GUARD) != 0)
            return "bytes before a list were written";
        if (stays && memcmp(side->lists[list], content(c, list), size(c, list)) != 0)
            return "a list was written that had to stay";
    }
    if (side->answer != 0 && memcmp(&side->outs, &c->outs, sizeof c->outs) != 0)
        return "an out-parameter was written on a refusal";
    return NULL;
}

static const char *compare_steps(const struct test_case *c)
{
    static uint64_t pass[ROOM_DAYS];
    struct outs ours = c->outs, theirs = c->outs;
    reference_filter(c->method, c->p, c->q, c->s, 1, c->days, c->days_len, pass, c->days_len);
    for (size_t t = 0; t < c->days_len; t++) {
        running = &engine;
        engine.answer = baseflow_step(c->method, c->p, c->q, c->s, c->days[t], &ours.small[0], &ours.small[1],
                                      &ours.large[0], &ours.large[1]);
        running = &reference;
        reference.answer = reference_step(c->method, c->p, c->q, c->s, c->days[t], &theirs.small[0], &theirs.small[1],
                                          &theirs.large[0], &theirs.large[1]);
        engine.outs = ours;
        reference.outs = theirs;
        if (engine.answer != reference.answer)
            return "the answers differ";
        if (memcmp(&ours, &theirs, sizeof ours) != 0)
            return "the out-parameters differ";
        if (ours.large[1] != pass[t])
            return "steps do not give pass 1 of the filter";
    }
    return NULL;
}

// ---- laws of the engine alone, over what it wrote and read

static const uint8_t other_bytes[] = {0x00, 0xff, 0x03};

// Writes days that were accepted over other bytes, and reads what was written. Where they were written before, it has
// to be the same record again, in just its room; where they were read, there is more room. NULL where all is well.
static const char *read_again(uint32_t first_day, const uint32_t *days, size_t days_len, const uint8_t *written,
                              size_t written_len)
{
    static uint8_t bytes[ROOM_BYTES];
    static uint32_t days_read[ROOM_DAYS];
    uint32_t length = 0, first_read = 0, count = 0;
    size_t room = written != NULL ? written_len : record_length(days, days_len) + 3;
    running = &engine;
    memset(bytes, other_bytes[days_len % sizeof other_bytes], room);
    if (baseflow_write(first_day, days, days_len, bytes, room, &length) != 0)
        return "days that were accepted cannot be written";
    if (length > room)
        return "a record is longer than its output";
    if (written != NULL && (length != written_len || memcmp(bytes, written, length) != 0))
        return "the same days give another record";
    if (baseflow_read(bytes, length, days_read, days_len, &first_read, &count) != 0)
        return "a record that was written cannot be read";
    if (first_read != first_day || count != days_len || memcmp(days_read, days, days_len * sizeof *days) != 0)
        return "a record that was written states other days";
    return NULL;
}

// An accepted writing leaves what is behind the record, and its days come back.
static const char *compare_written(const struct test_case *c)
{
    uint32_t length = engine.outs.small[0];
    const uint8_t *bytes = engine.lists[BYTES];
    if (length > c->bytes_len || memcmp(bytes + length, c->bytes + length, c->bytes_len - length) != 0)
        return "bytes behind the record were written";
    return read_again(c->first_day, c->days, c->days_len, bytes, length);
}

// An accepted replay takes no more than the licence grants, leaves each day its base flow, and answers the rest of Q.
static const char *compare_replayed(const struct test_case *c)
{
    const uint32_t *takings = engine.lists[TAKINGS];
    uint64_t taken = 0;
    for (size_t t = 0; t < c->days_len; t++) {
        if (takings[t] > c->daily_limit)
            return "more than the daily limit is taken";
        if (c->base[t] == NO_VALUE && takings[t] != 0)
            return "something is taken on a day without a base value";
        if (c->base[t] != NO_VALUE && 1000 * (uint64_t)takings[t] + c->base[t] > 1000 * (uint64_t)c->days[t])
            return "a day's flow after taking is below its base flow";
        taken += takings[t];
    }
    return taken + engine.outs.large[0] == c->quota ? NULL : "takings and quota left do not make up the quota";
}

// How the two sides differ on a case; NULL where they agree.
static const char *difference(const struct test_case *c)
{
    was_stopped = 0;
    if (sigsetjmp(before_call, 0) != 0)
        return running == &engine ? "the engine was stopped by a signal" : "the reference was stopped by a signal";
    if (c->call == STEPS)
        return compare_steps(c);
    run(&engine, c);
    run(&reference, c);
    if (engine.answer != reference.answer)
        return "the answers differ";
    const char *wrong = meddling(&engine, c);
    if (wrong != NULL)
        return wrong;
    if (meddling(&reference, c) != NULL)
        return "the reference meddled with a list";
    if (memcmp(&engine.outs, &reference.outs, sizeof engine.outs) != 0)
        return "the out-parameters differ";
    for (enum list list = 0; list < LISTS; list++)
        if (memcmp(engine.lists[list], reference.lists[list], size(c, list)) != 0)
            return "a list differs";
    if (engine.answer == 0 && c->call == WRITE)
        return compare_written(c);
    if (engine.answer == 0 && c->call == LICENCE)
        return compare_replayed(c);
    if (engine.answer == 0 && c->call == READ)
        return read_again(engine.outs.small[0], engine.lists[DAYS], engine.outs.small[1], NULL, 0);
    return NULL;
}

// ---- shrinking

static struct test_case smallest, attempt;
static int64_t effort_left = 30000000; // in elements of lists, so that long cases get fewer attempts

// Copies what a case uses of its room.
static void copy(struct test_case *to, const struct test_case *from)
{
    memcpy(to, from, offsetof(struct test_case, bytes));
    memcpy(to->bytes, from->bytes, size(from, BYTES));
    memcpy(to->days, from->days, size(from, DAYS));
    memcpy(to->base, from->base, size(from, BASE));
    memcpy(to->limbs, from->limbs, size(from, LIMBS));
    memcpy(to->work, from->work, size(from, WORK));
    memcpy(to->flows, from->flows, size(from, FLOWS));
    memcpy(to->words, from->words, size(from, WORDS));
    memcpy(to->takings, from->takings, size(from, TAKINGS));
}

// Keeps the attempt if it still fails.
static int keep(void)
{
    effort_left -= 100;
    for (enum list list = 0; list < LISTS; list++)
        effort_left -= (int64_t)length(&attempt, list);
    if (effort_left < 0 || difference(&attempt) == NULL)
        return 0;
    copy(&smallest, &attempt);
    return 1;
}

// The list that a call takes its days from.
static enum list given(enum call call)
{
    return call > TO_BITS ? FLOWS : DAYS;
}

// The list that is as long as that one, unless it is refused with 14.
static enum list beside(enum call call)
{
    return call == TO_BITS ? FLOWS : call == FROM_BITS ? DAYS : BASE;
}

// Cuts the bits of some days, of `count_before`; there are as many words too many or too few as there were.
static void cut_bits(struct test_case *c, size_t at, size_t count, size_t count_before)
{
    size_t ones = 64 * c->words_len, dropped = words_for(count_before) - words_for(count_before - count);
    for (size_t t = at; t < ones; t++) {
        uint64_t one = (uint64_t)(t + count < ones && bit_of(c, t + count));
        c->words[t / 64] = (c->words[t / 64] & ~((uint64_t)1 << t % 64)) | one << t % 64;
    }
    c->words_len -= dropped < c->words_len ? dropped : c->words_len;
}

// Cuts the room for a record as its days were: it is as far from the record's length as it was.
static void cut_room(struct test_case *c, size_t record_before)
{
    size_t shorter = record_before - record_length(c->days, c->days_len);
    c->bytes_len -= shorter < c->bytes_len ? shorter : c->bytes_len;
}

static void cut(struct test_case *c, enum list list, size_t at, size_t count)
{
    uint8_t *from = (void *[]){c->bytes, c->days, c->base, c->limbs, c->work, c->flows, c->words, c->takings}[list];
    size_t width = widths[list], before = length(c, list), behind = before - at - count;
    size_t record_before = c->call == WRITE ? record_length(c->days, c->days_len) : 0;
    memmove(from + at * width, from + (at + count) * width, behind * width);
    *length_of(c, list) -= count;
    if (list != given(c->call))
        return;
    if (c->call == WRITE)
        cut_room(c, record_before);
    if (c->call == TO_BITS || list == FLOWS)
        cut_bits(c, at, count, before);
    if (at + count <= c->last_day && c->last_day < before)
        c->last_day -= (uint32_t)count; // the same day, at its new place
    size_t of_lines = sister_of(c->call) == STAGGERED && c->block_days <= 30 ? c->block_days * count : 0;
    c->work_len -= of_lines < c->work_len ? of_lines : c->work_len; // as far from N x days as it was
    c->takings_len -= count < c->takings_len ? count : c->takings_len;
}

// Cuts pieces of a list, and of another with it (LISTS for none).
static int cut_pieces(enum list list, enum list with)
{
    int better = 0;
    for (size_t count = length(&smallest, list); count > 0; count = count > 8 ? count / 2 : count - 1) {
        for (size_t at = 0; at + count <= length(&smallest, list) && effort_left > 0;) {
            copy(&attempt, &smallest);
            cut(&attempt, list, at, count);
            if (with != LISTS)
                cut(&attempt, with, at, count);
            if (keep())
                better = 1;
            else
                at += count;
        }
    }
    return better;
}

static uint32_t *days_of(struct test_case *c)
{
    return given(c->call) == FLOWS ? c->flows : c->days;
}

// For the ratios and a licence, a base value goes down with the flow of its day, as far as it can.
static void lower_value(size_t t)
{
    uint64_t by = 1000 * (uint64_t)(days_of(&smallest)[t] - days_of(&attempt)[t]);
    int goes_down = sister_of(attempt.call) == RECESSION || attempt.call == LICENCE;
    if (goes_down && t < attempt.base_len && attempt.base[t] != NO_VALUE)
        attempt.base[t] -= attempt.base[t] < by ? attempt.base[t] : by;
}

static int lower_days(void)
{
    int better = 0;
    size_t count = smallest.call == READ ? 0 : length(&smallest, given(smallest.call));
    for (size_t t = 0; t < count && effort_left > 0; t++) {
        const uint32_t day = days_of(&smallest)[t], lower[] = {0, 1, 10, 100, day / 10 * 10, day / 2, day - 1};
        for (size_t i = 0; i < sizeof lower / sizeof *lower && day != MISSING; i++) {
            if (lower[i] >= days_of(&smallest)[t])
                continue;
            copy(&attempt, &smallest);
            days_of(&attempt)[t] = lower[i];
            lower_value(t);
            better |= keep();
        }
    }
    return better;
}

static int shorten(void)
{
    int better = 0;
    const uint32_t duration = smallest.duration, shorter[] = {2, duration / 2, duration - 1};
    for (size_t i = 0; i < sizeof shorter / sizeof *shorter && sister_of(smallest.call) == BFIMAX; i++) {
        copy(&attempt, &smallest);
        attempt.duration = shorter[i];
        if (shorter[i] < smallest.duration && keep())
            better = 1;
    }
    return better;
}

static int lower_start(void)
{
    int better = 0;
    const uint64_t start = smallest.start, lower[] = {0, 1, 1000, start / 1000 * 1000, start / 2, start - 1};
    for (size_t i = 0; i < sizeof lower / sizeof *lower && sister_of(smallest.call) == FILTER_FROM; i++) {
        copy(&attempt, &smallest);
        attempt.start = lower[i];
        if (lower[i] < smallest.start && keep())
            better = 1;
    }
    return better;
}

static int lower_licence(void)
{
    int better = 0;
    const uint32_t limit = smallest.daily_limit, limits[] = {0, 1, 10, limit / 2, limit - 1};
    const uint64_t quota = smallest.quota, quotas[] = {0, 1, 10, quota / 2, quota - 1};
    for (size_t i = 0; i < sizeof limits / sizeof *limits && smallest.call == LICENCE; i++) {
        copy(&attempt, &smallest);
        attempt.daily_limit = limits[i];
        if (limits[i] < smallest.daily_limit && keep())
            better = 1;
        copy(&attempt, &smallest);
        attempt.quota = quotas[i];
        if (quotas[i] < smallest.quota && keep())
            better = 1;
    }
    return better;
}

static void shrink(const struct test_case *c)
{
    copy(&smallest, c);
    int better = 1;
    while (better) {
        enum list list = given(c->call), other = beside(c->call);
        better = cut_pieces(BYTES, LISTS) | cut_pieces(LIMBS, LISTS) | cut_pieces(WORDS, LISTS) |
                 cut_pieces(TAKINGS, LISTS);
        if (length(&smallest, list) == length(&smallest, other))
            better |= cut_pieces(list, other);
        else
            better |= cut_pieces(list, LISTS) | cut_pieces(other, LISTS);
        better |= lower_days() | shorten() | lower_start() | lower_licence();
    }
}

// ---- reporting

static void print_element(const void *list, enum list kind, size_t at)
{
    if (kind == BYTES)
        printf("%02X", ((const uint8_t *)list)[at]);
    else if (kind == WORDS)
        printf("%016" PRIX64, ((const uint64_t *)list)[at]);
    else if ((kind == BASE || kind == WORK) && ((const uint64_t *)list)[at] == NO_VALUE)
        printf("none");
    else if (kind == BASE || kind == WORK)
        printf("%" PRIu64, ((const uint64_t *)list)[at]);
    else if ((kind == DAYS || kind == FLOWS) && ((const uint32_t *)list)[at] == MISSING)
        printf("missing");
    else
        printf("%" PRIu32, ((const uint32_t *)list)[at]);
}

static void print_list(const struct test_case *c, enum list list, const void *elements)
{
    printf("  %s (%zu):", list_names[list], length(c, list));
    for (size_t i = 0; i < length(c, list) && i < 200; i++) {
        putchar(' ');
        print_element(elements, list, i);
    }
    puts(length(c, list) > 200 ? " ..." : "");
}

static void print_outs(enum call of, const struct outs *o)
{
    enum call call = sister_of(of);
    if (call == READ)
        printf(" first_day %" PRIu32 ", day_count %" PRIu32, o->small[0], o->small[1]);
    if (call == WRITE)
        printf(" record_len %" PRIu32, o->small[0]);
    if (call == STEP || call == STEPS)
        printf(" has_yesterday %" PRIu32 ", flow %" PRIu32 ", base %" PRIu64 ", value %" PRIu64, o->small[0],
               o->small[1], o->large[0], o->large[1]);
    if (call == TOTALS)
        printf(" base_days %" PRIu32 ", flow_total %" PRIu64 ", base_total %" PRIu64 ", quick_total %" PRIu64
               ", index %" PRIu32, o->small[0], o->large[0], o->large[1], o->large[2], o->small[1]);
    if (call == BFIMAX)
        printf(" bfimax %" PRIu32, o->small[0]);
    if (call == HALF_LIFE)
        printf(" days %" PRIu32, o->small[0]);
    if (call == METER)
        printf(" day %" PRIu32, o->small[0]);
    if (call == LICENCE)
        printf(" quota_left %" PRIu64, o->large[0]);
    if (call == TO_BITS || call == FROM_BITS)
        printf(" present %" PRIu32, o->small[0]);
    if (call == RECESSION)
        printf(" ratio_count %" PRIu32 ", ratio %" PRIu32, o->small[0], o->small[1]);
    putchar('\n');
}

static void print_arguments(const struct test_case *c)
{
    enum call call = sister_of(c->call);
    if (call == WRITE)
        printf("  first_day %" PRIu32 "\n", c->first_day);
    if (call == FILTER || call == FILTER_FROM || call == STEP || call == STEPS)
        printf("  method %" PRIu32 ", p %" PRIu32 ", q %" PRIu32 ", s %" PRId32 "\n", c->method, c->p, c->q, c->s);
    if (call == FILTER || call == FILTER_FROM)
        printf("  passes %" PRIu32 "\n", c->passes);
    if (call == FILTER_FROM)
        printf("  start %" PRIu64 "\n", c->start);
    if (call == STEP)
        printf("  day %" PRIu32 "\n", c->day);
    if (call == HALF_LIFE)
        printf("  p %" PRIu32 "\n", c->p);
    if (call == STAGGERED)
        printf("  choice %" PRIu32 "\n", c->choice);
    if (call == LINE || call == STAGGERED)
        printf("  block_days %" PRIu32 ", factor %" PRIu32 "\n", c->block_days, c->factor);
    if (call == RECESSION)
        printf("  limb_days %" PRIu32 "\n", c->limb_days);
    if (call == BFIMAX)
        printf("  last_day %" PRIu32 ", duration %" PRIu32 ", p %" PRIu32 "\n", c->last_day, c->duration, c->p);
    if (call == LICENCE)
        printf("  daily_limit %" PRIu32 ", quota %" PRIu64 "\n", c->daily_limit, c->quota);
    for (enum list list = 0; list < LISTS; list++)
        if (length(c, list) > 0)
            print_list(c, list, content(c, list));
    printf("  before:");
    print_outs(c->call, &c->outs);
}

static void print_side(const struct test_case *c, const struct side *side)
{
    printf("%s: answer %" PRIu32, side->name, side->answer);
    print_outs(c->call, &side->outs);
    for (enum list list = 0; list < LISTS; list++)
        if (may_write(c->call, list))
            print_list(c, list, side->lists[list]);
}

static void report(const struct test_case *c)
{
    printf("baseflow_%s: %s\n", call_names[c->call], difference(c));
    print_arguments(c);
    if (!was_stopped) {
        print_side(c, &engine);
        print_side(c, &reference);
    }
}

int main(int argc, char **argv)
{
    if (argc != 4) {
        fprintf(stderr, "usage: differential SEED FIRST COUNT\n");
        return 2;
    }
    uint64_t seed = strtoull(argv[1], NULL, 10);
    uint64_t from = strtoull(argv[2], NULL, 10), count = strtoull(argv[3], NULL, 10);
    make_room(&engine);
    make_room(&reference);
    catch_signals();
    static struct test_case c;
    for (uint64_t number = from; number < from + count; number++) {
        generate(&c, seed, number);
        if (difference(&c) != NULL) {
            shrink(&c);
            printf("seed %" PRIu64 ", case %" PRIu64 ", made as small as it could be:\n", seed, number);
            report(&smallest);
            return 1;
        }
        count_branch(&c, reference.answer, &reference.outs, reference.lists[DAYS], reference.lists[BASE],
                     reference.lists[WORK], reference.lists[TAKINGS]);
    }
    print_branches();
    return 0;
}
