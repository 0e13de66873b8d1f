/*
 * baseflow.h - base flow engine of a sealed river gauging box
 *
 * Base flow is the part of a river's flow that groundwater feeds. From a record of daily flows the engine reads the
 * days, or a flow meter's readings, separates base flow by a recursive filter or by the smoothed-minima line, totals it,
 * finds recession ratios and half-lives, estimates BFImax from the river itself, and replays a river against the licence
 * of a pump. Link with target/staticlib/libbaseflow.a, which `tools/archive` makes, or in a release with lib/libbaseflow.a
 * (x86-64-v2: x86-64 with SSE4.2 and POPCNT).
 *
 * Units
 *   flow        litres a second, whole, 0 to 10,000,000
 *   base flow   thousandths of a litre a second; a flow of y litres is 1000 * y of them
 *   parameters, factor, index, ratio and BFImax
 *               ten-thousandths: 9250 is 0.925; only p of a half-life is in thousandths
 *   day list    uint32_t a day: its flow, or BASEFLOW_MISSING
 *   base list   uint64_t a day: its base flow, or BASEFLOW_NO_VALUE
 *   place       a day's position in a list, counted from 0
 *   rounding    base flow, index, ratio and BFImax go to the nearest whole number, at a half to the even one
 *
 * Answers
 *   Each call returns 0, or the number of the first cause to refuse that holds, in the order given with the call.
 *   On a refusal nothing is written: every buffer and every out-parameter is as it was before the call. On 0 every
 *   out-parameter is written, and of each buffer exactly the part that is named with the call.
 *
 * What the caller owes
 *   - Pointers are not null, also where the length is 0 (pass the address of any object), and are aligned for their
 *     type. Bytes of a record need no alignment.
 *   - A length counts elements, not bytes, and that many elements may be read (and written, where the pointer is not
 *     to const).
 *   - No buffer or out-parameter overlaps another of the same call.
 *   - Nobody else writes what a call was lent while it runs.
 *   Numbers and list contents are free: there is no value that a call does not answer or refuse.
 *
 * What the caller gets
 *   - No state is kept between calls and no global data is written: calls are re-entrant, and may run at the same time
 *     on different buffers.
 *   - No allocation, no input or output, no exit, no panic. Of the C library only memmove and memset are needed. No
 *     floating point, but vector registers are used.
 *   - Every call ends, after a time that grows linearly with the lengths that it is given.
 *   - Stack in bytes, as bench/run measures it: read 224, write 64, filter 328, filter_from 280, step 88, line 680,
 *     staggered 760, totals 80, recession 129,776, half_life 8, meter 8, licence 88, bfimax 136, to_bits 64, from_bits 112.
 *     A call over presence bits lays out its days and needs 6 KiB more than its sister for up to 1,461 days, 43 KiB for up
 *     to 10,958, and 144 KiB for more; so no call needs more than 270 KiB.
 *
 * Versions
 *   A changed signature or figure is a new major version, a new call or tool a minor one, and anything else a patch. Each
 *   call says since which version it has its signature. With each major version changed:
 *   2.0.0       figures: the minima line turns in every dry block
 *   3.0.0       signatures: the filter and the step take s
 *   4.0.0       figures: limbs are listed with the longest first
 *   5.0.0       figures: halves are rounded to the even number
 *   6.0.0       signature and figures: recession ratios come of days at base, and so of a base list
 */
#ifndef BASEFLOW_H
#define BASEFLOW_H

#include <stddef.h>
#include <stdint.h>

#ifdef __cplusplus
extern "C" {
#endif

/* version */
#define BASEFLOW_VERSION_MAJOR 6
#define BASEFLOW_VERSION_MINOR 9
#define BASEFLOW_VERSION_PATCH 1
#define BASEFLOW_VERSION /* "MAJOR.MINOR.PATCH" */ \
    BASEFLOW_VERSION_JOINED(BASEFLOW_VERSION_MAJOR, BASEFLOW_VERSION_MINOR, BASEFLOW_VERSION_PATCH)
#define BASEFLOW_VERSION_JOINED(major, minor, patch) \
    BASEFLOW_VERSION_TEXT(major) "." BASEFLOW_VERSION_TEXT(minor) "." BASEFLOW_VERSION_TEXT(patch)
#define BASEFLOW_VERSION_TEXT(number) #number

/* marks */
#define BASEFLOW_MISSING UINT32_MAX  /* in a day list: a missing day, 4,294,967,295 */
#define BASEFLOW_NO_VALUE UINT64_MAX /* in a base list: no value on this day, 2^64 - 1 */

/* limits */
#define BASEFLOW_MOST_FLOW 10000000u   /* litres a second */
#define BASEFLOW_MOST_DAYS 36525u      /* days in a record and in a day list */
#define BASEFLOW_MOST_FIRST_DAY 99999u /* days since 1 January 1900, which is day 0 */
#define BASEFLOW_MOST_DURATION 3650u   /* days that BFImax is taken from; at least 2 */
#define BASEFLOW_MOST_DAILY_LIMIT 10000000u         /* of a licence: litres a second on a day */
#define BASEFLOW_MOST_QUOTA UINT64_C(1000000000000) /* of a licence: litres a second, summed over days */

/* kinds of a record's entries; numbers in a record are unsigned, low byte first */
#define BASEFLOW_HEAD 0x01         /* 4 bytes: first day, 0 to 99,999 */
#define BASEFLOW_FLOW 0x02         /* 4 bytes: the flow of one day */
#define BASEFLOW_ONE_MISSING 0x03  /* no body: one missing day */
#define BASEFLOW_MISSING_DAYS 0x04 /* 2 bytes: that many missing days, 1 to 65,535 */
#define BASEFLOW_END 0x09          /* 4 bytes: how many days there are, with the missing ones */

/* methods of the filters, with p, q and s in ten-thousandths; q and s are 0 where none is named */
#define BASEFLOW_LYNE_HOLLICK 1u       /* p 1 to 9999; one to three passes */
#define BASEFLOW_CHAPMAN_1991 2u       /* p 3334 to 9999 */
#define BASEFLOW_CHAPMAN_MAXWELL 3u    /* p 1 to 9999 */
#define BASEFLOW_BOUGHTON 4u           /* p 1 to 9999, q 1 to 10000 */
#define BASEFLOW_ECKHARDT 5u           /* p 1 to 9999, q (BFImax) 1 to 9999 */
#define BASEFLOW_TULARAM_ILAHEE 6u     /* p 1 to 9999 */
#define BASEFLOW_JAKEMAN_HORNBERGER 7u /* p 1 to 9999, q 1 to 10000, s -9999 to 9999 */

/* choices among staggered lines */
#define BASEFLOW_LOWEST 1u
#define BASEFLOW_HIGHEST 2u
#define BASEFLOW_MEDIAN 3u

/* what a call returns */
enum baseflow_answer {
    BASEFLOW_ACCEPTED = 0,
    BASEFLOW_BYTES_SHORT = 1,      /* bytes that run out within a body, or before an end entry or a reading */
    BASEFLOW_BAD_KIND = 2,         /* a kind that is none of 01, 02, 03, 04, 09, or in a reading none of 01, 02, 03 */
    BASEFLOW_BAD_PLACE = 3,        /* a first entry that is not a head, or a later one that is */
    BASEFLOW_BAD_VALUE = 4,        /* an entry's value outside the range of its kind */
    BASEFLOW_RECORD_TOO_LONG = 5,  /* a record of more than 36,525 days */
    BASEFLOW_DAYS_SHORT = 6,       /* no room in the day list for a record's days */
    BASEFLOW_BAD_COUNT = 7,        /* an end entry that counts another number of days */
    BASEFLOW_BYTES_LEFT = 8,       /* bytes behind the end entry, or behind a reading */
    BASEFLOW_DAYS_TOO_LONG = 9,    /* a day list of more than 36,525 days */
    BASEFLOW_BAD_DAY = 10,         /* a number for a day that is neither a flow nor the mark of a missing day */
    BASEFLOW_BAD_METHOD = 11,      /* a method that is not 1 to 7 */
    BASEFLOW_BAD_PARAMETER = 12,   /* p, q or s outside its range */
    BASEFLOW_BAD_PASSES = 13,      /* passes that are not 1, 2 or 3, or are 2 or 3 in another method than 1 */
    BASEFLOW_LENGTHS_DIFFER = 14,  /* a base list that is not as long as the day list */
    BASEFLOW_BAD_STATE = 15,       /* a state whose flow is above 10,000,000, or whose base is above 1000 * that flow */
    BASEFLOW_BAD_BLOCK = 16,       /* block length N, factor g or choice out of range */
    BASEFLOW_NO_LINE = 17,         /* no segment with two or more turning points */
    BASEFLOW_BAD_LIMB_DAYS = 18,   /* shortest limb L out of range */
    BASEFLOW_NO_RATIO = 19,        /* no ratio, since no limb counts */
    BASEFLOW_BAD_BASE = 20,        /* a base value on a missing day, or one above 1000 * the flow of its day */
    BASEFLOW_NO_FLOW = 21,         /* a flow total Y of 0 */
    BASEFLOW_LIMBS_SHORT = 22,     /* a limb list without two numbers for each counted limb */
    BASEFLOW_BAD_DURATION = 23,    /* duration D out of range */
    BASEFLOW_BAD_SPELL = 24,       /* a last day outside the list, or a missing day or none on one of the D days */
    BASEFLOW_BAD_WORK = 25,        /* a work list that is not N times as long as the day list */
    BASEFLOW_BAD_READING = 26,     /* a reading that is not finite, or below zero */
    BASEFLOW_READING_TOO_LARGE = 27, /* a reading of more than 10,000,000 litres a second */
    BASEFLOW_BAD_PRESENCE = 28,    /* presence words that are too many or too few, a one past the last day, or a flow under a zero */
    BASEFLOW_START_TOO_HIGH = 29,  /* a start that is given lies above 1000 * the first present flow */
    BASEFLOW_OUTPUT_SHORT = 30,    /* an output list that is shorter than the record */
    BASEFLOW_BAD_LICENCE = 31      /* a daily limit above 10,000,000, or a quota above 10^12 */
};

/*
 * Reads a record into a day list.
 *
 * Refuses entry by entry: 2, 3, 1, 4, 5, 6, and then for an end entry 7, 8. No bytes at all is 1.
 * On 0: *first_day is the first day since 1 January 1900, *day_count the number of days (0 to 36,525). That many
 * numbers are written from the start of `days`, the rest of it is left as it was. `days` may be of any length.
 * Signature since 1.0.0.
 */
uint32_t baseflow_read(const uint8_t *bytes, size_t bytes_len, uint32_t *days, size_t days_len, uint32_t *first_day,
                       uint32_t *day_count);

/*
 * Writes the record of a first day (0 to 99,999) and a day list, in its one form: a single missing day as kind 03, a longer
 * gap as one kind 04. Equal rivers have equal bytes, and baseflow_read gives the first day and the days back.
 *
 * Refuses: 9, 4, 10, 30.
 * On 0: *record_len bytes are written from the start of `bytes`, the rest of it is left as it was. 10 + 5 * days_len bytes
 * are always enough.
 * Signature since 6.6.0.
 */
uint32_t baseflow_write(uint32_t first_day, const uint32_t *days, size_t days_len, uint8_t *bytes, size_t bytes_len,
                        uint32_t *record_len);

/*
 * Separates base flow with a recursive filter. Each stretch of present days is filtered alone.
 *
 * s is signed. In method 7 it is how much yesterday's flow counts beside today's, in ten-thousandths, and may be below
 * zero; a day whose base flow would come out below zero has 0. In all other methods s is 0.
 * Refuses: 11, 12, 13, 9, 14, 10.
 * On 0: all of `base` is written, BASEFLOW_NO_VALUE on missing days and at most 1000 * flow on the others.
 * Lend a base list exactly as long as the day list.
 * Signature since 3.0.0.
 */
uint32_t baseflow_filter(uint32_t method, uint32_t p, uint32_t q, int32_t s, uint32_t passes, const uint32_t *days,
                         size_t days_len, uint64_t *base, size_t base_len);

/*
 * The same from a start that is given, in thousandths: the base value of pass 1 on the first present day, in place of the
 * usual one (500 * its flow; in method 5 near(9 * q * flow / 100)). No other stretch, no later pass and no daily step knows
 * of it. It may be 0 to 1000 * that day's flow; where no day is present it may be anything, and has no effect.
 * Refuses: 11, 12, 13, 9, 14, 10, 29.
 * On 0: as baseflow_filter. From a lower start the base flow is higher on no day, and the difference dies out: see
 * docs/GUARANTEES.md.
 * Signature since 6.5.0.
 */
uint32_t baseflow_filter_from(uint32_t method, uint32_t p, uint32_t q, int32_t s, uint32_t passes, uint64_t start,
                              const uint32_t *days, size_t days_len, uint64_t *base, size_t base_len);

/*
 * One pass of a filter for one day: for a box that separates as it measures. Steps from the fresh state over a day list
 * give what baseflow_filter gives with the same method, p, q and s and with one pass.
 *
 * The state is *has_yesterday, *flow and *base. With *has_yesterday 0 it is the fresh one, and *flow and *base are not
 * looked at; with anything else *flow is yesterday's flow and *base its base flow. All three must be readable.
 * Refuses: 11, 12, 15, 10.
 * On 0: *value is the day's base flow and the state is that of this day (*has_yesterday 1, *flow the day, *base its
 * base flow); after a missing day *value is BASEFLOW_NO_VALUE and *has_yesterday, *flow and *base are 0.
 * Signature since 3.0.0.
 */
uint32_t baseflow_step(uint32_t method, uint32_t p, uint32_t q, int32_t s, uint32_t day, uint32_t *has_yesterday,
                       uint32_t *flow, uint64_t *base, uint64_t *value);

/*
 * Separates base flow by the smoothed-minima line between turning points: blocks of `block_days` days (1 to 30),
 * turning where `factor` (1 to 9999; 9000 is usual) times a block's minimum is below both neighbours', and in every dry
 * block, one whose minimum is 0, that has a block on either side.
 *
 * Refuses: 16, 9, 14, 10, 17.
 * On 0: all of `base` is written, BASEFLOW_NO_VALUE on every day that lies between no two turning points of a stretch.
 * Lend a base list exactly as long as the day list.
 * Signature since 1.0.0.
 */
uint32_t baseflow_line(uint32_t block_days, uint32_t factor, const uint32_t *days, size_t days_len, uint64_t *base,
                       size_t base_len);

/*
 * Staggered lines: as baseflow_line, once for each shift o from 0 to block_days - 1, with blocks that begin o days into
 * each stretch; so the result does not depend on where the first block happens to begin. On each day `choice` takes of
 * the lines that have a value there BASEFLOW_LOWEST, BASEFLOW_HIGHEST or BASEFLOW_MEDIAN (of two in the middle the
 * lower); a day on which none has one has no value.
 *
 * Refuses: 16, 9, 14, 25, 10, 17. 16 covers the choice, and 17 comes where no shift has a line.
 * On 0: all of `base` is written, and `work` holds the lines one behind the other, that of shift o from place
 * o * days_len on.
 * Lend a base list exactly as long as the day list, and a work list block_days times as long.
 * Signature since 6.1.0.
 */
uint32_t baseflow_staggered(uint32_t block_days, uint32_t factor, uint32_t choice, const uint32_t *days,
                            size_t days_len, uint64_t *base, size_t base_len, uint64_t *work, size_t work_len);

/*
 * Totals over the days that have a base value, and the base flow index.
 *
 * Refuses: 9, 14, 10, 20, 21.
 * On 0: *base_days is the number of those days, *flow_total their flow in litres a second (summed over days),
 * *base_total their base flow and *quick_total the remaining flow, both in thousandths, *index the share of base flow
 * in ten-thousandths, 0 to 10,000.
 * Signature since 1.0.0.
 */
uint32_t baseflow_totals(const uint32_t *days, size_t days_len, const uint64_t *base, size_t base_len,
                         uint32_t *base_days, uint64_t *flow_total, uint64_t *base_total, uint64_t *quick_total,
                         uint32_t *index);

/*
 * Recession ratios: the flow of a day in ten-thousandths of that of the day before, over all falling limbs of at least
 * `limb_days` days (2 to 60), and their median. Only days at base belong to limbs, those whose base value is 1000 *
 * their flow: groundwater alone feeds the river there. Any other day ends a limb.
 *
 * Refuses: 18, 9, 14, 10, 20, 19, 22.
 * On 0: *ratio_count is the number of ratios, *ratio the one in the middle (of two, the lower), 0 to 10,000. From its
 * start `limbs` gets two numbers per counted limb, the place of its first day and its number of days: limbs with more
 * days stand before those with fewer, and those with the same number of days in the order of their first days. The rest
 * of the list is left as it was. As many numbers as there are days are always enough.
 * Lend a base list exactly as long as the day list. A ratio of 0 or 10,000 is no parameter of a filter.
 *
 * From a record to p of method 5, the answers aside (examples/recession_record.c is the whole program):
 *   baseflow_read(bytes, bytes_len, days, BASEFLOW_MOST_DAYS, &first_day, &n);
 *   baseflow_line(5, 9000, days, n, base, n);
 *   baseflow_recession(5, days, n, base, n, limbs, n, &ratio_count, &p);
 *   baseflow_filter(BASEFLOW_ECKHARDT, p, 8000, 0, 1, days, n, base, n);
 * Signature since 6.0.0.
 */
uint32_t baseflow_recession(uint32_t limb_days, const uint32_t *days, size_t days_len, const uint64_t *base,
                            size_t base_len, uint32_t *limbs, size_t limbs_len, uint32_t *ratio_count, uint32_t *ratio);

/*
 * BFImax from the river itself: the q of method 5 (BASEFLOW_ECKHARDT), by a filter that runs backwards over the
 * `duration` days (2 to 3,650) that end with the day at place `last_day`, itself among them. p (1 to 9999) is the
 * recession constant. The last day has all of its flow for base flow; each day before it has the base flow of the day
 * behind it divided by p / 10000, rounded, but never more than its own flow.
 *
 * Refuses: 12, 23, 9, 14, 10, 24, 21.
 * On 0: *bfimax is the share of base flow in those days, in ten-thousandths, 0 to 10,000. All of `base` is written, at
 * most 1000 * flow on those days and BASEFLOW_NO_VALUE on every other.
 * Lend a base list exactly as long as the day list. A BFImax of 0 or 10,000 is no q of method 5.
 * Signature since 4.1.0.
 */
uint32_t baseflow_bfimax(uint32_t last_day, uint32_t duration, uint32_t p, const uint32_t *days, size_t days_len,
                         uint64_t *base, size_t base_len, uint32_t *bfimax);

/*
 * Days until half is left, of a flow that keeps p thousandths (1 to 999) of itself from each day to the next: the least
 * n of at least 1 with 2 * p^n at most 1000^n.
 *
 * Refuses: 12.
 * On 0: *days is n, 1 to 693.
 * A recession ratio is in ten-thousandths. Rounded down and up to thousandths it gives two half-lives, and the river's
 * lies between them: ratio 9849 lies between p 984 and 985, so half is left after 43 to 46 days. The closer p is to
 * 1000, the more a thousandth is worth: from 998 to 999 it is 347 and 693 days.
 *   baseflow_half_life(ratio / 10, &fewest);
 *   baseflow_half_life((ratio + 9) / 10, &most);
 * Signature since 6.2.0.
 */
uint32_t baseflow_half_life(uint32_t p, uint32_t *days);

/*
 * The day that a flow meter's reading says: the litre a second nearest to the exact value of the float that it sends, at a
 * half the even one (2.5 litres is 2, 3.5 is 4), or a missing day.
 * The bytes are one reading and nothing else: kind 01, then a binary32 of IEEE 754, low byte first, in cubic metres a
 * second; kind 02, then such a float in litres a second; or kind 03 alone, no reading.
 *
 * Refuses: 1 (no bytes), 2, 1 (a float cut short), 8, 26, 27.
 * On 0: *day is what a day list has: the flow, or BASEFLOW_MISSING for no reading. Negative zero is 0.
 * The distance that a filter keeps from the exact run is counted from this day, and not from the float.
 * Signature since 6.3.0.
 */
uint32_t baseflow_meter(const uint8_t *bytes, size_t bytes_len, uint32_t *day);

/*
 * Replays a river against the licence of a pump: on each day with a base value the pump takes the smallest of the daily
 * limit, of the flow less the base in whole litres (the base rounded up to a whole one), and of the quota that is left; on
 * every other day it takes 0. Limit, takings and quota are in litres a second, the quota summed over days.
 *
 * Refuses: 31, 9, 14 (base list or takings list not as long as the day list), 10, 20.
 * On 0: takings are written in full, and *quota_left is the quota less all of them. On no day is flow less taking below
 * base. To go on with more days later, hand *quota_left over as their quota.
 * Signature since 6.7.0.
 */
uint32_t baseflow_licence(uint32_t daily_limit, uint64_t quota, const uint32_t *days, size_t days_len,
                          const uint64_t *base, size_t base_len, uint32_t *takings, size_t takings_len,
                          uint64_t *quota_left);

/* ---- Days as flows and presence bits
 *
 * A second form of a day list, for whoever scans for gaps: `flows` has a number a day, 0 on a missing one, and `words` one
 * bit a day: bit i mod 64, the lowest first, of word i / 64 is one where day i is present. Bits past the last day are zero,
 * and there are (days + 63) / 64 words.
 */

/*
 * The form of a day list.
 *
 * Refuses: 9, 14 (flows not as long as days), 28 (the number of words alone), 10.
 * On 0: flows and words are written in full, *present is the number of present days: the ones in the words.
 * Signature since 6.4.0.
 */
uint32_t baseflow_to_bits(const uint32_t *days, size_t days_len, uint32_t *flows, size_t flows_len, uint64_t *words,
                          size_t words_len, uint32_t *present);

/*
 * The day list of a form.
 *
 * Refuses: 9, 14 (days not as long as flows), 28, 10 (under a one a number above 10,000,000, BASEFLOW_MISSING too).
 * On 0: days is written in full, *present is the number of present days: the ones in the words.
 * Signature since 6.4.0.
 */
uint32_t baseflow_from_bits(const uint32_t *flows, size_t flows_len, const uint64_t *words, size_t words_len,
                            uint32_t *days, size_t days_len, uint32_t *present);

/*
 * The calls over a day list, over flows and words in its place: over a form that converts, each answers and writes what its
 * sister does over the days of that form. Each refuses in its sister's order, with 28 just before 10; its 14 compares base
 * with flows. The days are laid out on the call's own stack (see "What the caller gets").
 * Signatures since 6.4.0, that of baseflow_filter_from_bits since 6.5.0.
 */
uint32_t baseflow_filter_bits(uint32_t method, uint32_t p, uint32_t q, int32_t s, uint32_t passes, const uint32_t *flows,
                              size_t flows_len, const uint64_t *words, size_t words_len, uint64_t *base,
                              size_t base_len);
uint32_t baseflow_filter_from_bits(uint32_t method, uint32_t p, uint32_t q, int32_t s, uint32_t passes, uint64_t start,
                                   const uint32_t *flows, size_t flows_len, const uint64_t *words, size_t words_len,
                                   uint64_t *base, size_t base_len);
uint32_t baseflow_line_bits(uint32_t block_days, uint32_t factor, const uint32_t *flows, size_t flows_len,
                            const uint64_t *words, size_t words_len, uint64_t *base, size_t base_len);
uint32_t baseflow_staggered_bits(uint32_t block_days, uint32_t factor, uint32_t choice, const uint32_t *flows,
                                 size_t flows_len, const uint64_t *words, size_t words_len, uint64_t *base,
                                 size_t base_len, uint64_t *work, size_t work_len);
uint32_t baseflow_totals_bits(const uint32_t *flows, size_t flows_len, const uint64_t *words, size_t words_len,
                              const uint64_t *base, size_t base_len, uint32_t *base_days, uint64_t *flow_total,
                              uint64_t *base_total, uint64_t *quick_total, uint32_t *index);
uint32_t baseflow_recession_bits(uint32_t limb_days, const uint32_t *flows, size_t flows_len, const uint64_t *words,
                                 size_t words_len, const uint64_t *base, size_t base_len, uint32_t *limbs,
                                 size_t limbs_len, uint32_t *ratio_count, uint32_t *ratio);
uint32_t baseflow_bfimax_bits(uint32_t last_day, uint32_t duration, uint32_t p, const uint32_t *flows, size_t flows_len,
                              const uint64_t *words, size_t words_len, uint64_t *base, size_t base_len,
                              uint32_t *bfimax);

#ifdef __cplusplus
}
#endif

#endif
