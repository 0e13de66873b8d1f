// How often each refusal of each call, and each branch of an accepted one, was hit. A branch that no case has hit makes
// tests/differential fail.
#include <inttypes.h>
#include <stdio.h>

#include "differential.h"
#include "reference.h"

// What a call over presence bits has besides its refusals of its own: as many rows, in this order, for each.
#define OVER_BITS(X, id, call)                                                                                         \
    X(id##_9, call, "refused 9")                                                                                       \
    X(id##_9_WORDS, call, "refused 9, where 28 holds too")                                                             \
    X(id##_14_SHORT, call, "refused 14, the other list short")                                                         \
    X(id##_14_LONG, call, "refused 14, the other list long")                                                           \
    X(id##_14_WORDS, call, "refused 14, where 28 holds too")                                                           \
    X(id##_28_FEW, call, "refused 28, a word too few")                                                                 \
    X(id##_28_MANY, call, "refused 28, a word too many")                                                               \
    X(id##_28_END, call, "refused 28, a one past the end alone")                                                       \
    X(id##_28_END_NEXT, call, "refused 28, a one just past the end alone")                                             \
    X(id##_28_FLOW, call, "refused 28, a flow under a zero bit alone")                                                 \
    X(id##_28_DAY, call, "refused 28, where 10 holds too")                                                             \
    X(id##_10_MARK, call, "refused 10, the mark under a one bit")                                                      \
    X(id##_10_OTHER, call, "refused 10, another number under a one bit")                                               \
    X(id##_GAPS, call, "accepted, absent days in several words")                                                       \
    X(id##_PLAIN, call, "accepted, no absent day")

#define BRANCHES(X)                                                                                                    \
    X(READ_1_EMPTY, "read", "refused 1, no bytes")                                                                     \
    X(READ_1_HEAD, "read", "refused 1, head cut")                                                                      \
    X(READ_1_FLOW, "read", "refused 1, flow cut")                                                                      \
    X(READ_1_GAP, "read", "refused 1, missing days cut")                                                               \
    X(READ_1_END, "read", "refused 1, end cut")                                                                        \
    X(READ_1_NO_END, "read", "refused 1, no end")                                                                      \
    X(READ_2_FIRST, "read", "refused 2, first kind")                                                                   \
    X(READ_2_LATER, "read", "refused 2, later kind")                                                                   \
    X(READ_3_FIRST, "read", "refused 3, first no head")                                                                \
    X(READ_3_LATER, "read", "refused 3, later head")                                                                   \
    X(READ_4_HEAD, "read", "refused 4, first day")                                                                     \
    X(READ_4_HEAD_NEXT, "read", "refused 4, first day 100,000")                                                        \
    X(READ_4_FLOW, "read", "refused 4, flow")                                                                          \
    X(READ_4_FLOW_NEXT, "read", "refused 4, flow 10,000,001")                                                          \
    X(READ_4_FLOW_MARK, "read", "refused 4, flow is the mark")                                                         \
    X(READ_4_GAP, "read", "refused 4, no missing days")                                                                \
    X(READ_5_FLOW, "read", "refused 5, at a flow")                                                                     \
    X(READ_5_ONE, "read", "refused 5, at a missing day")                                                               \
    X(READ_5_GAP, "read", "refused 5, at missing days")                                                                \
    X(READ_6_FLOW, "read", "refused 6, at a flow")                                                                     \
    X(READ_6_ONE, "read", "refused 6, at a missing day")                                                               \
    X(READ_6_GAP, "read", "refused 6, at missing days")                                                                \
    X(READ_7_LOW, "read", "refused 7, count low")                                                                      \
    X(READ_7_HIGH, "read", "refused 7, count high")                                                                    \
    X(READ_8, "read", "refused 8")                                                                                     \
    X(READ_NO_DAY, "read", "accepted, no day")                                                                         \
    X(READ_FLOWS, "read", "accepted, flows")                                                                           \
    X(READ_ONES, "read", "accepted, single missing days")                                                              \
    X(READ_GAPS, "read", "accepted, missing days")                                                                     \
    X(READ_LAST_FIRST, "read", "accepted, first day 99,999")                                                           \
    X(READ_MOST_FLOW, "read", "accepted, flow 10,000,000")                                                             \
    X(READ_MOST_DAYS, "read", "accepted, 36,525 days")                                                                 \
    X(READ_FULL, "read", "accepted, list filled")                                                                      \
    X(READ_REST, "read", "accepted, rest of list left")                                                                \
    X(READ_WRITTEN, "read", "accepted, then written in as many bytes")                                                 \
    X(READ_SHORTER, "read", "accepted, then written in fewer")                                                         \
    X(READ_LONGER, "read", "accepted, then written in more")                                                           \
    X(WRITE_9, "write", "refused 9")                                                                                   \
    X(WRITE_9_NEXT, "write", "refused 9, 36,526 days")                                                                 \
    X(WRITE_9_FIRST, "write", "refused 9, where 4 holds too")                                                          \
    X(WRITE_9_DAY, "write", "refused 9, where 10 holds too")                                                           \
    X(WRITE_9_ROOM, "write", "refused 9, where 30 holds too")                                                          \
    X(WRITE_4_NEXT, "write", "refused 4, first day 100,000")                                                           \
    X(WRITE_4_MOST, "write", "refused 4, first day 2^32 - 1")                                                          \
    X(WRITE_4_DAY, "write", "refused 4, where 10 holds too")                                                           \
    X(WRITE_4_ROOM, "write", "refused 4, where 30 holds too")                                                          \
    X(WRITE_10_NEXT, "write", "refused 10, flow 10,000,001")                                                           \
    X(WRITE_10_MARK, "write", "refused 10, one below the mark")                                                        \
    X(WRITE_10_LAST, "write", "refused 10, the last day alone")                                                        \
    X(WRITE_10_ROOM, "write", "refused 10, where 30 holds too")                                                        \
    X(WRITE_30_NEXT, "write", "refused 30, a byte short")                                                              \
    X(WRITE_30_END, "write", "refused 30, room for all but the end")                                                   \
    X(WRITE_30_EMPTY, "write", "refused 30, no byte")                                                                  \
    X(WRITE_30_NO_DAY, "write", "refused 30, no day")                                                                  \
    X(WRITE_30_GAPS, "write", "refused 30, gaps alone")                                                                \
    X(WRITE_30_MOST, "write", "refused 30, 36,525 days")                                                               \
    X(WRITE_NO_DAY, "write", "accepted, no day")                                                                       \
    X(WRITE_FIRST_0, "write", "accepted, first day 0")                                                                 \
    X(WRITE_FIRST_LAST, "write", "accepted, first day 99,999")                                                         \
    X(WRITE_MOST_FLOW, "write", "accepted, flow 10,000,000")                                                           \
    X(WRITE_DRY, "write", "accepted, flow 0")                                                                          \
    X(WRITE_FLOWS, "write", "accepted, no gap")                                                                        \
    X(WRITE_GAPS, "write", "accepted, several gaps")                                                                   \
    X(WRITE_1_WHOLE, "write", "accepted, a gap of 1 day alone")                                                        \
    X(WRITE_1_START, "write", "accepted, a gap of 1 day at the start")                                                 \
    X(WRITE_1_MIDDLE, "write", "accepted, a gap of 1 day between flows")                                               \
    X(WRITE_1_END, "write", "accepted, a gap of 1 day at the end")                                                     \
    X(WRITE_2_WHOLE, "write", "accepted, a gap of 2 days alone")                                                       \
    X(WRITE_2_START, "write", "accepted, a gap of 2 days at the start")                                                \
    X(WRITE_2_MIDDLE, "write", "accepted, a gap of 2 days between flows")                                              \
    X(WRITE_2_END, "write", "accepted, a gap of 2 days at the end")                                                    \
    X(WRITE_3_WHOLE, "write", "accepted, a longer gap alone")                                                          \
    X(WRITE_3_START, "write", "accepted, a longer gap at the start")                                                   \
    X(WRITE_3_MIDDLE, "write", "accepted, a longer gap between flows")                                                 \
    X(WRITE_3_END, "write", "accepted, a longer gap at the end")                                                       \
    X(WRITE_GAP_3, "write", "accepted, a gap of 3 days")                                                               \
    X(WRITE_GAP_255, "write", "accepted, a gap of 255 days")                                                           \
    X(WRITE_GAP_256, "write", "accepted, a gap of 256 days")                                                           \
    X(WRITE_GAP_257, "write", "accepted, a gap of 257 days")                                                           \
    X(WRITE_GAP_512, "write", "accepted, a gap of 512 days")                                                           \
    X(WRITE_GAP_MOST, "write", "accepted, a gap of 36,525 days")                                                       \
    X(WRITE_MOST_DAYS, "write", "accepted, 36,525 days")                                                               \
    X(WRITE_MOST_BYTES, "write", "accepted, 36,525 days without a gap")                                                \
    X(WRITE_FULL, "write", "accepted, output filled")                                                                  \
    X(WRITE_ONE_LEFT, "write", "accepted, a byte behind the record")                                                   \
    X(WRITE_REST, "write", "accepted, more bytes behind it")                                                           \
    X(FILTER_11, "filter", "refused 11")                                                                               \
    X(FILTER_12_P_LOW, "filter", "refused 12, p low")                                                                  \
    X(FILTER_12_P_HIGH, "filter", "refused 12, p high")                                                                \
    X(FILTER_12_P_3333, "filter", "refused 12, method 2 with p 3333")                                                  \
    X(FILTER_12_Q_LOW, "filter", "refused 12, q low")                                                                  \
    X(FILTER_12_Q_HIGH, "filter", "refused 12, q high")                                                                \
    X(FILTER_12_Q_GIVEN, "filter", "refused 12, q not 0")                                                              \
    X(FILTER_12_S_LOW, "filter", "refused 12, s low")                                                                  \
    X(FILTER_12_S_HIGH, "filter", "refused 12, s high")                                                                \
    X(FILTER_12_S_NEXT, "filter", "refused 12, s -10000 or 10000")                                                     \
    X(FILTER_12_S_LEAST, "filter", "refused 12, s -2^31")                                                              \
    X(FILTER_12_S_GIVEN, "filter", "refused 12, s in a method without it")                                             \
    X(FILTER_13_NONE, "filter", "refused 13, no pass")                                                                 \
    X(FILTER_13_FOUR, "filter", "refused 13, over 3")                                                                  \
    X(FILTER_13_OTHER, "filter", "refused 13, over 1 outside method 1")                                                \
    X(FILTER_9, "filter", "refused 9")                                                                                 \
    X(FILTER_14_SHORT, "filter", "refused 14, base short")                                                             \
    X(FILTER_14_LONG, "filter", "refused 14, base long")                                                               \
    X(FILTER_10, "filter", "refused 10")                                                                               \
    X(FILTER_1_1, "filter", "method 1, one pass")                                                                      \
    X(FILTER_1_2, "filter", "method 1, two passes")                                                                    \
    X(FILTER_1_3, "filter", "method 1, three passes")                                                                  \
    X(FILTER_2, "filter", "method 2")                                                                                  \
    X(FILTER_3, "filter", "method 3")                                                                                  \
    X(FILTER_4, "filter", "method 4")                                                                                  \
    X(FILTER_5, "filter", "method 5")                                                                                  \
    X(FILTER_6, "filter", "method 6")                                                                                  \
    X(FILTER_7, "filter", "method 7")                                                                                  \
    X(FILTER_7_ABOVE, "filter", "method 7, s above zero")                                                              \
    X(FILTER_7_BELOW, "filter", "method 7, s below zero")                                                              \
    X(FILTER_7_ENDS, "filter", "method 7, s -9999 or 9999")                                                            \
    X(FILTER_7_AT_ZERO, "filter", "method 7, a day kept at zero")                                                      \
    X(FILTER_7_AFTER_ZERO, "filter", "method 7, base on the day after one kept at zero")                               \
    X(FILTER_7_CAPPED, "filter", "method 7, a day held to the flow")                                                   \
    X(FILTER_1_HALF_BELOW, "filter", "method 1, a quotient at a half, even below")                                     \
    X(FILTER_1_HALF_ABOVE, "filter", "method 1, a quotient at a half, even above")                                     \
    X(FILTER_2_HALF_BELOW, "filter", "method 2, a quotient at a half, even below")                                     \
    X(FILTER_2_HALF_ABOVE, "filter", "method 2, a quotient at a half, even above")                                     \
    X(FILTER_3_HALF_BELOW, "filter", "method 3, a quotient at a half, even below")                                     \
    X(FILTER_3_HALF_ABOVE, "filter", "method 3, a quotient at a half, even above")                                     \
    X(FILTER_4_HALF_BELOW, "filter", "method 4, a quotient at a half, even below")                                     \
    X(FILTER_4_HALF_ABOVE, "filter", "method 4, a quotient at a half, even above")                                     \
    X(FILTER_5_HALF_BELOW, "filter", "method 5, a quotient at a half, even below")                                     \
    X(FILTER_5_HALF_ABOVE, "filter", "method 5, a quotient at a half, even above")                                     \
    X(FILTER_6_HALF_BELOW, "filter", "method 6, a quotient at a half, even below")                                     \
    X(FILTER_6_HALF_ABOVE, "filter", "method 6, a quotient at a half, even above")                                     \
    X(FILTER_7_HALF_BELOW, "filter", "method 7, a quotient at a half, even below")                                     \
    X(FILTER_7_HALF_ABOVE, "filter", "method 7, a quotient at a half, even above")                                     \
    X(FILTER_PASS_2_HALF_BELOW, "filter", "pass 2, a quotient at a half, even below")                                  \
    X(FILTER_PASS_2_HALF_ABOVE, "filter", "pass 2, a quotient at a half, even above")                                  \
    X(FILTER_PASS_3_HALF_BELOW, "filter", "pass 3, a quotient at a half, even below")                                  \
    X(FILTER_PASS_3_HALF_ABOVE, "filter", "pass 3, a quotient at a half, even above")                                  \
    X(FILTER_START_HALF_BELOW, "filter", "method 5, a start at a half, even below")                                    \
    X(FILTER_START_HALF_ABOVE, "filter", "method 5, a start at a half, even above")                                    \
    X(FILTER_NO_DAY, "filter", "accepted, no day")                                                                     \
    X(FILTER_ALL_MISSING, "filter", "accepted, all missing")                                                           \
    X(FILTER_GAPS, "filter", "accepted, several stretches")                                                            \
    X(FILTER_CAPPED, "filter", "accepted, base held to the flow")                                                      \
    X(FILTER_MOST_DAYS, "filter", "accepted, 36,525 days")                                                             \
    X(FROM_11, "filter_from", "refused 11")                                                                            \
    X(FROM_12, "filter_from", "refused 12")                                                                            \
    X(FROM_13, "filter_from", "refused 13")                                                                            \
    X(FROM_9, "filter_from", "refused 9")                                                                              \
    X(FROM_14_SHORT, "filter_from", "refused 14, base short")                                                          \
    X(FROM_14_LONG, "filter_from", "refused 14, base long")                                                            \
    X(FROM_14_START, "filter_from", "refused 14, where 29 holds too")                                                  \
    X(FROM_10, "filter_from", "refused 10, where 29 does not hold")                                                    \
    X(FROM_10_START, "filter_from", "refused 10, where 29 holds too")                                                  \
    X(FROM_29_NEXT, "filter_from", "refused 29, 1000 x the first flow + 1")                                            \
    X(FROM_29_FAR, "filter_from", "refused 29, start above 10^10")                                                     \
    X(FROM_29_MOST, "filter_from", "refused 29, start 2^64 - 1")                                                       \
    X(FROM_29_BITS, "filter_from", "refused 29, the lowest 32 bits not above")                                         \
    X(FROM_29_DRY, "filter_from", "refused 29, first flow 0")                                                          \
    X(FROM_29_GAP, "filter_from", "refused 29, first day missing")                                                     \
    X(FROM_29_LATER, "filter_from", "refused 29, taken by a later stretch")                              \
    X(FROM_1_1, "filter_from", "method 1, one pass")                                                                   \
    X(FROM_1_2, "filter_from", "method 1, two passes")                                                                 \
    X(FROM_1_3, "filter_from", "method 1, three passes")                                                               \
    X(FROM_2, "filter_from", "method 2")                                                                               \
    X(FROM_3, "filter_from", "method 3")                                                                               \
    X(FROM_4, "filter_from", "method 4")                                                                               \
    X(FROM_5, "filter_from", "method 5")                                                                               \
    X(FROM_6, "filter_from", "method 6")                                                                               \
    X(FROM_7, "filter_from", "method 7")                                                                               \
    X(FROM_0, "filter_from", "accepted, start 0, first flow above 0")                                                  \
    X(FROM_WHOLE, "filter_from", "accepted, start 1000 x the first flow")                                              \
    X(FROM_LARGE, "filter_from", "accepted, start above 2^32")                                                         \
    X(FROM_DRY, "filter_from", "accepted, first flow 0")                                                               \
    X(FROM_NO_DAY, "filter_from", "accepted, no day")                                                                  \
    X(FROM_ALL_MISSING, "filter_from", "accepted, all missing")                                                        \
    X(FROM_ALL_MISSING_FAR, "filter_from", "accepted, all missing, start above 10^10")                                 \
    X(FROM_GAP, "filter_from", "accepted, first day missing")                                                          \
    X(FROM_GAPS, "filter_from", "accepted, several stretches")                                                         \
    X(FROM_ABOVE_LATER, "filter_from", "accepted, above a later first flow")                                 \
    X(FROM_ONE_DAY, "filter_from", "accepted, first stretch of one day")                                               \
    X(FROM_CAPPED, "filter_from", "accepted, the day after held to the flow")                                          \
    X(FROM_AT_ZERO, "filter_from", "method 7, the day after kept at zero")                                             \
    X(FROM_SEEN, "filter_from", "accepted, seen up to the stretch's last day")                                         \
    X(FROM_FORGOTTEN, "filter_from", "accepted, forgotten by then")                                                    \
    X(FROM_2_SEEN, "filter_from", "two passes, seen on the first day")                                                 \
    X(FROM_2_FORGOTTEN, "filter_from", "two passes, not seen on any day")                                              \
    X(FROM_3_LOWER, "filter_from", "three passes, first day below the start")                                          \
    X(FROM_MOST_DAYS, "filter_from", "accepted, 36,525 days")                                                          \
    X(STEP_11, "step", "refused 11")                                                                                   \
    X(STEP_12, "step", "refused 12")                                                                                   \
    X(STEP_12_S_LOW, "step", "refused 12, s low")                                                                      \
    X(STEP_12_S_HIGH, "step", "refused 12, s high")                                                                    \
    X(STEP_12_S_GIVEN, "step", "refused 12, s in a method without it")                                                 \
    X(STEP_15_FLOW, "step", "refused 15, flow")                                                                        \
    X(STEP_15_BASE, "step", "refused 15, base")                                                                        \
    X(STEP_15_NEXT, "step", "refused 15, base 1000 x flow + 1")                                                        \
    X(STEP_10, "step", "refused 10")                                                                                   \
    X(STEP_1_FRESH, "step", "method 1, fresh")                                                                         \
    X(STEP_2_FRESH, "step", "method 2, fresh")                                                                         \
    X(STEP_3_FRESH, "step", "method 3, fresh")                                                                         \
    X(STEP_4_FRESH, "step", "method 4, fresh")                                                                         \
    X(STEP_5_FRESH, "step", "method 5, fresh")                                                                         \
    X(STEP_6_FRESH, "step", "method 6, fresh")                                                                         \
    X(STEP_7_FRESH, "step", "method 7, fresh")                                                                         \
    X(STEP_1_AFTER, "step", "method 1, yesterday")                                                                     \
    X(STEP_2_AFTER, "step", "method 2, yesterday")                                                                     \
    X(STEP_3_AFTER, "step", "method 3, yesterday")                                                                     \
    X(STEP_4_AFTER, "step", "method 4, yesterday")                                                                     \
    X(STEP_5_AFTER, "step", "method 5, yesterday")                                                                     \
    X(STEP_6_AFTER, "step", "method 6, yesterday")                                                                     \
    X(STEP_7_AFTER, "step", "method 7, yesterday")                                                                     \
    X(STEP_7_ABOVE, "step", "method 7, s above zero")                                                                  \
    X(STEP_7_AT_ZERO, "step", "method 7, kept at zero")                                                                \
    X(STEP_7_CAPPED, "step", "method 7, held to the flow")                                                             \
    X(STEP_START_HALF_BELOW, "step", "method 5, a start at a half, even below")                                        \
    X(STEP_START_HALF_ABOVE, "step", "method 5, a start at a half, even above")                                        \
    X(STEP_HALF_BELOW, "step", "a quotient at a half, even below")                                                     \
    X(STEP_HALF_ABOVE, "step", "a quotient at a half, even above")                                                     \
    X(STEP_MISSING_FRESH, "step", "missing day, fresh")                                                                \
    X(STEP_MISSING_AFTER, "step", "missing day, yesterday")                                                            \
    X(STEP_FRESH_UNREAD, "step", "fresh beside an impossible flow or base")                                            \
    X(STEP_OTHER_MARK, "step", "yesterday marked by another number than 1")                                            \
    X(STEPS_1, "steps", "method 1")                                                                                    \
    X(STEPS_2, "steps", "method 2")                                                                                    \
    X(STEPS_3, "steps", "method 3")                                                                                    \
    X(STEPS_4, "steps", "method 4")                                                                                    \
    X(STEPS_5, "steps", "method 5")                                                                                    \
    X(STEPS_6, "steps", "method 6")                                                                                    \
    X(STEPS_7, "steps", "method 7")                                                                                    \
    X(STEPS_MOST_DAYS, "steps", "36,525 days")                                                                         \
    X(LINE_16_N_LOW, "line", "refused 16, N low")                                                                      \
    X(LINE_16_N_HIGH, "line", "refused 16, N high")                                                                    \
    X(LINE_16_G_LOW, "line", "refused 16, g low")                                                                      \
    X(LINE_16_G_HIGH, "line", "refused 16, g high")                                                                    \
    X(LINE_9, "line", "refused 9")                                                                                     \
    X(LINE_14_SHORT, "line", "refused 14, base short")                                                                 \
    X(LINE_14_LONG, "line", "refused 14, base long")                                                                   \
    X(LINE_10, "line", "refused 10")                                                                                   \
    X(LINE_17_NO_TURN, "line", "refused 17, no turning point")                                                         \
    X(LINE_17_ONE_TURN, "line", "refused 17, one turning point")                                                       \
    X(LINE_17_APART, "line", "refused 17, one in each of several stretches")                                           \
    X(LINE_ONE, "line", "accepted, two turning points")                                                                \
    X(LINE_MANY, "line", "accepted, more in a stretch")                                                                \
    X(LINE_STRETCHES, "line", "accepted, lines in several stretches")                                                  \
    X(LINE_TIE, "line", "accepted, a block's minimum twice")                                                           \
    X(LINE_ALMOST, "line", "accepted, g x middle equal to 10000 x outer")                                              \
    X(LINE_DRY, "line", "accepted, a dry block between wet ones")                                                      \
    X(LINE_DRY_SPELL, "line", "accepted, a dry block beside another")                                                  \
    X(LINE_DRY_OUTSIDE, "line", "accepted, a wet block beside a dry one")                                              \
    X(LINE_17_DRY, "line", "refused 17, though a day is dry")                                                          \
    X(LINE_DROPPED, "line", "accepted, last block incomplete")                                                         \
    X(LINE_CAPPED, "line", "accepted, line held to the flow")                                                          \
    X(LINE_HALF_BELOW, "line", "accepted, a line at a half, even below")                                               \
    X(LINE_HALF_ABOVE, "line", "accepted, a line at a half, even above")                                               \
    X(LINE_N_1, "line", "accepted, N 1")                                                                               \
    X(LINE_N_30, "line", "accepted, N 30")                                                                             \
    X(LINE_MOST_DAYS, "line", "accepted, 36,525 days")                                                                 \
    X(TOTALS_9, "totals", "refused 9")                                                                                 \
    X(TOTALS_14_SHORT, "totals", "refused 14, base short")                                                             \
    X(TOTALS_14_LONG, "totals", "refused 14, base long")                                                               \
    X(TOTALS_10, "totals", "refused 10")                                                                               \
    X(TOTALS_20_MISSING, "totals", "refused 20, on a missing day")                                                     \
    X(TOTALS_20_ABOVE, "totals", "refused 20, above the flow")                                                         \
    X(TOTALS_20_NEXT, "totals", "refused 20, 1000 x flow + 1")                                                         \
    X(TOTALS_21_NO_VALUE, "totals", "refused 21, no value")                                                            \
    X(TOTALS_21_DRY, "totals", "refused 21, dry days")                                                                 \
    X(TOTALS_ALL, "totals", "accepted, value on all days")                                                             \
    X(TOTALS_SOME, "totals", "accepted, value on some days")                                                           \
    X(TOTALS_INDEX_0, "totals", "accepted, index 0")                                                                   \
    X(TOTALS_INDEX_MOST, "totals", "accepted, index 10,000")                                                           \
    X(TOTALS_HALF_BELOW, "totals", "accepted, index at a half, even below")                                            \
    X(TOTALS_HALF_ABOVE, "totals", "accepted, index at a half, even above")                                            \
    X(TOTALS_MOST_DAYS, "totals", "accepted, 36,525 days")                                                             \
    X(STAGGERED_16_N, "staggered", "refused 16, N")                                                                    \
    X(STAGGERED_16_G, "staggered", "refused 16, g")                                                                    \
    X(STAGGERED_16_CHOICE_LOW, "staggered", "refused 16, choice 0")                                                    \
    X(STAGGERED_16_CHOICE_HIGH, "staggered", "refused 16, choice 4 or more")                                           \
    X(STAGGERED_16_AND_9, "staggered", "refused 16 for the choice, though 9 holds")                                    \
    X(STAGGERED_9, "staggered", "refused 9")                                                                           \
    X(STAGGERED_14, "staggered", "refused 14")                                                                         \
    X(STAGGERED_14_AND_25, "staggered", "refused 14, though 25 holds")                                                 \
    X(STAGGERED_25_SHORT, "staggered", "refused 25, work list short by one")                                           \
    X(STAGGERED_25_LONG, "staggered", "refused 25, work list long")                                                    \
    X(STAGGERED_25_ONE_LINE, "staggered", "refused 25, work list of one line")                                         \
    X(STAGGERED_25_AND_10, "staggered", "refused 25, though 10 holds")                                                 \
    X(STAGGERED_10, "staggered", "refused 10")                                                                         \
    X(STAGGERED_17, "staggered", "refused 17")                                                                         \
    X(STAGGERED_LOWEST, "staggered", "accepted, lowest")                                                               \
    X(STAGGERED_HIGHEST, "staggered", "accepted, highest")                                                             \
    X(STAGGERED_MEDIAN, "staggered", "accepted, median")                                                               \
    X(STAGGERED_N_1, "staggered", "accepted, N 1")                                                                     \
    X(STAGGERED_N_30, "staggered", "accepted, N 30")                                                                   \
    X(STAGGERED_NOT_FIRST, "staggered", "accepted, no line at shift 0")                                                \
    X(STAGGERED_ONLY_LAST, "staggered", "accepted, a line at the last shift alone")                                    \
    X(STAGGERED_ALL, "staggered", "accepted, a line at every shift, N over 1")                                         \
    X(STAGGERED_NONE, "staggered", "accepted, a day that no line has")                                                 \
    X(STAGGERED_ONE, "staggered", "accepted, a day that one line of several has")                                      \
    X(STAGGERED_EVEN, "staggered", "accepted, median of an even number of unlike values")                              \
    X(STAGGERED_ODD, "staggered", "accepted, median of an odd number of unlike values")                                \
    X(STAGGERED_SHORT_STRETCH, "staggered", "accepted, a stretch shorter than a shift")                                \
    X(STAGGERED_MOST_DAYS, "staggered", "accepted, 36,525 days")                                                       \
    X(HALF_LIFE_12_LOW, "half_life", "refused 12, p 0")                                                                \
    X(HALF_LIFE_12_HIGH, "half_life", "refused 12, p 1000 or more")                                                    \
    X(HALF_LIFE_ONE, "half_life", "accepted, one day")                                                                 \
    X(HALF_LIFE_500, "half_life", "accepted, p 500")                                                                   \
    X(HALF_LIFE_501, "half_life", "accepted, p 501")                                                                   \
    X(HALF_LIFE_1, "half_life", "accepted, p 1")                                                                       \
    X(HALF_LIFE_999, "half_life", "accepted, p 999")                                                                   \
    X(HALF_LIFE_LONG, "half_life", "accepted, over 100 days")                                                          \
    X(METER_1_EMPTY, "meter", "refused 1, no bytes")                                                                   \
    X(METER_1_ALONE, "meter", "refused 1, a kind alone")                                                               \
    X(METER_1_SHORT, "meter", "refused 1, three bytes of a float")                                                     \
    X(METER_2_0, "meter", "refused 2, kind 00")                                                                        \
    X(METER_2_4, "meter", "refused 2, kind 04")                                                                        \
    X(METER_2_MOST, "meter", "refused 2, kind ff")                                                                     \
    X(METER_2_SHORT, "meter", "refused 2, kind alone")                                                                 \
    X(METER_2_LONG, "meter", "refused 2, over five bytes")                                                             \
    X(METER_8, "meter", "refused 8, behind a float")                                                                   \
    X(METER_8_BAD, "meter", "refused 8, behind a float that 26 is for")                                                \
    X(METER_8_LARGE, "meter", "refused 8, behind a float that 27 is for")                                              \
    X(METER_8_NONE, "meter", "refused 8, behind no reading")                                                           \
    X(METER_26_INFINITE, "meter", "refused 26, infinity")                                                              \
    X(METER_26_INFINITE_BELOW, "meter", "refused 26, infinity below zero")                                             \
    X(METER_26_QUIET, "meter", "refused 26, a quiet NaN")                                                              \
    X(METER_26_QUIET_SIGN, "meter", "refused 26, a quiet NaN with a sign")                                             \
    X(METER_26_SIGNALLING, "meter", "refused 26, a signalling NaN")                                                    \
    X(METER_26_SIGNALLING_SIGN, "meter", "refused 26, a signalling NaN with a sign")                                   \
    X(METER_26_BELOW, "meter", "refused 26, below zero")                                                               \
    X(METER_26_BELOW_SUBNORMAL, "meter", "refused 26, a subnormal below zero")                                         \
    X(METER_26_BELOW_NEXT, "meter", "refused 26, the float next below zero")                                           \
    X(METER_26_BELOW_LARGE, "meter", "refused 26, below zero by over 10,000,000")                                      \
    X(METER_27_LITRES, "meter", "refused 27, litres")                                                                  \
    X(METER_27_CUBIC, "meter", "refused 27, cubic metres")                                                             \
    X(METER_27_LITRES_NEXT, "meter", "refused 27, litres, next above the limit")                                       \
    X(METER_27_CUBIC_NEXT, "meter", "refused 27, cubic metres, next above the limit")                                  \
    X(METER_27_MOST, "meter", "refused 27, the largest float")                                                         \
    X(METER_MISSING, "meter", "accepted, no reading")                                                                  \
    X(METER_LITRES, "meter", "accepted, litres")                                                                       \
    X(METER_CUBIC, "meter", "accepted, cubic metres")                                                                  \
    X(METER_ZERO, "meter", "accepted, zero")                                                                           \
    X(METER_MINUS_ZERO, "meter", "accepted, negative zero")                                                            \
    X(METER_SUBNORMAL, "meter", "accepted, a subnormal")                                                               \
    X(METER_TO_0, "meter", "accepted, 0 for over a quarter of a litre")                                                \
    X(METER_TO_1, "meter", "accepted, 1 for another number")                                                           \
    X(METER_LITRES_HALF_BELOW, "meter", "accepted, litres at a half, even below")                                      \
    X(METER_LITRES_HALF_ABOVE, "meter", "accepted, litres at a half, even above")                                      \
    X(METER_CUBIC_HALF_BELOW, "meter", "accepted, cubic metres at a half, even below")                                 \
    X(METER_CUBIC_HALF_ABOVE, "meter", "accepted, cubic metres at a half, even above")                                 \
    X(METER_LARGEST_HALF, "meter", "accepted, 8,388,607.5 litres")                                                     \
    X(METER_NO_FRACTION, "meter", "accepted, litres with no place for a fraction")                                     \
    X(METER_LITRES_MOST, "meter", "accepted, 10,000,000 litres")                                                       \
    X(METER_CUBIC_MOST, "meter", "accepted, 10,000 cubic metres")                                                      \
    X(LICENCE_31_LIMIT_NEXT, "licence", "refused 31, M 10,000,001")                                                    \
    X(LICENCE_31_LIMIT_MOST, "licence", "refused 31, M 2^32 - 1")                                                      \
    X(LICENCE_31_QUOTA_NEXT, "licence", "refused 31, Q 10^12 + 1")                                                     \
    X(LICENCE_31_QUOTA_MOST, "licence", "refused 31, Q 2^64 - 1")                                                      \
    X(LICENCE_31_BOTH, "licence", "refused 31, for M and for Q")                                                       \
    X(LICENCE_31_DAYS, "licence", "refused 31, where 9 holds too")                                                     \
    X(LICENCE_31_BASE, "licence", "refused 31, where 14 holds too, for the base list")                                 \
    X(LICENCE_31_TAKINGS, "licence", "refused 31, where 14 holds too, for the takings")                                \
    X(LICENCE_31_DAY, "licence", "refused 31, where 10 holds too")                                                     \
    X(LICENCE_31_VALUE, "licence", "refused 31, where 20 holds too")                                                   \
    X(LICENCE_9_NEXT, "licence", "refused 9, 36,526 days")                                                             \
    X(LICENCE_9_ALONE, "licence", "refused 9 alone")                                                                   \
    X(LICENCE_9_BASE, "licence", "refused 9, where 14 holds too, for the base list")                                   \
    X(LICENCE_9_TAKINGS, "licence", "refused 9, where 14 holds too, for the takings")                                  \
    X(LICENCE_9_DAY, "licence", "refused 9, where 10 holds too")                                                       \
    X(LICENCE_9_VALUE, "licence", "refused 9, where 20 holds too")                                                     \
    X(LICENCE_14_BASE_SHORT, "licence", "refused 14, base short alone")                                                \
    X(LICENCE_14_BASE_LONG, "licence", "refused 14, base long alone")                                                  \
    X(LICENCE_14_SHORT, "licence", "refused 14, takings short alone")                                                  \
    X(LICENCE_14_LONG, "licence", "refused 14, takings long alone")                                                    \
    X(LICENCE_14_SHORT_NEXT, "licence", "refused 14, takings short by one alone")                                      \
    X(LICENCE_14_LONG_NEXT, "licence", "refused 14, takings long by one alone")                                        \
    X(LICENCE_14_EMPTY, "licence", "refused 14, takings empty, base as the days")                                      \
    X(LICENCE_14_NO_DAY, "licence", "refused 14, takings for no day")                                                  \
    X(LICENCE_14_ALIKE, "licence", "refused 14, base and takings of the same length")                                  \
    X(LICENCE_14_BASE_DAY, "licence", "refused 14, base alone, where 10 holds too")                                    \
    X(LICENCE_14_BASE_VALUE, "licence", "refused 14, base alone, where 20 holds too")                                  \
    X(LICENCE_14_TAKINGS_DAY, "licence", "refused 14, takings alone, where 10 holds too")                              \
    X(LICENCE_14_TAKINGS_VALUE, "licence", "refused 14, takings alone, where 20 holds too")                            \
    X(LICENCE_10_NEXT, "licence", "refused 10, flow 10,000,001")                                                       \
    X(LICENCE_10_MARK, "licence", "refused 10, one below the mark")                                                    \
    X(LICENCE_10_LAST, "licence", "refused 10, the last day alone")                                                    \
    X(LICENCE_10_VALUE, "licence", "refused 10, where 20 holds too")                                                   \
    X(LICENCE_20_MISSING, "licence", "refused 20, on a missing day")                                                   \
    X(LICENCE_20_ABOVE, "licence", "refused 20, above the flow")                                                       \
    X(LICENCE_20_NEXT, "licence", "refused 20, 1000 x flow + 1")                                                       \
    X(LICENCE_20_LAST, "licence", "refused 20, the last day alone")                                                    \
    X(LICENCE_20_SPENT, "licence", "refused 20, behind the day on which Q runs out")                                   \
    X(LICENCE_20_NOTHING, "licence", "refused 20, though M or Q is 0")                                                 \
    X(LICENCE_NO_DAY, "licence", "accepted, no day")                                                                   \
    X(LICENCE_MOST_DAYS, "licence", "accepted, 36,525 days")                                                           \
    X(LICENCE_LIMIT_0, "licence", "accepted, M 0")                                                                     \
    X(LICENCE_LIMIT_MOST, "licence", "accepted, M 10,000,000")                                                         \
    X(LICENCE_QUOTA_0, "licence", "accepted, Q 0")                                                                     \
    X(LICENCE_QUOTA_MOST, "licence", "accepted, Q 10^12")                                                              \
    X(LICENCE_ALL_MISSING, "licence", "accepted, all missing")                                                         \
    X(LICENCE_ALL_NONE, "licence", "accepted, no value on a present day")                                              \
    X(LICENCE_ALL_TAKEN, "licence", "accepted, no litre of Q left")                                                    \
    X(LICENCE_ONE_LEFT, "licence", "accepted, one litre of Q left")                                                    \
    X(LICENCE_MUCH_LEFT, "licence", "accepted, over 2^32 litres of Q left")                                            \
    X(LICENCE_MUCH_TAKEN, "licence", "accepted, over 2^32 litres taken")                                               \
    X(LICENCE_BY_LIMIT, "licence", "accepted, M the smallest")                                                         \
    X(LICENCE_BY_SPARE, "licence", "accepted, flow less base the smallest")                                            \
    X(LICENCE_BY_QUOTA, "licence", "accepted, Q runs out within a day's amount")                                       \
    X(LICENCE_LIMIT_SPARE, "licence", "accepted, M equal to flow less base")                                           \
    X(LICENCE_LIMIT_QUOTA, "licence", "accepted, Q runs out on M")                                                     \
    X(LICENCE_SPARE_QUOTA, "licence", "accepted, Q runs out on flow less base")                                        \
    X(LICENCE_ALL_EQUAL, "licence", "accepted, Q runs out on M equal to flow less base")                               \
    X(LICENCE_LITRE, "licence", "accepted, Q runs out on a day of one litre")                                          \
    X(LICENCE_MOST, "licence", "accepted, 10,000,000 litres on a day")                                                 \
    X(LICENCE_SPENT, "licence", "accepted, a day with flow above base, Q spent")                                       \
    X(LICENCE_GAP, "licence", "accepted, Q runs out behind a missing day")                                             \
    X(LICENCE_MISSING, "licence", "accepted, a missing day")                                                           \
    X(LICENCE_NONE, "licence", "accepted, a present day without a value")                                              \
    X(LICENCE_AT_FLOW, "licence", "accepted, base equal to the flow")                                                  \
    X(LICENCE_DRY, "licence", "accepted, a dry day with a value")                                                      \
    X(LICENCE_NO_BASE, "licence", "accepted, base 0")                                                                  \
    X(LICENCE_WHOLE, "licence", "accepted, base of whole litres")                                                      \
    X(LICENCE_ABOVE_WHOLE, "licence", "accepted, base a thousandth above whole litres")                                \
    X(LICENCE_BELOW_WHOLE, "licence", "accepted, base a thousandth below whole litres")                                \
    X(LICENCE_LAST_LITRE, "licence", "accepted, base within the last litre of the flow")                               \
    X(RECESSION_18_LOW, "recession", "refused 18, L low")                                                              \
    X(RECESSION_18_HIGH, "recession", "refused 18, L high")                                                            \
    X(RECESSION_9, "recession", "refused 9")                                                                           \
    X(RECESSION_9_LENGTHS, "recession", "refused 9, where 14 holds too")                                               \
    X(RECESSION_14_SHORT, "recession", "refused 14, base short")                                                       \
    X(RECESSION_14_LONG, "recession", "refused 14, base long")                                                         \
    X(RECESSION_14_BY_ONE, "recession", "refused 14, base short or long by one")                                       \
    X(RECESSION_14_DAY, "recession", "refused 14, where 10 holds too")                                                 \
    X(RECESSION_10, "recession", "refused 10")                                                                         \
    X(RECESSION_10_VALUE, "recession", "refused 10, where 20 holds too")                                               \
    X(RECESSION_20_MISSING, "recession", "refused 20, on a missing day")                                               \
    X(RECESSION_20_MARK, "recession", "refused 20, 1000 x the mark on a missing day")                                  \
    X(RECESSION_20_ABOVE, "recession", "refused 20, above the flow")                                                   \
    X(RECESSION_20_NEXT, "recession", "refused 20, 1000 x flow + 1")                                                   \
    X(RECESSION_20_NO_LIMB, "recession", "refused 20, where 19 holds too")                                             \
    X(RECESSION_20_LIST, "recession", "refused 20, where 22 holds too")                                                \
    X(RECESSION_19_NO_LIMB, "recession", "refused 19, no limb")                                                        \
    X(RECESSION_19_SHORT, "recession", "refused 19, short limbs only")                                                 \
    X(RECESSION_19_NONE, "recession", "refused 19, no day at base")                                                    \
    X(RECESSION_19_FALL, "recession", "refused 19, a fall of L days not at base")                                      \
    X(RECESSION_22_NONE, "recession", "refused 22, empty list")                                                        \
    X(RECESSION_22_BY_ONE, "recession", "refused 22, short by one")                                                    \
    X(RECESSION_ODD, "recession", "accepted, odd k")                                                                   \
    X(RECESSION_EVEN, "recession", "accepted, even k")                                                                 \
    X(RECESSION_LIMBS, "recession", "accepted, several limbs")                                                         \
    X(RECESSION_EQUAL, "recession", "accepted, limbs of equal length")                                                 \
    X(RECESSION_ALL_EQUAL, "recession", "accepted, over 2 limbs, all of equal length")                                 \
    X(RECESSION_TWICE, "recession", "accepted, every length twice")                                                    \
    X(RECESSION_LONGER, "recession", "accepted, a longer limb behind a shorter one")                                   \
    X(RECESSION_LONGER_255, "recession", "accepted, longer limb behind one over 255 days")                             \
    X(RECESSION_RISING, "recession", "accepted, over 2 limbs, each longer than before")                                \
    X(RECESSION_FALLING, "recession", "accepted, over 2 lengths, found in order")                                      \
    X(RECESSION_LENGTHS, "recession", "accepted, over 100 lengths")                                                    \
    X(RECESSION_MOST_LENGTHS, "recession", "accepted, 268 lengths, the most there are")                                \
    X(RECESSION_MANY, "recession", "accepted, over 18,000 limbs")                                                      \
    X(RECESSION_MOST_LIMBS, "recession", "accepted, 18,262 limbs, the most there are")                                 \
    X(RECESSION_LONGEST, "recession", "accepted, a limb of 36,525 days")                                               \
    X(RECESSION_EXACT, "recession", "accepted, a limb of L days")                                                      \
    X(RECESSION_PASSED, "recession", "accepted, a shorter limb passed over")                                           \
    X(RECESSION_GAP, "recession", "accepted, a fall through a gap")                                                    \
    X(RECESSION_ALL, "recession", "accepted, every day at base")                                                       \
    X(RECESSION_ENDS_LOW, "recession", "accepted, a day below its flow ends a limb")                                   \
    X(RECESSION_ENDS_NONE, "recession", "accepted, a day without value ends a limb")                                   \
    X(RECESSION_ENDS_DRY, "recession", "accepted, a dry day without value ends a limb")                                \
    X(RECESSION_DRY, "recession", "accepted, a limb up to a dry day at base")                                          \
    X(RECESSION_GOES_ON, "recession", "accepted, a fall through a day not at base")                                    \
    X(RECESSION_BEGINS, "recession", "accepted, a limb behind a day not at base")                                      \
    X(RECESSION_RATIO_0, "recession", "accepted, ratio 0")                                                             \
    X(RECESSION_RATIO_MOST, "recession", "accepted, ratio 10,000")                                                     \
    X(RECESSION_HALF_BELOW, "recession", "accepted, the median at a half, even below")                                 \
    X(RECESSION_HALF_ABOVE, "recession", "accepted, the median at a half, even above")                                 \
    X(RECESSION_L_2, "recession", "accepted, L 2")                                                                     \
    X(RECESSION_L_60, "recession", "accepted, L 60")                                                                   \
    X(RECESSION_FULL, "recession", "accepted, list filled")                                                            \
    X(RECESSION_REST, "recession", "accepted, rest of list left")                                                      \
    X(RECESSION_MOST_DAYS, "recession", "accepted, 36,525 days")                                                       \
    X(BFIMAX_12_LOW, "bfimax", "refused 12, p 0")                                                                      \
    X(BFIMAX_12_HIGH, "bfimax", "refused 12, p high")                                                                  \
    X(BFIMAX_12_NEXT, "bfimax", "refused 12, p 10000")                                                                 \
    X(BFIMAX_23_NONE, "bfimax", "refused 23, D 0")                                                                     \
    X(BFIMAX_23_ONE, "bfimax", "refused 23, D 1")                                                                      \
    X(BFIMAX_23_HIGH, "bfimax", "refused 23, D high")                                                                  \
    X(BFIMAX_23_NEXT, "bfimax", "refused 23, D 3,651")                                                                 \
    X(BFIMAX_9, "bfimax", "refused 9")                                                                                 \
    X(BFIMAX_14_SHORT, "bfimax", "refused 14, base short")                                                             \
    X(BFIMAX_14_LONG, "bfimax", "refused 14, base long")                                                               \
    X(BFIMAX_10, "bfimax", "refused 10, on one of the D days")                                                         \
    X(BFIMAX_10_OUTSIDE, "bfimax", "refused 10, on another day alone")                                                 \
    X(BFIMAX_10_NO_SPELL, "bfimax", "refused 10, where 24 holds too")                                                  \
    X(BFIMAX_24_NO_DAY, "bfimax", "refused 24, no day in the list")                                                    \
    X(BFIMAX_24_BEHIND, "bfimax", "refused 24, last day behind the list")                                              \
    X(BFIMAX_24_BEHIND_NEXT, "bfimax", "refused 24, last day just behind the list")                                    \
    X(BFIMAX_24_BEHIND_MOST, "bfimax", "refused 24, last day 2^32 - 1")                                                \
    X(BFIMAX_24_BEFORE, "bfimax", "refused 24, D days begin before the list")                                          \
    X(BFIMAX_24_BEFORE_NEXT, "bfimax", "refused 24, D days begin one day before the list")                             \
    X(BFIMAX_24_LAST_0, "bfimax", "refused 24, last day 0")                                                            \
    X(BFIMAX_24_LAST, "bfimax", "refused 24, last day missing")                                                        \
    X(BFIMAX_24_FIRST, "bfimax", "refused 24, first of the D days missing")                                            \
    X(BFIMAX_24_BETWEEN, "bfimax", "refused 24, a day between them missing")                                           \
    X(BFIMAX_21, "bfimax", "refused 21, no day with flow in the list")                                                 \
    X(BFIMAX_21_OUTSIDE, "bfimax", "refused 21, flow on another day")                                                  \
    X(BFIMAX_D_2, "bfimax", "accepted, D 2")                                                                           \
    X(BFIMAX_D_MOST, "bfimax", "accepted, D 3,650")                                                                    \
    X(BFIMAX_P_1, "bfimax", "accepted, p 1")                                                                           \
    X(BFIMAX_P_9999, "bfimax", "accepted, p 9999")                                                                     \
    X(BFIMAX_ALL, "bfimax", "accepted, D days are the list")                                                           \
    X(BFIMAX_FROM_START, "bfimax", "accepted, from the list's first day")                                              \
    X(BFIMAX_TO_END, "bfimax", "accepted, up to the list's last day")                                                  \
    X(BFIMAX_OTHERS, "bfimax", "accepted, flow on days on either side")                                                \
    X(BFIMAX_GAP_BEFORE, "bfimax", "accepted, a missing day just before")                                              \
    X(BFIMAX_GAP_BEHIND, "bfimax", "accepted, a missing day just behind")                                              \
    X(BFIMAX_NEVER, "bfimax", "accepted, no day held to the flow")                                                     \
    X(BFIMAX_ALWAYS, "bfimax", "accepted, each day before held to the flow")                                           \
    X(BFIMAX_MIDDLE, "bfimax", "accepted, a day held, days on either side not")                                        \
    X(BFIMAX_BARELY, "bfimax", "accepted, held to the flow by less than a litre")                                      \
    X(BFIMAX_EQUAL, "bfimax", "accepted, quotient equal to the flow")                                                  \
    X(BFIMAX_LARGE, "bfimax", "accepted, a quotient above 10^13")                                                      \
    X(BFIMAX_HALF_BELOW, "bfimax", "accepted, a quotient at a half, even below")                                       \
    X(BFIMAX_HALF_ABOVE, "bfimax", "accepted, a quotient at a half, even above")                                       \
    X(BFIMAX_DRY_LAST, "bfimax", "accepted, last day dry")                                                             \
    X(BFIMAX_DRY_BETWEEN, "bfimax", "accepted, a dry day before one with a value")                                     \
    X(BFIMAX_ANSWER_0, "bfimax", "accepted, BFImax 0")                                                                 \
    X(BFIMAX_ANSWER_MOST, "bfimax", "accepted, BFImax 10,000")                                                         \
    X(BFIMAX_ANSWER_HALF_BELOW, "bfimax", "accepted, BFImax at a half, even below")                                    \
    X(BFIMAX_ANSWER_HALF_ABOVE, "bfimax", "accepted, BFImax at a half, even above")                                    \
    X(BFIMAX_MOST_DAYS, "bfimax", "accepted, 36,525 days")                                                             \
    X(BFIMAX_LATE, "bfimax", "accepted, D 3,650 at the end of 36,525 days")                                            \
    X(TO_BITS_9, "to_bits", "refused 9")                                                                               \
    X(TO_BITS_9_LENGTHS, "to_bits", "refused 9, where 14 holds too")                                                   \
    X(TO_BITS_14_SHORT, "to_bits", "refused 14, flows short")                                                          \
    X(TO_BITS_14_LONG, "to_bits", "refused 14, flows long")                                                            \
    X(TO_BITS_14_WORDS, "to_bits", "refused 14, where 28 holds too")                                                   \
    X(TO_BITS_28_FEW, "to_bits", "refused 28, a word too few")                                                         \
    X(TO_BITS_28_MANY, "to_bits", "refused 28, a word too many")                                                       \
    X(TO_BITS_28_PER_DAY, "to_bits", "refused 28, a word for each of several days")                                    \
    X(TO_BITS_28_NO_DAY, "to_bits", "refused 28, a word for no day")                                                   \
    X(TO_BITS_28_DAY, "to_bits", "refused 28, where 10 holds too")                                                     \
    X(TO_BITS_10, "to_bits", "refused 10")                                                                             \
    X(TO_BITS_10_NEXT, "to_bits", "refused 10, 10,000,001")                                                            \
    X(TO_BITS_10_LATE, "to_bits", "refused 10, the last day alone, in a further word")                                 \
    X(TO_BITS_DAYS_0, "to_bits", "accepted, no day")                                                                   \
    X(TO_BITS_DAYS_1, "to_bits", "accepted, 1 day")                                                                    \
    X(TO_BITS_DAYS_63, "to_bits", "accepted, 63 days")                                                                 \
    X(TO_BITS_DAYS_64, "to_bits", "accepted, 64 days")                                                                 \
    X(TO_BITS_DAYS_65, "to_bits", "accepted, 65 days")                                                                 \
    X(TO_BITS_DAYS_128, "to_bits", "accepted, 128 days")                                                               \
    X(TO_BITS_LONG, "to_bits", "accepted, over 1,000 days")                                                            \
    X(TO_BITS_MOST_DAYS, "to_bits", "accepted, 36,525 days")                                                           \
    X(TO_BITS_NONE, "to_bits", "accepted, every day absent")                                                           \
    X(TO_BITS_ALL, "to_bits", "accepted, every day present")                                                           \
    X(TO_BITS_BOTH, "to_bits", "accepted, absent and present days in a word")                                          \
    OVER_BITS(X, FROM_BITS, "from_bits")                                                                               \
    X(FROM_BITS_9_LENGTHS, "from_bits", "refused 9, where 14 holds too")                                               \
    X(FROM_BITS_28_PER_DAY, "from_bits", "refused 28, a word for each of several days")                                \
    X(FROM_BITS_28_NO_DAY, "from_bits", "refused 28, a word for no day")                                               \
    X(FROM_BITS_28_MARK, "from_bits", "refused 28, the mark under a zero bit")                                         \
    X(FROM_BITS_28_LIMIT, "from_bits", "refused 28, 10,000,001 under a zero bit")                                      \
    X(FROM_BITS_10_NEXT, "from_bits", "refused 10, 10,000,001 under a one bit")                                        \
    X(FROM_BITS_DAYS_0, "from_bits", "accepted, no day")                                                               \
    X(FROM_BITS_DAYS_1, "from_bits", "accepted, 1 day")                                                                \
    X(FROM_BITS_DAYS_63, "from_bits", "accepted, 63 days")                                                             \
    X(FROM_BITS_DAYS_64, "from_bits", "accepted, 64 days")                                                             \
    X(FROM_BITS_DAYS_65, "from_bits", "accepted, 65 days")                                                             \
    X(FROM_BITS_DAYS_128, "from_bits", "accepted, 128 days")                                                           \
    X(FROM_BITS_LONG, "from_bits", "accepted, over 1,000 days")                                                        \
    X(FROM_BITS_MOST_DAYS, "from_bits", "accepted, 36,525 days")                                                       \
    X(FROM_BITS_NONE, "from_bits", "accepted, every day absent")                                                       \
    X(FROM_BITS_ALL, "from_bits", "accepted, every day present")                                                       \
    X(FROM_BITS_BOTH, "from_bits", "accepted, absent and present days in a word")                                      \
    OVER_BITS(X, FILTER_BITS, "filter_bits")                                                                           \
    X(FILTER_BITS_11, "filter_bits", "refused 11, where 28 holds too")                                                 \
    X(FILTER_BITS_12, "filter_bits", "refused 12, where 28 holds too")                                                 \
    X(FILTER_BITS_13, "filter_bits", "refused 13, where 28 holds too")                                                 \
    OVER_BITS(X, LINE_BITS, "line_bits")                                                                               \
    X(LINE_BITS_16, "line_bits", "refused 16, where 28 holds too")                                                     \
    X(LINE_BITS_17, "line_bits", "refused 17")                                                                         \
    OVER_BITS(X, TOTALS_BITS, "totals_bits")                                                                           \
    X(TOTALS_BITS_20, "totals_bits", "refused 20")                                                                     \
    X(TOTALS_BITS_21, "totals_bits", "refused 21")                                                                     \
    OVER_BITS(X, RECESSION_BITS, "recession_bits")                                                                     \
    X(RECESSION_BITS_18, "recession_bits", "refused 18, where 28 holds too")                                           \
    X(RECESSION_BITS_20, "recession_bits", "refused 20")                                                               \
    X(RECESSION_BITS_19, "recession_bits", "refused 19")                                                               \
    X(RECESSION_BITS_22, "recession_bits", "refused 22")                                                               \
    OVER_BITS(X, BFIMAX_BITS, "bfimax_bits")                                                                           \
    X(BFIMAX_BITS_12, "bfimax_bits", "refused 12, where 28 holds too")                                                 \
    X(BFIMAX_BITS_23, "bfimax_bits", "refused 23, where 28 holds too")                                                 \
    X(BFIMAX_BITS_24, "bfimax_bits", "refused 24")                                                                     \
    X(BFIMAX_BITS_21, "bfimax_bits", "refused 21")                                                                     \
    OVER_BITS(X, STAGGERED_BITS, "staggered_bits")                                                                     \
    X(STAGGERED_BITS_16, "staggered_bits", "refused 16, where 28 holds too")                                           \
    X(STAGGERED_BITS_25, "staggered_bits", "refused 25, where 28 holds too")                                           \
    X(STAGGERED_BITS_17, "staggered_bits", "refused 17")                                                               \
    OVER_BITS(X, FILTER_FROM_BITS, "filter_from_bits")                                                                 \
    X(FILTER_FROM_BITS_11, "filter_from_bits", "refused 11, where 28 holds too")                                       \
    X(FILTER_FROM_BITS_12, "filter_from_bits", "refused 12, where 28 holds too")                                       \
    X(FILTER_FROM_BITS_13, "filter_from_bits", "refused 13, where 28 holds too")                                       \
    X(FILTER_FROM_BITS_29, "filter_from_bits", "refused 29")                                                           \
    X(FILTER_FROM_BITS_28_START, "filter_from_bits", "refused 28, where 29 holds too")                                 \
    X(FILTER_FROM_BITS_10_START, "filter_from_bits", "refused 10, where 29 holds too")                                 \
    X(FILTER_FROM_BITS_29_GAP, "filter_from_bits", "refused 29, first day absent")                                     \
    X(FILTER_FROM_BITS_ABSENT, "filter_from_bits", "accepted, all absent, start above 10^10")                          \
    X(FILTER_FROM_BITS_GAP, "filter_from_bits", "accepted, first day absent, not start 0")

#define AS_NUMBER(id, call, name) id,
#define AS_ROW(id, call, name) {call, name, 0},
enum branch { BRANCHES(AS_NUMBER) BRANCH_COUNT };
static struct {
    const char *call, *name;
    uint64_t hits;
} rows[BRANCH_COUNT] = {BRANCHES(AS_ROW)};

static void hit(enum branch branch)
{
    rows[branch].hits++;
}

static void hit_if(int holds, enum branch branch)
{
    rows[branch].hits += holds != 0;
}

static enum branch behind(enum branch branch, uint32_t places)
{
    return (enum branch)((uint32_t)branch + places);
}

// Whether a / b lies at a half, and on which side of it the even number is.
enum { NO_HALF = 0, EVEN_BELOW = 1, EVEN_ABOVE = 2 };

static int half_at(uint64_t a, uint64_t b)
{
    return a % b != b - a % b ? NO_HALF : a / b % 2 == 0 ? EVEN_BELOW : EVEN_ABOVE;
}

// Of the halves that were met, each kind once; the branch of the other kind stands behind that of the even one below.
static void hit_halves(int met, enum branch below)
{
    hit_if(met & EVEN_BELOW, below);
    hit_if(met & EVEN_ABOVE, behind(below, 1));
}

void print_branches(void)
{
    for (size_t i = 0; i < BRANCH_COUNT; i++)
        printf("%s\t%s\t%" PRIu64 "\n", rows[i].call, rows[i].name, rows[i].hits);
}

// ---- the record

// Walks over the entries to the first that could be refused, or to the end entry.
static void count_read(const struct test_case *c, uint32_t answer, const struct outs *outs, const uint32_t *days)
{
    size_t at = 0, total = 0, seen[10] = {0}, most_flows = 0;
    uint32_t kind = 0, value = 0;
    for (size_t body; at < c->bytes_len; at += 1 + body) {
        kind = c->bytes[at];
        body = kind == 3 ? 0 : kind == 4 ? 2 : 4;
        if ((kind < 1 || kind > 4) && kind != 9)
            break;
        if (c->bytes_len - at - 1 < body)
            break;
        value = 0;
        for (size_t i = body; i > 0; i--)
            value = value << 8 | c->bytes[at + i];
        if ((kind == 1 && value > MOST_FIRST_DAY) || (kind == 2 && value > MOST_FLOW) || (kind == 4 && value == 0))
            break;
        seen[kind]++;
        most_flows += kind == 2 && value == MOST_FLOW;
        total += kind == 2 || kind == 3 ? 1 : kind == 4 ? value : 0;
        if (kind == 9 || total > MOST_DAYS || total > c->days_len)
            break;
    }
    enum branch by_kind = kind == 2 ? 0 : kind == 3 ? 1 : 2;
    switch (answer) {
    case 1:
        if (at == c->bytes_len)
            hit(at == 0 ? READ_1_EMPTY : READ_1_NO_END);
        else
            hit(kind == 1 ? READ_1_HEAD : kind == 2 ? READ_1_FLOW : kind == 4 ? READ_1_GAP : READ_1_END);
        break;
    case 2:
        hit(at == 0 ? READ_2_FIRST : READ_2_LATER);
        break;
    case 3:
        hit(c->bytes[0] != 1 ? READ_3_FIRST : READ_3_LATER);
        break;
    case 4:
        hit(kind == 1 ? READ_4_HEAD : kind == 2 ? READ_4_FLOW : READ_4_GAP);
        hit_if(kind == 1 && value == MOST_FIRST_DAY + 1, READ_4_HEAD_NEXT);
        hit_if(kind == 2 && value == MOST_FLOW + 1, READ_4_FLOW_NEXT);
        hit_if(kind == 2 && value == MISSING, READ_4_FLOW_MARK);
        break;
    case 5:
        hit(behind(READ_5_FLOW, by_kind));
        break;
    case 6:
        hit(behind(READ_6_FLOW, by_kind));
        break;
    case 7:
        hit(value < total ? READ_7_LOW : READ_7_HIGH);
        break;
    case 8:
        hit(READ_8);
        break;
    default:
        hit_if(total == 0, READ_NO_DAY);
        hit_if(seen[2] > 0, READ_FLOWS);
        hit_if(seen[3] > 0, READ_ONES);
        hit_if(seen[4] > 0, READ_GAPS);
        hit_if(outs->small[0] == MOST_FIRST_DAY, READ_LAST_FIRST);
        hit_if(most_flows > 0, READ_MOST_FLOW);
        hit_if(total == MOST_DAYS, READ_MOST_DAYS);
        hit(total == c->days_len ? READ_FULL : READ_REST);
        size_t written = record_length(days, total);
        hit(written == c->bytes_len ? READ_WRITTEN : written < c->bytes_len ? READ_SHORTER : READ_LONGER);
    }
}

static int is_bad(uint32_t day)
{
    return day > MOST_FLOW && day != MISSING;
}

// The first day that is neither a flow nor missing, or the number of days.
static size_t first_bad(const struct test_case *c)
{
    size_t t = 0;
    while (t < c->days_len && !is_bad(c->days[t]))
        t++;
    return t;
}

// A gap from day t on: how long it is, and where it lies.
static void count_gap(const struct test_case *c, size_t t, size_t gap)
{
    static const size_t lengths[] = {3, 255, 256, 257, 512, MOST_DAYS};
    enum branch row = gap == 1 ? WRITE_1_WHOLE : gap == 2 ? WRITE_2_WHOLE : WRITE_3_WHOLE;
    int starts = t == 0, ends = t + gap == c->days_len;
    hit(behind(row, starts && ends ? 0 : starts ? 1 : ends ? 3 : 2));
    for (uint32_t i = 0; i < sizeof lengths / sizeof *lengths; i++)
        hit_if(gap == lengths[i], behind(WRITE_GAP_3, i));
}

static void count_written(const struct test_case *c, size_t length)
{
    size_t gaps = 0, most = 0, dry = 0;
    for (size_t t = 0, gap; t < c->days_len; t += gap == 0 ? 1 : gap) {
        for (gap = 0; t + gap < c->days_len && c->days[t + gap] == MISSING;)
            gap++;
        if (gap > 0)
            count_gap(c, t, gap);
        gaps += gap > 0;
        most += c->days[t] == MOST_FLOW;
        dry += c->days[t] == 0;
    }
    hit_if(c->days_len == 0, WRITE_NO_DAY);
    hit_if(c->first_day == 0, WRITE_FIRST_0);
    hit_if(c->first_day == MOST_FIRST_DAY, WRITE_FIRST_LAST);
    hit_if(most > 0, WRITE_MOST_FLOW);
    hit_if(dry > 0, WRITE_DRY);
    hit_if(c->days_len > 0 && gaps == 0, WRITE_FLOWS);
    hit_if(gaps > 1, WRITE_GAPS);
    hit_if(c->days_len == MOST_DAYS, gaps == 0 ? WRITE_MOST_BYTES : WRITE_MOST_DAYS);
    hit(c->bytes_len == length ? WRITE_FULL : c->bytes_len == length + 1 ? WRITE_ONE_LEFT : WRITE_REST);
}

static void count_write(const struct test_case *c, uint32_t answer)
{
    size_t length = record_length(c->days, c->days_len), bad = first_bad(c);
    int no_room = c->bytes_len < length;
    switch (answer) {
    case 9:
        hit(WRITE_9);
        hit_if(c->days_len == MOST_DAYS + 1, WRITE_9_NEXT);
        hit_if(c->first_day > MOST_FIRST_DAY, WRITE_9_FIRST);
        hit_if(bad < c->days_len, WRITE_9_DAY);
        hit_if(no_room, WRITE_9_ROOM);
        break;
    case 4:
        hit_if(c->first_day == MOST_FIRST_DAY + 1, WRITE_4_NEXT);
        hit_if(c->first_day == UINT32_MAX, WRITE_4_MOST);
        hit_if(bad < c->days_len, WRITE_4_DAY);
        hit_if(no_room, WRITE_4_ROOM);
        break;
    case 10:
        hit_if(c->days[bad] == MOST_FLOW + 1, WRITE_10_NEXT);
        hit_if(c->days[bad] == MISSING - 1, WRITE_10_MARK);
        hit_if(bad > 0 && bad + 1 == c->days_len, WRITE_10_LAST);
        hit_if(no_room, WRITE_10_ROOM);
        break;
    case 30:
        hit_if(c->bytes_len + 1 == length, WRITE_30_NEXT);
        hit_if(c->bytes_len + 5 == length, WRITE_30_END);
        hit_if(c->bytes_len == 0, WRITE_30_EMPTY);
        hit_if(c->days_len == 0, WRITE_30_NO_DAY);
        hit_if(c->days_len > 0 && first_present(c) == c->days_len, WRITE_30_GAPS);
        hit_if(c->days_len == MOST_DAYS, WRITE_30_MOST);
        break;
    default:
        count_written(c, length);
    }
}

// ---- filters

static size_t count_stretches(const struct test_case *c)
{
    size_t stretches = 0;
    for (size_t t = 0; t < c->days_len; t++)
        stretches += c->days[t] != MISSING && (t == 0 || c->days[t - 1] == MISSING);
    return stretches;
}

static int any_at_flow(const struct test_case *c, const uint64_t *base)
{
    for (size_t t = 0; t < c->days_len; t++)
        if (base[t] == 1000 * (uint64_t)c->days[t] && base[t] > 0)
            return 1;
    return 0;
}

static int bad_p(const struct test_case *c)
{
    return c->p < (c->method == 2 ? 3334 : 1) || c->p > 9999;
}

static int has_q(const struct test_case *c)
{
    return c->method == 4 || c->method == 5 || c->method == 7;
}

static int bad_q(const struct test_case *c)
{
    return has_q(c) ? c->q == 0 || c->q > (c->method == 5 ? 9999 : 10000) : c->q != 0;
}

static void count_parameters(const struct test_case *c)
{
    if (bad_p(c)) {
        hit(c->p > 9999 ? FILTER_12_P_HIGH : FILTER_12_P_LOW);
        hit_if(c->method == 2 && c->p == 3333, FILTER_12_P_3333);
    } else if (bad_q(c)) {
        hit(!has_q(c) ? FILTER_12_Q_GIVEN : c->q == 0 ? FILTER_12_Q_LOW : FILTER_12_Q_HIGH);
    } else {
        hit(c->method != 7 ? FILTER_12_S_GIVEN : c->s < 0 ? FILTER_12_S_LOW : FILTER_12_S_HIGH);
        hit_if(c->method == 7 && (c->s == -10000 || c->s == 10000), FILTER_12_S_NEXT);
        hit_if(c->s == INT32_MIN, FILTER_12_S_LEAST);
    }
}

// What 3.2 divides, and by what (*d).
static int64_t sum_of(const struct test_case *c, uint64_t base, uint64_t today, uint64_t before, int64_t *d)
{
    int64_t p = c->p, q = c->q, f = (int64_t)base, u = (int64_t)today, u_before = (int64_t)before;
    switch (c->method) {
    case 1:
        *d = 20000;
        return 2 * p * f + (10000 - p) * (u + u_before);
    case 2:
        *d = 30000 - p;
        return (3 * p - 10000) * f + (10000 - p) * (u + u_before);
    case 3:
        *d = 20000 - p;
        return p * f + (10000 - p) * u;
    case 4:
        *d = 10000 + q;
        return p * f + q * u;
    case 5:
        *d = 100000000 - p * q;
        return p * (10000 - q) * f + (10000 - p) * q * u;
    case 6:
        *d = 10000;
        return p * f + (10000 - p) * u;
    default:
        *d = 10000 * (10000 + q);
        return 10000 * (p * f + q * u) + q * c->s * u_before;
    }
}

// Where method 7's quotient lies on a day that has flow, by yesterday's base and flow: below zero (-1), above the day's
// own flow (1), or between them (0).
static int side_of(const struct test_case *c, uint64_t base, uint32_t flow, uint32_t day)
{
    int64_t d, sum = sum_of(c, base, 1000 * (uint64_t)day, 1000 * (uint64_t)flow, &d);
    return day == 0 ? 0 : sum < 0 ? -1 : sum > d * 1000 * (int64_t)day;
}

// Whether the quotient lies at a half, between zero and the day's input.
static int half_of(const struct test_case *c, uint64_t base, uint64_t today, uint64_t before)
{
    int64_t d, sum = sum_of(c, base, today, before, &d);
    return sum < 0 || sum > d * (int64_t)today ? NO_HALF : half_at((uint64_t)sum, (uint64_t)d);
}

// The start of method 5: 3.4.
static int half_of_start(const struct test_case *c, uint32_t day)
{
    return c->method == 5 ? half_at(9 * (uint64_t)c->q * day, 100) : NO_HALF;
}

// The halves of the last pass, whose output is `base`; its input is the flow, or what the passes before it give.
static void count_filter_halves(const struct test_case *c, const uint64_t *base)
{
    static uint64_t input[ROOM_DAYS];
    int met = 0, met_at_start = 0;
    for (size_t t = 0; t < c->days_len; t++)
        input[t] = 1000 * (uint64_t)c->days[t];
    if (c->passes > 1)
        reference_filter(c->method, c->p, c->q, c->s, c->passes - 1, c->days, c->days_len, input, c->days_len);
    for (size_t t = 0; t < c->days_len; t++) {
        if (c->days[t] == MISSING)
            continue;
        if (t == 0 || c->days[t - 1] == MISSING)
            met_at_start |= half_of_start(c, c->days[t]);
        else if (c->passes == 2)
            met |= half_of(c, base[t], input[t - 1], input[t]);
        else
            met |= half_of(c, base[t - 1], input[t], input[t - 1]);
    }
    if (c->passes == 1)
        hit_halves(met, behind(FILTER_1_HALF_BELOW, 2 * (c->method - 1)));
    else
        hit_halves(met, c->passes == 2 ? FILTER_PASS_2_HALF_BELOW : FILTER_PASS_3_HALF_BELOW);
    hit_halves(met_at_start, FILTER_START_HALF_BELOW);
}

static void count_method_7(const struct test_case *c, const uint64_t *base)
{
    int at_zero = 0, after_zero = 0, capped = 0, zero_before = 0;
    for (size_t t = 1; t < c->days_len; t++) {
        int present = c->days[t] != MISSING && c->days[t - 1] != MISSING;
        int side = present ? side_of(c, base[t - 1], c->days[t - 1], c->days[t]) : 0;
        after_zero |= present && zero_before && base[t] > 0;
        at_zero |= side < 0;
        capped |= side > 0;
        zero_before = side < 0;
    }
    hit_if(c->s > 0, FILTER_7_ABOVE);
    hit_if(c->s < 0, FILTER_7_BELOW);
    hit_if(c->s == -9999 || c->s == 9999, FILTER_7_ENDS);
    hit_if(at_zero, FILTER_7_AT_ZERO);
    hit_if(after_zero, FILTER_7_AFTER_ZERO);
    hit_if(capped, FILTER_7_CAPPED);
}

static void count_filter(const struct test_case *c, uint32_t answer, const uint64_t *base)
{
    switch (answer) {
    case 11:
        hit(FILTER_11);
        break;
    case 12:
        count_parameters(c);
        break;
    case 13:
        hit(c->passes == 0 ? FILTER_13_NONE : c->method == 1 ? FILTER_13_FOUR : FILTER_13_OTHER);
        break;
    case 9:
        hit(FILTER_9);
        break;
    case 14:
        hit(c->base_len < c->days_len ? FILTER_14_SHORT : FILTER_14_LONG);
        break;
    case 10:
        hit(FILTER_10);
        break;
    default:
        hit(c->method == 1 ? behind(FILTER_1_1, c->passes - 1) : behind(FILTER_2, c->method - 2));
        if (c->method == 7)
            count_method_7(c, base);
        count_filter_halves(c, base);
        hit_if(c->days_len == 0, FILTER_NO_DAY);
        hit_if(c->days_len > 0 && count_stretches(c) == 0, FILTER_ALL_MISSING);
        hit_if(count_stretches(c) > 1, FILTER_GAPS);
        hit_if(any_at_flow(c, base), FILTER_CAPPED);
        hit_if(c->days_len == MOST_DAYS, FILTER_MOST_DAYS);
    }
}

// ---- a filter from a start

static int holds_29(const struct test_case *c)
{
    size_t t = first_present(c);
    return t < c->days_len && c->start > 1000 * (uint64_t)c->days[t];
}

// Whether a stretch behind the first one begins with a flow that the start is not above (1), or with one that it is (0).
static int begins_later(const struct test_case *c, int not_above)
{
    for (size_t t = first_present(c) + 1; t < c->days_len; t++)
        if (c->days[t] != MISSING && c->days[t - 1] == MISSING &&
            (c->start <= 1000 * (uint64_t)c->days[t]) == not_above)
            return 1;
    return 0;
}

static void count_29(const struct test_case *c)
{
    size_t first = first_present(c);
    uint64_t whole = 1000 * (uint64_t)c->days[first];
    hit_if(c->start == whole + 1, FROM_29_NEXT);
    hit_if(c->start > 10000000000, FROM_29_FAR);
    hit_if(c->start == UINT64_MAX, FROM_29_MOST);
    hit_if((uint32_t)c->start <= whole, FROM_29_BITS);
    hit_if(whole == 0, FROM_29_DRY);
    hit_if(first > 0, FROM_29_GAP);
    hit_if(begins_later(c, 1), FROM_29_LATER);
}

// How long the start is seen: where the base list is not that of the usual start.
static void count_seen(const struct test_case *c, const uint64_t *base)
{
    static uint64_t usual[ROOM_DAYS];
    size_t first = first_present(c), last = first, same = 0;
    while (last + 1 < c->days_len && c->days[last + 1] != MISSING)
        last++;
    reference_filter(c->method, c->p, c->q, c->s, c->passes, c->days, c->days_len, usual, c->days_len);
    while (same < c->days_len && base[same] == usual[same])
        same++;
    hit_if(first == last, FROM_ONE_DAY);
    hit_if(first < last && c->passes == 1 && base[last] != usual[last], FROM_SEEN);
    hit_if(base[first] != usual[first] && base[last] == usual[last], FROM_FORGOTTEN);
    hit_if(c->passes == 2 && base[first] != usual[first], FROM_2_SEEN);
    hit_if(c->passes == 2 && c->start != 500 * (uint64_t)c->days[first] && same == c->days_len, FROM_2_FORGOTTEN);
    hit_if(c->passes == 3 && base[first] < c->start, FROM_3_LOWER);
    hit_if(first < last && c->passes == 1 && base[last] > 0 && base[first + 1] == 1000 * (uint64_t)c->days[first + 1],
           FROM_CAPPED);
    hit_if(first < last && c->method == 7 && side_of(c, c->start, c->days[first], c->days[first + 1]) < 0,
           FROM_AT_ZERO);
}

static void count_started(const struct test_case *c, const uint64_t *base)
{
    size_t first = first_present(c);
    hit(c->method == 1 ? behind(FROM_1_1, c->passes - 1) : behind(FROM_2, c->method - 2));
    hit_if(c->days_len == MOST_DAYS, FROM_MOST_DAYS);
    if (first == c->days_len) {
        hit(first == 0 ? FROM_NO_DAY : FROM_ALL_MISSING);
        hit_if(first > 0 && c->start > 10000000000, FROM_ALL_MISSING_FAR);
        return;
    }
    uint64_t whole = 1000 * (uint64_t)c->days[first];
    hit_if(c->start == 0 && whole > 0, FROM_0);
    hit_if(c->start == whole && whole > 0, FROM_WHOLE);
    hit_if(c->start > UINT32_MAX, FROM_LARGE);
    hit_if(whole == 0, FROM_DRY);
    hit_if(first > 0, FROM_GAP);
    hit_if(count_stretches(c) > 1, FROM_GAPS);
    hit_if(begins_later(c, 0), FROM_ABOVE_LATER);
    count_seen(c, base);
}

static void count_filter_from(const struct test_case *c, uint32_t answer, const uint64_t *base)
{
    switch (answer) {
    case 11:
        hit(FROM_11);
        break;
    case 12:
        hit(FROM_12);
        break;
    case 13:
        hit(FROM_13);
        break;
    case 9:
        hit(FROM_9);
        break;
    case 14:
        hit(c->base_len < c->days_len ? FROM_14_SHORT : FROM_14_LONG);
        hit_if(holds_29(c), FROM_14_START);
        break;
    case 10:
        hit(holds_29(c) ? FROM_10_START : FROM_10);
        break;
    case 29:
        count_29(c);
        break;
    default:
        count_started(c, base);
    }
}

static void count_step(const struct test_case *c, uint32_t answer)
{
    uint32_t has_yesterday = c->outs.small[0], flow = c->outs.small[1];
    uint64_t base = c->outs.large[0];
    switch (answer) {
    case 11:
        hit(STEP_11);
        break;
    case 12:
        hit(STEP_12);
        if (!bad_p(c) && !bad_q(c))
            hit(c->method != 7 ? STEP_12_S_GIVEN : c->s < 0 ? STEP_12_S_LOW : STEP_12_S_HIGH);
        break;
    case 15:
        hit(flow > MOST_FLOW ? STEP_15_FLOW : STEP_15_BASE);
        hit_if(flow <= MOST_FLOW && base == 1000 * (uint64_t)flow + 1, STEP_15_NEXT);
        break;
    case 10:
        hit(STEP_10);
        break;
    default:
        if (c->day == MISSING)
            hit(has_yesterday == 0 ? STEP_MISSING_FRESH : STEP_MISSING_AFTER);
        else
            hit(behind(has_yesterday == 0 ? STEP_1_FRESH : STEP_1_AFTER, c->method - 1));
        if (c->day != MISSING && has_yesterday == 0)
            hit_halves(half_of_start(c, c->day), STEP_START_HALF_BELOW);
        else if (c->day != MISSING)
            hit_halves(half_of(c, base, 1000 * (uint64_t)c->day, 1000 * (uint64_t)flow), STEP_HALF_BELOW);
        if (c->method == 7 && c->day != MISSING && has_yesterday != 0) {
            int side = side_of(c, base, flow, c->day);
            hit_if(c->s > 0, STEP_7_ABOVE);
            hit_if(side < 0, STEP_7_AT_ZERO);
            hit_if(side > 0, STEP_7_CAPPED);
        }
        hit_if(has_yesterday == 0 && (flow > MOST_FLOW || base > 1000 * (uint64_t)flow), STEP_FRESH_UNREAD);
        hit_if(has_yesterday > 1, STEP_OTHER_MARK);
    }
}

// ---- the line

struct turn_view {
    size_t most, stretches, lines, ties, equals, dropped, dry, spells, outside;
    int halves;
};

static size_t lowest_of(const struct test_case *c, size_t from, struct turn_view *view)
{
    size_t low = from;
    for (size_t t = from + 1; t < from + c->block_days; t++) {
        view->ties += c->days[t] == c->days[low];
        low = c->days[t] < c->days[low] ? t : low;
    }
    return low;
}

// Whether the line from day i to day j lies at a half somewhere, and below the flow there.
static int halves_between(const struct test_case *c, size_t i, size_t j)
{
    int met = 0;
    for (size_t t = i + 1; t < j; t++) {
        uint64_t sum = 1000 * ((uint64_t)c->days[i] * (j - t) + (uint64_t)c->days[j] * (t - i));
        if (sum < 1000 * (uint64_t)c->days[t] * (j - i))
            met |= half_at(sum, j - i);
    }
    return met;
}

// Turning points: the most in a stretch, in how many stretches there are some, and in how many a line.
static struct turn_view view_turns(const struct test_case *c)
{
    struct turn_view view = {0};
    size_t N = c->block_days;
    for (size_t start = 0, end; start < c->days_len; start = end + 1) {
        for (end = start; end < c->days_len && c->days[end] != MISSING;)
            end++;
        size_t turns = 0, turn = 0;
        for (size_t at = start; at + 3 * N <= end; at += N) {
            size_t place = lowest_of(c, at + N, &view);
            uint64_t left = 10000 * (uint64_t)c->days[lowest_of(c, at, &view)];
            uint64_t middle = c->factor * (uint64_t)c->days[place];
            uint64_t right = 10000 * (uint64_t)c->days[lowest_of(c, at + 2 * N, &view)];
            if (middle == 0 || (middle < left && middle < right)) {
                view.halves |= turns > 0 ? halves_between(c, turn, place) : NO_HALF;
                turn = place;
                turns++;
            }
            view.dry += middle == 0 && left > 0 && right > 0;
            view.spells += middle == 0 && (left == 0 || right == 0);
            view.outside += middle > 0 && (left == 0 || right == 0);
            view.equals += middle > 0 && (middle == left || middle == right);
        }
        view.most = turns > view.most ? turns : view.most;
        view.stretches += turns > 0;
        view.lines += turns > 1;
        view.dropped += turns > 1 && (end - start) % N != 0;
    }
    return view;
}

static int any_dry(const struct test_case *c)
{
    for (size_t t = 0; t < c->days_len; t++)
        if (c->days[t] == 0)
            return 1;
    return 0;
}

static void count_line(const struct test_case *c, uint32_t answer, const uint64_t *base)
{
    struct turn_view view = {0};
    if (answer == 0 || answer == 17)
        view = view_turns(c);
    switch (answer) {
    case 16:
        if (c->block_days < 1 || c->block_days > 30)
            hit(c->block_days < 1 ? LINE_16_N_LOW : LINE_16_N_HIGH);
        else
            hit(c->factor < 1 ? LINE_16_G_LOW : LINE_16_G_HIGH);
        break;
    case 9:
        hit(LINE_9);
        break;
    case 14:
        hit(c->base_len < c->days_len ? LINE_14_SHORT : LINE_14_LONG);
        break;
    case 10:
        hit(LINE_10);
        break;
    case 17:
        hit(view.stretches == 0 ? LINE_17_NO_TURN : view.stretches == 1 ? LINE_17_ONE_TURN : LINE_17_APART);
        hit_if(any_dry(c), LINE_17_DRY);
        break;
    default:
        hit(view.most == 2 ? LINE_ONE : LINE_MANY);
        hit_if(view.lines > 1, LINE_STRETCHES);
        hit_if(view.ties > 0, LINE_TIE);
        hit_if(view.equals > 0, LINE_ALMOST);
        hit_if(view.dry > 0, LINE_DRY);
        hit_if(view.spells > 0, LINE_DRY_SPELL);
        hit_if(view.outside > 0, LINE_DRY_OUTSIDE);
        hit_if(view.dropped > 0, LINE_DROPPED);
        hit_if(any_at_flow(c, base), LINE_CAPPED);
        hit_halves(view.halves, LINE_HALF_BELOW);
        hit_if(c->block_days == 1, LINE_N_1);
        hit_if(c->block_days == 30, LINE_N_30);
        hit_if(c->days_len == MOST_DAYS, LINE_MOST_DAYS);
    }
}

// ---- totals

// The place of the first value that 20 refuses; base_len where there is none.
static size_t bad_value(const struct test_case *c)
{
    size_t t = 0;
    while (t < c->base_len &&
           (c->base[t] == NO_VALUE || (c->days[t] != MISSING && c->base[t] <= 1000 * (uint64_t)c->days[t])))
        t++;
    return t;
}

static void count_totals(const struct test_case *c, uint32_t answer, const struct outs *outs)
{
    size_t t = 0;
    switch (answer) {
    case 9:
        hit(TOTALS_9);
        break;
    case 14:
        hit(c->base_len < c->days_len ? TOTALS_14_SHORT : TOTALS_14_LONG);
        break;
    case 10:
        hit(TOTALS_10);
        break;
    case 20:
        t = bad_value(c);
        hit(c->days[t] == MISSING ? TOTALS_20_MISSING : TOTALS_20_ABOVE);
        hit_if(c->days[t] != MISSING && c->base[t] == 1000 * (uint64_t)c->days[t] + 1, TOTALS_20_NEXT);
        break;
    case 21:
        while (t < c->base_len && c->base[t] == NO_VALUE)
            t++;
        hit(t == c->base_len ? TOTALS_21_NO_VALUE : TOTALS_21_DRY);
        break;
    default:
        hit(outs->small[0] == c->days_len ? TOTALS_ALL : TOTALS_SOME);
        hit_if(outs->small[1] == 0, TOTALS_INDEX_0);
        hit_if(outs->small[1] == 10000, TOTALS_INDEX_MOST);
        hit_halves(half_at(10 * outs->large[1], outs->large[0]), TOTALS_HALF_BELOW);
        hit_if(c->days_len == MOST_DAYS, TOTALS_MOST_DAYS);
    }
}

// ---- half-life

static void count_half_life(const struct test_case *c, uint32_t answer, uint32_t days)
{
    if (answer != 0) {
        hit(c->p == 0 ? HALF_LIFE_12_LOW : HALF_LIFE_12_HIGH);
        return;
    }
    hit_if(days == 1, HALF_LIFE_ONE);
    hit_if(c->p == 500, HALF_LIFE_500);
    hit_if(c->p == 501, HALF_LIFE_501);
    hit_if(c->p == 1, HALF_LIFE_1);
    hit_if(c->p == 999, HALF_LIFE_999);
    hit_if(days > 100, HALF_LIFE_LONG);
}

// ---- the meter

enum { INFINITE = 0x7f800000, MOST_LITRES = 0x4b189680, MOST_CUBIC_METRES = 0x461c4000, LARGEST_HALF = 0x4affffff };

static int is_bad_float(uint32_t bits)
{
    return bits >= INFINITE && bits != 0x80000000;
}

static void count_bad_float(uint32_t bits)
{
    uint32_t size = bits & 0x7fffffff, sign = bits >> 31;
    if (size > INFINITE) {
        hit(behind(size < 0x7fc00000 ? METER_26_SIGNALLING : METER_26_QUIET, sign));
        return;
    }
    if (size == INFINITE) {
        hit(behind(METER_26_INFINITE, sign));
        return;
    }
    hit(METER_26_BELOW);
    hit_if(size < 0x800000, METER_26_BELOW_SUBNORMAL);
    hit_if(size == 1, METER_26_BELOW_NEXT);
    hit_if(size > MOST_LITRES, METER_26_BELOW_LARGE);
}

// An accepted float: m / 2^k in its unit.
static void count_float(int cubic, uint32_t bits, uint32_t day)
{
    uint32_t exponent = bits >> 23 & 0xff, k = exponent == 0 ? 149 : 150 - exponent;
    uint64_t m = (bits & 0x7fffff) + (exponent == 0 ? 0 : 0x800000u), sum = (cubic ? 1000 : 1) * m;
    hit(cubic ? METER_CUBIC : METER_LITRES);
    hit_if(bits == 0, METER_ZERO);
    hit_if(bits == 0x80000000, METER_MINUS_ZERO);
    hit_if(m > 0 && exponent == 0, METER_SUBNORMAL);
    if (k < 60) {
        uint64_t litre = (uint64_t)1 << k;
        hit_if(day == 0 && 4 * sum > litre, METER_TO_0);
        hit_if(day == 1 && sum != litre, METER_TO_1);
        hit_halves(half_at(sum, litre), cubic ? METER_CUBIC_HALF_BELOW : METER_LITRES_HALF_BELOW);
    }
    hit_if(!cubic && bits == LARGEST_HALF, METER_LARGEST_HALF);
    hit_if(!cubic && k == 0, METER_NO_FRACTION);
    hit_if(!cubic && bits == MOST_LITRES, METER_LITRES_MOST);
    hit_if(cubic && bits == MOST_CUBIC_METRES, METER_CUBIC_MOST);
}

static void count_meter(const struct test_case *c, uint32_t answer, uint32_t day)
{
    uint32_t bits = 0, kind = c->bytes_len > 0 ? c->bytes[0] : 0;
    for (size_t i = 4; i > 0 && c->bytes_len >= 5; i--)
        bits = bits << 8 | c->bytes[i];
    switch (answer) {
    case 1:
        hit_if(c->bytes_len == 0, METER_1_EMPTY);
        hit_if(c->bytes_len == 1, METER_1_ALONE);
        hit_if(c->bytes_len == 4, METER_1_SHORT);
        break;
    case 2:
        hit_if(kind == 0, METER_2_0);
        hit_if(kind == 4, METER_2_4);
        hit_if(kind == 0xff, METER_2_MOST);
        hit_if(c->bytes_len == 1, METER_2_SHORT);
        hit_if(c->bytes_len > 5, METER_2_LONG);
        break;
    case 8:
        hit(kind == 3 ? METER_8_NONE : METER_8);
        hit_if(kind != 3 && is_bad_float(bits), METER_8_BAD);
        hit_if(kind != 3 && !is_bad_float(bits) && bits != 0x80000000 && bits > MOST_LITRES, METER_8_LARGE);
        break;
    case 26:
        count_bad_float(bits);
        break;
    case 27:
        hit(kind == 1 ? METER_27_CUBIC : METER_27_LITRES);
        hit_if(kind == 2 && bits == MOST_LITRES + 1, METER_27_LITRES_NEXT);
        hit_if(kind == 1 && bits == MOST_CUBIC_METRES + 1, METER_27_CUBIC_NEXT);
        hit_if(bits == INFINITE - 1, METER_27_MOST);
        break;
    default:
        if (kind == 3)
            hit(METER_MISSING);
        else
            count_float(kind == 1, bits, day);
    }
}

// ---- licence

static int holds_20(const struct test_case *c)
{
    return bad_value(c) < (c->base_len < c->days_len ? c->base_len : c->days_len);
}

// What holds besides a cause that is tested before it: 14 for either list, 10, 20, in the order of their rows.
static void count_behind(const struct test_case *c, enum branch base)
{
    hit_if(c->base_len != c->days_len, base);
    hit_if(c->takings_len != c->days_len, behind(base, 1));
    hit_if(first_bad(c) < c->days_len, behind(base, 2));
    hit_if(holds_20(c), behind(base, 3));
}

static void count_31(const struct test_case *c)
{
    int for_limit = c->daily_limit > MOST_LIMIT, for_quota = c->quota > MOST_QUOTA;
    hit_if(for_limit && for_quota, LICENCE_31_BOTH);
    hit_if(c->daily_limit == MOST_LIMIT + 1 && !for_quota, LICENCE_31_LIMIT_NEXT);
    hit_if(c->daily_limit == UINT32_MAX && !for_quota, LICENCE_31_LIMIT_MOST);
    hit_if(c->quota == MOST_QUOTA + 1 && !for_limit, LICENCE_31_QUOTA_NEXT);
    hit_if(c->quota == UINT64_MAX && !for_limit, LICENCE_31_QUOTA_MOST);
    hit_if(c->days_len > MOST_DAYS, LICENCE_31_DAYS);
    count_behind(c, LICENCE_31_BASE);
}

static void count_lengths(const struct test_case *c)
{
    int base = c->base_len != c->days_len, takings = c->takings_len != c->days_len;
    if (base && takings) {
        hit_if(c->base_len == c->takings_len, LICENCE_14_ALIKE);
        return;
    }
    if (base)
        hit(c->base_len < c->days_len ? LICENCE_14_BASE_SHORT : LICENCE_14_BASE_LONG);
    else
        hit(c->takings_len < c->days_len ? LICENCE_14_SHORT : LICENCE_14_LONG);
    hit_if(c->takings_len + 1 == c->days_len, LICENCE_14_SHORT_NEXT);
    hit_if(c->takings_len == c->days_len + 1, LICENCE_14_LONG_NEXT);
    hit_if(takings && c->takings_len == 0, LICENCE_14_EMPTY);
    hit_if(takings && c->days_len == 0, LICENCE_14_NO_DAY);
    hit_if(first_bad(c) < c->days_len, base ? LICENCE_14_BASE_DAY : LICENCE_14_TAKINGS_DAY);
    hit_if(holds_20(c), base ? LICENCE_14_BASE_VALUE : LICENCE_14_TAKINGS_VALUE);
}

// Whether the quota is not 0 at first, and is so before day t.
static int is_spent(const struct test_case *c, size_t t)
{
    uint64_t sum = 0;
    while (t-- > 0)
        sum += to_spare(c, t) < c->daily_limit ? to_spare(c, t) : c->daily_limit;
    return 0 < c->quota && c->quota <= sum;
}

// A row of an accepted replay that a day shows, as a bit, counted from the first of those rows.
static uint64_t shown_if(int holds, enum branch row)
{
    return (uint64_t)(holds != 0) << (row - LICENCE_BY_LIMIT);
}

static void hit_shown(uint64_t shown)
{
    for (uint32_t i = 0; behind(LICENCE_BY_LIMIT, i) <= LICENCE_LAST_LITRE; i++)
        hit_if(shown >> i & 1, behind(LICENCE_BY_LIMIT, i));
}

// Which of M, the flow less base, and the quota that is left is the smallest, on a day that has something to spare.
static uint64_t shown_by_amount(const struct test_case *c, size_t t, uint64_t left)
{
    uint64_t limit = c->daily_limit, spare = to_spare(c, t);
    if (limit == 0 || spare == 0)
        return 0;
    if (left == 0)
        return shown_if(1, LICENCE_SPENT);
    return shown_if(limit < spare && limit < left, LICENCE_BY_LIMIT) |
           shown_if(spare < limit && spare < left, LICENCE_BY_SPARE) |
           shown_if(left < limit && left < spare, LICENCE_BY_QUOTA) |
           shown_if(limit == spare && limit < left, LICENCE_LIMIT_SPARE) |
           shown_if(limit == left && limit < spare, LICENCE_LIMIT_QUOTA) |
           shown_if(spare == left && spare < limit, LICENCE_SPARE_QUOTA) |
           shown_if(limit == spare && spare == left, LICENCE_ALL_EQUAL) |
           shown_if(left == 1, LICENCE_LITRE) |
           shown_if(limit == MOST_LIMIT && spare == limit && limit <= left, LICENCE_MOST) |
           shown_if(left < c->quota && left <= limit && left <= spare && c->days[t - 1] == MISSING, LICENCE_GAP);
}

// What the base value of a day is, where M and the quota that is left would allow for a litre.
static uint64_t shown_by_value(const struct test_case *c, size_t t)
{
    uint64_t whole = c->days[t] == MISSING ? 0 : 1000 * (uint64_t)c->days[t], value = c->base[t];
    if (value == NO_VALUE)
        return shown_if(1, c->days[t] == MISSING ? LICENCE_MISSING : LICENCE_NONE);
    if (whole == 0)
        return shown_if(1, LICENCE_DRY);
    return shown_if(value == whole, LICENCE_AT_FLOW) | shown_if(value == 0, LICENCE_NO_BASE) |
           shown_if(0 < value && value < whole && value % 1000 == 0, LICENCE_WHOLE) |
           shown_if(value + 1000 < whole && value % 1000 == 1, LICENCE_ABOVE_WHOLE) |
           shown_if(value + 1000 < whole && value % 1000 == 999, LICENCE_BELOW_WHOLE) |
           shown_if(value < whole && whole - value < 1000, LICENCE_LAST_LITRE);
}

static void count_replayed(const struct test_case *c, uint64_t quota_left, const uint32_t *takings)
{
    uint64_t shown = 0, left = c->quota;
    size_t missing = 0, values = 0;
    for (size_t t = 0; t < c->days_len; t++) {
        shown |= shown_by_amount(c, t, left) | (c->daily_limit > 0 && left > 0 ? shown_by_value(c, t) : 0);
        left -= takings[t];
        missing += c->days[t] == MISSING;
        values += c->base[t] != NO_VALUE;
    }
    hit_shown(shown);
    hit_if(c->days_len == 0, LICENCE_NO_DAY);
    hit_if(c->days_len == MOST_DAYS, LICENCE_MOST_DAYS);
    hit_if(c->daily_limit == 0, LICENCE_LIMIT_0);
    hit_if(c->daily_limit == MOST_LIMIT, LICENCE_LIMIT_MOST);
    hit_if(c->quota == 0, LICENCE_QUOTA_0);
    hit_if(c->quota == MOST_QUOTA, LICENCE_QUOTA_MOST);
    hit_if(c->days_len > 0 && missing == c->days_len, LICENCE_ALL_MISSING);
    hit_if(missing < c->days_len && values == 0, LICENCE_ALL_NONE);
    hit_if(c->quota > 0 && quota_left == 0, LICENCE_ALL_TAKEN);
    hit_if(c->quota > 1 && quota_left == 1, LICENCE_ONE_LEFT);
    hit_if(quota_left > UINT32_MAX, LICENCE_MUCH_LEFT);
    hit_if(c->quota - quota_left > UINT32_MAX, LICENCE_MUCH_TAKEN);
}

static void count_licence(const struct test_case *c, uint32_t answer, const struct outs *outs, const uint32_t *takings)
{
    size_t t = 0;
    switch (answer) {
    case 31:
        count_31(c);
        break;
    case 9:
        hit_if(c->days_len == MOST_DAYS + 1, LICENCE_9_NEXT);
        hit_if(c->base_len == c->days_len && c->takings_len == c->days_len && first_bad(c) == c->days_len && !holds_20(c),
               LICENCE_9_ALONE);
        count_behind(c, LICENCE_9_BASE);
        break;
    case 14:
        count_lengths(c);
        break;
    case 10:
        t = first_bad(c);
        hit_if(c->days[t] == MOST_FLOW + 1, LICENCE_10_NEXT);
        hit_if(c->days[t] == MISSING - 1, LICENCE_10_MARK);
        hit_if(t > 0 && t + 1 == c->days_len, LICENCE_10_LAST);
        hit_if(holds_20(c), LICENCE_10_VALUE);
        break;
    case 20:
        t = bad_value(c);
        hit(c->days[t] == MISSING ? LICENCE_20_MISSING : LICENCE_20_ABOVE);
        hit_if(c->days[t] != MISSING && c->base[t] == 1000 * (uint64_t)c->days[t] + 1, LICENCE_20_NEXT);
        hit_if(t > 0 && t + 1 == c->days_len, LICENCE_20_LAST);
        hit_if(is_spent(c, t), LICENCE_20_SPENT);
        hit_if(c->daily_limit == 0 || c->quota == 0, LICENCE_20_NOTHING);
        break;
    default:
        count_replayed(c, outs->large[0], takings);
    }
}

// ---- staggered lines

// How many lines have a value on day t, and whether two of them differ there.
static size_t values_on(const struct test_case *c, const uint64_t *work, size_t t, int *unlike)
{
    size_t count = 0;
    uint64_t first = NO_VALUE;
    *unlike = 0;
    for (size_t o = 0; o < c->block_days; o++) {
        uint64_t value = work[o * c->days_len + t];
        *unlike |= value != NO_VALUE && count > 0 && value != first;
        first = count == 0 ? value : first;
        count += value != NO_VALUE;
    }
    return count;
}

static int has_line(const struct test_case *c, const uint64_t *work, size_t shift)
{
    for (size_t t = 0; t < c->days_len; t++)
        if (work[shift * c->days_len + t] != NO_VALUE)
            return 1;
    return 0;
}

static size_t shortest_stretch(const struct test_case *c)
{
    size_t shortest = SIZE_MAX, count = 0;
    for (size_t t = 0; t <= c->days_len; t++) {
        if (t < c->days_len && c->days[t] != MISSING) {
            count++;
            continue;
        }
        shortest = count > 0 && count < shortest ? count : shortest;
        count = 0;
    }
    return shortest;
}

static void count_drawn(const struct test_case *c, const uint64_t *work)
{
    size_t lines = 0, N = c->block_days;
    for (size_t o = 0; o < N; o++)
        lines += (size_t)has_line(c, work, o);
    hit_if(!has_line(c, work, 0), STAGGERED_NOT_FIRST);
    hit_if(lines == 1 && N > 1 && has_line(c, work, N - 1), STAGGERED_ONLY_LAST);
    hit_if(lines == N && N > 1, STAGGERED_ALL);
    int none = 0, one = 0, even = 0, odd = 0;
    for (size_t t = 0; t < c->days_len; t++) {
        int unlike;
        size_t count = values_on(c, work, t, &unlike);
        none |= count == 0;
        one |= count == 1 && N > 1;
        even |= c->choice == 3 && unlike && count % 2 == 0;
        odd |= c->choice == 3 && unlike && count % 2 == 1;
    }
    hit_if(none, STAGGERED_NONE);
    hit_if(one, STAGGERED_ONE);
    hit_if(even, STAGGERED_EVEN);
    hit_if(odd, STAGGERED_ODD);
}

static void count_staggered(const struct test_case *c, uint32_t answer, const uint64_t *work)
{
    int bad_day = 0;
    for (size_t t = 0; t < c->days_len; t++)
        bad_day |= c->days[t] > MOST_FLOW && c->days[t] != MISSING;
    size_t wanted = (size_t)c->block_days * c->days_len;
    switch (answer) {
    case 16:
        if (c->block_days < 1 || c->block_days > 30)
            hit(STAGGERED_16_N);
        else if (c->factor < 1 || c->factor > 9999)
            hit(STAGGERED_16_G);
        else
            hit(c->choice < 1 ? STAGGERED_16_CHOICE_LOW : STAGGERED_16_CHOICE_HIGH);
        hit_if((c->choice < 1 || c->choice > 3) && c->days_len > MOST_DAYS, STAGGERED_16_AND_9);
        break;
    case 9:
        hit(STAGGERED_9);
        break;
    case 14:
        hit(STAGGERED_14);
        hit_if(c->work_len != wanted, STAGGERED_14_AND_25);
        break;
    case 25:
        hit_if(c->work_len + 1 == wanted, STAGGERED_25_SHORT);
        hit_if(c->work_len > wanted, STAGGERED_25_LONG);
        hit_if(c->work_len == c->days_len && c->days_len > 0, STAGGERED_25_ONE_LINE);
        hit_if(bad_day, STAGGERED_25_AND_10);
        break;
    case 10:
        hit(STAGGERED_10);
        break;
    case 17:
        hit(STAGGERED_17);
        break;
    default:
        hit(c->choice == 1 ? STAGGERED_LOWEST : c->choice == 2 ? STAGGERED_HIGHEST : STAGGERED_MEDIAN);
        hit_if(c->block_days == 1, STAGGERED_N_1);
        hit_if(c->block_days == 30, STAGGERED_N_30);
        hit_if(shortest_stretch(c) + 1 < c->block_days, STAGGERED_SHORT_STRETCH);
        hit_if(c->days_len == MOST_DAYS, STAGGERED_MOST_DAYS);
        count_drawn(c, work);
    }
}

// ---- recession

// Notes the length of the next counted limb; `before` is that of the one before, 0 for none.
static void view_length(struct limb_view *view, size_t length, size_t before)
{
    static struct {
        uint64_t turn, times; // the last river that had this length, and how many of its limbs
    } seen[ROOM_DAYS + 1];
    static uint64_t turn;
    turn += before == 0;
    if (seen[length].turn != turn)
        seen[length].times = 0;
    seen[length].turn = turn;
    seen[length].times++;
    view->lengths += seen[length].times == 1;
    view->twice += seen[length].times == 2;
    view->twice -= seen[length].times == 3;
    view->most = length > view->most ? length : view->most;
    view->rises += before != 0 && length > before;
    view->long_rises += before > 255 && length > before;
}

static int at_base(const struct test_case *c, size_t t)
{
    return t < c->base_len && c->days[t] != MISSING && c->base[t] == 1000 * (uint64_t)c->days[t];
}

// The place behind the limb that begins at `start`; the next one where none does.
static size_t end_of_limb(const struct test_case *c, size_t start)
{
    size_t end = start + 1;
    while (at_base(c, start) && end < c->days_len && c->days[end] < c->days[end - 1] && at_base(c, end))
        end++;
    return end;
}

// Notes what is before and behind a counted limb.
static void view_ends(struct limb_view *view, const struct test_case *c, size_t start, size_t end)
{
    view->dry += c->days[end - 1] == 0;
    view->begins += start > 0 && c->days[start - 1] != MISSING && c->days[start - 1] > c->days[start];
    if (end >= c->days_len || end >= c->base_len || c->days[end] >= c->days[end - 1])
        return;
    view->ends_low += c->base[end] != NO_VALUE;
    view->ends_none += c->base[end] == NO_VALUE;
    view->ends_dry += c->days[end] == 0;
    view->goes_on += end + 1 < c->days_len && c->days[end + 1] < c->days[end] && at_base(c, end + 1);
}

struct limb_view view_limbs(const struct test_case *c)
{
    struct limb_view view = {0};
    size_t before = 0;
    for (size_t start = 0, end; start < c->days_len; start = end) {
        end = end_of_limb(c, start);
        size_t length = end - start;
        view.at_base += at_base(c, start) ? length : 0;
        if (length < 2)
            continue;
        if (length >= c->limb_days) {
            view.counted++;
            view_length(&view, length, before);
            view_ends(&view, c, start, end);
            before = length;
        }
        view.exact += length == c->limb_days;
        view.shorter += length < c->limb_days;
        view.at_gap += end + 1 < c->days_len && c->days[end] == MISSING && c->days[end + 1] < c->days[end - 1];
    }
    return view;
}

// Whether a ratio at a half is the median.
static int halves_of_ratio(const struct test_case *c, uint32_t ratio)
{
    int met = 0;
    for (size_t start = 0, end; start < c->days_len; start = end) {
        end = end_of_limb(c, start);
        for (size_t t = start + 1; t < end && end - start >= c->limb_days; t++) {
            int half = half_at(10000 * (uint64_t)c->days[t], c->days[t - 1]);
            uint64_t below = 10000 * (uint64_t)c->days[t] / c->days[t - 1];
            met |= below + (half == EVEN_ABOVE) == ratio ? half : NO_HALF;
        }
    }
    return met;
}

static int any_bad_day(const struct test_case *c)
{
    for (size_t t = 0; t < c->days_len; t++)
        if (c->days[t] > MOST_FLOW && c->days[t] != MISSING)
            return 1;
    return 0;
}

// Whether L days that are one beside the other fall, at base or not.
static int any_fall(const struct test_case *c)
{
    size_t fallen = 0, most = 0; // present days up to this one, each with less flow than the one before
    for (size_t t = 0; t < c->days_len; t++) {
        fallen = c->days[t] == MISSING ? 0 : fallen > 0 && c->days[t] < c->days[t - 1] ? fallen + 1 : 1;
        most = fallen > most ? fallen : most;
    }
    return most >= c->limb_days;
}

static void count_recession(const struct test_case *c, uint32_t answer, const struct outs *outs)
{
    struct limb_view view = {0};
    size_t t = 0;
    if (answer == 0 || answer == 19 || answer == 20 || answer == 22)
        view = view_limbs(c);
    switch (answer) {
    case 18:
        hit(c->limb_days < 2 ? RECESSION_18_LOW : RECESSION_18_HIGH);
        break;
    case 9:
        hit(RECESSION_9);
        hit_if(c->base_len != c->days_len, RECESSION_9_LENGTHS);
        break;
    case 14:
        hit(c->base_len < c->days_len ? RECESSION_14_SHORT : RECESSION_14_LONG);
        hit_if(c->base_len + 1 == c->days_len || c->days_len + 1 == c->base_len, RECESSION_14_BY_ONE);
        hit_if(any_bad_day(c), RECESSION_14_DAY);
        break;
    case 10:
        hit(RECESSION_10);
        hit_if(bad_value(c) < c->base_len, RECESSION_10_VALUE);
        break;
    case 20:
        t = bad_value(c);
        hit(c->days[t] == MISSING ? RECESSION_20_MISSING : RECESSION_20_ABOVE);
        hit_if(c->days[t] == MISSING && c->base[t] == 1000 * (uint64_t)MISSING, RECESSION_20_MARK);
        hit_if(c->days[t] != MISSING && c->base[t] == 1000 * (uint64_t)c->days[t] + 1, RECESSION_20_NEXT);
        hit_if(view.counted == 0, RECESSION_20_NO_LIMB);
        hit_if(c->limbs_len < 2 * view.counted, RECESSION_20_LIST);
        break;
    case 19:
        hit(view.shorter == 0 ? RECESSION_19_NO_LIMB : RECESSION_19_SHORT);
        hit_if(view.at_base == 0 && c->days_len > 0, RECESSION_19_NONE);
        hit_if(any_fall(c), RECESSION_19_FALL);
        break;
    case 22:
        hit_if(c->limbs_len == 0, RECESSION_22_NONE);
        hit_if(c->limbs_len == 2 * view.counted - 1, RECESSION_22_BY_ONE);
        break;
    default:
        hit(outs->small[0] % 2 == 1 ? RECESSION_ODD : RECESSION_EVEN);
        hit_if(view.counted > 1, RECESSION_LIMBS);
        hit_if(view.lengths < view.counted, RECESSION_EQUAL);
        hit_if(view.lengths == 1 && view.counted > 2, RECESSION_ALL_EQUAL);
        hit_if(view.lengths > 1 && view.twice == view.lengths, RECESSION_TWICE);
        hit_if(view.rises > 0, RECESSION_LONGER);
        hit_if(view.long_rises > 0, RECESSION_LONGER_255);
        hit_if(view.counted > 2 && view.rises == view.counted - 1, RECESSION_RISING);
        hit_if(view.lengths > 2 && view.rises == 0, RECESSION_FALLING);
        hit_if(view.lengths > 100, RECESSION_LENGTHS);
        hit_if(view.lengths == 268, RECESSION_MOST_LENGTHS);
        hit_if(view.counted > 18000, RECESSION_MANY);
        hit_if(view.counted == MOST_DAYS / 2, RECESSION_MOST_LIMBS);
        hit_if(view.most == MOST_DAYS, RECESSION_LONGEST);
        hit_if(view.exact > 0, RECESSION_EXACT);
        hit_if(view.shorter > 0, RECESSION_PASSED);
        hit_if(view.at_gap > 0, RECESSION_GAP);
        hit_if(view.at_base == c->days_len, RECESSION_ALL);
        hit_if(view.ends_low > 0, RECESSION_ENDS_LOW);
        hit_if(view.ends_none > 0, RECESSION_ENDS_NONE);
        hit_if(view.ends_dry > 0, RECESSION_ENDS_DRY);
        hit_if(view.dry > 0, RECESSION_DRY);
        hit_if(view.goes_on > 0, RECESSION_GOES_ON);
        hit_if(view.begins > 0, RECESSION_BEGINS);
        hit_if(outs->small[1] == 0, RECESSION_RATIO_0);
        hit_if(outs->small[1] == 10000, RECESSION_RATIO_MOST);
        hit_halves(halves_of_ratio(c, outs->small[1]), RECESSION_HALF_BELOW);
        hit_if(c->limb_days == 2, RECESSION_L_2);
        hit_if(c->limb_days == 60, RECESSION_L_60);
        hit(c->limbs_len == 2 * view.counted ? RECESSION_FULL : RECESSION_REST);
        hit_if(c->days_len == MOST_DAYS, RECESSION_MOST_DAYS);
    }
}

// ---- BFImax

static void count_bad_day(const struct test_case *c)
{
    size_t end = (size_t)c->last_day + 1;
    if (end > c->days_len || c->duration > end) {
        hit(BFIMAX_10_NO_SPELL);
        return;
    }
    int inside = 0;
    for (size_t t = end - c->duration; t < end; t++)
        inside |= c->days[t] > MOST_FLOW && c->days[t] != MISSING;
    hit(inside ? BFIMAX_10 : BFIMAX_10_OUTSIDE);
}

static void count_no_spell(const struct test_case *c)
{
    size_t last = c->last_day;
    if (last >= c->days_len) {
        hit(BFIMAX_24_BEHIND);
        hit_if(c->days_len == 0, BFIMAX_24_NO_DAY);
        hit_if(last == c->days_len && last > 0, BFIMAX_24_BEHIND_NEXT);
        hit_if(last == MISSING, BFIMAX_24_BEHIND_MOST);
    } else if (c->duration > last + 1) {
        hit(BFIMAX_24_BEFORE);
        hit_if(c->duration == last + 2 && c->days[last] != MISSING, BFIMAX_24_BEFORE_NEXT);
        hit_if(last == 0, BFIMAX_24_LAST_0);
    } else {
        int at_last = c->days[last] == MISSING, at_first = c->days[last + 1 - c->duration] == MISSING;
        hit(at_last ? BFIMAX_24_LAST : at_first ? BFIMAX_24_FIRST : BFIMAX_24_BETWEEN);
    }
}

// How the values of the D days, from place `first` on, came about.
static void count_values(const struct test_case *c, size_t first, const uint64_t *base)
{
    size_t held = 0, part = 0; // going back: 1 from a day that is not held, 2 from one that then is, 3 from one not
    int barely = 0, equal = 0, large = 0, halves = 0, dry = 0;
    for (size_t t = c->last_day; t-- > first;) {
        uint64_t whole = 1000 * (uint64_t)c->days[t], dividend = 10000 * base[t + 1];
        int over = dividend > c->p * whole, under = dividend < c->p * whole;
        held += (size_t)over;
        part += (part % 2 == 0 && under) || (part == 1 && over);
        barely |= over && dividend < c->p * (whole + 1000);
        equal |= !over && !under && whole > 0;
        large |= dividend / c->p > 10000000000000;
        halves |= under ? half_at(dividend, c->p) : NO_HALF;
        dry |= whole == 0 && base[t + 1] > 0;
    }
    hit_if(held == 0, BFIMAX_NEVER);
    hit_if(held == c->last_day - first, BFIMAX_ALWAYS);
    hit_if(part == 3, BFIMAX_MIDDLE);
    hit_if(barely, BFIMAX_BARELY);
    hit_if(equal, BFIMAX_EQUAL);
    hit_if(large, BFIMAX_LARGE);
    hit_halves(halves, BFIMAX_HALF_BELOW);
    hit_if(dry, BFIMAX_DRY_BETWEEN);
    hit_if(c->days[c->last_day] == 0, BFIMAX_DRY_LAST);
}

// The flow of the days from one place to the one before another, missing ones left out.
static uint64_t flow_between(const struct test_case *c, size_t from, size_t to)
{
    uint64_t total = 0;
    for (size_t t = from; t < to; t++)
        total += c->days[t] == MISSING ? 0 : c->days[t];
    return total;
}

static void count_bfimax(const struct test_case *c, uint32_t answer, const struct outs *outs, const uint64_t *base)
{
    size_t end = (size_t)c->last_day + 1, first = end - c->duration;
    uint64_t flow = 0, sum = 0;
    switch (answer) {
    case 12:
        hit(c->p == 0 ? BFIMAX_12_LOW : BFIMAX_12_HIGH);
        hit_if(c->p == 10000, BFIMAX_12_NEXT);
        break;
    case 23:
        hit(c->duration == 0 ? BFIMAX_23_NONE : c->duration == 1 ? BFIMAX_23_ONE : BFIMAX_23_HIGH);
        hit_if(c->duration == MOST_DURATION + 1, BFIMAX_23_NEXT);
        break;
    case 9:
        hit(BFIMAX_9);
        break;
    case 14:
        hit(c->base_len < c->days_len ? BFIMAX_14_SHORT : BFIMAX_14_LONG);
        break;
    case 10:
        count_bad_day(c);
        break;
    case 24:
        count_no_spell(c);
        break;
    case 21:
        hit(flow_between(c, 0, c->days_len) > 0 ? BFIMAX_21_OUTSIDE : BFIMAX_21);
        break;
    default:
        count_values(c, first, base);
        flow = flow_between(c, first, end);
        for (size_t t = first; t < end; t++)
            sum += base[t];
        hit_if(c->duration == 2, BFIMAX_D_2);
        hit_if(c->duration == MOST_DURATION, BFIMAX_D_MOST);
        hit_if(c->p == 1, BFIMAX_P_1);
        hit_if(c->p == 9999, BFIMAX_P_9999);
        hit_if(c->duration == c->days_len, BFIMAX_ALL);
        hit_if(first == 0, BFIMAX_FROM_START);
        hit_if(end == c->days_len, BFIMAX_TO_END);
        hit_if(flow_between(c, 0, first) > 0 && flow_between(c, end, c->days_len) > 0, BFIMAX_OTHERS);
        hit_if(first > 0 && c->days[first - 1] == MISSING, BFIMAX_GAP_BEFORE);
        hit_if(end < c->days_len && c->days[end] == MISSING, BFIMAX_GAP_BEHIND);
        hit_if(outs->small[0] == 0, BFIMAX_ANSWER_0);
        hit_if(outs->small[0] == 10000, BFIMAX_ANSWER_MOST);
        hit_halves(half_at(10 * sum, flow), BFIMAX_ANSWER_HALF_BELOW);
        hit_if(c->days_len == MOST_DAYS, BFIMAX_MOST_DAYS);
        hit_if(end == MOST_DAYS && c->duration == MOST_DURATION, BFIMAX_LATE);
    }
}

// ---- presence bits

// What a case's flows and words are like: whether there are as many words as the flows want, where the first one past
// the end is (the number of bits for none), how many flows stand under a zero bit, how many marks and how many other
// numbers above the limit under a one bit, and how many days are present and absent.
struct bits_view {
    int counted;
    size_t past, kept, marks, large, present, absent;
};

static struct bits_view view_bits(const struct test_case *c)
{
    struct bits_view view = {.counted = c->words_len == words_for(c->flows_len)};
    size_t bits = 64 * c->words_len, count = c->flows_len < bits ? c->flows_len : bits;
    for (size_t t = 0; t < count; t++) {
        int one = bit_of(c, t);
        view.present += (size_t)one;
        view.absent += !one;
        view.kept += !one && c->flows[t] != 0;
        view.marks += one && c->flows[t] == MISSING;
        view.large += one && c->flows[t] != MISSING && c->flows[t] > MOST_FLOW;
    }
    for (view.past = c->flows_len; view.past < bits && !bit_of(c, view.past);)
        view.past++;
    return view;
}

static int holds_28(const struct test_case *c, const struct bits_view *view)
{
    return !view->counted || view->past < 64 * c->words_len || view->kept > 0;
}

static void count_28(const struct test_case *c, const struct bits_view *view, enum branch few)
{
    size_t right = words_for(c->flows_len);
    int past = view->past < 64 * c->words_len, kept = view->kept > 0;
    hit_if(c->words_len + 1 == right, few);
    hit_if(c->words_len == right + 1, behind(few, 1));
    hit_if(view->counted && past && !kept, behind(few, 2));
    hit_if(view->counted && past && !kept && view->past == c->flows_len, behind(few, 3));
    hit_if(view->counted && kept && !past, behind(few, 4));
    hit_if(view->marks + view->large > 0, behind(few, 5));
}

// The rows that every call over flows and words has, from that of 9 on. The other list is the base list or, in a
// conversion, the day list. Any other answer is for the caller to count.
static int counts_over_bits(const struct test_case *c, uint32_t answer, size_t other_len, enum branch nine)
{
    struct bits_view view = view_bits(c);
    switch (answer) {
    case 9:
        hit(nine);
        hit_if(holds_28(c, &view), behind(nine, 1));
        return 1;
    case 14:
        hit(behind(nine, other_len < c->flows_len ? 2 : 3));
        hit_if(holds_28(c, &view), behind(nine, 4));
        return 1;
    case 28:
        count_28(c, &view, behind(nine, 5));
        return 1;
    case 10:
        hit_if(view.marks > 0, behind(nine, 11));
        hit_if(view.marks == 0, behind(nine, 12));
        return 1;
    case 0:
        hit_if(view.absent > 0 && c->words_len > 1, behind(nine, 13));
        hit_if(view.present == c->flows_len && c->flows_len > 0, behind(nine, 14));
        return 1;
    default:
        return 0;
    }
}

// An accepted conversion, from its row of no day on.
static void count_converted(size_t days, size_t present, enum branch none)
{
    static const size_t sizes[] = {0, 1, 63, 64, 65, 128};
    for (uint32_t i = 0; i < 6; i++)
        hit_if(days == sizes[i], behind(none, i));
    hit_if(days > 1000, behind(none, 6));
    hit_if(days == MOST_DAYS, behind(none, 7));
    hit_if(days > 0 && present == 0, behind(none, 8));
    hit_if(days > 0 && present == days, behind(none, 9));
    hit_if(days <= 64 && 0 < present && present < days, behind(none, 10));
}

static void count_to_bits(const struct test_case *c, uint32_t answer, uint32_t present)
{
    size_t right = words_for(c->days_len), bad = 0;
    while (bad < c->days_len && (c->days[bad] <= MOST_FLOW || c->days[bad] == MISSING))
        bad++;
    switch (answer) {
    case 9:
        hit(TO_BITS_9);
        hit_if(c->flows_len != c->days_len, TO_BITS_9_LENGTHS);
        break;
    case 14:
        hit(c->flows_len < c->days_len ? TO_BITS_14_SHORT : TO_BITS_14_LONG);
        hit_if(c->words_len != right, TO_BITS_14_WORDS);
        break;
    case 28:
        hit_if(c->words_len + 1 == right, TO_BITS_28_FEW);
        hit_if(c->words_len == right + 1, TO_BITS_28_MANY);
        hit_if(c->words_len == c->days_len && c->days_len > 1, TO_BITS_28_PER_DAY);
        hit_if(c->days_len == 0, TO_BITS_28_NO_DAY);
        hit_if(bad < c->days_len, TO_BITS_28_DAY);
        break;
    case 10:
        hit(TO_BITS_10);
        hit_if(c->days[bad] == MOST_FLOW + 1, TO_BITS_10_NEXT);
        hit_if(bad + 1 == c->days_len && bad >= 64, TO_BITS_10_LATE);
        break;
    default:
        count_converted(c->days_len, present, TO_BITS_DAYS_0);
    }
}

static void count_from_bits(const struct test_case *c, uint32_t answer, uint32_t present)
{
    counts_over_bits(c, answer, c->days_len, FROM_BITS_9);
    if (answer == 0)
        count_converted(c->flows_len, present, FROM_BITS_DAYS_0);
    hit_if(answer == 9 && c->days_len != c->flows_len, FROM_BITS_9_LENGTHS);
    for (size_t t = 0; t < c->flows_len && answer == 10; t++)
        hit_if(c->flows[t] == MOST_FLOW + 1, FROM_BITS_10_NEXT);
    if (answer != 28)
        return;
    hit_if(c->words_len == c->flows_len && c->flows_len > 1, FROM_BITS_28_PER_DAY);
    hit_if(c->flows_len == 0, FROM_BITS_28_NO_DAY);
    for (size_t t = 0; t < c->flows_len && t < 64 * c->words_len; t++) {
        hit_if(!bit_of(c, t) && c->flows[t] == MISSING, FROM_BITS_28_MARK);
        hit_if(!bit_of(c, t) && c->flows[t] == MOST_FLOW + 1, FROM_BITS_28_LIMIT);
    }
}

// A start over flows and words: the first day whose bit is one says whether 29 holds.
static void count_bits_start(const struct test_case *c, uint32_t answer)
{
    size_t ones = c->flows_len < 64 * c->words_len ? c->flows_len : 64 * c->words_len, first = 0;
    while (first < ones && !bit_of(c, first))
        first++;
    int above = first < ones && c->start > 1000 * (uint64_t)c->flows[first];
    hit_if(answer == 28 && above, FILTER_FROM_BITS_28_START);
    hit_if(answer == 10 && above, FILTER_FROM_BITS_10_START);
    hit_if(answer == 29 && first > 0, FILTER_FROM_BITS_29_GAP);
    hit_if(answer == 0 && first == c->flows_len && first > 0 && c->start > 10000000000, FILTER_FROM_BITS_ABSENT);
    hit_if(answer == 0 && 0 < first && first < ones && c->start > 0, FILTER_FROM_BITS_GAP);
}

// The refusals that a call over presence bits has from its sister: before 28, where that holds too, or behind 10.
static void count_over_bits(const struct test_case *c, uint32_t answer)
{
    static const struct {
        enum branch nine, others;
        uint32_t before[3], behind[3];
    } calls[] = {
        {FILTER_BITS_9, FILTER_BITS_11, {11, 12, 13}, {0}},
        {LINE_BITS_9, LINE_BITS_16, {16}, {17}},
        {TOTALS_BITS_9, TOTALS_BITS_20, {0}, {20, 21}},
        {RECESSION_BITS_9, RECESSION_BITS_18, {18}, {20, 19, 22}},
        {BFIMAX_BITS_9, BFIMAX_BITS_12, {12, 23}, {24, 21}},
        {STAGGERED_BITS_9, STAGGERED_BITS_16, {16, 25}, {17}},
        {FILTER_FROM_BITS_9, FILTER_FROM_BITS_11, {11, 12, 13}, {29}},
    };
    size_t i = c->call - FILTER_BITS;
    if (c->call == FILTER_FROM_BITS)
        count_bits_start(c, answer);
    if (counts_over_bits(c, answer, c->base_len, calls[i].nine))
        return;
    struct bits_view view = view_bits(c);
    enum branch row = calls[i].others;
    for (size_t n = 0; n < 3 && calls[i].before[n] != 0; n++, row = behind(row, 1))
        hit_if(answer == calls[i].before[n] && holds_28(c, &view), row);
    for (size_t n = 0; n < 3 && calls[i].behind[n] != 0; n++, row = behind(row, 1))
        hit_if(answer == calls[i].behind[n], row);
}

void count_branch(const struct test_case *c, uint32_t answer, const struct outs *outs, const uint32_t *days,
                  const uint64_t *base, const uint64_t *work, const uint32_t *takings)
{
    switch (c->call) {
    case READ:
        count_read(c, answer, outs, days);
        break;
    case WRITE:
        count_write(c, answer);
        break;
    case FILTER:
        count_filter(c, answer, base);
        break;
    case FILTER_FROM:
        count_filter_from(c, answer, base);
        break;
    case STEP:
        count_step(c, answer);
        break;
    case STEPS:
        hit(behind(STEPS_1, c->method - 1));
        hit_if(c->days_len == MOST_DAYS, STEPS_MOST_DAYS);
        break;
    case LINE:
        count_line(c, answer, base);
        break;
    case TOTALS:
        count_totals(c, answer, outs);
        break;
    case HALF_LIFE:
        count_half_life(c, answer, outs->small[0]);
        break;
    case METER:
        count_meter(c, answer, outs->small[0]);
        break;
    case LICENCE:
        count_licence(c, answer, outs, takings);
        break;
    case STAGGERED:
        count_staggered(c, answer, work);
        break;
    case RECESSION:
        count_recession(c, answer, outs);
        break;
    case TO_BITS:
        count_to_bits(c, answer, outs->small[0]);
        break;
    case FROM_BITS:
        count_from_bits(c, answer, outs->small[0]);
        break;
    case BFIMAX:
        count_bfimax(c, answer, outs, base);
        break;
    default:
        count_over_bits(c, answer);
    }
}
