// The calls of tests/reference.c. Built with -D'NAME(call)=baseflow_##call' it stands in for the engine.
#ifndef REFERENCE_H
#define REFERENCE_H

#include <stddef.h>
#include <stdint.h>

#ifndef NAME
#define NAME(call) reference_##call
#endif

uint32_t NAME(read)(const uint8_t *bytes, size_t bytes_len, uint32_t *days, size_t days_len, uint32_t *first_day,
                    uint32_t *day_count);
uint32_t NAME(write)(uint32_t first_day, const uint32_t *days, size_t days_len, uint8_t *bytes, size_t bytes_len,
                     uint32_t *record_len);
uint32_t NAME(filter)(uint32_t method, uint32_t p, uint32_t q, int32_t s, uint32_t passes, const uint32_t *days,
                      size_t days_len, uint64_t *base, size_t base_len);
uint32_t NAME(filter_from)(uint32_t method, uint32_t p, uint32_t q, int32_t s, uint32_t passes, uint64_t start,
                           const uint32_t *days, size_t days_len, uint64_t *base, size_t base_len);
uint32_t NAME(step)(uint32_t method, uint32_t p, uint32_t q, int32_t s, uint32_t day, uint32_t *has_yesterday,
                    uint32_t *flow, uint64_t *base, uint64_t *value);
uint32_t NAME(line)(uint32_t block_days, uint32_t factor, const uint32_t *days, size_t days_len, uint64_t *base,
                    size_t base_len);
uint32_t NAME(staggered)(uint32_t block_days, uint32_t factor, uint32_t choice, const uint32_t *days, size_t days_len,
                         uint64_t *base, size_t base_len, uint64_t *work, size_t work_len);
uint32_t NAME(totals)(const uint32_t *days, size_t days_len, const uint64_t *base, size_t base_len, uint32_t *base_days,
                      uint64_t *flow_total, uint64_t *base_total, uint64_t *quick_total, uint32_t *index);
uint32_t NAME(recession)(uint32_t limb_days, const uint32_t *days, size_t days_len, const uint64_t *base,
                         size_t base_len, uint32_t *limbs, size_t limbs_len, uint32_t *ratio_count, uint32_t *ratio);
uint32_t NAME(half_life)(uint32_t p, uint32_t *days);
uint32_t NAME(meter)(const uint8_t *bytes, size_t bytes_len, uint32_t *day);
uint32_t NAME(licence)(uint32_t daily_limit, uint64_t quota, const uint32_t *days, size_t days_len,
                       const uint64_t *base, size_t base_len, uint32_t *takings, size_t takings_len,
                       uint64_t *quota_left);
uint32_t NAME(bfimax)(uint32_t last_day, uint32_t duration, uint32_t p, const uint32_t *days, size_t days_len,
                      uint64_t *base, size_t base_len, uint32_t *bfimax);

uint32_t NAME(to_bits)(const uint32_t *days, size_t days_len, uint32_t *flows, size_t flows_len, uint64_t *words,
                       size_t words_len, uint32_t *present);
uint32_t NAME(from_bits)(const uint32_t *flows, size_t flows_len, const uint64_t *words, size_t words_len,
                         uint32_t *days, size_t days_len, uint32_t *present);
uint32_t NAME(filter_bits)(uint32_t method, uint32_t p, uint32_t q, int32_t s, uint32_t passes, const uint32_t *flows,
                           size_t flows_len, const uint64_t *words, size_t words_len, uint64_t *base, size_t base_len);
uint32_t NAME(filter_from_bits)(uint32_t method, uint32_t p, uint32_t q, int32_t s, uint32_t passes, uint64_t start,
                                const uint32_t *flows, size_t flows_len, const uint64_t *words, size_t words_len,
                                uint64_t *base, size_t base_len);
uint32_t NAME(line_bits)(uint32_t block_days, uint32_t factor, const uint32_t *flows, size_t flows_len,
                         const uint64_t *words, size_t words_len, uint64_t *base, size_t base_len);
uint32_t NAME(staggered_bits)(uint32_t block_days, uint32_t factor, uint32_t choice, const uint32_t *flows,
                              size_t flows_len, const uint64_t *words, size_t words_len, uint64_t *base,
                              size_t base_len, uint64_t *work, size_t work_len);
uint32_t NAME(totals_bits)(const uint32_t *flows, size_t flows_len, const uint64_t *words, size_t words_len,
                           const uint64_t *base, size_t base_len, uint32_t *base_days, uint64_t *flow_total,
                           uint64_t *base_total, uint64_t *quick_total, uint32_t *index);
uint32_t NAME(recession_bits)(uint32_t limb_days, const uint32_t *flows, size_t flows_len, const uint64_t *words,
                              size_t words_len, const uint64_t *base, size_t base_len, uint32_t *limbs,
                              size_t limbs_len, uint32_t *ratio_count, uint32_t *ratio);
uint32_t NAME(bfimax_bits)(uint32_t last_day, uint32_t duration, uint32_t p, const uint32_t *flows, size_t flows_len,
                           const uint64_t *words, size_t words_len, uint64_t *base, size_t base_len, uint32_t *bfimax);

#endif
