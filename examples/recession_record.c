// Reads a record and finds the river's own recession constant: from the days on which the smoothed-minima line meets the
// flow, so that no storm water enters. It prints the half-life that it stands for, and with it as p separates base flow by
// method 5 and prints the index.
//
//     gcc -std=c11 -Iinclude examples/recession_record.c target/staticlib/libbaseflow.a -o target/recession_record
//     target/recession_record [RECORD]
//
// Without a file it reads standard input. It exits with 0, with 1 where the engine refuses, with 2 where input or
// output fails.
#include "record_input.h"

// Lines of 5-day blocks with factor 0.9, limbs of at least 5 days, BFImax 0.80: usual settings.
enum { BLOCK_DAYS = 5, FACTOR = 9000, LIMB_DAYS = 5, BFIMAX = 8000 };

// Two numbers a limb, and no more limbs than half the days.
static uint32_t limbs[BASEFLOW_MOST_DAYS];

int main(int argc, char **argv)
{
    static const char program[] = "recession_record";
    uint32_t first_day, n;
    int status = read_record(program, argc, argv, &first_day, &n);
    if (status != 0)
        return status;

    uint32_t answer = baseflow_line(BLOCK_DAYS, FACTOR, days, n, base, n);
    if (refused(program, "baseflow_line", answer))
        return 1;
    uint32_t ratio_count, ratio;
    answer = baseflow_recession(LIMB_DAYS, days, n, base, n, limbs, n, &ratio_count, &ratio);
    if (refused(program, "baseflow_recession", answer))
        return 1;
    printf("%" PRIu32 " ratios of days at base, p 0.%04" PRIu32 "\n", ratio_count, ratio);

    uint32_t fewest, most; // the ratio lies between two thousandths, and so does its half-life
    answer = baseflow_half_life(ratio / 10, &fewest);
    if (refused(program, "baseflow_half_life", answer))
        return 1;
    answer = baseflow_half_life((ratio + 9) / 10, &most);
    if (refused(program, "baseflow_half_life", answer))
        return 1;
    printf("half is left after %" PRIu32 " to %" PRIu32 " days\n", fewest, most);

    answer = baseflow_filter(BASEFLOW_ECKHARDT, ratio, BFIMAX, 0, 1, days, n, base, n); // 12 where ratio is no parameter
    if (refused(program, "baseflow_filter", answer))
        return 1;
    uint32_t base_days, index;
    uint64_t flow_total, base_total, quick_total;
    answer = baseflow_totals(days, n, base, n, &base_days, &flow_total, &base_total, &quick_total, &index);
    if (refused(program, "baseflow_totals", answer))
        return 1;
    printf("index by method 5 %" PRIu32 ".%04" PRIu32 "\n", index / 10000, index % 10000);
    return fflush(stdout) == 0 ? 0 : 2;
}
