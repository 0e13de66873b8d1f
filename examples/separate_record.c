// Reads a record, separates base flow with the Lyne-Hollick filter, and prints each day's flow and base flow and the
// base flow index.
//
//     gcc -std=c11 -Iinclude examples/separate_record.c target/staticlib/libbaseflow.a -o target/separate_record
//     target/separate_record [RECORD]
//
// Without a file it reads standard input. It exits with 0, with 1 where the engine refuses, with 2 where input or
// output fails.
#include "record_input.h"

static void print_days(uint32_t first_day, uint32_t day_count)
{
    puts("day flow base");
    for (uint32_t t = 0; t < day_count; t++) {
        if (days[t] == BASEFLOW_MISSING)
            printf("%" PRIu32 " missing\n", first_day + t);
        else
            printf("%" PRIu32 " %" PRIu32 " %" PRIu64 ".%03" PRIu64 "\n", first_day + t, days[t], base[t] / 1000,
                   base[t] % 1000);
    }
}

int main(int argc, char **argv)
{
    static const char program[] = "separate_record";
    uint32_t first_day, day_count;
    int status = read_record(program, argc, argv, &first_day, &day_count);
    if (status != 0)
        return status;
    uint32_t answer = baseflow_filter(BASEFLOW_LYNE_HOLLICK, 9250, 0, 0, 1, days, day_count, base, day_count);
    if (refused(program, "baseflow_filter", answer))
        return 1;
    print_days(first_day, day_count);

    uint32_t base_days, index;
    uint64_t flow_total, base_total, quick_total;
    answer = baseflow_totals(days, day_count, base, day_count, &base_days, &flow_total, &base_total, &quick_total,
                             &index);
    if (answer == BASEFLOW_NO_FLOW)
        puts("index none"); // a dry river, or no day at all
    else if (refused(program, "baseflow_totals", answer))
        return 1;
    else
        printf("index %" PRIu32 ".%04" PRIu32 "\n", index / 10000, index % 10000);
    return fflush(stdout) == 0 ? 0 : 2;
}
