// Reads a record, separates base flow, and replays the river against the licence of a pump: prints what it may take on each
// day, so that it never draws on base flow, and the quota that is left.
//
//     gcc -std=c11 -Iinclude examples/licence_record.c target/staticlib/libbaseflow.a -o target/licence_record
//     target/licence_record filter|line DAILY_LIMIT QUOTA [RECORD]
//
// `filter` is the Lyne-Hollick filter, `line` the smoothed-minima line. Limit and quota are in litres a second, the quota
// summed over days. Without a file it reads standard input. It exits with 0, with 1 where the engine refuses, with 2 where
// words, input or output fail.
#include <stdlib.h>

#include "record_input.h"

static uint32_t takings[BASEFLOW_MOST_DAYS];

// A number of the command line; anything else is more than any licence may have.
static uint64_t number(const char *word)
{
    char *end;
    errno = 0;
    uint64_t n = strtoull(word, &end, 10);
    return *word >= '0' && *word <= '9' && *end == '\0' && errno == 0 ? n : UINT64_MAX;
}

static void print_days(uint32_t first_day, uint32_t day_count)
{
    puts("day flow base taking");
    for (uint32_t t = 0; t < day_count; t++) {
        if (days[t] == BASEFLOW_MISSING)
            printf("%" PRIu32 " missing\n", first_day + t);
        else if (base[t] == BASEFLOW_NO_VALUE)
            printf("%" PRIu32 " %" PRIu32 " none 0\n", first_day + t, days[t]);
        else
            printf("%" PRIu32 " %" PRIu32 " %" PRIu64 ".%03" PRIu64 " %" PRIu32 "\n", first_day + t, days[t],
                   base[t] / 1000, base[t] % 1000, takings[t]);
    }
}

int main(int argc, char **argv)
{
    static const char program[] = "licence_record";
    if (argc < 4 || (strcmp(argv[1], "filter") != 0 && strcmp(argv[1], "line") != 0)) {
        fprintf(stderr, "%s: filter|line DAILY_LIMIT QUOTA [RECORD]\n", program);
        return 2;
    }
    uint64_t daily_limit = number(argv[2]), quota = number(argv[3]);
    uint32_t first_day, n;
    int status = read_record(program, argc - 3, argv + 3, &first_day, &n);
    if (status != 0)
        return status;

    uint32_t answer = strcmp(argv[1], "line") == 0
                          ? baseflow_line(5, 9000, days, n, base, n)
                          : baseflow_filter(BASEFLOW_LYNE_HOLLICK, 9250, 0, 0, 1, days, n, base, n);
    if (refused(program, argv[1], answer))
        return 1;
    uint32_t limit = daily_limit > UINT32_MAX ? UINT32_MAX : (uint32_t)daily_limit; // either is refused with 31
    answer = baseflow_licence(limit, quota, days, n, base, n, takings, n, &quota);
    if (refused(program, "baseflow_licence", answer))
        return 1;
    print_days(first_day, n);
    printf("quota left %" PRIu64 "\n", quota);
    return fflush(stdout) == 0 ? 0 : 2;
}
