// What the examples share: the memory that they lend to the engine, and reading a record.
#include <errno.h>
#include <inttypes.h>
#include <stdio.h>
#include <string.h>

#include "baseflow.h"

// The longest record that is accepted: head, end, and a flow on each day, five bytes each.
enum { MOST_BYTES = 5 * (BASEFLOW_MOST_DAYS + 2) };

// The caller owns all memory. One byte more than a record can have shows an input that is too long.
static uint8_t bytes[MOST_BYTES + 1];
static uint32_t days[BASEFLOW_MOST_DAYS];
static uint64_t base[BASEFLOW_MOST_DAYS];

static int refused(const char *program, const char *call, uint32_t answer)
{
    if (answer != BASEFLOW_ACCEPTED)
        fprintf(stderr, "%s: %s refused with %" PRIu32 "\n", program, call, answer);
    return answer != BASEFLOW_ACCEPTED;
}

// Reads the record in the file that is named, or on standard input, into `days`. Returns 0, or the exit status: 1 where
// the engine refuses, 2 where the input fails.
static int read_record(const char *program, int argc, char **argv, uint32_t *first_day, uint32_t *day_count)
{
    FILE *input = argc < 2 ? stdin : fopen(argv[1], "rb");
    if (input == NULL) {
        fprintf(stderr, "%s: %s: %s\n", program, argv[1], strerror(errno));
        return 2;
    }
    size_t bytes_len = fread(bytes, 1, sizeof bytes, input);
    if (ferror(input) || bytes_len > MOST_BYTES) {
        fprintf(stderr, "%s: the input cannot be read or is too long for a record\n", program);
        return 2;
    }
    uint32_t answer = baseflow_read(bytes, bytes_len, days, BASEFLOW_MOST_DAYS, first_day, day_count);
    return refused(program, "baseflow_read", answer);
}
