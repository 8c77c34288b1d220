/*
 * Decodes branch values and prints the code, the metric and the path, its starting state first.
 *
 *     best_path          the example below
 *     best_path FILE     a file's values: 16 bits each, signed, little-endian, eight a stage
 *
 * Exit status 0 where the values are decoded, 1 where they are refused, 2 where the file cannot be read.
 */
#include <stdio.h>
#include <string.h>
#include "ts201.h"

/* Room for a stage more than can be decoded, so that the call sees that there are too many. */
enum { VALUES = TS201_STATES * (TS201_MAX_STAGES + 1), A_LINE = 32 };

/*
 * The values of a sent path 0 1 2 5 3, with noise. A step from states 0 to 3 subtracts its value, one from 4 to 7 adds it, so
 * the first three steps gain 8, 9 and 10, and the last one, from state 5 to 3, gains 9. No other step gains more than 2.
 */
static const int16_t example[] = {
    1, -8, 0, 2, -1, 0, 1, -2,  /* to state 1 */
    0, 1, -9, -1, 2, 0, -2, 1,  /* to state 2 */
    -1, 0, 2, 1, 0, -10, 1, 0,  /* to state 5 */
    2, -1, 0, 9, 1, -2, 0, 1    /* to state 3 */
};

static int16_t values[VALUES];
static uint8_t bytes[2 * VALUES], path[TS201_MAX_STAGES + 1];

/* A byte that is left over becomes a value too many, which is refused. */
static int read_file(const char *name, size_t *count)
{
    FILE *file = fopen(name, "rb");
    if (file == NULL) {
        return 0;
    }
    *count = (fread(bytes, 1, sizeof bytes, file) + 1) / 2;
    int failed = ferror(file);
    fclose(file);
    for (size_t i = 0; i < *count; i++) {
        values[i] = (int16_t)(bytes[2 * i] | bytes[2 * i + 1] << 8);
    }
    return !failed;
}

static void print_path(uint32_t stages)
{
    fputs("path:", stdout);
    for (uint32_t t = 0; t <= stages; t++) {
        printf("%s%d", t != 0 && t % A_LINE == 0 ? "\n      " : " ", path[t]);
    }
    putchar('\n');
}

int main(int argc, char **argv)
{
    size_t count = sizeof example / sizeof example[0];
    if (argc > 1) {
        if (!read_file(argv[1], &count)) {
            fprintf(stderr, "best_path: cannot read %s\n", argv[1]);
            return 2;
        }
    } else {
        memcpy(values, example, sizeof example);
        puts("expected: metric 8 + 9 + 10 + 9, path 0 1 2 5 3");
    }
    uint32_t stages = (uint32_t)(count / TS201_STATES);
    int32_t metric = 0;
    uint32_t code = ts201_best_path(stages, values, count, path, sizeof path, &metric, 1);
    printf("stages %lu: code %lu, metric %ld\n", (unsigned long)stages, (unsigned long)code, (long)metric);
    if (code != TS201_OK) {
        return 1;
    }
    print_path(stages);
    return 0;
}
