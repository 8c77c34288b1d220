/*
 * Checks an image and runs it, and prints the report and every register, flag and memory word that is not 0 afterwards.
 *
 *     run_image          the example below, on its presets
 *     run_image FILE     a file's image, on the zero state and 64 zero words of memory, as linerun runs it
 *
 * Exit status 0 where the run ends with code 0, 1 where the image is refused, 2 where the file cannot be read.
 */
#include <stdio.h>
#include <string.h>
#include "ts201.h"

enum { IMAGE_BYTES = 65536, MEMORY_WORDS = 64, A_LINE = 8 };

/*
 * On its presets the first line loads word 14, which holds 196, into XR0 and steps J0 round its buffer, words 8 to 15: 14 + 3
 * is past its end, so J0 becomes 9. The second line adds, on X and on Y, where 0 + 0 sets AZ, and stores K0 in word 9. Two of
 * its slots are conditional: K's last result is 5, so that KNEQ holds and KEQ fails, and word 8 keeps its 64.
 */
static const uint32_t example[] = {
    2, 5, 14, 19, 28,
    7, 21, 65536, 0, 32, 3, TS201_ALWAYS,   /* XR0 = CB [J0 += 3] */
    8, 1, 0, 0, 32, 5, TS201_ALWAYS,        /* K0 = K0 + 5 */
    1, 1, 1, 0, 0, 0, TS201_KNEQ + 1,       /* if KNEQ, XR1 = R0 + R0 */
    2, 1, 1, 0, 0, 0, TS201_ALWAYS,         /* YR1 = R0 + R0 */
    8, 20, 66304, 31, 32, 9, TS201_ALWAYS,  /* [K31 + 9] = K0 */
    7, 20, 66304, 31, 32, 8, TS201_KEQ + 1  /* if KEQ, [J31 + 8] = K0 */
};

static uint8_t bytes[IMAGE_BYTES + 1];
static uint32_t image[IMAGE_BYTES / 4], state[TS201_STATE_WORDS], memory[MEMORY_WORDS];

/* Reads one byte more than an image may have, so that the check sees an image that is too long. */
static int read_file(const char *name, size_t *length)
{
    FILE *file = fopen(name, "rb");
    if (file == NULL) {
        return 0;
    }
    *length = fread(bytes, 1, sizeof bytes, file);
    int failed = ferror(file);
    fclose(file);
    return !failed;
}

static void preset_example(void)
{
    state[TS201_J] = 14;
    state[TS201_BASE] = 8;
    state[TS201_LENGTH] = 8;
    for (uint32_t i = 0; i < MEMORY_WORDS; i++) {
        memory[i] = i * i;
    }
    puts("image: XR0 = CB [J0 += 3]; K0 = K0 + 5;;");
    puts("       if KNEQ, XR1 = R0 + R0; YR1 = R0 + R0; [K31 + 9] = K0; if KEQ, [J31 + 8] = K0;;");
    puts("preset: J0 = 14, in a circular buffer of 8 words from word 8 on (JB0 = 8, JL0 = 8); memory word i holds i * i");
    puts("expected: XR0 = 14 * 14, J0 = 14 + 3 - 8, K0 = 5, XR1 = XR0 + XR0, Y AZ since YR1 = 0 + 0, [8] = 8 * 8, [9] = K0");
}

/* The words that are not 0, several to a line. */
static void print_words(const char *before, const char *after, const uint32_t *words, int count)
{
    int printed = 0;
    for (int i = 0; i < count; i++) {
        if (words[i] != 0) {
            fputs(printed != 0 && printed % A_LINE == 0 ? "\n  " : "  ", stdout);
            printf("%s%d%s = %lu", before, i, after, (unsigned long)words[i]);
            printed++;
        }
    }
    if (printed != 0) {
        putchar('\n');
    }
}

static void print_registers(void)
{
    static const struct { const char *name; int at, count; } files[] = {
        {"XR", TS201_R, 32}, {"YR", TS201_R + 32, 32}, {"XTR", TS201_TR, 32}, {"YTR", TS201_TR + 32, 32},
        {"XTHR", TS201_THR, 4}, {"YTHR", TS201_THR + 4, 4}, {"J", TS201_J, 31}, {"K", TS201_K, 31},
        {"JB", TS201_BASE, 4}, {"JL", TS201_LENGTH, 4}, {"KB", TS201_BASE + 4, 4}, {"KL", TS201_LENGTH + 4, 4},
        {"XDAB", TS201_DAB, 4}, {"YDAB", TS201_DAB + 4, 4}};
    for (size_t i = 0; i < sizeof files / sizeof files[0]; i++) {
        print_words(files[i].name, "", state + files[i].at, files[i].count);
    }
}

/* Each flag that is set, a group to a line. */
static void print_flags(void)
{
    static const char *const names[TS201_END - TS201_FLAGS][4] = {
        {"X AZ", "X AN", "X AV", "X AC"}, {"Y AZ", "Y AN", "Y AV", "Y AC"}, {"X SZ", "X SN"}, {"Y SZ", "Y SN"},
        {"X TROV", "X TRSOV"}, {"Y TROV", "Y TRSOV"}, {"J Z", "J N", "J V", "J C"}, {"K Z", "K N", "K V", "K C"}};
    for (int group = 0; group < TS201_END - TS201_FLAGS; group++) {
        int printed = 0;
        for (int i = 0; i < 4; i++) {
            if (names[group][i] != NULL && (state[TS201_FLAGS + group] >> i & 1) != 0) {
                printed += printf("  %s", names[group][i]);
            }
        }
        if (printed != 0) {
            putchar('\n');
        }
    }
}

static int run(size_t words)
{
    uint32_t report[TS201_RUN_WORDS];
    uint32_t code = ts201_run(image, words, state, TS201_STATE_WORDS, memory, MEMORY_WORDS, report, TS201_RUN_WORDS);
    printf("run: code %lu, line %lu, slot %lu, lines done %lu, steps %llu\n", (unsigned long)code,
           (unsigned long)report[TS201_LINE], (unsigned long)report[TS201_SLOT], (unsigned long)report[TS201_LINES_DONE],
           (unsigned long long)report[TS201_STEPS_HIGH] << 32 | report[TS201_STEPS_LOW]);
    puts("not 0 afterwards:");
    print_registers();
    print_flags();
    print_words("[", "]", memory, MEMORY_WORDS);
    return code == TS201_OK ? 0 : 1;
}

int main(int argc, char **argv)
{
    size_t length = sizeof example;
    if (argc > 1) {
        if (!read_file(argv[1], &length)) {
            fprintf(stderr, "run_image: cannot read %s\n", argv[1]);
            return 2;
        }
        printf("image: %s, on the zero state and %d zero words of memory\n", argv[1], MEMORY_WORDS);
    } else {
        memcpy(bytes, example, sizeof example);
        preset_example();
    }
    uint32_t code = ts201_check(bytes, length);
    printf("check: code %lu\n", (unsigned long)code);
    if (code != TS201_OK) {
        return 1;
    }
    memcpy(image, bytes, length);
    return run(length / 4);
}
