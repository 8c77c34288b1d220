/*
 * Tests ts201_best_path: prints a line for each group of checks, and `all passed` at the end. A check that fails is named, and
 * the exit status is then 1. Where several paths are best, any of them passes.
 */
#define _XOPEN_SOURCE 700
#include <pthread.h>
#include <stdio.h>
#include <string.h>
#include <ucontext.h>
#include "ts201.h"

enum { STAGES = TS201_MAX_STAGES, VALUES = TS201_STATES * STAGES, UNWRITTEN = 90, KIB = 1024, ROUNDS = 2000 };

static int failed;
#define EXPECT(fact) ((fact) ? (void)0 : (printf("FAILED, line %d: %s\n", __LINE__, #fact), (void)(failed = 1)))

/* What a call is lent, with room for a stage and some entries too many. */
struct buffers {
    int16_t g[VALUES + TS201_STATES];
    uint8_t path[STAGES + 16];
    int32_t metric[3];
};

/* Nothing is written yet; every branch value is the same. */
static void reset(struct buffers *b, int16_t value)
{
    memset(b, UNWRITTEN, sizeof *b);
    for (int i = 0; i < VALUES + TS201_STATES; i++) {
        b->g[i] = value;
    }
}

/* A pseudorandom number, so that every run of the test is the same. */
static uint32_t drawn(uint32_t *seed)
{
    *seed = *seed * 1664525 + 1013904223;
    return *seed >> 16;
}

/* Values from all of 16 bits down to two bits, which make many paths equally good. */
static void draw_values(struct buffers *b, size_t count, uint32_t *seed)
{
    uint32_t shift = drawn(seed) % 15;
    for (size_t i = 0; i < count; i++) {
        b->g[i] = (int16_t)(((int32_t)drawn(seed) - 32768) / (1 << shift));
    }
}

/* Adds up a path's metric; answers whether it is one. */
static int sum(const int16_t *g, const uint8_t *path, uint32_t stages, int32_t *metric)
{
    *metric = 0;
    for (uint32_t t = 0; t < stages; t++) {
        uint32_t old = path[t], new = path[t + 1];
        if (new >= TS201_STATES || old % 4 != new / 2) {
            return 0;
        }
        int32_t value = g[TS201_STATES * t + new];
        *metric += old == new / 2 ? -value : value;
    }
    return path[0] < TS201_STATES;
}

/* The largest metric of all paths: each starts in one of eight states, and each stage appends a bit to the state's last two. */
static int32_t largest(const int16_t *g, uint32_t stages)
{
    int32_t best = INT32_MIN, metric;
    uint8_t path[STAGES + 1];
    for (uint32_t number = 0; number < 8u << stages; number++) {
        path[0] = (uint8_t)(number % TS201_STATES);
        for (uint32_t t = 0; t < stages; t++) {
            path[t + 1] = (uint8_t)(path[t] % 4 * 2 + (number >> (t + 3) & 1));
        }
        EXPECT(sum(g, path, stages, &metric));
        best = metric > best ? metric : best;
    }
    return best;
}

/* Whether a call with a path of stages + 1 entries and some more answers 0, a path, its metric, and keeps the rest. */
static int decodes(struct buffers *b, uint32_t stages, size_t more)
{
    struct buffers before = *b;
    int32_t metric;
    uint32_t code = ts201_best_path(stages, b->g, TS201_STATES * stages, b->path, stages + 1 + more, b->metric, 1);
    return code == TS201_OK && sum(b->g, b->path, stages, &metric) && b->metric[0] == metric
        && memcmp(b->g, before.g, sizeof b->g) == 0 && memcmp(b->metric + 1, before.metric + 1, 8) == 0
        && memcmp(b->path + stages + 1, before.path + stages + 1, sizeof b->path - stages - 1) == 0;
}

static void short_paths(void)
{
    struct buffers b;
    uint32_t seed = 1;
    for (int round = 0; round < ROUNDS; round++) {
        uint32_t stages = (uint32_t)round % 4;
        reset(&b, 0);
        draw_values(&b, TS201_STATES * stages, &seed);
        EXPECT(decodes(&b, stages, drawn(&seed) % 8) && b.metric[0] == largest(b.g, stages));
    }
    reset(&b, 5);
    EXPECT(decodes(&b, 0, 0) && b.path[0] < TS201_STATES && b.metric[0] == 0);
    reset(&b, 5);
    EXPECT(decodes(&b, 0, 9) && b.path[0] < TS201_STATES && b.metric[0] == 0);
    puts("up to three stages: a path, its metric, the largest of all paths; entries behind it are kept");
}

/* Each stage gains at most the value's size; state 0 gains -value by staying, state 7 value. */
static void long_paths(void)
{
    static const int16_t values[] = {INT16_MIN, -1, 0, 1, INT16_MAX};
    struct buffers b;
    uint32_t seed = 2;
    for (int i = 0; i < 5; i++) {
        int32_t size = values[i] < 0 ? -values[i] : values[i];
        reset(&b, values[i]);
        EXPECT(decodes(&b, STAGES, 0) && b.metric[0] == STAGES * size);
        reset(&b, values[i]);
        EXPECT(decodes(&b, STAGES - 1, 5) && b.metric[0] == (STAGES - 1) * size);
    }
    for (int round = 0; round < ROUNDS / 10; round++) {
        reset(&b, 0);
        draw_values(&b, VALUES, &seed);
        EXPECT(decodes(&b, drawn(&seed) % (STAGES + 1), drawn(&seed) % 8));
    }
    puts("up to 1,024 stages: exact metrics of -32,768 and 32,767 in every place; the path's sum is the metric");
}

/* Whether a call is refused with 13 or 14 and changes nothing but the metric, which becomes 0; with 255 nothing at all. */
static int refuses(uint32_t code, uint32_t stages, size_t g_length, size_t path_length, size_t metric_length)
{
    struct buffers b, expected;
    reset(&b, -7);
    expected = b;
    if (code != TS201_BAD_BUFFER) {
        expected.metric[0] = 0;
    }
    return ts201_best_path(stages, b.g, g_length, b.path, path_length, b.metric, metric_length) == code
        && memcmp(&b, &expected, sizeof b) == 0;
}

static void refusals(void)
{
    static const uint32_t too_many[] = {STAGES + 1, 0x20000000, 0x20000001, 0x80000000, 0xFFFFFFFF};
    for (int i = 0; i < 5; i++) {
        for (size_t g_length = 0; g_length <= VALUES + TS201_STATES; g_length += TS201_STATES) {
            EXPECT(refuses(TS201_BAD_STAGES, too_many[i], g_length, STAGES + 2, 1));
        }
        EXPECT(refuses(TS201_BAD_STAGES, too_many[i], VALUES + TS201_STATES, 0, 1));
    }
    EXPECT(refuses(TS201_BAD_STAGES, 0, 1, 1, 1));
    EXPECT(refuses(TS201_BAD_STAGES, 2, 0, 3, 1));
    EXPECT(refuses(TS201_BAD_STAGES, 2, 15, 3, 1));
    EXPECT(refuses(TS201_BAD_STAGES, 2, 17, 3, 1));
    EXPECT(refuses(TS201_BAD_STAGES, STAGES, VALUES - 1, STAGES + 1, 1));
    EXPECT(refuses(TS201_BAD_STAGES, STAGES, VALUES + 1, STAGES + 1, 1));
    EXPECT(refuses(TS201_BAD_STAGES, 2, 15, 2, 1)); /* the path is too short as well */
    EXPECT(refuses(TS201_SHORT_PATH, 0, 0, 0, 1));
    EXPECT(refuses(TS201_SHORT_PATH, 2, 16, 0, 1));
    EXPECT(refuses(TS201_SHORT_PATH, 2, 16, 2, 1));
    EXPECT(refuses(TS201_SHORT_PATH, STAGES, VALUES, STAGES, 1));
    puts("refusals: 13 for stages and branch values, then 14 for a short path; metric 0, and the path is kept");
}

static void wrong_lengths(void)
{
    for (size_t metric_length = 0; metric_length <= 3; metric_length++) {
        if (metric_length != 1) {
            EXPECT(refuses(TS201_BAD_BUFFER, 2, 16, 3, metric_length));
            EXPECT(refuses(TS201_BAD_BUFFER, STAGES + 1, 16, 3, metric_length));
            EXPECT(refuses(TS201_BAD_BUFFER, 2, 16, 2, metric_length));
        }
    }
    puts("wrong lengths of the metric: 255, and nothing is changed");
}

static void null_for_none(void)
{
    struct buffers b;
    reset(&b, 1);
    EXPECT(ts201_best_path(0, NULL, 0, b.path, 1, b.metric, 1) == TS201_OK && b.path[0] < TS201_STATES && b.metric[0] == 0);
    EXPECT(ts201_best_path(1, NULL, 0, b.path, 2, b.metric, 1) == TS201_BAD_STAGES);
    EXPECT(ts201_best_path(0xFFFFFFFF, NULL, 0, NULL, 0, b.metric, 1) == TS201_BAD_STAGES);
    EXPECT(ts201_best_path(0, NULL, 0, NULL, 0, b.metric, 1) == TS201_SHORT_PATH);
    EXPECT(ts201_best_path(1, b.g, 8, NULL, 0, b.metric, 1) == TS201_SHORT_PATH);
    EXPECT(ts201_best_path(1, b.g, 8, b.path, 2, NULL, 0) == TS201_BAD_BUFFER);
    EXPECT(ts201_best_path(0, NULL, 0, NULL, 0, NULL, 0) == TS201_BAD_BUFFER);
    puts("NULL with length 0: an empty buffer");
}

static struct buffers task;
static uint32_t task_code;

static void perform(void)
{
    task_code = ts201_best_path(STAGES, task.g, VALUES, task.path, STAGES + 1, task.metric, 1);
}

/* The call on a stack of its own, which is filled beforehand: what is no longer as it was has been used. */
static void stack(void)
{
    static uint8_t bytes[64 * KIB];
    static ucontext_t caller, callee;
    size_t unused = 0;
    reset(&task, 3);
    memset(bytes, UNWRITTEN, sizeof bytes);
    EXPECT(getcontext(&callee) == 0);
    callee.uc_stack.ss_sp = bytes;
    callee.uc_stack.ss_size = sizeof bytes;
    callee.uc_link = &caller;
    makecontext(&callee, perform, 0);
    EXPECT(swapcontext(&caller, &callee) == 0 && task_code == TS201_OK && task.metric[0] == 3 * STAGES);
    while (unused < sizeof bytes && bytes[unused] == UNWRITTEN) {
        unused++;
    }
    EXPECT(unused < sizeof bytes && sizeof bytes - unused <= 2 * KIB);
    puts("stack: 1,024 stages are decoded with the 2 KiB that ts201.h says");
}

/* Decodes again and again, each time with values that the path before has changed. */
static void *many_paths(void *lent)
{
    struct buffers *b = lent;
    for (int round = 0; round < ROUNDS; round++) {
        ts201_best_path(STAGES, b->g, VALUES, b->path, STAGES + 1, b->metric, 1);
        for (int t = 0; t < STAGES; t++) {
            b->g[TS201_STATES * t + b->path[t + 1]] = (int16_t)(b->metric[0] >> t % 16);
        }
    }
    return NULL;
}

static void threads(void)
{
    static struct buffers alone[2], together[2];
    pthread_t thread[2];
    uint32_t seed = 3;
    for (int i = 0; i < 2; i++) {
        reset(&alone[i], 0);
        draw_values(&alone[i], VALUES, &seed);
        together[i] = alone[i];
        many_paths(&alone[i]);
    }
    EXPECT(memcmp(&alone[0], &alone[1], sizeof alone[0]) != 0);
    EXPECT(pthread_create(&thread[0], NULL, many_paths, &together[0]) == 0);
    EXPECT(pthread_create(&thread[1], NULL, many_paths, &together[1]) == 0);
    EXPECT(pthread_join(thread[0], NULL) == 0 && pthread_join(thread[1], NULL) == 0);
    EXPECT(memcmp(alone, together, sizeof alone) == 0);
    puts("two threads at once, each on its own buffers: they end as alone");
}

int main(void)
{
    short_paths();
    long_paths();
    refusals();
    wrong_lengths();
    null_for_none();
    stack();
    threads();
    puts(failed ? "FAILED" : "all passed");
    return failed;
}
