/*
 * Tests the calls of ts201.h: prints a line for each group of checks, and `all passed` at the end. A check that fails is
 * named, and the exit status is then 1.
 */
#define _POSIX_C_SOURCE 200809L
#include <pthread.h>
#include <stdio.h>
#include <string.h>
#include <unistd.h>
#include "ts201.h"

enum { MEMORY_WORDS = 64, IMAGE_WORDS = 16384, BUFFERS = 8, KIB = 1024, ROUNDS = 100000 };

static int failed;
#define EXPECT(fact) ((fact) ? (void)0 : (printf("FAILED, line %d: %s\n", __LINE__, #fact), (void)(failed = 1)))

/* An image, with room for a word too many, and eight bytes of orders for each of its lines. */
struct image {
    size_t count, order_bytes;
    uint32_t words[IMAGE_WORDS + 1];
    uint8_t orders[IMAGE_WORDS];
};

/* J0 = J0 + 5;; J1 = J0 + J0; [K31 + 7] = J0;; J2 = [J31 + 7];; both slots of the second line fetch before they store. */
static const struct image three = {
    35, 24,
    {3, 7, 7, 14, 14, 28, 7,
     7, 1, 0, 0, 32, 5, 0, 7, 1, 1, 0, 0, 0, 0, 8, 20, 66048, 31, 32, 7, 0, 7, 18, 66050, 31, 32, 7, 0},
    {0, 1, 255, 255, 255, 255, 255, 255, 0, 2, 3, 1, 255, 255, 255, 255, 0, 1, 255, 255, 255, 255, 255, 255}};

/* JB3 = J0; KL0 = K0;; */
static const struct image renewal = {
    17, 8, {1, 3, 14, 7, 15, 3, 0, 0, 0, 0, 8, 16, 0, 0, 0, 0, 0}, {0, 1, 2, 3, 255, 255, 255, 255}};

/* if JEQ, XR0 = not R0; if JNEQ, K0 = [K31 + 64], which is past memory;; */
static const struct image choice = {
    17, 8, {1, 3, 14, 1, 8, 0, 0, 0, 0, TS201_JEQ + 1, 8, 18, 66304, 31, 32, 64, TS201_JNEQ + 1},
    {0, 1, 2, 3, 255, 255, 255, 255}};

/* XR7:4 = DAB Q [J0 += 4];; YR3:0 = DAB Q [K2 += 4]; XR7:4 = DAB Q [J0 += 4];; the second line's slots by turns. */
static const struct image unaligned = {
    26, 16,
    {2, 5, 7, 12, 14, 7, 24, 4, 0, 32, 4, 0, 8, 25, 0, 2, 32, 4, 0, 7, 24, 4, 0, 32, 4, 0},
    {0, 1, 255, 255, 255, 255, 255, 255, 2, 3, 0, 1, 255, 255, 255, 255}};

/* As many lines J0 = J0 + 5 as fit in so many words: ten words are one line, 16,384 are 1,820. */
static const struct image *most_lines(size_t count)
{
    static struct image image;
    size_t lines = (count - 1) / (2 + TS201_SLOT_WORDS);
    image.count = count;
    image.order_bytes = 8 * lines;
    image.words[0] = (uint32_t)lines;
    for (size_t i = 0; i < lines; i++) {
        size_t offset = 1 + 2 * lines + TS201_SLOT_WORDS * i;
        image.words[1 + 2 * i] = (uint32_t)offset;
        image.words[2 + 2 * i] = TS201_SLOT_WORDS;
        memcpy(image.words + offset, three.words + 7, 4 * TS201_SLOT_WORDS);
        memcpy(image.orders + 8 * i, three.orders, 8);
    }
    return &image;
}

/* What a call is lent, with room for a word too many. */
struct buffers {
    uint32_t state[TS201_STATE_WORDS + 1], memory[MEMORY_WORDS], report[TS201_RUN_WORDS + 1];
};

enum call { CHECK, CHECK_WORDS, RUN, RUN_ORDERED };

static uint32_t call(enum call which, const struct image *m, struct buffers *b, size_t state_words, size_t report_words)
{
    switch (which) {
    case CHECK:
        return ts201_check((const uint8_t *)m->words, 4 * m->count);
    case CHECK_WORDS:
        return ts201_check_words(m->words, m->count, b->report, report_words);
    case RUN:
        return ts201_run(m->words, m->count, b->state, state_words, b->memory, MEMORY_WORDS, b->report, report_words);
    default:
        return ts201_run_ordered(m->words, m->count, m->orders, m->order_bytes, UINT64_MAX, b->state, state_words, b->memory,
                                 MEMORY_WORDS, b->report, report_words);
    }
}

/* The true ends of a state's buffers as their words. */
static void true_ends(const uint32_t *state, uint32_t ends[2 * BUFFERS])
{
    for (int i = 0; i < BUFFERS; i++) {
        uint64_t end = (uint64_t)state[TS201_BASE + i] + state[TS201_LENGTH + i];
        ends[2 * i] = (uint32_t)end;
        ends[2 * i + 1] = (uint32_t)(end >> 32);
    }
}

static int ends_are_true(const uint32_t *state)
{
    uint32_t ends[2 * BUFFERS];
    true_ends(state, ends);
    return memcmp(state + TS201_END, ends, sizeof ends) == 0;
}

/* Every word is 0x5A5A5A5A but K3's base and length, which are as high as they can be: each end is false. */
static struct buffers false_ends(void)
{
    struct buffers b;
    memset(&b, 90, sizeof b);
    b.state[TS201_BASE + 7] = b.state[TS201_LENGTH + 7] = 0xFFFFFFFF;
    return b;
}

/* Every number for every Z and N, with V and C set, the other IALU's flags inverted and all other words of the state set. */
static void conditions(void)
{
    /* bit Z + 2N of an entry is the answer: EQ LT LE NEQ NLT NLE */
    static const uint32_t answers[6] = {10, 12, 14, 5, 3, 1};
    uint32_t state[TS201_STATE_WORDS + 1];
    memset(state, 255, sizeof state);
    for (uint32_t number = TS201_JEQ; number <= TS201_KNLE; number++) {
        for (uint32_t flags = 0; flags < 4; flags++) {
            state[TS201_FLAGS + 6 + number / 6] = 12 + flags;
            state[TS201_FLAGS + 7 - number / 6] = 3 - flags;
            EXPECT(ts201_condition(number, state, TS201_STATE_WORDS) == (answers[number % 6] >> flags & 1));
        }
    }
    EXPECT(ts201_condition(12, state, TS201_STATE_WORDS) == TS201_CONDITION);
    EXPECT(ts201_condition(0xFFFFFFFF, state, TS201_STATE_WORDS) == TS201_CONDITION);
    for (uint32_t number = 11; number <= 12; number++) {
        EXPECT(ts201_condition(number, state, 0) == TS201_BAD_BUFFER);
        EXPECT(ts201_condition(number, state, TS201_STATE_WORDS - 1) == TS201_BAD_BUFFER);
        EXPECT(ts201_condition(number, state, TS201_STATE_WORDS + 1) == TS201_BAD_BUFFER);
    }
    puts("ts201_condition: each number, Z and N; 12 for a number above 11; 255 for a wrong length");
}

static void wrong_lengths(void)
{
    static const size_t states[] = {0, 238, 245, 247}, reports[] = {0, 3, 5, 7}, answers[] = {0, 2, 4, 6};
    struct buffers before = false_ends(), b = before;
    for (int i = 0; i < 4; i++) {
        EXPECT(call(CHECK_WORDS, &three, &b, 0, answers[i]) == TS201_BAD_BUFFER);
        for (enum call run = RUN; run <= RUN_ORDERED; run++) {
            EXPECT(call(run, &three, &b, states[i], TS201_RUN_WORDS) == TS201_BAD_BUFFER);
            EXPECT(call(run, &three, &b, TS201_STATE_WORDS, reports[i]) == TS201_BAD_BUFFER);
        }
    }
    EXPECT(memcmp(&b, &before, sizeof b) == 0 && !ends_are_true(b.state));
    puts("wrong lengths of state and report: 255, and nothing is changed, no end either");
}

/* Whether a run is refused before its lines with a code, and changes nothing but the state's ends, which are then true. */
static int refuses(enum call run, const struct image *m, uint32_t code)
{
    struct buffers b = false_ends(), expected = b;
    true_ends(expected.state, expected.state + TS201_END);
    return call(run, m, &b, TS201_STATE_WORDS, TS201_RUN_WORDS) == code && b.report[TS201_CODE] == code
        && memcmp(b.state, expected.state, sizeof b.state) == 0 && memcmp(b.memory, expected.memory, sizeof b.memory) == 0;
}

/* Runs that end with 0: one that stores no base and no length, and one that does. */
static void ends_after(enum call run)
{
    struct buffers b = false_ends();
    const uint32_t *end = b.state + TS201_END;
    EXPECT(!ends_are_true(b.state));
    EXPECT(call(run, &three, &b, TS201_STATE_WORDS, TS201_RUN_WORDS) == TS201_OK && ends_are_true(b.state));
    EXPECT(end[0] == 0xB4B4B4B4 && end[1] == 0 && end[14] == 0xFFFFFFFE && end[15] == 1);
    b = false_ends();
    b.state[TS201_J] = 0xFFFFFFFF;
    b.state[TS201_K] = 6;
    EXPECT(call(run, &renewal, &b, TS201_STATE_WORDS, TS201_RUN_WORDS) == TS201_OK && ends_are_true(b.state));
    EXPECT(b.state[TS201_BASE + 3] == 0xFFFFFFFF && end[6] == 0x5A5A5A59 && end[7] == 1);
    EXPECT(b.state[TS201_LENGTH + 4] == 6 && end[8] == 0x5A5A5A60 && end[9] == 0);
}

static void ends(void)
{
    static struct image bad;
    for (enum call run = RUN; run <= RUN_ORDERED; run++) {
        ends_after(run);
        bad = *most_lines(10);
        bad.count = IMAGE_WORDS + 1;
        EXPECT(refuses(run, &bad, TS201_TOO_LONG));
        bad.count = 9; /* the line's last word is missing */
        EXPECT(refuses(run, &bad, TS201_DIRECTORY));
        bad.count = 10;
        bad.words[9] = 13; /* no condition */
        EXPECT(refuses(run, &bad, TS201_SLOT_CONDITION));
        bad.words[3] = 11; /* no unit */
        EXPECT(refuses(run, &bad, TS201_FIELD));
    }
    bad = three;
    bad.order_bytes--;
    EXPECT(refuses(RUN_ORDERED, &bad, TS201_ORDER));
    puts("ends: both runs put them right, also where they refuse; a store of a base or length renews its end");
}

/* Both checks of an image: whether they answer the code, and the slot where it is refused in a line. */
static int checks(const struct image *m, uint32_t code, uint32_t slot)
{
    struct buffers b;
    return call(CHECK, m, &b, 0, 0) == code && call(CHECK_WORDS, m, &b, 0, TS201_CHECK_WORDS) == code
        && b.report[TS201_CODE] == code && b.report[TS201_LINE] == 0 && b.report[TS201_SLOT] == slot;
}

/* Every seventh word of the first slot of `choice`, and what else its second slot breaks. */
static void seventh_words(void)
{
    static const uint32_t above[] = {13, 14, 16, 256, 65537, 0x80000000, 0xFFFFFFFF};
    static struct image m;
    m = choice;
    for (uint32_t word = TS201_ALWAYS; word <= TS201_KNLE + 1; word++) {
        m.words[9] = word;
        EXPECT(checks(&m, TS201_OK, 0));
    }
    for (size_t i = 0; i < sizeof above / sizeof above[0]; i++) {
        m.words[9] = above[i];
        EXPECT(checks(&m, TS201_SLOT_CONDITION, 0));
    }
    m.words[10] = 1; /* two slots on one unit, but 15 comes before 5 */
    m.words[11] = 8;
    memset(m.words + 12, 0, 16);
    EXPECT(checks(&m, TS201_SLOT_CONDITION, 0));
    m.words[9] = TS201_ALWAYS;
    EXPECT(checks(&m, TS201_UNIT, 1));
    m.words[16] = 13;
    EXPECT(checks(&m, TS201_SLOT_CONDITION, 1));
    m.words[9] = 13;
    m.words[14] = 1; /* op 8 has no second, and 3 comes before 15 */
    EXPECT(checks(&m, TS201_FIELD, 1));
}

/* `choice` where JEQ holds, and where it fails: then the load is done, which is refused. */
static void choices(enum call run)
{
    struct buffers b = {0}, before;
    b.state[TS201_FLAGS + 6] = 1;
    EXPECT(call(run, &choice, &b, TS201_STATE_WORDS, TS201_RUN_WORDS) == TS201_OK);
    EXPECT(b.state[TS201_R] == 0xFFFFFFFF && b.state[TS201_FLAGS] == 2 && b.state[TS201_K] == 0);
    EXPECT(b.report[TS201_LINES_DONE] == 1 && b.report[TS201_STEPS_LOW] == 4);
    b.state[TS201_FLAGS + 6] = 0;
    before = b;
    EXPECT(call(run, &choice, &b, TS201_STATE_WORDS, TS201_RUN_WORDS) == TS201_ACCESS);
    EXPECT(memcmp(b.state, before.state, sizeof b.state) == 0);
    EXPECT(b.report[TS201_SLOT] == 1 && b.report[TS201_LINES_DONE] == 0 && b.report[TS201_STEPS_LOW] == 0);
}

/* Every condition of a slot XR0 = not R0 for every Z and N: the slot is done where ts201_condition says yes. */
static void each_condition(enum call run)
{
    static struct image m = {10, 8, {1, 3, 7, 1, 8, 0, 0, 0, 0, 0}, {0, 1, 255, 255, 255, 255, 255, 255}};
    for (uint32_t number = TS201_JEQ; number <= TS201_KNLE; number++) {
        m.words[9] = number + 1;
        for (uint32_t flags = 0; flags < 4; flags++) {
            struct buffers b = {0};
            b.state[TS201_FLAGS + 6 + number / 6] = flags;
            b.state[TS201_FLAGS + 7 - number / 6] = 3 - flags;
            uint32_t yes = ts201_condition(number, b.state, TS201_STATE_WORDS);
            EXPECT(call(run, &m, &b, TS201_STATE_WORDS, TS201_RUN_WORDS) == TS201_OK);
            EXPECT(b.state[TS201_R] == (yes ? 0xFFFFFFFF : 0) && b.report[TS201_STEPS_LOW] == 2);
        }
    }
}

/* J0 = J0 + 0; if JEQ, XR0 = not R0;; the second slot reads J's flags, live or not, so it fetches before the first stores. */
static void flags_in_order(void)
{
    static struct image m = {17, 8, {1, 3, 14, 7, 1, 0, 0, 32, 0, 0, 1, 8, 0, 0, 0, 0, TS201_JEQ + 1}, {0}};
    static const uint8_t late[8] = {0, 1, 2, 3, 255, 255, 255, 255}, early[8] = {2, 0, 1, 3, 255, 255, 255, 255};
    for (uint32_t flags = 0; flags < 2; flags++) {
        struct buffers b = {0};
        b.state[TS201_FLAGS + 6] = flags;
        memcpy(m.orders, late, 8);
        EXPECT(call(RUN_ORDERED, &m, &b, TS201_STATE_WORDS, TS201_RUN_WORDS) == TS201_ORDER);
        EXPECT(b.state[TS201_FLAGS + 6] == flags && b.report[TS201_STEPS_LOW] == 0);
        memcpy(m.orders, early, 8);
        EXPECT(call(RUN_ORDERED, &m, &b, TS201_STATE_WORDS, TS201_RUN_WORDS) == TS201_OK);
        EXPECT(b.state[TS201_R] == (flags ? 0xFFFFFFFF : 0) && b.state[TS201_FLAGS + 6] == 1);
    }
}

static void conditional_slots(void)
{
    seventh_words();
    for (enum call run = RUN; run <= RUN_ORDERED; run++) {
        choices(run);
        each_condition(run);
    }
    flags_in_order();
    puts("conditional slots: 15 for a seventh word above 12; each condition, live and not; its flags are read in an order");
}

/* J0 at position 2 of the last quad of words 8 to 15, a circular buffer; K2 at position 3, without one. X's buffer holds 91 to
   94, Y's 95 to 98, and word i holds 1000 + i. */
static struct buffers inside_quads(void)
{
    struct buffers b = {0};
    for (uint32_t i = 0; i < MEMORY_WORDS; i++) {
        b.memory[i] = 1000 + i;
    }
    for (uint32_t i = 0; i < 8; i++) {
        b.state[TS201_DAB + i] = 91 + i;
    }
    b.state[TS201_J] = 14;
    b.state[TS201_BASE] = b.state[TS201_LENGTH] = 8;
    b.state[TS201_K + 2] = 23;
    return b;
}

/* `unaligned`: the first line delivers words of what X's buffer held, the second those that the first has primed. */
static void delivered_words(enum call run)
{
    static const uint32_t x[4] = {1014, 1015, 1008, 1009}, y[4] = {98, 1020, 1021, 1022};
    static const uint32_t kept[8] = {1008, 1009, 1010, 1011, 1020, 1021, 1022, 1023};
    struct buffers b = inside_quads();
    EXPECT(call(run, &unaligned, &b, TS201_STATE_WORDS, TS201_RUN_WORDS) == TS201_OK);
    EXPECT(memcmp(b.state + TS201_R + 4, x, sizeof x) == 0 && memcmp(b.state + TS201_R + 32, y, sizeof y) == 0);
    EXPECT(memcmp(b.state + TS201_DAB, kept, sizeof kept) == 0);
    EXPECT(b.state[TS201_J] == 14 && b.state[TS201_K + 2] == 27 && b.state[TS201_FLAGS + 6] == 0);
    EXPECT(b.report[TS201_LINES_DONE] == 2 && b.report[TS201_STEPS_LOW] == 6);
}

/* Starts from which the second line of `unaligned` is refused: K2 is at a quad's start, outside its circular buffer, in one of
   6 words, in a quad past memory, or at the start of that. The first line is done. */
static void refused_reads(enum call run)
{
    static const struct { uint32_t k2, base, length, code; } starts[] = {
        {20, 0, 0, TS201_QUAD_START}, {20, 20, 8, TS201_QUAD_START}, {20, 24, 4, TS201_BUFFER}, {21, 20, 6, TS201_BUFFER},
        {MEMORY_WORDS + 1, 0, 0, TS201_ACCESS}, {MEMORY_WORDS, 0, 0, TS201_QUAD_START}};
    static const uint32_t first[4] = {93, 94, 1012, 1013};
    for (size_t i = 0; i < sizeof starts / sizeof starts[0]; i++) {
        struct buffers b = inside_quads();
        b.state[TS201_K + 2] = starts[i].k2;
        b.state[TS201_BASE + 6] = starts[i].base;
        b.state[TS201_LENGTH + 6] = starts[i].length;
        EXPECT(call(run, &unaligned, &b, TS201_STATE_WORDS, TS201_RUN_WORDS) == starts[i].code);
        EXPECT(b.report[TS201_LINE] == 1 && b.report[TS201_SLOT] == 0 && b.report[TS201_LINES_DONE] == 1);
        EXPECT(memcmp(b.state + TS201_R + 4, first, sizeof first) == 0 && b.state[TS201_J] == 10);
        EXPECT(b.state[TS201_DAB] == 1012 && b.state[TS201_DAB + 4] == 95);
    }
}

/* Modifiers of the first line's slot other than 4, two of them wide; and what comes before 16. */
static void modifiers(void)
{
    static const uint32_t others[] = {0, 5, 8, 0xFFFFFFFC, 128, 0x80000004};
    static struct image m;
    m = unaligned;
    for (size_t i = 0; i < sizeof others / sizeof others[0]; i++) {
        m.words[10] = others[i];
        EXPECT(checks(&m, TS201_MODIFIER, 0));
        EXPECT(refuses(RUN, &m, TS201_MODIFIER) && refuses(RUN_ORDERED, &m, TS201_MODIFIER));
    }
    m.words[11] = 13; /* no condition, and 15 comes before 16 */
    EXPECT(checks(&m, TS201_SLOT_CONDITION, 0));
    m.words[9] = 31; /* no immediate, and 3 comes before both */
    EXPECT(checks(&m, TS201_FIELD, 0));
}

static void unaligned_reads(void)
{
    for (enum call run = RUN; run <= RUN_ORDERED; run++) {
        delivered_words(run);
        refused_reads(run);
    }
    modifiers();
    puts("unaligned reads: words of the old buffer and the new quad, which is kept; 16 for a modifier, 17 at a quad's start");
}

static void null_for_none(void)
{
    const uint32_t *ten = most_lines(10)->words;
    struct buffers b = {0};
    EXPECT(ts201_check(NULL, 0) == TS201_DIRECTORY);
    EXPECT(ts201_check_words(NULL, 0, b.report, TS201_CHECK_WORDS) == TS201_DIRECTORY);
    EXPECT(ts201_check_words(ten, 10, NULL, 0) == TS201_BAD_BUFFER);
    EXPECT(ts201_condition(0, NULL, 0) == TS201_BAD_BUFFER);
    EXPECT(ts201_run(NULL, 0, b.state, TS201_STATE_WORDS, NULL, 0, b.report, TS201_RUN_WORDS) == TS201_DIRECTORY);
    EXPECT(ts201_run(ten, 10, b.state, TS201_STATE_WORDS, NULL, 0, b.report, TS201_RUN_WORDS) == TS201_OK);
    EXPECT(b.state[TS201_J] == 5);
    EXPECT(ts201_run(three.words, 35, b.state, TS201_STATE_WORDS, NULL, 0, b.report, TS201_RUN_WORDS) == TS201_ACCESS);
    EXPECT(ts201_run(ten, 10, NULL, 0, NULL, 0, NULL, 0) == TS201_BAD_BUFFER);
    EXPECT(ts201_run_ordered(ten, 10, NULL, 0, 9, b.state, TS201_STATE_WORDS, NULL, 0, b.report, 6) == TS201_ORDER);
    EXPECT(ts201_run_ordered(NULL, 0, NULL, 0, 9, NULL, 0, NULL, 0, NULL, 0) == TS201_BAD_BUFFER);
    puts("NULL with length 0: an empty buffer");
}

static enum call task;
static const struct image *task_image;

static void *perform(void *b)
{
    return call(task, task_image, b, TS201_STATE_WORDS, task == CHECK_WORDS ? TS201_CHECK_WORDS : TS201_RUN_WORDS) ? NULL : b;
}

/* Whether a call answers 0 on a thread of so much stack, or of the least that the system gives one. */
static int passes(enum call which, size_t count, size_t kib)
{
    size_t least = (size_t)sysconf(_SC_THREAD_STACK_MIN), bytes = kib * KIB;
    struct buffers b = {0};
    pthread_attr_t attributes;
    pthread_t thread;
    void *passed = NULL;
    task = which;
    task_image = most_lines(count);
    pthread_attr_init(&attributes);
    EXPECT(pthread_attr_setstacksize(&attributes, bytes < least ? least : bytes) == 0);
    EXPECT(pthread_create(&thread, &attributes, perform, &b) == 0 && pthread_join(thread, &passed) == 0);
    return passed != NULL;
}

/* The figures of ts201.h by the image's words, with 8 KiB for the thread itself. */
static void stacks(void)
{
    static const size_t counts[] = {256, 2048, 16384}, kib[][3] = {{8, 24, 160}, {4, 16, 80}, {8, 16, 80}, {8, 16, 80}};
    EXPECT(passes(CHECK, 10, 16));
    for (enum call which = CHECK; which <= RUN_ORDERED; which++) {
        for (int i = 0; i < 3; i++) {
            EXPECT(passes(which, counts[i], kib[which][i] + 8));
        }
    }
    puts("stacks: ten words are checked with 16 KiB; the figures of ts201.h hold");
}

/* Plain and ordered runs by turns, each from where the one before has ended. */
static void *many_runs(void *b)
{
    for (int i = 0; i < ROUNDS; i++) {
        call(i % 2 ? RUN_ORDERED : RUN, &three, b, TS201_STATE_WORDS, TS201_RUN_WORDS);
    }
    return NULL;
}

static void threads(void)
{
    static struct buffers alone[2], together[2];
    pthread_t thread[2];
    alone[1].state[TS201_J] = together[1].state[TS201_J] = 7;
    many_runs(&alone[0]);
    many_runs(&alone[1]);
    EXPECT(alone[0].state[TS201_J + 2] == 5 * ROUNDS && alone[1].state[TS201_J + 2] == 5 * ROUNDS + 7);
    EXPECT(pthread_create(&thread[0], NULL, many_runs, &together[0]) == 0);
    EXPECT(pthread_create(&thread[1], NULL, many_runs, &together[1]) == 0);
    EXPECT(pthread_join(thread[0], NULL) == 0 && pthread_join(thread[1], NULL) == 0);
    EXPECT(memcmp(alone, together, sizeof alone) == 0);
    puts("two threads at once, each on its own buffers: they end as alone");
}

int main(void)
{
    conditions();
    wrong_lengths();
    ends();
    conditional_slots();
    unaligned_reads();
    null_for_none();
    stacks();
    threads();
    puts(failed ? "FAILED" : "all passed");
    return failed;
}
