/*
 * The check, the condition and the runs for C: link libdebugger.a (`tools/library.sh debugger`). The decoder, ts201_best_path:
 * link libdecoder.a (`tools/library.sh decoder`). Each library needs the C library and nothing else, on x86-64; a program may
 * link both. Every call answers for every content of its buffers; crates/debugger_c/src/lib.rt and crates/decoder_c/src/lib.rt
 * have the contracts.
 *
 * Buffers: a pointer whose length is 0 may be NULL, since nothing is read or written through it. Any other points to as many
 * elements as its length says and is aligned for its type; nobody else writes the buffer during the call; buffers that a call
 * changes overlap no other buffer of that call. Nothing is kept of a buffer after the call.
 *
 * Threads: calls share nothing but what they are lent, so several threads may call at once, each on buffers of its own. (An
 * image that no one writes can be lent to all.)
 *
 * Stack: each call says what it needs, beside what its thread has used already. The figures are above what was measured, for
 * the image with the most lines of its length. On a stack that is too small a call ends at the guard page.
 */
#ifndef TS201_H
#define TS201_H

#include <stddef.h>
#include <stdint.h>

#ifdef __cplusplus
extern "C" {
#endif

/* What a check or a run answers: 0, or the rule for which the image, the state or the orders are refused first, in the numbers
   of documents 01 and 02; or TS201_BAD_BUFFER. ts201_condition answers yes, no, TS201_CONDITION or TS201_BAD_BUFFER;
   ts201_best_path 0, TS201_BAD_STAGES, TS201_SHORT_PATH or TS201_BAD_BUFFER. */
enum ts201_code {
    /* no rule is broken; a run ended, or its step limit is spent */
    TS201_OK = 0,
    /* image too long: over 16,384 words (65,536 bytes); in a run also memory of over 16,384 words */
    TS201_TOO_LONG = 1,
    /* directory, among others a line that is not 7, 14, 21 or 28 words long; from ts201_check also a broken word: the length is
       no multiple of four */
    TS201_DIRECTORY = 2,
    /* unknown unit or op, field out of range, unused field not 0 */
    TS201_FIELD = 3,
    /* over four positions, or a second wide slot */
    TS201_POSITIONS = 4,
    /* two slots on one unit */
    TS201_UNIT = 5,
    /* over two slots for one block among ALU, shifter, CLU, transfer */
    TS201_BLOCK = 6,
    /* a register place stored twice, by two slots or one (THR priority excepted); a data alignment buffer is one place */
    TS201_STORED_TWICE = 7,
    /* in a run: an access not aligned to its width, or past memory; of ops 24 and 25 the aligned quad, so only past memory */
    TS201_ACCESS = 8,
    /* in a run: a circular op outside its buffer, or with a buffer that is not allowed */
    TS201_BUFFER = 9,
    /* in a run: a memory word stored by two slots */
    TS201_WORD_TWICE = 10,
    /* in an ordered run: orders that are not eight bytes a line, or one that is not admissible */
    TS201_ORDER = 11,
    /* from ts201_condition: a condition number above 11 */
    TS201_CONDITION = 12,
    /* from ts201_best_path: over 1,024 stages, or branch values that are not eight a stage */
    TS201_BAD_STAGES = 13,
    /* from ts201_best_path: a path with room for fewer than stages + 1 states */
    TS201_SHORT_PATH = 14,
    /* a slot's seventh word is above 12; tested after 3 and before 16 */
    TS201_SLOT_CONDITION = 15,
    /* op 24 or 25 with a modifier other than 4; tested after 15 and before 4, so that a wide one is 16 too */
    TS201_MODIFIER = 16,
    /* in a run: op 24 or 25 with an index that is a multiple of 4, whatever the length; tested after 9 and before 8 */
    TS201_QUAD_START = 17,
    /* no code of 01 and 02: the state, the report or the metric has a wrong length. Nothing has been read or changed */
    TS201_BAD_BUFFER = 255
};

/* A line is one to four slots of seven words: unit, op, target, first, second, imm, condition. The seventh is TS201_ALWAYS, or
   a ts201_condition_number plus 1: then the slot is done where that condition holds by the flags before the line. A slot whose
   condition fails stores nothing and causes no 8, 9, 10 or 17; its two steps count all the same. Rules 3 to 7, 15 and 16 do not
   ask whether a condition holds. An image has at most 1,820 lines.

   Ops 24 (X) and 25 (Y) of both IALUs read a quad from any start but a multiple of 4, through the block's data alignment
   buffer. target is the lowest of four R, a multiple of 4; first the index's number, 0 to 3; second 32 and imm 4. With p the
   index mod 4, the aligned quad at index - p is read. The four R receive words p to p + 3 of the buffer's four and the quad's
   four behind them, the lowest first; then the buffer keeps the quad. The index steps by 4, in its circular buffer where the
   length is above 0, and then base and length are multiples of 4. A first access is like the others: it delivers what the
   buffer held before, and primes it for the next. */
enum ts201_slot {
    TS201_ALWAYS = 0,
    TS201_SLOT_WORDS = 7
};

/* A state is 246 words. Each file begins at its number here; X's registers come before Y's, J's before K's. */
enum ts201_state {
    /* R0 to R31 of X, then of Y */
    TS201_R = 0,
    /* TR0 to TR31 of X, then of Y */
    TS201_TR = 64,
    /* THR0 to THR3 of X, then of Y */
    TS201_THR = 128,
    /* J0 to J30 */
    TS201_J = 136,
    /* K0 to K30 */
    TS201_K = 167,
    /* B0 to B3 of J, then of K */
    TS201_BASE = 198,
    /* L0 to L3 of J, then of K */
    TS201_LENGTH = 206,
    /* flag groups, from the low bit up: X ALU, Y ALU (AZ AN AV AC), X shifter, Y shifter (SZ SN), X CLU, Y CLU (TROV TRSOV),
       J, K (Z N V C) */
    TS201_FLAGS = 214,
    /* ends of J's four circular buffers, then of K's: low word, then high word of base + length. A caller may leave them 0;
       both runs put them right */
    TS201_END = 222,
    /* data alignment buffers: X's four words, the one of the lowest address first, then Y's; 0 in the zero state */
    TS201_DAB = 238,
    TS201_STATE_WORDS = 246
};

/* The report of a check is the first three words, that of a run all six. */
enum ts201_report {
    TS201_CODE = 0,
    TS201_LINE = 1,
    TS201_SLOT = 2,
    TS201_CHECK_WORDS = 3,
    TS201_LINES_DONE = 3,
    TS201_STEPS_LOW = 4,
    TS201_STEPS_HIGH = 5,
    TS201_RUN_WORDS = 6
};

/* The numbers of the conditions, and what each reads of its IALU's flag group. NEQ, NLT, NLE are the opposites of EQ, LT, LE.
   ts201_condition takes these numbers; a slot has them plus 1. */
enum ts201_condition_number {
    /* Z = 1 */
    TS201_JEQ = 0,
    /* N = 1 */
    TS201_JLT = 1,
    /* Z = 1 or N = 1 */
    TS201_JLE = 2,
    /* Z = 0 */
    TS201_JNEQ = 3,
    /* N = 0 */
    TS201_JNLT = 4,
    /* Z = 0 and N = 0 */
    TS201_JNLE = 5,
    /* the same of K */
    TS201_KEQ = 6,
    TS201_KLT = 7,
    TS201_KLE = 8,
    TS201_KNEQ = 9,
    TS201_KNLT = 10,
    TS201_KNLE = 11
};

/* The decoder's trellis: how many states it has, and the most stages that are decoded. */
enum ts201_trellis {
    TS201_STATES = 8,
    TS201_MAX_STAGES = 1024
};

/*
 * Checks the image of length bytes at image: 32-bit words, little-endian, of any alignment. The answer is a ts201_code.
 * Over 65,536 bytes is code 1, else a broken word is code 2; no bytes at all are an empty image, which is code 2 too.
 * Stack: 8 KiB for an image of up to 256 words, 24 KiB up to 2,048, 160 KiB above that, since the words are copied to it.
 */
uint32_t ts201_check(const uint8_t *image, size_t length);

/*
 * Checks an image of words, and writes code, line and slot. report_words is TS201_CHECK_WORDS.
 * Stack: 4 KiB for an image of up to 256 words, 16 KiB up to 2,048, 80 KiB above that.
 */
uint32_t ts201_check_words(const uint32_t *image, size_t image_words, uint32_t *report, size_t report_words);

/*
 * Asks a ts201_condition_number of a state, of which one word is read: 1 is yes, 0 is no. state_words is TS201_STATE_WORDS,
 * else the answer is TS201_BAD_BUFFER; a number above 11 is TS201_CONDITION.
 * Stack: under 1 KiB.
 */
uint32_t ts201_condition(uint32_t number, const uint32_t *state, size_t state_words);

/*
 * The plain run of an image: its lines are executed on state and memory, which are changed in place, and the report is
 * written. A refusal before the run (1 to 7, 15, 16) changes neither but for the ends; one in the run leaves what the lines
 * done have left. The ends are put right before anything else, also where the run is then refused; each that comes back is
 * base + length.
 * state_words is TS201_STATE_WORDS, report_words is TS201_RUN_WORDS. The answer is the report's code.
 * Stack: 8 KiB for an image of up to 256 words, 16 KiB up to 2,048, 80 KiB above that; as much for ts201_run_ordered.
 */
uint32_t ts201_run(const uint32_t *image, size_t image_words,
                   uint32_t *state, size_t state_words,
                   uint32_t *memory, size_t memory_words,
                   uint32_t *report, size_t report_words);

/*
 * The ordered run: the steps of each line in the order that its eight bytes of orders give (2s: the fetch of slot s,
 * 2s + 1: its store, the unused rest 255), until limit steps are made, even inside a line. Orders that are not eight bytes a
 * line are refused before the run, with 11. Otherwise as ts201_run.
 */
uint32_t ts201_run_ordered(const uint32_t *image, size_t image_words,
                           const uint8_t *orders, size_t order_bytes, uint64_t limit,
                           uint32_t *state, size_t state_words,
                           uint32_t *memory, size_t memory_words,
                           uint32_t *report, size_t report_words);

/*
 * The decoder: a best path through the 8-state trellis, which is a path whose summed metric no other path of as many stages
 * exceeds. g has TS201_STATES branch values a stage, stage by stage: g_length is 8 * stages. All states start at metric 0. In
 * stage t, from 0, state s comes from s / 2 (rounded down), which subtracts g[8 * t + s], or from s / 2 + 4, which adds it.
 * path receives stages + 1 states, the starting one first, and keeps its other entries; metric, of which metric_length is 1,
 * receives the exact sum. Where several paths are best, it is left open which of them comes out.
 * Refused are, in this order, stages or g (13) and a path that is too short (14): then metric receives 0 and path is kept.
 * Stack: 2 KiB, and 4 KiB more in a first call that still has to bind memset (in a program without -z now).
 */
uint32_t ts201_best_path(uint32_t stages, const int16_t *g, size_t g_length,
                         uint8_t *path, size_t path_length,
                         int32_t *metric, size_t metric_length);

#ifdef __cplusplus
}
#endif

#endif
