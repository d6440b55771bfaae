/*
 * Measures how much stack each function of include/circuitrail.h takes, by running it on a stack of its own that was painted before, and
 * holds it to the limit that the header names. A byte counts as taken if it or one below it has lost its paint, so that what a function
 * keeps beneath its stack pointer counts too. Counted is everything from the frame that calls on.
 */
#define _XOPEN_SOURCE 700

#include "circuitrail.h"

#include <inttypes.h>
#include <stdio.h>
#include <string.h>
#include <ucontext.h>

enum { ROWS = CIRCUITRAIL_MOST_ROWS, WORDS = 3 * ROWS, STACK = 65536 };

static unsigned passed, failed;

/* One pass where something holds, and a line where it does not. */
static void check(int holds, const char *name, const char *what) {
    if (holds) {
        passed++;
        return;
    }
    failed++;
    printf("stack: %s: %s\n", name, what);
}

/* What the calls are made with, and what the last one answered. */
static uint32_t words[WORDS], costs[ROWS], deadlines[ROWS], periods[ROWS], bounds[ROWS], lent[WORDS];
static uint32_t processors, method, row, horizon, refusal;
static uint8_t sheet[CIRCUITRAIL_SHEET_BYTES(ROWS)], out[CIRCUITRAIL_SHEET_BYTES(ROWS)];
static size_t words_length, rows, sheet_length;
static circuitrail_pieces begun, whole, pieces;

/* The frame that a call was made from, and the painted stack. */
static char *top;
static unsigned char stack[STACK];
static ucontext_t here, there;

/* Each function, called with all that is set above. */
static void one_row(void) {
    top = __builtin_frame_address(0);
    refusal = circuitrail_one_row(words, words_length, processors, method, bounds, rows, row).refusal;
}
static void refine_rounds(void) {
    top = __builtin_frame_address(0);
    refusal = circuitrail_refine_rounds(words, words_length, processors, method, lent, ROWS).refusal;
}
static void refine_at_once(void) {
    top = __builtin_frame_address(0);
    refusal = circuitrail_refine_at_once(words, words_length, processors, method, lent, ROWS).refusal;
}
static void one_processor(void) {
    top = __builtin_frame_address(0);
    refusal = circuitrail_one_processor(words, words_length, horizon).refusal;
}
static void read_sheet(void) {
    top = __builtin_frame_address(0);
    refusal = circuitrail_read_sheet(sheet, sheet_length, lent, WORDS).refusal;
}
static void write_sheet(void) {
    top = __builtin_frame_address(0);
    refusal = circuitrail_write_sheet(words, words_length, processors, out, sizeof out).refusal;
}
static void write_result(void) {
    top = __builtin_frame_address(0);
    refusal = circuitrail_write_result(words, words_length, processors, method, out, sizeof out).refusal;
}
static void answer_sheet(void) {
    top = __builtin_frame_address(0);
    refusal = circuitrail_answer_sheet(sheet, sheet_length, out, sizeof out).refusal;
}

static void one_row_columns(void) {
    top = __builtin_frame_address(0);
    refusal = circuitrail_one_row_columns(costs, rows, deadlines, rows, periods, rows, processors, method, bounds, rows, row).refusal;
}
static void refine_rounds_columns(void) {
    top = __builtin_frame_address(0);
    refusal = circuitrail_refine_rounds_columns(costs, rows, deadlines, rows, periods, rows, processors, method, lent, ROWS).refusal;
}
static void refine_at_once_columns(void) {
    top = __builtin_frame_address(0);
    refusal = circuitrail_refine_at_once_columns(costs, rows, deadlines, rows, periods, rows, processors, method, lent, ROWS).refusal;
}
static void one_processor_columns(void) {
    top = __builtin_frame_address(0);
    refusal = circuitrail_one_processor_columns(costs, rows, deadlines, rows, periods, rows, horizon).refusal;
}
static void write_result_columns(void) {
    top = __builtin_frame_address(0);
    refusal = circuitrail_write_result_columns(costs, rows, deadlines, rows, periods, rows, processors, method, out, sizeof out).refusal;
}

static void density(void) {
    top = __builtin_frame_address(0);
    refusal = circuitrail_density(words, words_length, processors).refusal;
}
static void density_columns(void) {
    top = __builtin_frame_address(0);
    refusal = circuitrail_density_columns(costs, rows, deadlines, rows, periods, rows, processors).refusal;
}

static void pieces_start(void) {
    top = __builtin_frame_address(0);
    pieces = circuitrail_pieces_start();
    refusal = pieces.wrong;
}
static void pieces_feed(void) {
    top = __builtin_frame_address(0);
    pieces = circuitrail_pieces_feed(begun, sheet, sheet_length);
    refusal = pieces.wrong;
}
static void pieces_end(void) {
    top = __builtin_frame_address(0);
    pieces = circuitrail_pieces_end(whole, lent, WORDS);
    refusal = pieces.answer.refusal;
}

/* A function that takes as much as no function may, which the measurement must see. */
static void take_too_much(void) {
    volatile unsigned char taken[CIRCUITRAIL_STACK_BYTES];
    top = __builtin_frame_address(0);
    taken[0] = 1;
    refusal = taken[0] - 1u;
}

/* How many bytes a call takes of a stack painted with a byte: from the calling frame down to the lowest that has lost its paint. */
static size_t taken_of(void (*call)(void), unsigned char paint) {
    size_t kept = 0;
    memset(stack, paint, STACK);
    getcontext(&there);
    there.uc_stack.ss_sp = stack;
    there.uc_stack.ss_size = STACK;
    there.uc_link = &here;
    makecontext(&there, call, 0);
    swapcontext(&here, &there);
    while (kept < STACK && stack[kept] == paint)
        kept++;
    return (size_t)(top - (char *)(stack + kept));
}

/* The same by two paints, so that a byte written with the paint's own value is seen. */
static size_t taken(void (*call)(void)) {
    size_t one = taken_of(call, 0xA5), other = taken_of(call, 0x5A);
    return one > other ? one : other;
}

/* The functions, and the most that each has taken so far. */
static struct {
    const char *name;
    void (*call)(void);
    size_t most;
} measured[] = {
    {"circuitrail_one_row", one_row, 0},
    {"circuitrail_refine_rounds", refine_rounds, 0},
    {"circuitrail_refine_at_once", refine_at_once, 0},
    {"circuitrail_one_processor", one_processor, 0},
    {"circuitrail_read_sheet", read_sheet, 0},
    {"circuitrail_write_sheet", write_sheet, 0},
    {"circuitrail_write_result", write_result, 0},
    {"circuitrail_answer_sheet", answer_sheet, 0},
    {"circuitrail_one_row_columns", one_row_columns, 0},
    {"circuitrail_refine_rounds_columns", refine_rounds_columns, 0},
    {"circuitrail_refine_at_once_columns", refine_at_once_columns, 0},
    {"circuitrail_one_processor_columns", one_processor_columns, 0},
    {"circuitrail_write_result_columns", write_result_columns, 0},
    {"circuitrail_density", density, 0},
    {"circuitrail_density_columns", density_columns, 0},
    {"circuitrail_pieces_start", pieces_start, 0},
    {"circuitrail_pieces_feed", pieces_feed, 0},
    {"circuitrail_pieces_end", pieces_end, 0},
};
enum { FUNCTIONS = sizeof measured / sizeof *measured };

/* Every function on the rows that are set, on so many processors, by both methods; none of them may refuse. */
static void measure(uint32_t on) {
    processors = on;
    horizon = 16777216;
    rows = words_length / 3;
    sheet_length = circuitrail_write_sheet(words, words_length, processors, sheet, sizeof sheet).length;
    for (size_t k = 0; k < rows; k++)
        costs[k] = words[3 * k], deadlines[k] = bounds[k] = words[3 * k + 1], periods[k] = words[3 * k + 2];
    begun = circuitrail_pieces_start();
    whole = circuitrail_pieces_feed(begun, sheet, sheet_length);
    check(whole.taken == sheet_length, "circuitrail_pieces_feed", "does not take all bytes of a sheet");
    for (method = CIRCUITRAIL_BCL; method <= CIRCUITRAIL_RTA; method++)
        for (size_t f = 0; f < FUNCTIONS; f++) {
            size_t now = taken(measured[f].call);
            check(refusal == CIRCUITRAIL_NOT_REFUSED, measured[f].name, "refuses what it is measured with");
            if (now > measured[f].most)
                measured[f].most = now;
        }
}

/* Adds rows of the same numbers. */
static void add(size_t count, uint32_t cost, uint32_t deadline, uint32_t period) {
    for (; count > 0 && words_length < WORDS; count--) {
        words[words_length++] = cost;
        words[words_length++] = deadline;
        words[words_length++] = period;
    }
}

/* The families that keep the engines busy, small enough for the rounds engine; `row` is one that climbs over all others. */
static void families(void) {
    static const uint32_t small[5] = {2, 3, 7, 43, 2068};
    words_length = 0, row = 63;
    add(32, 1, 2, 2), add(32, 1, 900, 900);
    measure(16);
    words_length = 0;
    for (size_t k = 0; k < 5; k++)
        add(1, 1, small[k], small[k]);
    for (uint32_t less = 0; less < 59; less++)
        add(1, 1, 3000 - less, 3000 - less);
    measure(1);
    words_length = 0, row = 1;
    add(1, 40, 120 + 62, 161 + 62), add(1, 80, 201 + 62, 201 + 62), add(31, 1, 40, 1000000), add(31, 1, 1, 1);
    measure(32);
    words_length = 0, row = 0;
    add(64, 1, 1000000, 1000000);
    measure(64);
    words_length = 0, row = 63;
    for (uint32_t due = 1; due <= 63; due++)
        add(1, 1, due, 63);
    add(1, 1, 3000, 3000);
    measure(64);
    words_length = 0, row = 1;
    add(1, 40, 120, 161), add(1, 80, 201, 201);
    measure(1);
}

/* 64 rows of numbers that follow no pattern, on a few numbers of processors. */
static void scattered(void) {
    uint32_t number = 1;
    row = 40;
    for (uint32_t on = 1; on <= 64; on *= 4) {
        words_length = 0;
        for (size_t k = 0; k < ROWS; k++) {
            number = number * 1103515245 + 12345;
            uint32_t period = 100 + (number >> 8) % 1900, deadline = period - (number >> 16) % (period / 2);
            add(1, 1 + (number >> 12) % (deadline * on / ROWS + 1) % deadline, deadline, period);
        }
        measure(on);
    }
}

int main(void) {
    check(taken(take_too_much) >= CIRCUITRAIL_STACK_BYTES, "the measurement", "does not see that the limit is reached");
    families();
    scattered();
    for (size_t f = 0; f < FUNCTIONS; f++) {
        printf("stack: %s takes %zu bytes\n", measured[f].name, measured[f].most);
        check(measured[f].most > 0 && measured[f].most < CIRCUITRAIL_STACK_BYTES, measured[f].name, "takes more than the header says");
    }
    printf("%u passed, %u failed\n", passed, failed);
    return failed == 0 ? 0 : 1;
}
