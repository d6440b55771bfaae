/*
 * Calls every function of include/circuitrail.h from C: with case S of docs/RULES.md, with inputs that are refused, and with NULL
 * where there are no elements. Compares every returned field and the whole of the memory lent, and prints a line for each that differs.
 */
#include "circuitrail.h"

#include <inttypes.h>
#include <stdio.h>
#include <string.h>

/* Case S: its words, its sheet, and its result sheet by RTA on two processors. */
static const uint32_t S[9] = {2, 5, 5, 2, 5, 5, 3, 6, 6};
static const char SHEET[] = "010203\n02000002000005000005\n02000002000005000005\n02000003000006000006\n";
static const char RESULT[] = "110103\n1201000004\n1201000004\n1201000005\n";
enum { SHEET_LENGTH = CIRCUITRAIL_SHEET_BYTES(3), RESULT_LENGTH = CIRCUITRAIL_RESULT_BYTES(3) };

/* S with no cost in row 1, and S with a letter that is no digit at offset 9. */
static const uint32_t COSTLESS[9] = {2, 5, 5, 0, 5, 5, 3, 6, 6};
static const char DAMAGED[] = "010203\n02G00002000005000005\n02000002000005000005\n02000003000006000006\n";

/* A sheet as an editor leaves it, its words, and how they are written. */
static const char EDITED[] = "010a03\n0200000400000a00000A\n0200000400000A00000a\n0200000600000c00000C\n";
static const uint32_t DOUBLED[9] = {4, 10, 10, 4, 10, 10, 6, 12, 12};
static const char UPPER[] = "010A03\n0200000400000A00000A\n0200000400000A00000A\n0200000600000C00000C\n";

/* S in columns, the same with no cost in row 1, and rows that are due before their periods' end. Each list as a function takes it. */
static const uint32_t COSTS[66] = {2, 2, 3}, NO_COST[3] = {2, 0, 3}, DEADLINES[66] = {5, 5, 6}, PERIODS[66] = {5, 5, 6};
static const uint32_t EARLY_COSTS[2] = {1, 2}, EARLY_DEADLINES[2] = {2, 3}, EARLY_PERIODS[2] = {4, 4};
#define S_COLUMNS COSTS, 3, DEADLINES, 3, PERIODS, 3
#define COSTLESS_COLUMNS NO_COST, 3, DEADLINES, 3, PERIODS, 3
#define EARLY_COLUMNS EARLY_COSTS, 2, EARLY_DEADLINES, 2, EARLY_PERIODS, 2

/* Lengths of the three columns that are refused, and how. */
enum { NO_ROWS = CIRCUITRAIL_REFUSED_NO_ROWS, MANY_ROWS = CIRCUITRAIL_REFUSED_MANY_ROWS };
static const struct {
    size_t costs, deadlines, periods;
    uint32_t refusal;
} LENGTHS[] = {
    {0, 0, 0, NO_ROWS},    {0, 3, 3, NO_ROWS},    {3, 0, 3, NO_ROWS},    {3, 3, 0, NO_ROWS},     {3, 0, 0, NO_ROWS},
    {0, 3, 0, NO_ROWS},    {0, 0, 3, NO_ROWS},    {2, 3, 3, NO_ROWS},    {3, 2, 3, NO_ROWS},     {3, 3, 2, NO_ROWS},
    {3, 2, 2, NO_ROWS},    {2, 3, 2, NO_ROWS},    {2, 2, 3, NO_ROWS},    {2, 1, 3, NO_ROWS},     {64, 64, 65, NO_ROWS},
    {66, 65, 65, NO_ROWS}, {65, 66, 65, NO_ROWS}, {65, 65, 66, NO_ROWS}, {65, 65, 65, MANY_ROWS}, {66, 66, 66, MANY_ROWS},
};
enum { REFUSED_LENGTHS = sizeof LENGTHS / sizeof *LENGTHS };

/* A list of such a length; no elements are lent by NULL. */
static const uint32_t *lent(const uint32_t *list, size_t length) { return length > 0 ? list : NULL; }
#define COLUMNS_OF(k) \
    lent(COSTS, LENGTHS[k].costs), LENGTHS[k].costs, lent(DEADLINES, LENGTHS[k].deadlines), LENGTHS[k].deadlines, \
        lent(PERIODS, LENGTHS[k].periods), LENGTHS[k].periods

/* Such lengths in words. */
static const char *lengths(size_t k) {
    static char shown[80];
    snprintf(shown, sizeof shown, "columns of %zu, %zu and %zu words", LENGTHS[k].costs, LENGTHS[k].deadlines, LENGTHS[k].periods);
    return shown;
}

static const char *called;
static unsigned passed, failed;

static void number(const char *what, const char *field, uint64_t got, uint64_t expected) {
    if (got == expected) {
        passed++;
        return;
    }
    failed++;
    printf("C: %s, %s: %s is %" PRIu64 " and not %" PRIu64 "\n", called, what, field, got, expected);
}

static void memory(const char *what, const void *got, const void *expected, size_t size) {
    if (memcmp(got, expected, size) == 0) {
        passed++;
        return;
    }
    failed++;
    printf("C: %s, %s: the memory lent is not what it must be\n", called, what);
}

static const uint8_t *as_bytes(const char *text) { return (const uint8_t *)text; }

/* Lent bytes are `ROOM` dots before anything is written to them. */
enum { ROOM = 80 };

/* The text stands at the front, and dots behind it. */
static void bytes_hold(const char *what, const uint8_t *got, const char *text, size_t length) {
    uint8_t expected[ROOM];
    memset(expected, '.', ROOM);
    memcpy(expected, text, length);
    memory(what, got, expected, ROOM);
}

static void is_row(const char *what, circuitrail_row got, uint32_t refusal, uint32_t place, uint32_t bound) {
    number(what, "refusal", got.refusal, refusal);
    number(what, "place", got.place, place);
    number(what, "bound", got.bound, bound);
}

static void one_row(void) {
    static const uint32_t first[3] = {5, 5, 6}, second[3] = {4, 4, 6}, twins[6] = {3, 4, 4, 3, 4, 4}, both[2] = {4, 4};
    called = "circuitrail_one_row";
    is_row("S", circuitrail_one_row(S, 9, 2, CIRCUITRAIL_RTA, first, 3, 2), 0, 0, 6);
    is_row("S, second round", circuitrail_one_row(S, 9, 2, CIRCUITRAIL_RTA, second, 3, 2), 0, 0, 5);
    is_row("twins", circuitrail_one_row(twins, 6, 2, CIRCUITRAIL_RTA, both, 2, 0), 0, 0, 3);
    is_row("twins by BCL", circuitrail_one_row(twins, 6, 2, CIRCUITRAIL_BCL, both, 2, 1), 0, 0, 4);
    is_row("twins without answer", circuitrail_one_row(twins, 6, 1, CIRCUITRAIL_RTA, both, 2, 1), 0, 0, 0);
    is_row("row without cost", circuitrail_one_row(COSTLESS, 9, 2, CIRCUITRAIL_RTA, first, 3, 2), CIRCUITRAIL_REFUSED_ROW, 1, 0);
    is_row("row 3", circuitrail_one_row(S, 9, 2, CIRCUITRAIL_RTA, first, 3, 3), CIRCUITRAIL_REFUSED_QUESTION, 0, 0);
    is_row("no words", circuitrail_one_row(NULL, 0, 2, CIRCUITRAIL_RTA, first, 3, 2), CIRCUITRAIL_REFUSED_NO_ROWS, 0, 0);
    is_row("no bounds", circuitrail_one_row(S, 9, 2, CIRCUITRAIL_RTA, NULL, 0, 2), CIRCUITRAIL_REFUSED_QUESTION, 0, 0);
}

static void one_row_columns(void) {
    static const uint32_t first[3] = {5, 5, 6}, second[3] = {4, 4, 6}, early[2] = {2, 3};
    called = "circuitrail_one_row_columns";
    is_row("S", circuitrail_one_row_columns(S_COLUMNS, 2, CIRCUITRAIL_RTA, first, 3, 2), 0, 0, 6);
    is_row("S, second round", circuitrail_one_row_columns(S_COLUMNS, 2, CIRCUITRAIL_RTA, second, 3, 2), 0, 0, 5);
    is_row("S, deadlines lent as periods too",
           circuitrail_one_row_columns(COSTS, 3, DEADLINES, 3, DEADLINES, 3, 2, CIRCUITRAIL_RTA, first, 3, 2), 0, 0, 6);
    is_row("rows due early", circuitrail_one_row_columns(EARLY_COLUMNS, 2, CIRCUITRAIL_RTA, early, 2, 1), 0, 0, 2);
    is_row("row without cost", circuitrail_one_row_columns(COSTLESS_COLUMNS, 2, CIRCUITRAIL_RTA, first, 3, 2), CIRCUITRAIL_REFUSED_ROW, 1,
           0);
    is_row("row 3", circuitrail_one_row_columns(S_COLUMNS, 2, CIRCUITRAIL_RTA, first, 3, 3), CIRCUITRAIL_REFUSED_QUESTION, 0, 0);
    is_row("no bounds", circuitrail_one_row_columns(S_COLUMNS, 2, CIRCUITRAIL_RTA, NULL, 0, 2), CIRCUITRAIL_REFUSED_QUESTION, 0, 0);
    for (size_t k = 0; k < REFUSED_LENGTHS; k++)
        is_row(lengths(k), circuitrail_one_row_columns(COLUMNS_OF(k), 2, CIRCUITRAIL_RTA, first, 3, 2), LENGTHS[k].refusal, 0, 0);
}

static void is_refined(const char *what, circuitrail_refined got, uint32_t refusal, uint32_t place, uint64_t marks) {
    number(what, "refusal", got.refusal, refusal);
    number(what, "place", got.place, place);
    number(what, "marks", got.marks, marks);
}

typedef circuitrail_refined engine(const uint32_t *, size_t, uint32_t, uint32_t, uint32_t *, size_t);

static void refine(const char *name, engine *run) {
    static const uint32_t unwritten[4] = {9, 9, 9, 9}, written[4] = {4, 4, 5, 9};
    uint32_t bounds[4] = {9, 9, 9, 9};
    called = name;
    is_refined("too little room", run(S, 9, 2, CIRCUITRAIL_RTA, bounds, 2), CIRCUITRAIL_REFUSED_ROOM, 0, 0);
    memory("too little room", bounds, unwritten, sizeof bounds);
    is_refined("row without cost", run(COSTLESS, 9, 2, CIRCUITRAIL_RTA, bounds, 4), CIRCUITRAIL_REFUSED_ROW, 1, 0);
    memory("row without cost", bounds, unwritten, sizeof bounds);
    is_refined("no words", run(NULL, 0, 2, CIRCUITRAIL_RTA, bounds, 4), CIRCUITRAIL_REFUSED_NO_ROWS, 0, 0);
    memory("no words", bounds, unwritten, sizeof bounds);
    is_refined("no room", run(S, 9, 2, CIRCUITRAIL_RTA, NULL, 0), CIRCUITRAIL_REFUSED_ROOM, 0, 0);
    is_refined("nothing at all", run(NULL, 0, 2, CIRCUITRAIL_RTA, NULL, 0), CIRCUITRAIL_REFUSED_NO_ROWS, 0, 0);
    is_refined("S", run(S, 9, 2, CIRCUITRAIL_RTA, bounds, 4), 0, 0, 7);
    memory("S", bounds, written, sizeof bounds);
}

/* With 64 rows, each of which is marked, every bit of the marks is set. */
static void refine_most_rows(const char *name, engine *run) {
    uint32_t words[3 * CIRCUITRAIL_MOST_ROWS], bounds[CIRCUITRAIL_MOST_ROWS], expected[CIRCUITRAIL_MOST_ROWS];
    called = name;
    for (size_t k = 0; k < CIRCUITRAIL_MOST_ROWS; k++) {
        words[3 * k] = expected[k] = 1;
        words[3 * k + 1] = words[3 * k + 2] = 1000000;
    }
    is_refined("64 rows", run(words, 192, 64, CIRCUITRAIL_RTA, bounds, 64), 0, 0, UINT64_MAX);
    memory("64 rows", bounds, expected, sizeof bounds);
}

typedef circuitrail_refined engine_on_columns(const uint32_t *, size_t, const uint32_t *, size_t, const uint32_t *, size_t, uint32_t,
                                              uint32_t, uint32_t *, size_t);

static void refine_columns(const char *name, engine_on_columns *run) {
    static const uint32_t unwritten[4] = {9, 9, 9, 9}, written[4] = {4, 4, 5, 9}, early[4] = {1, 2, 5, 9};
    uint32_t bounds[4] = {9, 9, 9, 9};
    called = name;
    is_refined("too little room", run(S_COLUMNS, 2, CIRCUITRAIL_RTA, bounds, 2), CIRCUITRAIL_REFUSED_ROOM, 0, 0);
    memory("too little room", bounds, unwritten, sizeof bounds);
    is_refined("row without cost", run(COSTLESS_COLUMNS, 2, CIRCUITRAIL_RTA, bounds, 4), CIRCUITRAIL_REFUSED_ROW, 1, 0);
    memory("row without cost", bounds, unwritten, sizeof bounds);
    for (size_t k = 0; k < REFUSED_LENGTHS; k++) {
        is_refined(lengths(k), run(COLUMNS_OF(k), 2, CIRCUITRAIL_RTA, bounds, 4), LENGTHS[k].refusal, 0, 0);
        memory(lengths(k), bounds, unwritten, sizeof bounds);
    }
    is_refined("no room", run(S_COLUMNS, 2, CIRCUITRAIL_RTA, NULL, 0), CIRCUITRAIL_REFUSED_ROOM, 0, 0);
    is_refined("nothing at all", run(COLUMNS_OF(0), 2, CIRCUITRAIL_RTA, NULL, 0), CIRCUITRAIL_REFUSED_NO_ROWS, 0, 0);
    is_refined("S", run(S_COLUMNS, 2, CIRCUITRAIL_RTA, bounds, 4), 0, 0, 7);
    memory("S", bounds, written, sizeof bounds);
    is_refined("rows due early", run(EARLY_COLUMNS, 2, CIRCUITRAIL_RTA, bounds, 4), 0, 0, 3);
    memory("rows due early", bounds, early, sizeof bounds);
}

/* 64 rows in columns: twins of cost 1, on a processor each. */
static void refine_most_columns(const char *name, engine_on_columns *run) {
    uint32_t costs[CIRCUITRAIL_MOST_ROWS], deadlines[CIRCUITRAIL_MOST_ROWS], bounds[CIRCUITRAIL_MOST_ROWS];
    called = name;
    for (size_t k = 0; k < CIRCUITRAIL_MOST_ROWS; k++)
        costs[k] = 1, deadlines[k] = 1000000;
    is_refined("64 rows", run(costs, 64, deadlines, 64, deadlines, 64, 64, CIRCUITRAIL_RTA, bounds, 64), 0, 0, UINT64_MAX);
    memory("64 rows", bounds, costs, sizeof bounds);
}

static void is_outcome(const char *what, circuitrail_outcome got, uint32_t refusal, uint32_t place, uint32_t outcome, uint32_t length) {
    number(what, "refusal", got.refusal, refusal);
    number(what, "place", got.place, place);
    number(what, "outcome", got.outcome, outcome);
    number(what, "length", got.length, length);
}

static void one_processor(void) {
    static const uint32_t fit[6] = {1, 2, 4, 2, 3, 4};
    called = "circuitrail_one_processor";
    is_outcome("S", circuitrail_one_processor(S, 9, 16777216), 0, 0, CIRCUITRAIL_MISS, 6);
    is_outcome("S up to 5", circuitrail_one_processor(S, 9, 5), 0, 0, CIRCUITRAIL_UNDECIDED, 0);
    is_outcome("rows that fit", circuitrail_one_processor(fit, 6, 3), 0, 0, CIRCUITRAIL_FITS, 3);
    is_outcome("horizon 0", circuitrail_one_processor(S, 9, 0), CIRCUITRAIL_REFUSED_HORIZON, 0, 0, 0);
    is_outcome("row without cost", circuitrail_one_processor(COSTLESS, 9, 5), CIRCUITRAIL_REFUSED_ROW, 1, 0, 0);
    is_outcome("no words", circuitrail_one_processor(NULL, 0, 5), CIRCUITRAIL_REFUSED_NO_ROWS, 0, 0, 0);
}

static void one_processor_columns(void) {
    called = "circuitrail_one_processor_columns";
    is_outcome("S", circuitrail_one_processor_columns(S_COLUMNS, 16777216), 0, 0, CIRCUITRAIL_MISS, 6);
    is_outcome("S up to 5", circuitrail_one_processor_columns(S_COLUMNS, 5), 0, 0, CIRCUITRAIL_UNDECIDED, 0);
    is_outcome("rows due early", circuitrail_one_processor_columns(EARLY_COLUMNS, 3), 0, 0, CIRCUITRAIL_FITS, 3);
    is_outcome("horizon 0", circuitrail_one_processor_columns(S_COLUMNS, 0), CIRCUITRAIL_REFUSED_HORIZON, 0, 0, 0);
    is_outcome("row without cost", circuitrail_one_processor_columns(COSTLESS_COLUMNS, 5), CIRCUITRAIL_REFUSED_ROW, 1, 0, 0);
    for (size_t k = 0; k < REFUSED_LENGTHS; k++)
        is_outcome(lengths(k), circuitrail_one_processor_columns(COLUMNS_OF(k), 5), LENGTHS[k].refusal, 0, 0, 0);
}

static void is_density(const char *what, circuitrail_density_answer got, uint32_t refusal, uint32_t place, uint32_t answer) {
    number(what, "refusal", got.refusal, refusal);
    number(what, "place", got.place, place);
    number(what, "answer", got.answer, answer);
}

static void density(void) {
    static const uint32_t thirds[9] = {1, 3, 3, 1, 3, 3, 1, 3, 3}, early[6] = {1, 2, 4, 2, 3, 4}, full[3] = {1, 1, 1};
    called = "circuitrail_density";
    is_density("S", circuitrail_density(S, 9, 2), 0, 0, CIRCUITRAIL_DENSITY_YES);
    is_density("S on one processor", circuitrail_density(S, 9, 1), 0, 0, CIRCUITRAIL_DENSITY_NO);
    is_density("three thirds", circuitrail_density(thirds, 9, 1), 0, 0, CIRCUITRAIL_DENSITY_UNSURE);
    is_density("rows due early", circuitrail_density(early, 6, 1), 0, 0, CIRCUITRAIL_DENSITY_NO);
    is_density("a full row on 64 processors", circuitrail_density(full, 3, 64), 0, 0, CIRCUITRAIL_DENSITY_YES);
    is_density("no processor", circuitrail_density(S, 9, 0), CIRCUITRAIL_REFUSED_PROCESSORS, 0, 0);
    is_density("65 processors", circuitrail_density(S, 9, 65), CIRCUITRAIL_REFUSED_PROCESSORS, 0, 0);
    is_density("row without cost", circuitrail_density(COSTLESS, 9, 2), CIRCUITRAIL_REFUSED_ROW, 1, 0);
    is_density("no whole rows", circuitrail_density(S, 8, 2), CIRCUITRAIL_REFUSED_NO_ROWS, 0, 0);
    is_density("no words", circuitrail_density(NULL, 0, 2), CIRCUITRAIL_REFUSED_NO_ROWS, 0, 0);
}

static void density_columns(void) {
    static const uint32_t ones[3] = {1, 1, 1}, threes[3] = {3, 3, 3};
    called = "circuitrail_density_columns";
    is_density("S", circuitrail_density_columns(S_COLUMNS, 2), 0, 0, CIRCUITRAIL_DENSITY_YES);
    is_density("S on one processor", circuitrail_density_columns(S_COLUMNS, 1), 0, 0, CIRCUITRAIL_DENSITY_NO);
    is_density("three thirds", circuitrail_density_columns(ones, 3, threes, 3, threes, 3, 1), 0, 0, CIRCUITRAIL_DENSITY_UNSURE);
    is_density("rows due early", circuitrail_density_columns(EARLY_COLUMNS, 1), 0, 0, CIRCUITRAIL_DENSITY_NO);
    is_density("a full row on 64 processors", circuitrail_density_columns(ones, 1, ones, 1, ones, 1, 64), 0, 0, CIRCUITRAIL_DENSITY_YES);
    is_density("no processor", circuitrail_density_columns(S_COLUMNS, 0), CIRCUITRAIL_REFUSED_PROCESSORS, 0, 0);
    is_density("65 processors", circuitrail_density_columns(S_COLUMNS, 65), CIRCUITRAIL_REFUSED_PROCESSORS, 0, 0);
    is_density("row without cost", circuitrail_density_columns(COSTLESS_COLUMNS, 2), CIRCUITRAIL_REFUSED_ROW, 1, 0);
    for (size_t k = 0; k < REFUSED_LENGTHS; k++)
        is_density(lengths(k), circuitrail_density_columns(COLUMNS_OF(k), 2), LENGTHS[k].refusal, 0, 0);
}

/* With 64 rows that fill their deadlines the left side is the greatest that there is; in 36 bits it would be below the limit. */
static void density_most_rows(void) {
    uint32_t words[3 * CIRCUITRAIL_MOST_ROWS], column[CIRCUITRAIL_MOST_ROWS];
    for (size_t k = 0; k < 3 * CIRCUITRAIL_MOST_ROWS; k++)
        words[k] = 1000000;
    for (size_t k = 0; k < CIRCUITRAIL_MOST_ROWS; k++)
        column[k] = 1000000;
    called = "circuitrail_density";
    is_density("64 rows", circuitrail_density(words, 192, 64), 0, 0, CIRCUITRAIL_DENSITY_NO);
    called = "circuitrail_density_columns";
    is_density("64 rows", circuitrail_density_columns(column, 64, column, 64, column, 64, 64), 0, 0, CIRCUITRAIL_DENSITY_NO);
}

/* The README's example of a sheet that RTA does not accept on one processor, and that fits there by the exact test. */
static void not_accepted_and_fits(void) {
    static const uint32_t full[6] = {2, 4, 4, 3, 6, 6}, deadlines[2] = {4, 6};
    uint32_t bounds[2];
    called = "the README's example";
    is_refined("by RTA", circuitrail_refine_at_once(full, 6, 1, CIRCUITRAIL_RTA, bounds, 2), 0, 0, 0);
    memory("by RTA", bounds, deadlines, sizeof bounds);
    is_outcome("by demand", circuitrail_one_processor(full, 6, 16777216), 0, 0, CIRCUITRAIL_FITS, 12);
}

static void is_read(const char *what, circuitrail_read got, uint32_t refusal, uint32_t place, uint32_t processors, uint32_t rows) {
    number(what, "refusal", got.refusal, refusal);
    number(what, "place", got.place, place);
    number(what, "processors", got.processors, processors);
    number(what, "rows", got.rows, rows);
}

static void read_sheet(void) {
    static const uint32_t unwritten[10] = {9, 9, 9, 9, 9, 9, 9, 9, 9, 9}, written[10] = {2, 5, 5, 2, 5, 5, 3, 6, 6, 9};
    uint32_t words[10] = {9, 9, 9, 9, 9, 9, 9, 9, 9, 9};
    called = "circuitrail_read_sheet";
    is_read("too little room", circuitrail_read_sheet(as_bytes(SHEET), SHEET_LENGTH, words, 8), CIRCUITRAIL_REFUSED_ROOM, 0, 0, 0);
    memory("too little room", words, unwritten, sizeof words);
    is_read("damaged sheet", circuitrail_read_sheet(as_bytes(DAMAGED), SHEET_LENGTH, words, 10), CIRCUITRAIL_REFUSED_FORM, 9, 0, 0);
    memory("damaged sheet", words, unwritten, sizeof words);
    is_read("no bytes", circuitrail_read_sheet(NULL, 0, words, 10), CIRCUITRAIL_REFUSED_FORM, 0, 0, 0);
    memory("no bytes", words, unwritten, sizeof words);
    is_read("no room", circuitrail_read_sheet(as_bytes(SHEET), SHEET_LENGTH, NULL, 0), CIRCUITRAIL_REFUSED_ROOM, 0, 0, 0);
    is_read("nothing at all", circuitrail_read_sheet(NULL, 0, NULL, 0), CIRCUITRAIL_REFUSED_FORM, 0, 0, 0);
    is_read("S", circuitrail_read_sheet(as_bytes(SHEET), SHEET_LENGTH, words, 10), 0, 0, 2, 3);
    memory("S", words, written, sizeof words);
    is_read("sheet in both cases", circuitrail_read_sheet(as_bytes(EDITED), SHEET_LENGTH, words, 10), 0, 0, 10, 3);
    memory("sheet in both cases", words, DOUBLED, sizeof DOUBLED);
}

static void is_state(const char *what, circuitrail_pieces got, circuitrail_pieces expected) {
    memory(what, &got, &expected, sizeof got);
}

/* The end of a sheet in pieces: its answer, that nothing else of the state changes, and that words are written if it is not refused. */
static circuitrail_pieces ends(const char *what, circuitrail_pieces state, size_t room, circuitrail_read answer) {
    uint32_t words[10] = {9, 9, 9, 9, 9, 9, 9, 9, 9, 9}, expected[10] = {9, 9, 9, 9, 9, 9, 9, 9, 9, 9};
    circuitrail_pieces got = circuitrail_pieces_end(state, words, room);
    called = "circuitrail_pieces_end";
    if (answer.refusal == CIRCUITRAIL_NOT_REFUSED)
        memcpy(expected, S, sizeof S);
    is_read(what, got.answer, answer.refusal, answer.place, answer.processors, answer.rows);
    memory(what, words, expected, sizeof words);
    state.ended = 1;
    state.answer = answer;
    is_state(what, got, state);
    return got;
}

/* Behind the end neither a piece nor an end changes anything, whatever the room. */
static void stays(const char *what, circuitrail_pieces ended) {
    static const uint32_t unwritten[10] = {9, 9, 9, 9, 9, 9, 9, 9, 9, 9};
    uint32_t words[10] = {9, 9, 9, 9, 9, 9, 9, 9, 9, 9};
    called = "circuitrail_pieces_feed behind the end";
    is_state(what, circuitrail_pieces_feed(ended, as_bytes(SHEET), SHEET_LENGTH), ended);
    is_state(what, circuitrail_pieces_feed(ended, NULL, 0), ended);
    called = "circuitrail_pieces_end behind the end";
    for (size_t room = 0; room <= 10; room++)
        is_state(what, circuitrail_pieces_end(ended, words, room), ended);
    is_state(what, circuitrail_pieces_end(ended, NULL, 0), ended);
    memory(what, words, unwritten, sizeof words);
}

/* The states behind bytes that come upon another state, in pieces of one length; empty pieces come between. */
static circuitrail_pieces fed(circuitrail_pieces state, const uint8_t *bytes, size_t length, size_t piece) {
    for (size_t from = 0; from < length; from += piece) {
        state = circuitrail_pieces_feed(state, bytes + from, length - from < piece ? length - from : piece);
        state = circuitrail_pieces_feed(state, NULL, 0);
        state = circuitrail_pieces_feed(state, bytes, 0);
    }
    return state;
}

/* The answers to case S, and to a sheet that is refused. */
static const circuitrail_read READ_S = {0, 0, 2, 3};
static circuitrail_read refused(uint32_t refusal, uint32_t place) {
    circuitrail_read answer = {refusal, place, 0, 0};
    return answer;
}

/* What each state of case S is: at the start, in line one, in a number of a row, and before the end. */
static void pieces_states(void) {
    static const circuitrail_pieces nothing, rows_begun = {5, 0, 2, 0, {0}, 0, {0, 0, 0, 0}};
    static const circuitrail_pieces cost_come = {15, 0, 2, 3, {2}, 0, {0, 0, 0, 0}};
    static const circuitrail_pieces whole = {SHEET_LENGTH, 0, 2, 3, {2, 5, 5, 2, 5, 5, 3, 6, 6}, 0, {0, 0, 0, 0}};
    circuitrail_pieces start = circuitrail_pieces_start();
    called = "circuitrail_pieces_start";
    is_state("start", start, nothing);
    called = "circuitrail_pieces_feed";
    is_state("no bytes", circuitrail_pieces_feed(start, NULL, 0), start);
    is_state("5 bytes", circuitrail_pieces_feed(start, as_bytes(SHEET), 5), rows_begun);
    is_state("15 bytes", circuitrail_pieces_feed(start, as_bytes(SHEET), 15), cost_come);
    is_state("S", circuitrail_pieces_feed(start, as_bytes(SHEET), SHEET_LENGTH), whole);
    is_state("S in pieces of 1", fed(start, as_bytes(SHEET), SHEET_LENGTH, 1), whole);
    is_state("S in pieces of 20", fed(start, as_bytes(SHEET), SHEET_LENGTH, 20), whole);
    stays("S", ends("S", whole, 9, READ_S));
    stays("S byte by byte", ends("S byte by byte", fed(start, as_bytes(SHEET), SHEET_LENGTH, 1), 10, READ_S));
}

/* Case S cut in two at every place, and ended at every place. */
static void pieces_cut(void) {
    circuitrail_pieces start = circuitrail_pieces_start(), whole = circuitrail_pieces_feed(start, as_bytes(SHEET), SHEET_LENGTH);
    for (size_t cut = 0; cut <= SHEET_LENGTH; cut++) {
        char what[40];
        circuitrail_pieces first = circuitrail_pieces_feed(start, as_bytes(SHEET), cut), both;
        snprintf(what, sizeof what, "S cut at %zu", cut);
        called = "circuitrail_pieces_feed";
        both = circuitrail_pieces_feed(first, as_bytes(SHEET) + cut, SHEET_LENGTH - cut);
        is_state(what, both, whole);
        ends(what, both, 10, READ_S);
        if (cut < SHEET_LENGTH)
            stays(what, ends(what, first, 10, refused(CIRCUITRAIL_REFUSED_FORM, (uint32_t)cut)));
    }
}

/* A row that is not in order is refused at the end, and not before; too little room comes first. */
static void pieces_costless(void) {
    circuitrail_pieces start = circuitrail_pieces_start(), state = circuitrail_pieces_feed(start, as_bytes(SHEET), 30);
    state = circuitrail_pieces_feed(state, as_bytes("00000000000500000"), 17);
    state = circuitrail_pieces_feed(state, as_bytes(SHEET) + 47, SHEET_LENGTH - 47);
    called = "circuitrail_pieces_feed";
    number("row without cost", "taken", state.taken, SHEET_LENGTH);
    number("row without cost", "wrong", state.wrong, 0);
    memory("row without cost", state.words, COSTLESS, sizeof COSTLESS);
    stays("row without cost", ends("row without cost", state, 9, refused(CIRCUITRAIL_REFUSED_ROW, 1)));
    stays("row without cost nor room", ends("row without cost nor room", state, 8, refused(CIRCUITRAIL_REFUSED_ROOM, 0)));
}

/* Ends that are refused, and stay so: too little room and then enough, a wrong byte and then a thousand right ones, nothing at all. */
static void pieces_refused(void) {
    uint8_t right[1000];
    circuitrail_pieces start = circuitrail_pieces_start(), whole = circuitrail_pieces_feed(start, as_bytes(SHEET), SHEET_LENGTH);
    circuitrail_pieces wrong = circuitrail_pieces_feed(start, as_bytes(DAMAGED), SHEET_LENGTH), ended;
    memset(right, '0', sizeof right);
    called = "circuitrail_pieces_feed";
    number("damaged sheet", "taken", wrong.taken, 9);
    number("damaged sheet", "wrong", wrong.wrong, 1);
    is_state("damaged sheet byte by byte", fed(start, as_bytes(DAMAGED), SHEET_LENGTH, 1), wrong);
    is_state("damaged sheet and a thousand digits", circuitrail_pieces_feed(wrong, right, sizeof right), wrong);
    is_state("damaged sheet and a thousand pieces", fed(wrong, right, sizeof right, 1), wrong);
    stays("damaged sheet", ends("damaged sheet", wrong, 10, refused(CIRCUITRAIL_REFUSED_FORM, 9)));
    for (size_t room = 0; room < 9; room++)
        stays("too little room", ends("too little room", whole, room, refused(CIRCUITRAIL_REFUSED_ROOM, 0)));
    ended = circuitrail_pieces_end(whole, NULL, 0);
    is_read("no room", ended.answer, CIRCUITRAIL_REFUSED_ROOM, 0, 0, 0);
    stays("no room", ended);
    stays("no bytes", ends("no bytes", start, 10, refused(CIRCUITRAIL_REFUSED_FORM, 0)));
    ended = circuitrail_pieces_end(start, NULL, 0);
    is_read("nothing at all", ended.answer, CIRCUITRAIL_REFUSED_FORM, 0, 0, 0);
}

/* 255 rows, as many as line one can announce: they are not more than the state can tell, and more bytes than that are wrong. */
static void pieces_of_many_rows(void) {
    static uint8_t text[5400];
    enum { ALL = CIRCUITRAIL_SHEET_BYTES(255) };
    circuitrail_pieces start = circuitrail_pieces_start(), many, longer;
    memset(text, '0', sizeof text);
    memcpy(text, "0102FF\n", 7);
    for (size_t row = 0; row < 255; row++)
        memcpy(text + 7 + 21 * row, SHEET + 7, 21);
    called = "circuitrail_pieces_feed";
    many = fed(start, text, ALL, 4096);
    number("255 rows", "taken", many.taken, ALL);
    number("255 rows", "wrong", many.wrong, 0);
    number("255 rows", "rows", many.rows, 255);
    for (size_t row = 0; row < CIRCUITRAIL_MOST_ROWS; row++)
        memory("255 rows, the words of one", many.words + 3 * row, S, 3 * sizeof *S);
    is_state("255 rows byte by byte", fed(start, text, ALL, 1), many);
    ends("255 rows", many, 10, refused(CIRCUITRAIL_REFUSED_MANY_ROWS, 0));
    called = "circuitrail_pieces_feed";
    longer = fed(start, text, sizeof text, 4096);
    many.wrong = 1;
    is_state("5,400 bytes", longer, many);
    is_state("5,400 bytes byte by byte", fed(start, text, sizeof text, 1), many);
    ends("5,400 bytes", longer, 10, refused(CIRCUITRAIL_REFUSED_FORM, ALL));
}

/* States that no call returned: numbers of one pattern that have ended, are wrong, or are behind every sheet. */
static void pieces_made_up(void) {
    circuitrail_pieces any, wrong;
    memset(&any, 0xA5, sizeof any);
    stays("any numbers", any);
    any.wrong = any.taken = 0;
    stays("any numbers, nothing taken", any);
    any.ended = 0;
    any.wrong = any.taken = 0xA5A5A5A5;
    called = "circuitrail_pieces_feed";
    is_state("any numbers, wrong", circuitrail_pieces_feed(any, as_bytes(SHEET), SHEET_LENGTH), any);
    ends("any numbers, wrong", any, 10, refused(CIRCUITRAIL_REFUSED_FORM, 0xA5A5A5A5));
    called = "circuitrail_pieces_feed";
    wrong = any;
    any.wrong = 0;
    wrong.wrong = 1;
    is_state("any numbers, not wrong", circuitrail_pieces_feed(any, as_bytes("0"), 1), wrong);
    is_state("any numbers, no bytes", circuitrail_pieces_feed(any, NULL, 0), any);
    any.taken = UINT32_MAX;
    ends("the most bytes", any, 10, refused(CIRCUITRAIL_REFUSED_FORM, UINT32_MAX));
}

/* Case S with one number changed: rows above 255, whose two lowest digits count, a wrong byte told by 2, the most processors. */
static void pieces_changed(void) {
    circuitrail_pieces whole = circuitrail_pieces_feed(circuitrail_pieces_start(), as_bytes(SHEET), SHEET_LENGTH), state = whole;
    state.rows += 0xFFFFFF00;
    ends("rows above 255", state, 10, READ_S);
    state = whole;
    state.wrong = 2;
    ends("a wrong byte told by 2", state, 10, refused(CIRCUITRAIL_REFUSED_FORM, SHEET_LENGTH));
    called = "circuitrail_pieces_feed";
    is_state("a wrong byte told by 2", circuitrail_pieces_feed(state, as_bytes("0"), 1), state);
    state = whole;
    state.taken = 3;
    state.processors = UINT32_MAX;
    state = circuitrail_pieces_feed(state, as_bytes("5"), 1);
    number("a digit behind the largest number", "processors", state.processors, 0x7FFFFFF5);
    number("a digit behind the largest number", "taken", state.taken, 4);
}

static void is_written(const char *what, circuitrail_written got, uint32_t refusal, uint32_t place, uint32_t length) {
    number(what, "refusal", got.refusal, refusal);
    number(what, "place", got.place, place);
    number(what, "length", got.length, length);
}

static void write_sheet(void) {
    uint8_t out[ROOM];
    memset(out, '.', ROOM);
    called = "circuitrail_write_sheet";
    is_written("too little room", circuitrail_write_sheet(S, 9, 2, out, SHEET_LENGTH - 1), CIRCUITRAIL_REFUSED_ROOM, 0, 0);
    bytes_hold("too little room", out, "", 0);
    is_written("row without cost", circuitrail_write_sheet(COSTLESS, 9, 2, out, ROOM), CIRCUITRAIL_REFUSED_ROW, 1, 0);
    bytes_hold("row without cost", out, "", 0);
    is_written("no words", circuitrail_write_sheet(NULL, 0, 2, out, ROOM), CIRCUITRAIL_REFUSED_NO_ROWS, 0, 0);
    bytes_hold("no words", out, "", 0);
    is_written("no room", circuitrail_write_sheet(S, 9, 2, NULL, 0), CIRCUITRAIL_REFUSED_ROOM, 0, 0);
    is_written("nothing at all", circuitrail_write_sheet(NULL, 0, 2, NULL, 0), CIRCUITRAIL_REFUSED_NO_ROWS, 0, 0);
    is_written("S", circuitrail_write_sheet(S, 9, 2, out, ROOM), 0, 0, SHEET_LENGTH);
    bytes_hold("S", out, SHEET, SHEET_LENGTH);
    is_written("upper case", circuitrail_write_sheet(DOUBLED, 9, 10, out, ROOM), 0, 0, SHEET_LENGTH);
    bytes_hold("upper case", out, UPPER, SHEET_LENGTH);
}

static void write_result(void) {
    uint8_t out[ROOM];
    memset(out, '.', ROOM);
    called = "circuitrail_write_result";
    is_written("too little room", circuitrail_write_result(S, 9, 2, CIRCUITRAIL_RTA, out, RESULT_LENGTH - 1), CIRCUITRAIL_REFUSED_ROOM,
               0, 0);
    bytes_hold("too little room", out, "", 0);
    is_written("row without cost", circuitrail_write_result(COSTLESS, 9, 2, CIRCUITRAIL_RTA, out, ROOM), CIRCUITRAIL_REFUSED_ROW, 1, 0);
    bytes_hold("row without cost", out, "", 0);
    is_written("method 2", circuitrail_write_result(S, 9, 2, 2, out, ROOM), CIRCUITRAIL_REFUSED_METHOD, 0, 0);
    bytes_hold("method 2", out, "", 0);
    is_written("no words", circuitrail_write_result(NULL, 0, 2, CIRCUITRAIL_RTA, out, ROOM), CIRCUITRAIL_REFUSED_NO_ROWS, 0, 0);
    bytes_hold("no words", out, "", 0);
    is_written("no room", circuitrail_write_result(S, 9, 2, CIRCUITRAIL_RTA, NULL, 0), CIRCUITRAIL_REFUSED_ROOM, 0, 0);
    is_written("nothing at all", circuitrail_write_result(NULL, 0, 2, CIRCUITRAIL_RTA, NULL, 0), CIRCUITRAIL_REFUSED_NO_ROWS, 0, 0);
    is_written("S", circuitrail_write_result(S, 9, 2, CIRCUITRAIL_RTA, out, ROOM), 0, 0, RESULT_LENGTH);
    bytes_hold("S", out, RESULT, RESULT_LENGTH);
}

static void write_result_columns(void) {
    static const char EARLY[] = "110102\n1201000001\n1201000002\n";
    uint8_t out[ROOM];
    memset(out, '.', ROOM);
    called = "circuitrail_write_result_columns";
    is_written("too little room", circuitrail_write_result_columns(S_COLUMNS, 2, CIRCUITRAIL_RTA, out, RESULT_LENGTH - 1),
               CIRCUITRAIL_REFUSED_ROOM, 0, 0);
    bytes_hold("too little room", out, "", 0);
    is_written("row without cost", circuitrail_write_result_columns(COSTLESS_COLUMNS, 2, CIRCUITRAIL_RTA, out, ROOM),
               CIRCUITRAIL_REFUSED_ROW, 1, 0);
    bytes_hold("row without cost", out, "", 0);
    is_written("method 2", circuitrail_write_result_columns(S_COLUMNS, 2, 2, out, ROOM), CIRCUITRAIL_REFUSED_METHOD, 0, 0);
    bytes_hold("method 2", out, "", 0);
    for (size_t k = 0; k < REFUSED_LENGTHS; k++) {
        is_written(lengths(k), circuitrail_write_result_columns(COLUMNS_OF(k), 2, CIRCUITRAIL_RTA, out, ROOM), LENGTHS[k].refusal, 0, 0);
        bytes_hold(lengths(k), out, "", 0);
    }
    is_written("no room", circuitrail_write_result_columns(S_COLUMNS, 2, CIRCUITRAIL_RTA, NULL, 0), CIRCUITRAIL_REFUSED_ROOM, 0, 0);
    is_written("nothing at all", circuitrail_write_result_columns(COLUMNS_OF(0), 2, CIRCUITRAIL_RTA, NULL, 0), CIRCUITRAIL_REFUSED_NO_ROWS,
               0, 0);
    is_written("rows due early", circuitrail_write_result_columns(EARLY_COLUMNS, 2, CIRCUITRAIL_RTA, out, ROOM), 0, 0, sizeof EARLY - 1);
    bytes_hold("rows due early", out, EARLY, sizeof EARLY - 1);
    is_written("S", circuitrail_write_result_columns(S_COLUMNS, 2, CIRCUITRAIL_RTA, out, ROOM), 0, 0, RESULT_LENGTH);
    bytes_hold("S", out, RESULT, RESULT_LENGTH);
}

/* A refused sheet has an answer too: the line that says why. */
static void answer_sheet(void) {
    uint8_t out[ROOM];
    memset(out, '.', ROOM);
    called = "circuitrail_answer_sheet";
    is_written("too little room", circuitrail_answer_sheet(as_bytes(SHEET), SHEET_LENGTH, out, RESULT_LENGTH - 1),
               CIRCUITRAIL_REFUSED_ROOM, 0, 0);
    bytes_hold("too little room", out, "", 0);
    is_written("no room", circuitrail_answer_sheet(as_bytes(SHEET), SHEET_LENGTH, NULL, 0), CIRCUITRAIL_REFUSED_ROOM, 0, 0);
    is_written("nothing at all", circuitrail_answer_sheet(NULL, 0, NULL, 0), CIRCUITRAIL_REFUSED_ROOM, 0, 0);
    is_written("no bytes", circuitrail_answer_sheet(NULL, 0, out, ROOM), 0, 0, 9);
    bytes_hold("no bytes", out, "1F010000\n", 9);
    is_written("damaged sheet", circuitrail_answer_sheet(as_bytes(DAMAGED), SHEET_LENGTH, out, ROOM), 0, 0, 9);
    bytes_hold("damaged sheet", out, "1F010009\n", 9);
    is_written("S", circuitrail_answer_sheet(as_bytes(SHEET), SHEET_LENGTH, out, ROOM), 0, 0, RESULT_LENGTH);
    bytes_hold("S", out, RESULT, RESULT_LENGTH);
}

int main(void) {
    one_row();
    one_row_columns();
    refine("circuitrail_refine_rounds", circuitrail_refine_rounds);
    refine("circuitrail_refine_at_once", circuitrail_refine_at_once);
    refine_most_rows("circuitrail_refine_rounds", circuitrail_refine_rounds);
    refine_most_rows("circuitrail_refine_at_once", circuitrail_refine_at_once);
    refine_columns("circuitrail_refine_rounds_columns", circuitrail_refine_rounds_columns);
    refine_columns("circuitrail_refine_at_once_columns", circuitrail_refine_at_once_columns);
    refine_most_columns("circuitrail_refine_rounds_columns", circuitrail_refine_rounds_columns);
    refine_most_columns("circuitrail_refine_at_once_columns", circuitrail_refine_at_once_columns);
    one_processor();
    one_processor_columns();
    density();
    density_columns();
    density_most_rows();
    not_accepted_and_fits();
    read_sheet();
    pieces_states();
    pieces_cut();
    pieces_costless();
    pieces_refused();
    pieces_of_many_rows();
    pieces_made_up();
    pieces_changed();
    write_sheet();
    write_result();
    write_result_columns();
    answer_sheet();
    printf("%u passed, %u failed\n", passed, failed);
    return failed == 0 ? 0 : 1;
}
