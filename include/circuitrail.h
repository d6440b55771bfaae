/*
 * Circuitrail: whether published tests show that a task sheet meets its deadlines, for C and C++. `rt lib --cpu x86-64` in the folder
 * crates/board makes the archive to link, crates/board/out/libboard.a.
 *
 * A row is a task: its cost C, its relative deadline D and its period T, in whole microseconds. Two rows with equal numbers are two rows.
 * Rows are lent as triples, an array of words, three a row, C then D then T, row 0 first. The functions whose names end in `_columns` are
 * lent them as columns, three arrays of one word a row: all costs, all deadlines, all periods, row 0 first in each. For the same rows
 * columns and triples get the same answer, the same refusal, and the same in the array written.
 *
 * Sizes allowed: 1 to 64 rows, 1 to 64 processors, 1 <= C <= D <= T <= 1,000,000, a horizon of 1 to 16,777,216.
 *
 * What an answer is worth. A sheet is accepted if every row is marked: every job then meets its deadline under global EDF, each row within
 * its bound. Not accepted means that the test could not show it; a deadline need not be missed. A single marked row of a sheet that is not
 * accepted promises nothing by itself: its bound counts on rows that may be late. All of this rests on:
 *   - C is a worst case, and already holds what the kernel and interrupts take;
 *   - T is the least distance between two releases of the row, and D, counted from the release, is at most T;
 *   - jobs are independent, and wait neither for each other nor for locks;
 *   - jobs may be preempted and moved at any moment at no further cost, and processors are equal.
 *
 * Every function here
 *   - takes each array as a pointer and the number of its elements; a pointer to no elements may be NULL, and any other is aligned as C asks
 *     of its type;
 *   - reads its input arrays and writes only to the array that its comment names as written. That one must not overlap the others: a call
 *     with arrays that overlap may write anything into them, and may not return;
 *   - allocates nothing, keeps nothing between calls (the state of a sheet in pieces is the caller's), and may be called from several threads at once; of its host it needs no more than
 *     memcpy, memmove, memset and memcmp;
 *   - takes less than CIRCUITRAIL_STACK_BYTES of stack;
 *   - answers every input that is so lent: it ends, does not stop the program, and has no way to fail but the refusals below. How long a
 *     question takes depends on the rows, and no limit is promised.
 *
 * The archive is for x86-64 under the System V calling convention, which asks for a stack pointer that is a multiple of 16 at a call. It
 * uses the general registers, the SSE2 registers xmm0 to xmm15, and the red zone, the 128 bytes beneath the stack pointer.
 *   - A kernel built without SSE has to switch it on in the processor (CR0, CR4) before a call, and, where somebody else's values are in
 *     xmm0 to xmm15, to save them before the call and restore them behind it. Whatever interrupts a call, a handler or another task, has to
 *     leave xmm0 to xmm15 as the call had them. No argument and no answer is in those registers.
 *   - A kernel built without the red zone has to see that nothing writes beneath the stack pointer during a call: interrupt handlers on a
 *     stack of their own, or interrupts off.
 *
 * Every answer begins with `refusal` and `place`. Where `refusal` is 0 so is `place`, and the answer stands in the other fields and in
 * the array written. Else `refusal` is the number of the first check that failed, in the order in which the function's comment lists
 * its checks; every field but `refusal` and `place` is 0, and the array is left as it was. The functions on pieces return a state, which
 * holds such an answer once the sheet has ended.
 */
#ifndef CIRCUITRAIL_H
#define CIRCUITRAIL_H

#include <stddef.h>
#include <stdint.h>

#ifdef __cplusplus
extern "C" {
#endif

/* The version of this header and of the archive that is made beside it. */
#define CIRCUITRAIL_VERSION "0.5.0"

/* Every call takes fewer bytes of stack than this. Interrupt handlers that run on the same stack come on top. */
#define CIRCUITRAIL_STACK_BYTES 5120

/* Refusals, in the order in which they are checked. `place` is 0 unless stated. */
enum {
    CIRCUITRAIL_NOT_REFUSED = 0,
    CIRCUITRAIL_REFUSED_FORM = 1,       /* the sheet's bytes break the line form; place: offset of the first wrong byte, or the length
                                           where the sheet ends early */
    CIRCUITRAIL_REFUSED_NO_ROWS = 2,    /* the words are none or not whole rows; a column is empty, or the three differ in length; the sheet
                                           announces 0 rows */
    CIRCUITRAIL_REFUSED_MANY_ROWS = 3,  /* more than 64 rows */
    CIRCUITRAIL_REFUSED_PROCESSORS = 4, /* processors 0 or above 64 */
    CIRCUITRAIL_REFUSED_METHOD = 5,     /* method above 1 */
    CIRCUITRAIL_REFUSED_HORIZON = 6,    /* horizon 0 or above 16,777,216 */
    CIRCUITRAIL_REFUSED_ROOM = 7,       /* the array to be written is shorter than the answer */
    CIRCUITRAIL_REFUSED_ROW = 8,        /* a row outside the sizes allowed; place: the first such row */
    CIRCUITRAIL_REFUSED_QUESTION = 9    /* row number or bounds of the one-row question do not fit the rows */
};

/* The most rows of a sheet, and the bytes of a task sheet and of a result sheet of n rows. */
#define CIRCUITRAIL_MOST_ROWS 64
#define CIRCUITRAIL_SHEET_BYTES(n) (7 + 21 * (n))
#define CIRCUITRAIL_RESULT_BYTES(n) (7 + 11 * (n))

/* Methods: two published tests for global EDF on equal processors. RTA marks every row that BCL marks, with no higher bound. */
enum {
    CIRCUITRAIL_BCL = 0, /* the test of Bertogna, Cirinei and Lipari */
    CIRCUITRAIL_RTA = 1  /* the response-time analysis of Bertogna and Cirinei */
};

/* Outcomes of the exact test for one processor. */
enum {
    CIRCUITRAIL_UNDECIDED = 0,
    CIRCUITRAIL_MISS = 1,
    CIRCUITRAIL_FITS = 2
};

/* Answers of the density test, a quick look. */
enum {
    CIRCUITRAIL_DENSITY_UNSURE = 0,
    CIRCUITRAIL_DENSITY_YES = 1,
    CIRCUITRAIL_DENSITY_NO = 2
};

/* The answer to the one-row question. */
typedef struct {
    uint32_t refusal;
    uint32_t place;
    uint32_t bound; /* the row's response-time bound, from its C to its D, if every other row keeps to its own in `bounds`; 0 where the
                       method gives none */
} circuitrail_row;

/*
 * One row's answer under given bounds of all rows.
 *
 * Row `row` of `words` is under question on `processors` processors by method `method`. `bounds` holds one bound a row, each from its
 * row's C to its D; the row's own is checked too, though it does not count. By RTA the bound is the least X from C to D that equals C
 * plus the interference of the other rows in a window of X; by BCL it is the formula's value, if it is at most D.
 *
 * Checks: 2, 3, 4, 5, 8, 9. Check 9 fails where `row` is not below the row count, where `bounds` is not one word a row, or where a bound
 * lies outside its row's C to D.
 */
circuitrail_row circuitrail_one_row(const uint32_t *words, size_t words_length, uint32_t processors, uint32_t method,
                                    const uint32_t *bounds, size_t bounds_length, uint32_t row);

/*
 * The same with rows lent as columns: row k has the cost `costs[k]`, the deadline `deadlines[k]` and the period `periods[k]`.
 *
 * Checks: those of circuitrail_one_row. As in every function on columns, check 2 fails where one of the three arrays is empty or their
 * lengths are not all equal, however many words they have, and check 3 where each has more than 64.
 */
circuitrail_row circuitrail_one_row_columns(const uint32_t *costs, size_t costs_length, const uint32_t *deadlines, size_t deadlines_length,
                                            const uint32_t *periods, size_t periods_length, uint32_t processors, uint32_t method,
                                            const uint32_t *bounds, size_t bounds_length, uint32_t row);

/* The answer of a refinement. */
typedef struct {
    uint32_t refusal;
    uint32_t place;
    uint64_t marks; /* bit k is set exactly if row k is marked; with n rows the sheet is accepted if the n lowest bits are all set, and
                       only then does a mark promise anything */
} circuitrail_refined;

/*
 * The whole sheet refined, by the engine that works in rounds: every row from the bounds at the start of the round, until a round
 * changes nothing. All bounds begin at D. A row is marked if its one-row answer under the final bounds exists. If every row is marked, each
 * row's bound is its response-time bound. A row that is not marked has its D.
 *
 * This may take an hour where circuitrail_refine_at_once takes microseconds, and both answer the same: call that one.
 *
 * Written: the first n words of `bounds`, one bound a row, where n is the row count. Words behind them are left as they were.
 *
 * Checks: 2, 3, 4, 5, 7 (`bounds_length` below n), 8.
 */
circuitrail_refined circuitrail_refine_rounds(const uint32_t *words, size_t words_length, uint32_t processors, uint32_t method,
                                              uint32_t *bounds, size_t bounds_length);

/*
 * The same by the engine that takes rows 0 upward and uses each new bound at once. Both engines return the same and write the same.
 */
circuitrail_refined circuitrail_refine_at_once(const uint32_t *words, size_t words_length, uint32_t processors, uint32_t method,
                                               uint32_t *bounds, size_t bounds_length);

/*
 * The two engines with rows lent as columns, in the same order. Each writes `bounds` as above.
 *
 * Checks: those of circuitrail_refine_rounds, 2 and 3 as in circuitrail_one_row_columns.
 */
circuitrail_refined circuitrail_refine_rounds_columns(const uint32_t *costs, size_t costs_length, const uint32_t *deadlines,
                                                      size_t deadlines_length, const uint32_t *periods, size_t periods_length,
                                                      uint32_t processors, uint32_t method, uint32_t *bounds, size_t bounds_length);
circuitrail_refined circuitrail_refine_at_once_columns(const uint32_t *costs, size_t costs_length, const uint32_t *deadlines,
                                                       size_t deadlines_length, const uint32_t *periods, size_t periods_length,
                                                       uint32_t processors, uint32_t method, uint32_t *bounds, size_t bounds_length);

/* The answer of the exact test for one processor. */
typedef struct {
    uint32_t refusal;
    uint32_t place;
    uint32_t outcome; /* CIRCUITRAIL_UNDECIDED, CIRCUITRAIL_MISS or CIRCUITRAIL_FITS */
    uint32_t length;  /* miss: the least length whose demand is above it; fits: the busy length; undecided: 0 */
} circuitrail_outcome;

/*
 * Whether the rows fit on one processor, by their demand, as far as lengths up to `horizon` show. Unlike the two methods above this test
 * is exact: rows that fit meet every deadline under EDF, and rows with a miss can miss one.
 *
 * A miss is the least length up to the horizon in which the rows demand more than the length. Fits: there is none up to the horizon, and
 * the busy length is at most the horizon; then no length at all demands more than itself. Undecided: neither; ask again with a longer
 * horizon.
 *
 * Checks: 2, 3, 6, 8.
 */
circuitrail_outcome circuitrail_one_processor(const uint32_t *words, size_t words_length, uint32_t horizon);

/*
 * The same with rows lent as columns.
 *
 * Checks: those of circuitrail_one_processor, 2 and 3 as in circuitrail_one_row_columns.
 */
circuitrail_outcome circuitrail_one_processor_columns(const uint32_t *costs, size_t costs_length, const uint32_t *deadlines,
                                                      size_t deadlines_length, const uint32_t *periods, size_t periods_length,
                                                      uint32_t horizon);

/* The answer of the density test. */
typedef struct {
    uint32_t refusal;
    uint32_t place;
    uint32_t answer; /* CIRCUITRAIL_DENSITY_UNSURE, CIRCUITRAIL_DENSITY_YES or CIRCUITRAIL_DENSITY_NO */
} circuitrail_density_answer;

/*
 * A quick look by densities, the published test GFB: whether the sum of C / D over all rows and `processors` - 1 times the largest C / D are
 * together at most `processors`. It divides once a row and gives no bounds. circuitrail_refine_at_once by RTA is the judge.
 *
 * Yes: they are, and the published test then shows that every job meets its deadline under global EDF, on what the other answers rest on.
 * No: they are not. This test then shows nothing; RTA may accept the rows all the same. Unsure: densities are rounded to billionths, and
 * with n rows fewer than n + `processors` - 1 billionths lie between the two sides, on whichever side.
 *
 * Checks: 2, 3, 4, 8.
 */
circuitrail_density_answer circuitrail_density(const uint32_t *words, size_t words_length, uint32_t processors);

/*
 * The same with rows lent as columns.
 *
 * Checks: those of circuitrail_density, 2 and 3 as in circuitrail_one_row_columns.
 */
circuitrail_density_answer circuitrail_density_columns(const uint32_t *costs, size_t costs_length, const uint32_t *deadlines,
                                                       size_t deadlines_length, const uint32_t *periods, size_t periods_length,
                                                       uint32_t processors);

/* What reading a task sheet returns. */
typedef struct {
    uint32_t refusal;
    uint32_t place;
    uint32_t processors; /* as the sheet's first line says */
    uint32_t rows;       /* as the sheet's first line says */
} circuitrail_read;

/*
 * Reads a task sheet. Its first line is `01`, processors (2 digits), rows (2 digits); then one line a row, `02` and C, D, T with 6 digits
 * each. Digits are 0 to 9, A to F and a to f, big end first; each line ends in one byte 0A, and nothing follows the last. Whether letters
 * are in upper or in lower case changes nothing: two sheets that are not refused are read as equal, processors, rows and every word, exactly
 * where they differ in letter case at most.
 *
 * Written: the first 3n words of `words`, C then D then T of each row, where n is the row count. 192 words of room are always enough.
 *
 * Checks: 1, 2, 3, 4, 7 (`words_length` below 3n), 8.
 */
circuitrail_read circuitrail_read_sheet(const uint8_t *bytes, size_t bytes_length, uint32_t *words, size_t words_length);

/*
 * A task sheet that comes in pieces, as over a serial cable: the state between them. It is begun by circuitrail_pieces_start, and passed on
 * by value: each call returns the state for the next. It holds all that is kept, so copies are states of their own, and any number of sheets
 * may be on their way at once.
 *
 * After the same bytes it is the same, however they were cut into pieces. Whatever values stand in it, no function reads or writes beyond the
 * arrays lent to it. A state that these functions did not make from a sheet's bytes gets some answer, which says nothing of any sheet.
 */
typedef struct {
    uint32_t taken;          /* right bytes so far; none behind a wrong one counts */
    uint32_t wrong;          /* 0, or 1 once a byte was wrong: the byte at offset `taken` */
    uint32_t processors;     /* as the first line says, as far as it came */
    uint32_t rows;           /* as the first line says, as far as it came */
    uint32_t words[3 * CIRCUITRAIL_MOST_ROWS]; /* C, D, T of each row, as far as they came: not checked before the end */
    uint32_t ended;          /* 0 before circuitrail_pieces_end, 1 behind it */
    circuitrail_read answer; /* what circuitrail_pieces_end found; all 0 before, which is no answer: look at `ended` first */
} circuitrail_pieces;

/* The state before the first piece. */
circuitrail_pieces circuitrail_pieces_start(void);

/*
 * Takes a piece, of any length or none. Where the sheet has ended (`ended` is not 0) nothing changes: the answer that was given stands in
 * `answer`. A refusal is given by circuitrail_pieces_end only; `wrong` tells of a wrong byte before.
 */
circuitrail_pieces circuitrail_pieces_feed(circuitrail_pieces state, const uint8_t *bytes, size_t bytes_length);

/*
 * Tells that the sheet ends here. `answer` in the state that it returns, and what it writes, are those of circuitrail_read_sheet for all
 * bytes of all pieces in a row. A second end changes nothing, with whatever room: the answer stays, a refusal 7 too, and nothing is written.
 *
 * Written: `words`, as by circuitrail_read_sheet; before the end nothing is.
 *
 * Checks, in `answer`: 1, 2, 3, 4, 7 (`words_length` below 3n), 8.
 */
circuitrail_pieces circuitrail_pieces_end(circuitrail_pieces state, uint32_t *words, size_t words_length);

/* What each function below returns. */
typedef struct {
    uint32_t refusal;
    uint32_t place;
    uint32_t length; /* bytes written */
} circuitrail_written;

/*
 * Writes the task sheet of rows for `processors` processors, in the form that circuitrail_read_sheet reads, with digits in upper case. So
 * rows that are written are read back the same, and a sheet that is read and written comes back in upper case: byte for byte only where it
 * had no letter in lower case.
 *
 * Written: the first CIRCUITRAIL_SHEET_BYTES(n) bytes of `out`, where n is the row count. No 0 byte ends them.
 *
 * Checks: 2, 3, 4, 7 (`out_length` below that), 8.
 */
circuitrail_written circuitrail_write_sheet(const uint32_t *words, size_t words_length, uint32_t processors,
                                            uint8_t *out, size_t out_length);

/*
 * Writes the result sheet of rows on `processors` processors by method `method`: marks and bounds are those that
 * circuitrail_refine_at_once gives. Its first line is `11`, `01` if every row is marked and else `00`, rows (2 digits); then one line a
 * row, `12`, `01` if it is marked and else `00`, its bound (6 digits). Each line ends in one byte 0A.
 *
 * Written: the first CIRCUITRAIL_RESULT_BYTES(n) bytes of `out`, where n is the row count. No 0 byte ends them.
 *
 * Checks: 2, 3, 4, 5, 7 (`out_length` below that), 8.
 */
circuitrail_written circuitrail_write_result(const uint32_t *words, size_t words_length, uint32_t processors, uint32_t method,
                                             uint8_t *out, size_t out_length);

/*
 * The same with rows lent as columns. It writes `out` as above.
 *
 * Checks: those of circuitrail_write_result, 2 and 3 as in circuitrail_one_row_columns.
 */
circuitrail_written circuitrail_write_result_columns(const uint32_t *costs, size_t costs_length, const uint32_t *deadlines,
                                                     size_t deadlines_length, const uint32_t *periods, size_t periods_length,
                                                     uint32_t processors, uint32_t method, uint8_t *out, size_t out_length);

/*
 * The whole answer to a task sheet's bytes, as the program gives it: the result sheet by RTA, or, where circuitrail_read_sheet with 192
 * words of room refuses the sheet, one line, `1F`, that refusal's number (2 digits) and place (4 digits), and one byte 0A. Such a line is
 * an answer: `refusal` is then 0 and `length` 9.
 *
 * Written: the answer at the front of `out`. CIRCUITRAIL_RESULT_BYTES(CIRCUITRAIL_MOST_ROWS) bytes of room are always enough.
 *
 * Checks: 7 (`out_length` below the answer's length).
 */
circuitrail_written circuitrail_answer_sheet(const uint8_t *bytes, size_t bytes_length, uint8_t *out, size_t out_length);

#ifdef __cplusplus
}
#endif

#endif
