/* The recurrence regulariser for C: the functions of the static library target/staticlib/libwurgalm.a, which the two commands at
 * the beginning of README.md build. Their contracts are proved: crates/exports_c/src/lib.rt. What they promise stands in
 * docs/SCOPE.md, whose rules are cited here by their numbers. examples/run.c is an example program.
 *
 * A store is lent as a pointer and the number of its members. A store that a function takes as `const` is only read. A
 * store of numbers may be longer than needed: members past the needed part make no difference, and stay (SCOPE 3.12).
 *
 * Whatever numbers and bytes the arguments have, they are worked or refused. What no call can see is the caller's to
 * keep:
 *   - a pointer is not null, also where the number of members is 0;
 *   - a store of numbers is aligned: its address is a multiple of 8;
 *   - so many members lie behind the pointer, and may be read, and written where the store is not `const`;
 *   - no two stores of one call overlap, not even in one byte;
 *   - while a call lasts, no other thread writes to its stores, or reads those that it may write.
 * Where one of these does not hold there is no refusal: as with memcpy, what the call does then is undefined. A call
 * reads and writes nothing but its stores, and nothing is kept between two calls, so that calls on different stores
 * may be made by several threads at once. A call takes at most WURGALM_STACK bytes of stack, `wurgalm_batch`
 * WURGALM_BATCH_STACK, both as tests/c/stack.c measures them on x86-64 with some to spare, and no memory beside that.
 *
 * The row store needs 336 numbers for each equation: for each row five blocks from block l downward, in each block four columns, in
 * each column 16 coefficients from power 0 upward; behind those 320 the 16 coefficients of the right side
 * (SCOPE 3.2, 3.11). The relation store needs 16 x 337: `count` relations, each n0 and then a row, and zeros at the
 * places past them (SCOPE 3.4, 3.13). Positions of blocks below t and of columns above m hold 0 (SCOPE 3.3).
 *
 * Every function returns the number of a refusal, or 0 (SCOPE 6.1 to 6.14; 6 does not occur), of which
 * `wurgalm_refusal_sentence` tells the meaning in words:
 *   1  a store has too few members
 *   2  a size, block, column, count or order is out of its range
 *   3  something in a sheet is not a number; or a separator, the order of the terms or a zero last coefficient is wrong,
 *      or its fifth section has zeros only
 *   4  the bytes of a sheet end too early, or go on behind its last line
 *   5  a coefficient or n0 is past +-268,435,455, or an unused position of a store does not hold 0
 *   7  a degree has passed 15
 *   8  a coefficient has passed +-268,435,455 in the course of the run
 *   9  a seventeenth relation would have to be listed
 *  10  the system has no solution: the left part of a row is zero and its right side is not
 *  11  the state of a run is not right: a size or a number is out of its range, an unused position does not hold 0, or a settled row
 *      does not stand as a settled row has to (`wurgalm_run_steps` alone)
 *  12  a value of Horner's rule has passed +-2^40 (`wurgalm_check_record` and `wurgalm_solutions` alone)
 *  13  a log is not right: a step is malformed or not allowed, or the rows at its end are not triangular in its column order
 *      (`wurgalm_replay` alone)
 *  14  the system is not one whose polynomial solutions are listed (`wurgalm_solutions` alone)
 * On 1 to 5 and on 11 no store is changed (SCOPE 6.32; but see `wurgalm_batch`). On 7 to 10, 12 and 13 the needed part of each
 * store that the function may write is zero (SCOPE 6.33; `wurgalm_run_steps` then tells the steps, and zeros). 14 does the one or
 * the other, as `wurgalm_solutions` says. Sizes, count and order are checked first (2), then the lengths of the stores (1), then
 * their numbers (5) (SCOPE 3.31).
 *
 * Equal arguments give equal numbers and bytes in every store, on every installation. The relations that one multiplier
 * adds stand together, by strictly ascending n0, on the leading and on the trailing side (SCOPE 2.33). */
#ifndef WURGALM_H
#define WURGALM_H

#include <stddef.h>
#include <stdint.h>

#ifdef __cplusplus
extern "C" {
#endif

/* The needed parts of the stores, in members: of the row store so many for each equation, of which there are at most six. */
#define WURGALM_ROW 336
#define WURGALM_EQUATIONS 6
#define WURGALM_RELATION 337
#define WURGALM_RELATIONS (16 * WURGALM_RELATION)
#define WURGALM_RESULT 10 /* of a run */
#define WURGALM_HEADING 9 /* of a reader */
#define WURGALM_RECORD 4 /* of a record */
#define WURGALM_STATE 11 /* of the state of a run by steps */
#define WURGALM_STEPS 12 /* of a run with a budget */
#define WURGALM_LOGGED 11 /* of a run with its log */

/* A log: 36 numbers for each step, of which there are at most 1,000, and behind them the four of the column order (SCOPE 13.1). The
 * store of `wurgalm_run_logged` needs WURGALM_LOG numbers; that of `wurgalm_replay` needs WURGALM_LOG_STEP for each step and
 * WURGALM_LOG_ORDER. */
#define WURGALM_LOG_STEP 36
#define WURGALM_LOG_ORDER 4
#define WURGALM_LOG_STEPS 1000
#define WURGALM_LOG 36004

#define WURGALM_SOLUTIONS 3 /* of polynomial solutions */

/* The stores of `wurgalm_solutions`: the numbers of one sequence, of the list, and of the matrix that is lent for the work. */
#define WURGALM_SEQUENCE 64
#define WURGALM_LIST 4096 /* 64 x 64 */
#define WURGALM_MATRIX 8704 /* 136 x 64 */

/* Bytes of stack that a call takes at most, and those of `wurgalm_batch`. A thread needs some more for itself. */
#define WURGALM_STACK 65536
#define WURGALM_BATCH_STACK 172032

/* Where the 16 coefficients of the right side begin in a row; in a relation, one place later. */
#define WURGALM_RIGHT_SIDE 320

/* The version of this header and of the library that belongs to it. */
#define WURGALM_VERSION_MAJOR 0
#define WURGALM_VERSION_MINOR 1
#define WURGALM_VERSION_PATCH 0
#define WURGALM_VERSION "0.1.0"

/* Names for the refusals. docs/REFUSALS.md has each with a cause and what to do. */
enum wurgalm_refusal {
    WURGALM_ACCEPTED = 0,
    WURGALM_REFUSED_SHORT = 1,
    WURGALM_REFUSED_RANGE = 2,
    WURGALM_REFUSED_FORM = 3,
    WURGALM_REFUSED_END = 4,
    WURGALM_REFUSED_NUMBER = 5,
    WURGALM_REFUSED_DEGREE = 7,
    WURGALM_REFUSED_COEFFICIENT = 8,
    WURGALM_REFUSED_RELATIONS = 9,
    WURGALM_REFUSED_INCONSISTENT = 10,
    WURGALM_REFUSED_STATE = 11,
    WURGALM_REFUSED_VALUE = 12,
    WURGALM_REFUSED_LOG = 13,
    WURGALM_REFUSED_LIST = 14
};

/* What a refusal means, as a sentence without its point; the text is never null, and lasts. */
static inline const char *wurgalm_refusal_sentence(int refusal) {
    switch (refusal) {
    case WURGALM_ACCEPTED:
        return "accepted";
    case WURGALM_REFUSED_SHORT:
        return "a store is too short, or the answer has more than 65,536 bytes";
    case WURGALM_REFUSED_RANGE:
        return "a size, block, column, count or order is out of its range";
    case WURGALM_REFUSED_FORM:
        return "something is not a number, or stands in a wrong form or order";
    case WURGALM_REFUSED_END:
        return "the bytes end early, or go on behind the last section";
    case WURGALM_REFUSED_NUMBER:
        return "a number is past its limit";
    case WURGALM_REFUSED_DEGREE:
        return "a degree has passed 15";
    case WURGALM_REFUSED_COEFFICIENT:
        return "a coefficient has passed 268,435,455 in the course of the run";
    case WURGALM_REFUSED_RELATIONS:
        return "more than 16 relations would have to be listed";
    case WURGALM_REFUSED_INCONSISTENT:
        return "no sequence satisfies the system";
    case WURGALM_REFUSED_STATE:
        return "the state that was handed in is not right";
    case WURGALM_REFUSED_VALUE:
        return "a value of Horner's rule has passed 2^40";
    case WURGALM_REFUSED_LOG:
        return "a step of the log, or its end, is not right";
    case WURGALM_REFUSED_LIST:
        return "the system is not one whose polynomial solutions are listed";
    default:
        return "no call gives this number";
    }
}

/* One polynomial and one right side: where their 16 coefficients begin in the row store of a system with highest block l. Rows and
 * columns count from 1, the block is one of t to l (SCOPE 3.2). In the relation store, relation r begins at
 * WURGALM_RELATION_AT(r) with its n0, and its row one place later. */
#define WURGALM_COEFFICIENTS 16
#define WURGALM_POLYNOMIAL_AT(l, row, block, column) \
    ((size_t)((row) - 1) * WURGALM_ROW + ((size_t)((l) - (block)) * 4 + (size_t)((column) - 1)) * WURGALM_COEFFICIENTS)
#define WURGALM_RIGHT_SIDE_AT(row) ((size_t)((row) - 1) * WURGALM_ROW + WURGALM_RIGHT_SIDE)
#define WURGALM_RELATION_AT(relation) ((size_t)((relation) - 1) * WURGALM_RELATION)

/* The elimination on the leading side.
 * In: `rows` and `relations` hold a system of m unknowns (1 to 4) and `equations` equations (0 to 6, however many unknowns
 * there are) with blocks t to l (-64 <= t <= l <= 64, l - t <= 4) and `count` relations (0 to 16) (SCOPE 1.1, 1.2, 1.23).
 * Out: `rows` and `relations` hold the output. A row that became zero on both sides is dropped: the later rows have moved up,
 * and the places past the rows that are left are zero (SCOPE 2.11, 3.14). `result` (10 numbers, SCOPE 3.52): the relation
 * count, the shifts, the columns c(1) to c(4) counted from 1 with zeros past those of the rows that are left, 1 or 0 for whether
 * a diagonal polynomial has an integer root, the largest such root (0 for none), the rank, which is the number of rows that are
 * left: the output is a system of so many equations; and how often that root occurs in the product of the diagonal polynomials
 * (0 for none, SCOPE 2.83).
 * Returns 0, 1, 2, 5, or 7 to 10. */
uint8_t wurgalm_run_leading(int64_t *rows, size_t rows_length, int64_t *relations, size_t relations_length, size_t m,
                            size_t equations, int64_t l, int64_t t, size_t count, int64_t *result, size_t result_length);

/* The elimination on the trailing side: the same, with the smallest root in place of the largest (SCOPE 2.91, 2.93). */
uint8_t wurgalm_run_trailing(int64_t *rows, size_t rows_length, int64_t *relations, size_t relations_length, size_t m,
                             size_t equations, int64_t l, int64_t t, size_t count, int64_t *result, size_t result_length);

/* A sheet read into stores.
 * In: the bytes of the sheet. A fifth section has the right sides of the equations and relations; without it all are 0.
 * Out: `rows` and `relations` hold the system; `result` (9 numbers, SCOPE 3.52): m, l, t, the relation count, the four
 * columns of the order line, zeros past its end, and the equation count.
 * Returns 0, or the number of the sheet's first fault, 2 to 5 (SCOPE 4.37). Only a sheet without a fault gets 1, if a
 * store is too short for it, the result store too (SCOPE 3.53, 4.42). */
uint8_t wurgalm_read_sheet(const uint8_t *bytes, size_t bytes_length, int64_t *rows, size_t rows_length, int64_t *relations,
                           size_t relations_length, int64_t *result, size_t result_length);

/* A system written as a sheet.
 * In: `rows`, `relations`, m, `equations`, l, t and `count` as for a run; `order` (4 numbers): different columns of 1 to m,
 * as many as there are to be written, and zeros past them (SCOPE 3.55, 4.53).
 * Out: `bytes` begins with the sheet, which has a fifth section if a right side is not 0; `result` (1 number,
 * SCOPE 3.52): the length of the sheet in bytes.
 * Returns 0, 1, 2 or 5; 1 for a byte store that is too short comes after all else (SCOPE 4.54). */
uint8_t wurgalm_write_sheet(const int64_t *rows, size_t rows_length, const int64_t *relations, size_t relations_length, size_t m,
                            size_t equations, int64_t l, int64_t t, size_t count, const int64_t *order, size_t order_length,
                            uint8_t *bytes, size_t bytes_length, int64_t *result, size_t result_length);

/* The recurrence of a differential sheet read into stores: the coefficients of a series satisfy it exactly if the series
 * satisfies the sheet (SCOPE 10.33).
 * In: the bytes of the differential sheet (SCOPE 10.1 to 10.7).
 * Out: as for `wurgalm_read_sheet`: `rows` hold the recurrence with l = K and t = -J, `relations` are zero, and `result` has no
 * relation and no column (SCOPE 10.41, 10.43).
 * Returns 0, or the number of the sheet's first fault, 2 to 5, where 5 is a factor past +-1,048,576 (SCOPE 10.12, 10.14);
 * 1 as for `wurgalm_read_sheet`. */
uint8_t wurgalm_read_differential(const uint8_t *bytes, size_t bytes_length, int64_t *rows, size_t rows_length, int64_t *relations,
                                  size_t relations_length, int64_t *result, size_t result_length);

/* The recurrence of a differential sheet written as a sheet.
 * In: the bytes of the differential sheet.
 * Out: `bytes` begins with the sheet of the recurrence, which has at most 25,223 bytes; `result` (1 number): its length
 * (SCOPE 10.42, 10.43).
 * Returns 0, or the number of the differential sheet's first fault, 2 to 5; only a sheet without a fault gets 1, if a store is
 * too short. */
uint8_t wurgalm_write_recurrence(const uint8_t *sheet, size_t sheet_length, uint8_t *bytes, size_t bytes_length, int64_t *result,
                                 size_t result_length);

/* Does the system explain recorded vectors? Nothing but `result` is written.
 * In: `rows`, `relations`, m, `equations`, l, t and `count` as for a run; `values` (`vectors` x m numbers): so many vectors of m
 * numbers each, one after another, that of index `first` first. There are 0 to 64 vectors, the first and the last index are
 * within +-1,048,576, each value within +-65,536 (SCOPE 12.11 to 12.13).
 * An equation is tested at each n for which the vectors from n + t to n + l are all in the record, by rising n, then by number;
 * after the equations the relations, in their order, where n0 is such an n (SCOPE 12.22, 12.23). A test forms the sum of the
 * equation there and subtracts its right side.
 * Out: `result` (4 numbers, SCOPE 12.41): 0 for "fits", how many were tested, 0, 0; or of the first sum that is not zero: 1 for
 * an equation, 2 for a relation, its number from 1, its index, the sum.
 * Returns 0, 1, 2 or 5; or 12 where in Horner's rule for an entry or a right side, highest power first, a value passes +-2^40
 * before any sum that is not zero (SCOPE 12.31). */
uint8_t wurgalm_check_record(const int64_t *rows, size_t rows_length, const int64_t *relations, size_t relations_length, size_t m,
                             size_t equations, int64_t l, int64_t t, size_t count, int64_t first, size_t vectors,
                             const int64_t *values, size_t values_length, int64_t *result, size_t result_length);

/* The state before the first step of a run on the leading side. Nothing but `state` is written.
 * In: `rows`, `relations`, m, `equations`, l, t and `count` as for a run; the checks are those of a run.
 * Out: `state` (11 numbers, SCOPE 11.12): m, the equations, l, t, the relation count, the settled rows, their columns c(1) to c(4)
 * counted from 1 with zeros past the last, the shifts. Before the first step no row is settled and no shift made.
 * Returns 0, 1, 2 or 5; a state store that is too short is 1 with the other stores (SCOPE 11.42). */
uint8_t wurgalm_prepare(const int64_t *rows, size_t rows_length, const int64_t *relations, size_t relations_length, size_t m,
                        size_t equations, int64_t l, int64_t t, size_t count, int64_t *state, size_t state_length);

/* At most `budget` steps of a run on the leading side. A step is one combination with the exchange before it, one shift, one
 * settling or one dropped row (SCOPE 11.2). From a prepared state only the sum of the budgets of successive calls counts, and calls
 * with enough steps leave what `wurgalm_run_leading` leaves (SCOPE 11.5, 11.6). No run takes more than 252 steps (SCOPE 11.26).
 * In: `state` (11 numbers) as `wurgalm_prepare` or the last call left it, with both stores as they were left. A state made by hand is
 * taken as well where it passes the checks (SCOPE 11.21 to 11.24).
 * Out: `rows`, `relations` and `state` hold the state that the steps lead to; after a drop there is one equation fewer, and the
 * place of its row is zero. `result` (12 numbers, SCOPE 11.44): the steps that were taken; 1 if no row is left to settle, else 0;
 * behind them the ten numbers of a run if so, else zeros. With budget 0 the state is checked and nothing moves.
 * Returns 0; 1, first of all for a state store that is too short, and after the sizes for the others (SCOPE 11.43); 11; or 7 to 10 by
 * a step: then the needed parts of `rows`, `relations` and `state` are zero, and `result` is the steps before it and zeros. */
uint8_t wurgalm_run_steps(int64_t *rows, size_t rows_length, int64_t *relations, size_t relations_length, int64_t *state,
                          size_t state_length, size_t budget, int64_t *result, size_t result_length);

/* The elimination on the leading side, with a log of its steps.
 * In: as for `wurgalm_run_leading`; `log` (36,004 numbers, whatever they are).
 * Out: `rows` and `relations` as from `wurgalm_run_leading`. `log`: 36 numbers for each step (SCOPE 13.11): the kind (1 exchange,
 * 2 combination, 3 up, 4 down, 5 drop), i, j, the integer, 16 coefficients of g and 16 of h, zeros for what a kind does not use; behind
 * the steps the columns c(1) to c(4); zeros past them (SCOPE 13.52). `result` (11 numbers, SCOPE 13.55): the ten of a run, and the
 * number of steps. `wurgalm_replay` accepts that log on the same input and leaves the same (SCOPE 13.53).
 * Returns 0, 1, 2, 5, or 7 to 10; on these four the needed part of `log` is zero too. */
uint8_t wurgalm_run_logged(int64_t *rows, size_t rows_length, int64_t *relations, size_t relations_length, size_t m,
                           size_t equations, int64_t l, int64_t t, size_t count, int64_t *log, size_t log_length,
                           int64_t *result, size_t result_length);

/* The replay of a log, from wherever it comes. `log` is only read.
 * In: as for `wurgalm_run_leading`; `steps` (0 to 1,000) and `log` (36 x `steps` + 4 numbers), as above; rows are counted from 1 among
 * those that are present when a step's turn comes (SCOPE 13.2).
 * Each step is tested and made: rows i and j change places; g x row i + h x row j, divided by the integer, takes the place of row i,
 * after row i was listed at each integer root of g; row i is shifted up or down; row i, which is zero, is dropped (SCOPE 13.21 to 13.27).
 * At the end the rows are triangular in the order of the log (SCOPE 13.31, 13.32).
 * Out: as from `wurgalm_run_leading`: the same sequences satisfy what is left (SCOPE 13.61). `result` (10 numbers): those of a run; the
 * shifts are the steps up (SCOPE 13.43).
 * Returns 0, 1, 2, 5 (the log is not judged before its turn); or in the course of the replay 13, 7, 8 or 9. */
uint8_t wurgalm_replay(int64_t *rows, size_t rows_length, int64_t *relations, size_t relations_length, size_t m,
                       size_t equations, int64_t l, int64_t t, size_t count, size_t steps, const int64_t *log,
                       size_t log_length, int64_t *result, size_t result_length);

/* Which sequences satisfy the system and are zero outside the indices 0 to N?
 * In: `rows`, `relations`, m, `equations`, l, t and `count` as for a run, whose right sides are all zero; they are only read.
 * `work_rows` and `work_relations` are as long as those of a run, `work_matrix` has 8,704 numbers, `list` has 4,096
 * (SCOPE 14.61); what they hold before makes no difference.
 * N is t plus the largest integer at which a diagonal polynomial of the system's trailing run vanishes (SCOPE 14.21).
 * Out: `list` holds the sequences, one in each 64 numbers, in which the value of unknown c (1 to m) at index i stands at place
 * i x m + c - 1, counted from 0, and zeros elsewhere; the needed parts of the three work stores are zero (SCOPE 14.63). `result`
 * (3 numbers, SCOPE 14.65): 1, N and the number of sequences; 0, 0, 0 where there is no such integer or N is negative.
 * Each listed sequence satisfies the system, and its values have no common divisor above 1. What satisfies it and has finitely
 * many values that are not zero, none below index 0, is a sum of multiples of the listed ones once it is multiplied by an integer
 * that is not 0; with 0, 0, 0 it is zero everywhere (SCOPE 14.71, 14.72).
 * Returns 0, 1, 2 or 5, or 14 for a right side that is not zero: then no store is changed. Found during the work: 7, 8 or 9 of
 * the trailing run; 14 for a rank below m, or an N above 15; 12 or 8 for a value or a number that has become too large. Then the
 * needed parts of the three work stores, of `list` and of `result` are zero (SCOPE 14.62, 14.63, 14.65). */
uint8_t wurgalm_solutions(const int64_t *rows, size_t rows_length, const int64_t *relations, size_t relations_length, size_t m,
                          size_t equations, int64_t l, int64_t t, size_t count, int64_t *work_rows, size_t work_rows_length,
                          int64_t *work_relations, size_t work_relations_length, int64_t *work_matrix, size_t work_matrix_length,
                          int64_t *list, size_t list_length, int64_t *result, size_t result_length);

/* A whole batch worked.
 * In: the bytes of the batch: a line with the number of sheets, 0 to 1,000, and for each sheet a line with its client,
 * 1 to 8, and its length, 0 to 32,768, and then its bytes (SCOPE 5.1, 5.2).
 * Out: `output` begins with what the batch program writes for it: for each sheet a line `0` and the sheet that the
 * leading side gives, or a line with the refusal; at the end eight lines, clients 1 to 8, each with the numbers of the
 * client's accepted and refused sheets (SCOPE 5.11, 5.12). A broken batch is worked too: its output ends in the line `3`,
 * without those lines (SCOPE 5.21, 5.32). Bytes past the output stay. `result` (1 number): the length of the output in bytes.
 * Returns 0 or 1. A result store of no number is 1 before everything, and no store is changed. An output store that is
 * too short is 1 in the course of the work: then all of `output` and the number of `result` are zero. 65,538 bytes a
 * sheet and 192 more are enough. */
uint8_t wurgalm_batch(const uint8_t *input, size_t input_length, uint8_t *output, size_t output_length, int64_t *result,
                      size_t result_length);

#ifdef __cplusplus
}
#endif

#endif
