/* The library from C, and the same file from C++: systems of known result, a sheet read and written, every refusal, and what each
 * call leaves in its stores. Prints a line for each check; the first difference ends the program with 1.
 *
 *     gcc -std=c99 -Iinclude tests/c/library.c -Ltarget/staticlib -lwurgalm -o target/library && target/library
 */
#include "wurgalm.h"

#include <stdio.h>
#include <stdlib.h>
#include <string.h>

/* ---- stores ---- */

/* The stores of a call for at most three equations, each with some numbers past the needed part, which no call may touch. */
#define MORE 3
#define ROWS (3 * WURGALM_ROW)
/* The needed part of the row store for two equations, as most systems here have. */
#define TWO_ROWS (2 * WURGALM_ROW)

typedef struct {
    int64_t rows[ROWS + MORE];
    int64_t relations[WURGALM_RELATIONS + MORE];
    int64_t result[WURGALM_RESULT + MORE];
} Stores;

static void fill(int64_t *store, size_t length, int64_t number) {
    size_t i;
    for (i = 0; i < length; i++) {
        store[i] = number;
    }
}

/* A number in the needed parts of the row and relation stores, 7 everywhere else. */
static void prepare(Stores *stores, int64_t number) {
    fill(stores->rows, ROWS + MORE, 7);
    fill(stores->relations, WURGALM_RELATIONS + MORE, 7);
    fill(stores->result, WURGALM_RESULT + MORE, 7);
    fill(stores->rows, ROWS, number);
    fill(stores->relations, WURGALM_RELATIONS, number);
}

/* Where the polynomial of a row, of the block `down` places below block l, and of a column begins. All count from 0. */
static int64_t *polynomial(int64_t *rows, size_t row, size_t down, size_t column) {
    return rows + row * WURGALM_ROW + (down * 4 + column) * 16;
}

static int same(const Stores *a, const Stores *b) {
    return memcmp(a, b, sizeof *a) == 0;
}

/* ---- checks ---- */

static void check(int holds, const char *what) {
    printf("%s: %s\n", holds ? "ok" : "DIFFERENCE", what);
    if (!holds) {
        exit(1);
    }
}

static void check_numbers(const int64_t *result, const int64_t *expected, size_t count, const char *what) {
    check(memcmp(result, expected, count * sizeof *result) == 0, what);
}

/* ---- calls ---- */

typedef uint8_t Run(int64_t *, size_t, int64_t *, size_t, size_t, size_t, int64_t, int64_t, size_t, int64_t *, size_t);

/* The sizes and the relation count of a call, and the lengths of its stores. */
typedef struct {
    size_t m, equations;
    int64_t l, t;
    size_t count, rows, relations, result;
} Asked;

/* Whole stores for a system of two unknowns, two equations and two blocks without relations. */
static Asked asked(void) {
    Asked call = {2, 2, 1, 0, 0, ROWS + MORE, WURGALM_RELATIONS + MORE, WURGALM_RESULT + MORE};
    return call;
}

static uint8_t run(Run *side, Stores *stores, Asked call) {
    return side(stores->rows, call.rows, stores->relations, call.relations, call.m, call.equations, call.l, call.t, call.count,
                stores->result, call.result);
}

static uint8_t read_sheet(const char *sheet, Stores *stores, Asked call) {
    return wurgalm_read_sheet((const uint8_t *)sheet, strlen(sheet), stores->rows, call.rows, stores->relations, call.relations,
                              stores->result, call.result);
}

static uint8_t write_sheet(Stores *stores, Asked call, const int64_t *order, uint8_t *bytes, size_t length) {
    return wurgalm_write_sheet(stores->rows, call.rows, stores->relations, call.relations, call.m, call.equations, call.l, call.t,
                               call.count, order, 4, bytes, length, stores->result, call.result);
}

/* ---- known answers ---- */

/* n x(n+1) - y(n) = 0, x(n+1) - x(n) = 0, and its answer on the leading side. */
static const char *const k2 = "3 2 1 0\n2\n2 1 1 2 0 1 0 2 1 -1\n2 1 1 1 1 0 1 1 -1\n0\n0\n";
static const char *const k2_answer = "3 2 1 0\n2\n2 1 1 2 -1 -1 1 2 1 1\n2 1 2 2 0 1 0 2 2 -1 -1\n2\n"
                                     "0 2 1 1 1 1 0 1 1 -1\n-1 2 1 1 2 0 1 0 2 1 -1\n2 1 2\n";

/* Zeros in the needed parts of the stores for two equations, and in the third row's place what the store held before. */
static void prepare_two(Stores *stores) {
    prepare(stores, 9);
    fill(stores->rows, TWO_ROWS, 0);
    fill(stores->relations, WURGALM_RELATIONS, 0);
}

/* The stores that hold k2. */
static void k2_stores(Stores *stores) {
    prepare_two(stores);
    polynomial(stores->rows, 0, 0, 0)[1] = 1;
    polynomial(stores->rows, 0, 1, 1)[0] = -1;
    polynomial(stores->rows, 1, 0, 0)[0] = 1;
    polynomial(stores->rows, 1, 1, 0)[0] = -1;
}

/* The stores after the run on k2, but for the result. */
static void k2_answer_stores(Stores *stores) {
    int64_t *first = stores->relations, *second = stores->relations + WURGALM_RELATION;
    prepare_two(stores);
    polynomial(stores->rows, 0, 0, 0)[0] = -1;
    polynomial(stores->rows, 0, 0, 0)[1] = -1;
    polynomial(stores->rows, 0, 0, 1)[0] = 1;
    polynomial(stores->rows, 1, 0, 1)[1] = 1;
    polynomial(stores->rows, 1, 1, 1)[0] = -1;
    polynomial(stores->rows, 1, 1, 1)[1] = -1;
    first[0] = 0;
    polynomial(first + 1, 0, 0, 0)[0] = 1;
    polynomial(first + 1, 0, 1, 0)[0] = -1;
    second[0] = -1;
    polynomial(second + 1, 0, 0, 0)[1] = 1;
    polynomial(second + 1, 0, 1, 1)[0] = -1;
}

static void k2_read_run_written(void) {
    static const int64_t heading[WURGALM_HEADING] = {2, 1, 0, 0, 0, 0, 0, 0, 2};
    static const int64_t report[WURGALM_RESULT] = {2, 1, 1, 2, 0, 0, 1, 0, 2, 1};
    static Stores stores, expected;
    size_t length = strlen(k2_answer);
    uint8_t bytes[200];
    Asked call = asked();

    prepare(&stores, 9);
    check(read_sheet(k2, &stores, call) == 0, "K2 is read");
    check_numbers(stores.result, heading, WURGALM_HEADING, "its sizes, no relation, no order, two equations");
    k2_stores(&expected);
    memcpy(expected.result, heading, sizeof heading);
    check(same(&stores, &expected), "its rows, and nothing past the needed parts");

    check(run(wurgalm_run_leading, &stores, call) == 0, "K2, leading side, is accepted");
    check_numbers(stores.result, report, WURGALM_RESULT, "two relations, one shift, order 1 2, last root 0, rank 2, once");
    k2_answer_stores(&expected);
    memcpy(expected.result, report, sizeof report);
    check(same(&stores, &expected), "its rows and relations, and nothing past the needed parts");

    call.count = 2;
    call.result = 1;
    memset(bytes, '#', sizeof bytes);
    check(write_sheet(&stores, call, report + 2, bytes, length - 1) == 1, "a byte store one byte too short: 1");
    check(bytes[0] == '#' && same(&stores, &expected), "and no store is changed");
    check(write_sheet(&stores, call, report + 2, bytes, length) == 0, "a byte store just long enough: written");
    check(memcmp(bytes, k2_answer, length) == 0, "the sheet, byte for byte");
    check(bytes[length] == '#', "and no byte behind it");
    expected.result[0] = (int64_t)length;
    check(same(&stores, &expected), "its length in the result, all else as it was");
}

/* n x(n+1) = 0 with blocks 1 and 0. */
static const char *const k11 = "3 1 1 0\n1\n1 1 1 2 0 1\n0\n0\n";

static void k11_on_both_sides(void) {
    static const int64_t trailing[WURGALM_RESULT] = {0, 1, 1, 0, 0, 0, 1, 1, 1, 1};
    static const int64_t leading[WURGALM_RESULT] = {0, 0, 1, 0, 0, 0, 1, 0, 1, 1};
    static Stores stores, expected;
    Asked call = asked();
    call.m = 1;
    call.equations = 1;

    prepare(&stores, 9);
    check(read_sheet(k11, &stores, call) == 0, "K11 is read");
    expected = stores;
    check(run(wurgalm_run_leading, &stores, call) == 0, "K11, leading side, is accepted");
    memcpy(expected.result, leading, sizeof leading);
    check(same(&stores, &expected), "unchanged, no shift, last root 0");

    check(run(wurgalm_run_trailing, &stores, call) == 0, "K11, trailing side, is accepted");
    memcpy(expected.result, trailing, sizeof trailing);
    fill(expected.rows, WURGALM_ROW, 0);
    polynomial(expected.rows, 0, 1, 0)[0] = -1;
    polynomial(expected.rows, 0, 1, 0)[1] = 1;
    check(same(&stores, &expected), "(n-1) x(n), one shift, first root 1");
}

/* ---- common roots ---- */

/* n^15 x + y = 0 and n x + n y = 0. n leaves both pivots once, so that no degree passes 15; 0 stays a root of the first, and is listed. */
static const char *const k8 = "3 2 0 0\n2\n2 0 1 16 0 0 0 0 0 0 0 0 0 0 0 0 0 0 0 1 0 2 1 1\n"
                              "2 0 1 2 0 1 0 2 2 0 1\n0\n0\n";

static void k8_on_one_side(Run *side, int64_t root, int64_t times) {
    int64_t report[WURGALM_RESULT] = {1, 0, 1, 2, 0, 0, 1, 0, 2, 0};
    static Stores stores, expected;
    Asked call = asked();
    call.l = 0;
    report[7] = root;
    report[9] = times;

    prepare(&stores, 9);
    check(read_sheet(k8, &stores, call) == 0, "K8 is read");
    expected = stores;
    memcpy(expected.relations + 1, expected.rows + WURGALM_ROW, WURGALM_ROW * sizeof(int64_t));
    fill(expected.rows + WURGALM_ROW, WURGALM_ROW, 0);
    polynomial(expected.rows, 1, 0, 1)[0] = -1;
    polynomial(expected.rows, 1, 0, 1)[15] = 1;
    memcpy(expected.result, report, sizeof report);
    check(run(side, &stores, call) == 0, "K8 is accepted");
    check(same(&stores, &expected), "n^15 y - y, and the relation n x + n y at 0");
}

/* ---- multiplicities ---- */

/* C (n - 1) (n + 1)^2 x = 0 and (n - 1)^2 (n + 1) y = 0: the largest root, 1, and the smallest, -1, occur three times each. */
static const char *const multiple = "3 2 0 0\n2\n1 0 1 4 -268435455 -268435455 268435455 268435455\n1 0 2 4 1 -1 -1 1\n0\n0\n";

static void multiple_roots(Run *side, int64_t root) {
    int64_t report[WURGALM_RESULT] = {0, 0, 1, 2, 0, 0, 1, 0, 2, 3};
    static Stores stores, expected;
    Asked call = asked();
    call.l = 0;
    report[7] = root;

    prepare(&stores, 9);
    check(read_sheet(multiple, &stores, call) == 0, "multiple roots are read");
    expected = stores;
    memcpy(expected.result, report, sizeof report);
    call.result = WURGALM_RESULT;
    check(run(side, &stores, call) == 0 && same(&stores, &expected), "the root three times, all else as it was");
    call.result = WURGALM_RESULT - 1;
    check(run(side, &stores, call) == 1 && same(&stores, &expected), "a result store of nine numbers: 1");
    call.result = WURGALM_HEADING;
    check(read_sheet(multiple, &stores, call) == 0, "nine numbers are enough for a reader");
}

/* ---- any number of equations ---- */

/* x(n+1) + y(n) = 0, a zero equation, and the first once more. */
static const char *const repeated = "3 2 1 0\n3\n2 1 1 1 1 0 2 1 1\n0\n2 1 1 1 1 0 2 1 1\n0\n1 2\n";
static const char *const repeated_answer = "3 2 1 0\n1\n2 1 1 1 1 0 2 1 1\n0\n";

/* The trailing side settles the other column. */
static void repeated_on_one_side(Run *side, int64_t column) {
    int64_t heading[WURGALM_HEADING] = {2, 1, 0, 0, 2, 0, 0, 0, 3}, report[WURGALM_RESULT] = {0, 0, 0, 0, 0, 0, 0, 0, 1, 0};
    static Stores stores, expected;
    uint8_t bytes[200];
    char answer[200];
    Asked call = asked();
    report[2] = column;

    prepare(&stores, 9);
    check(read_sheet(repeated, &stores, call) == 0, "three equations for two unknowns are read");
    check_numbers(stores.result, heading, WURGALM_HEADING, "their sizes, the order 2, three equations");
    call.equations = 3;
    prepare(&expected, 0);
    polynomial(expected.rows, 0, 0, 0)[0] = 1;
    polynomial(expected.rows, 0, 1, 1)[0] = 1;
    memcpy(expected.result, report, sizeof report);
    check(run(side, &stores, call) == 0, "two of them are dropped");
    check(same(&stores, &expected), "one row is left, zeros in the freed places, rank 1");

    call.equations = 1;
    snprintf(answer, sizeof answer, "%s1 %d\n", repeated_answer, (int)column);
    memset(bytes, '#', sizeof bytes);
    check(write_sheet(&stores, call, report + 2, bytes, sizeof bytes) == 0, "the equation that is left is written");
    check(stores.result[0] == (int64_t)strlen(answer) && memcmp(bytes, answer, strlen(answer)) == 0, "byte for byte");
}

/* One zero row, and no row at all: nothing is left. */
static void nothing_left(Run *side) {
    static const int64_t none[WURGALM_RESULT] = {0};
    static Stores stores, expected;
    Asked call = asked();
    prepare(&stores, 9);
    check(read_sheet("3 1 0 0\n1\n0\n0\n0\n", &stores, call) == 0, "one zero row is read");
    call.m = 1;
    call.equations = 1;
    call.l = 0;
    expected = stores;
    memcpy(expected.result, none, sizeof none);
    check(run(side, &stores, call) == 0 && same(&stores, &expected), "one zero row: rank 0");

    prepare(&stores, 9);
    call.rows = 0;
    check(read_sheet("3 4 0 0\n0\n0\n0\n", &stores, call) == 0, "no equation is read, without a row store");
    check(stores.result[0] == 4 && stores.result[8] == 0, "four unknowns, no equation");
    call.equations = 0;
    expected = stores;
    memcpy(expected.result, none, sizeof none);
    check(run(side, &stores, call) == 0 && same(&stores, &expected), "no equation: rank 0");
}

/* ---- differential sheets ---- */

/* x^2 y'' + x y' + (x^2 - 4) y = 0, and its recurrence (n^2 - 4) y(n) + y(n-2) = 0. */
static const char *const bessel = "3 1 2 2\n1\n4 2 2 1 1 1 1 1 1 0 0 1 -4 0 2 1 1\n";
static const char *const bessel_answer = "3 1 2 -2\n1\n2 0 1 3 -4 0 1 -2 1 1 1\n0\n0\n";

static uint8_t read_differential(const char *sheet, Stores *stores, Asked call) {
    return wurgalm_read_differential((const uint8_t *)sheet, strlen(sheet), stores->rows, call.rows, stores->relations,
                                     call.relations, stores->result, call.result);
}

/* Sheets that are not read leave the stores as they were. */
static void not_induced(const char *sheet, Asked call, uint8_t refusal, const char *what) {
    static Stores stores, before;
    char line[120];
    prepare(&stores, 9);
    before = stores;
    snprintf(line, sizeof line, "differential, %s: %d", what, refusal);
    check(read_differential(sheet, &stores, call) == refusal && same(&stores, &before), line);
}

static void bessel_read(void) {
    static const int64_t heading[WURGALM_HEADING] = {1, 2, -2, 0, 0, 0, 0, 0, 1};
    static Stores stores, expected;
    Asked call = asked();
    prepare(&stores, 9);
    expected = stores;
    check(read_differential(bessel, &stores, call) == 0, "Bessel's equation is read");
    check_numbers(stores.result, heading, WURGALM_HEADING, "its sizes, no relation, no order, one equation");
    fill(expected.rows, WURGALM_ROW, 0);
    fill(expected.relations, WURGALM_RELATIONS, 0);
    memcpy(expected.result, heading, sizeof heading);
    polynomial(expected.rows, 0, 2, 0)[0] = -4;
    polynomial(expected.rows, 0, 2, 0)[2] = 1;
    polynomial(expected.rows, 0, 4, 0)[0] = 1;
    check(same(&stores, &expected), "its recurrence, and nothing past the needed parts");

    not_induced("3 1 2 3\n", call, 2, "power 3");
    not_induced("3 1 0 0\n7\n", call, 2, "seven equations");
    not_induced("3 1 1 0\n1\n2 0 0 1 1 1 0 1 1\n", call, 3, "a derivative that rises");
    not_induced("3 1 0 0\n1\n1 0 0 1 0\n", call, 3, "a zero factor");
    not_induced("3 1 0 0\n1\n0\n0\n", call, 4, "the bytes go on");
    not_induced("3 1 0 0\n1\n1 0 0 1 1048577\n", call, 5, "a factor past the limit");
    call.relations = WURGALM_RELATIONS - 1;
    not_induced(bessel, call, 1, "relation store too short");
    call = asked();
    call.result = WURGALM_HEADING - 1;
    not_induced(bessel, call, 1, "result store too short");
    not_induced("3 1 2", call, 4, "an early end, before a result store too short");
}

/* What a call that writes a recurrence answers and leaves: the number, and a result and bytes that begin so, with everything past them as
 * before. */
static void check_recurrence(const char *sheet, size_t length, size_t results, uint8_t number, int64_t result, const char *written,
                             const char *what) {
    uint8_t bytes[100], expected[100];
    int64_t numbers[2] = {7, 7}, left[2] = {7, 7};
    uint8_t answer;
    memset(bytes, '#', sizeof bytes);
    memset(expected, '#', sizeof expected);
    memcpy(expected, written, strlen(written));
    left[0] = result;
    answer = wurgalm_write_recurrence((const uint8_t *)sheet, strlen(sheet), bytes, length, numbers, results);
    check(answer == number && memcmp(bytes, expected, sizeof bytes) == 0 && memcmp(numbers, left, sizeof left) == 0, what);
}

static void bessel_written(void) {
    size_t length = strlen(bessel_answer);
    check_recurrence(bessel, 100, 2, 0, (int64_t)length, bessel_answer, "recurrence, Bessel's equation, byte for byte");
    check_recurrence(bessel, length, 1, 0, (int64_t)length, bessel_answer, "recurrence, a byte store just long enough");
    check_recurrence(bessel, length - 1, 1, 1, 7, "", "recurrence, a byte store one byte too short: 1");
    check_recurrence(bessel, 100, 0, 1, 7, "", "recurrence, result store too short: 1");
    check_recurrence("3 5", 0, 0, 4, 7, "", "recurrence, an early end, before stores too short");
}

/* ---- records ---- */

/* (n + 1) x(n+1) - 2 x(n) = 0 with x(0) = 45 as a relation: 45, 90, 90, 60, 30, 12, 4 begins at 0. */
static const char *const measured = "3 1 1 0\n1\n2 1 1 2 1 1 0 1 1 -2\n1\n0 1 0 1 1 1\n0\n2\n0\n1 45\n";

/* A record of one unknown and what is answered: the number and the result; no other store changes, and nothing past four numbers. */
static void check_measured(const char *sheet, Asked call, int64_t first, const int64_t *values, size_t vectors, size_t length,
                           uint8_t number, const int64_t *result, const char *what) {
    static Stores stores, expected;
    int64_t kept[64];
    uint8_t answer;
    prepare(&stores, 9);
    check(read_sheet(sheet, &stores, asked()) == 0, "a model is read");
    fill(stores.result, WURGALM_RESULT + MORE, 7);
    expected = stores;
    memcpy(expected.result, result, WURGALM_RECORD * sizeof *result);
    memcpy(kept, values, length * sizeof *values);
    answer = wurgalm_check_record(stores.rows, call.rows, stores.relations, call.relations, call.m, call.equations, call.l, call.t,
                                  call.count, first, vectors, values, length, stores.result, call.result);
    check(answer == number && same(&stores, &expected) && memcmp(kept, values, length * sizeof *values) == 0, what);
}

static void records(void) {
    static const int64_t good[7] = {45, 90, 90, 60, 30, 12, 4}, wrong[7] = {45, 90, 90, 60, 30, 13, 4}, large[1] = {65537};
    static const int64_t double_good[3] = {90, 180, 180}, most[1] = {-65536}, nothing[1] = {0};
    static const int64_t fits[4] = {0, 7, 0, 0}, one[4] = {0, 1, 0, 0}, none[4] = {0, 0, 0, 0}, kept[4] = {7, 7, 7, 7};
    static const int64_t equation[4] = {1, 1, 4, 5}, relation[4] = {2, 1, 0, 45};
    static const int64_t at_limit[4] = {1, 1, 1048576, -72057594037927936};
    static const char *const square = "3 1 0 0\n1\n1 0 1 3 0 0 1\n0\n0\n", *const past = "3 1 0 0\n1\n1 0 1 3 1 0 1\n0\n0\n";
    Asked call = asked(), constant;
    call.m = call.equations = call.count = 1;
    constant = call;
    constant.l = 0;
    constant.count = 0;
    check_measured(measured, call, 0, good, 7, 7, 0, fits, "record, six tests of the equation and one of the relation: fits");
    check_measured(measured, call, 0, wrong, 7, 7, 0, equation, "record, the equation fails at n = 4");
    check_measured(measured, call, 0, double_good, 3, 3, 0, relation, "record, the relation fails after the equation fits");
    check_measured(measured, call, 1, good + 1, 2, 2, 0, one, "record, without the relation's index");
    check_measured(measured, call, 9, good, 1, 1, 0, none, "record, one vector and two blocks: nothing is tested");
    check_measured(measured, call, -1048576, good, 0, 0, 0, none, "record, no vectors");
    check_measured(square, constant, 1048576, most, 1, 1, 0, at_limit, "record, n^2 is 2^40");
    check_measured(past, constant, 1048576, nothing, 1, 1, 12, none, "record, n^2 + 1 passes 2^40, and x is 0: 12, and zeros");
    check_measured(measured, call, 1048577, good, 0, 0, 2, kept, "record, first index past its limit: 2");
    check_measured(measured, call, 1048571, good, 7, 7, 2, kept, "record, last index past its limit: 2");
    check_measured(measured, call, 0, good, 65, 7, 2, kept, "record, 65 vectors, before a store too short: 2");
    check_measured(measured, call, 0, good, 7, 6, 1, kept, "record, a value too few: 1");
    check_measured(measured, call, 0, large, 1, 1, 5, kept, "record, a value past its limit: 5");
    call.result = WURGALM_RECORD - 1;
    check_measured(measured, call, 0, large, 1, 1, 1, kept, "record, result store too short, before a value past its limit: 1");
}

/* ---- work by steps ---- */

/* The state and the result of a run by steps, each with some numbers past the needed part. */
typedef struct {
    int64_t state[WURGALM_STATE + MORE];
    int64_t result[WURGALM_STEPS + MORE];
} Stepped;

static uint8_t prepare_run(Stores *stores, Asked call, Stepped *stepped, size_t state) {
    return wurgalm_prepare(stores->rows, call.rows, stores->relations, call.relations, call.m, call.equations, call.l, call.t,
                           call.count, stepped->state, state);
}

static uint8_t run_steps(Stores *stores, Asked call, Stepped *stepped, size_t budget) {
    return wurgalm_run_steps(stores->rows, call.rows, stores->relations, call.relations, stepped->state, WURGALM_STATE, budget,
                             stepped->result, WURGALM_STEPS);
}

static void untouched(Stepped *stepped) {
    fill(stepped->state, WURGALM_STATE + MORE, 7);
    fill(stepped->result, WURGALM_STEPS + MORE, 7);
}

/* K2 prepared, 7 past the state. */
static void k2_prepared(Stores *stores, Stepped *stepped) {
    k2_stores(stores);
    untouched(stepped);
    check(prepare_run(stores, asked(), stepped, WURGALM_STATE) == 0, "K2 is prepared");
}

static void k2_by_steps(void) {
    static const int64_t first[WURGALM_STATE] = {2, 2, 1, 0, 0, 0, 0, 0, 0, 0, 0};
    static const int64_t second[WURGALM_STATE] = {2, 2, 1, 0, 1, 1, 1, 0, 0, 0, 0};
    static const int64_t last[WURGALM_STATE] = {2, 2, 1, 0, 2, 2, 1, 2, 0, 0, 1};
    static const int64_t looked[WURGALM_STEPS] = {0}, two[WURGALM_STEPS] = {2};
    static const int64_t done[WURGALM_STEPS] = {3, 1, 2, 1, 1, 2, 0, 0, 1, 0, 2, 1};
    static Stores stores, expected;
    static Stepped stepped, left;
    Asked call = asked();

    k2_prepared(&stores, &stepped);
    untouched(&left);
    memcpy(left.state, first, sizeof first);
    k2_stores(&expected);
    check(same(&stores, &expected) && memcmp(&stepped, &left, sizeof left) == 0, "its state, and the stores are only read");
    check(run_steps(&stores, call, &stepped, 0) == 0, "K2, budget 0");
    memcpy(left.result, looked, sizeof looked);
    check(same(&stores, &expected) && memcmp(&stepped, &left, sizeof left) == 0, "nothing moves: no steps, not finished");
    check(run_steps(&stores, call, &stepped, 2) == 0, "K2, two steps");
    memcpy(left.state, second, sizeof second);
    memcpy(left.result, two, sizeof two);
    check(memcmp(&stepped, &left, sizeof left) == 0, "one row settled in column 1, one relation");
    check(run_steps(&stores, call, &stepped, (size_t)-1) == 0, "K2, to the end");
    memcpy(left.state, last, sizeof last);
    memcpy(left.result, done, sizeof done);
    check(memcmp(&stepped, &left, sizeof left) == 0, "three steps more, finished, and the ten numbers of the whole run");
    k2_answer_stores(&expected);
    check(same(&stores, &expected), "the rows and relations of the whole run, and nothing past the needed parts");
    check(run_steps(&stores, call, &stepped, 5) == 0, "K2, at its end");
    left.result[0] = 0;
    check(same(&stores, &expected) && memcmp(&stepped, &left, sizeof left) == 0, "no step is left");
    polynomial(stores.rows, 1, 0, 0)[0] = 1;
    expected = stores;
    check(run_steps(&stores, call, &stepped, 5) == 11, "an entry at an earlier settled column: 11");
    check(same(&stores, &expected) && memcmp(&stepped, &left, sizeof left) == 0, "and no store is changed");
}

/* What is refused before the first step leaves every store as it was: K2 after two steps, with some of its state, a number of the row store
 * or a length changed. */
static void unmoved(size_t place, int64_t number, size_t at, int64_t coefficient, Asked call, size_t state, uint8_t refusal,
                    const char *what) {
    static Stores stores, before;
    static Stepped stepped, kept;
    char line[120];
    size_t budget;
    uint8_t answer;
    k2_prepared(&stores, &stepped);
    check(run_steps(&stores, asked(), &stepped, 2) == 0, "and two steps taken");
    stepped.state[place] = number;
    stores.rows[at] = coefficient;
    before = stores;
    kept = stepped;
    snprintf(line, sizeof line, "steps, %s: %d", what, refusal);
    for (budget = 0; budget < 3; budget++) {
        answer = wurgalm_run_steps(stores.rows, call.rows, stores.relations, call.relations, stepped.state, state, budget,
                                   stepped.result, call.result);
        check(answer == refusal && same(&stores, &before) && memcmp(&stepped, &kept, sizeof kept) == 0, line);
    }
}

static void states_refused(void) {
    const size_t n = 1, behind = WURGALM_STATE, all = WURGALM_STATE;
    Asked call = asked(), none = asked();
    call.result = WURGALM_STEPS;
    none.rows = none.relations = none.result = 0;
    /* Place 1 of the row store holds the coefficient 1 of n. */
    unmoved(0, 5, n, 1, none, all, 11, "five unknowns, before stores too short");
    unmoved(0, -1, n, 1, call, all, 11, "less than no unknowns");
    unmoved(behind, 7, n, 0, call, all, 11, "a settled diagonal that is zero");
    unmoved(2, 65, n, 1, call, all, 11, "block 65");
    unmoved(4, 17, n, 1, call, all, 11, "seventeen relations");
    unmoved(4, 0, n, 1, call, all, 11, "a number past the relations");
    unmoved(5, 3, n, 1, call, all, 11, "three settled rows");
    unmoved(6, 0, n, 1, call, all, 11, "a settled column 0");
    unmoved(6, 2, n, 1, call, all, 11, "a settled column without a diagonal");
    unmoved(7, 1, n, 1, call, all, 11, "a column behind the settled ones");
    unmoved(10, 7, n, 1, call, all, 11, "seven shifts");
    unmoved(10, INT64_MIN, n, 1, call, all, 11, "less than no shifts");
    unmoved(behind, 7, n, 268435456, call, all, 11, "a coefficient past the limit");
    unmoved(behind, 7, 32, 1, call, all, 11, "a number at an unused position");
    unmoved(0, 5, n, 1, none, WURGALM_STATE - 1, 1, "a state store too short, before all else");
    call.result = WURGALM_STEPS - 1;
    unmoved(behind, 7, n, 268435456, call, all, 1, "a result store too short, before a coefficient past the limit");
    call = asked();
    call.result = WURGALM_STEPS;
    call.rows = TWO_ROWS - 1;
    unmoved(behind, 7, n, 1, call, all, 1, "a row store too short");
    call.rows = TWO_ROWS;
    call.relations = WURGALM_RELATIONS - 1;
    unmoved(behind, 7, n, 1, call, all, 1, "a relation store too short");
}

/* A step that is refused leaves zeros, and the steps before it in the result. */
static void steps_refused(void) {
    static const int64_t one[WURGALM_STEPS] = {1};
    static Stores stores, expected;
    static Stepped stepped, left;
    Asked call = asked();
    prepare(&stores, 9);
    check(read_sheet("3 1 0 0\n2\n1 0 1 1 1\n1 0 1 1 1\n0\n0\n2\n1 1\n1 2\n", &stores, call) == 0, "x = 1 and x = 2 are read");
    call.m = 1;
    call.l = 0;
    expected = stores;
    fill(expected.rows, TWO_ROWS, 0);
    fill(expected.relations, WURGALM_RELATIONS, 0);
    untouched(&stepped);
    left = stepped;
    fill(left.state, WURGALM_STATE, 0);
    memcpy(left.result, one, sizeof one);
    check(prepare_run(&stores, call, &stepped, WURGALM_STATE) == 0, "and prepared");
    check(run_steps(&stores, call, &stepped, 9) == 10, "the second step is refused with 10");
    check(same(&stores, &expected) && memcmp(&stepped, &left, sizeof left) == 0, "one step, and zeros in stores and state");
}

/* What is not prepared leaves the state as it was. */
static void unprepared(Asked call, size_t state, int64_t coefficient, uint8_t refusal, const char *what) {
    static Stores stores, before;
    static Stepped stepped, kept;
    char line[100];
    k2_stores(&stores);
    stores.rows[1] = coefficient;
    before = stores;
    untouched(&stepped);
    kept = stepped;
    snprintf(line, sizeof line, "prepare, %s: %d", what, refusal);
    check(prepare_run(&stores, call, &stepped, state) == refusal && same(&stores, &before)
              && memcmp(&stepped, &kept, sizeof kept) == 0,
          line);
}

static void systems_not_prepared(void) {
    Asked call = asked();
    call.equations = 7;
    unprepared(call, 0, 1, 2, "seven equations, before a state store too short");
    call = asked();
    unprepared(call, WURGALM_STATE - 1, 268435456, 1, "a state store too short, before a coefficient past the limit");
    unprepared(call, WURGALM_STATE, 268435456, 5, "a coefficient past the limit");
    call.rows = TWO_ROWS - 1;
    unprepared(call, WURGALM_STATE, 1, 1, "a row store too short");
    call = asked();
    call.relations = WURGALM_RELATIONS - 1;
    unprepared(call, WURGALM_STATE, 1, 1, "a relation store too short");
}

/* ---- logs ---- */

/* The log of a run and its result, each with some numbers past the needed part. */
typedef struct {
    int64_t log[WURGALM_LOG + MORE];
    int64_t result[WURGALM_LOGGED + MORE];
} Logged;

static uint8_t run_logged(Stores *stores, Asked call, Logged *logged, size_t log, size_t result) {
    return wurgalm_run_logged(stores->rows, call.rows, stores->relations, call.relations, call.m, call.equations, call.l, call.t,
                              call.count, logged->log, log, logged->result, result);
}

static uint8_t replay(Stores *stores, Asked call, size_t steps, const int64_t *log, size_t length) {
    return wurgalm_replay(stores->rows, call.rows, stores->relations, call.relations, call.m, call.equations, call.l, call.t,
                          call.count, steps, log, length, stores->result, call.result);
}

static void unlogged(Logged *logged) {
    fill(logged->log, WURGALM_LOG + MORE, 7);
    fill(logged->result, WURGALM_LOGGED + MORE, 7);
}

/* A step of a log: its kind, i, j, the integer, and the first two coefficients of g and of h. */
static void put_step(int64_t *log, size_t step, const int64_t *numbers) {
    int64_t *place = log + step * WURGALM_LOG_STEP;
    fill(place, WURGALM_LOG_STEP, 0);
    memcpy(place, numbers, 4 * sizeof *place);
    memcpy(place + 4, numbers + 4, 2 * sizeof *place);
    memcpy(place + 20, numbers + 6, 2 * sizeof *place);
}

#define FOUR 4
#define FOUR_STEPS (FOUR * WURGALM_LOG_STEP + WURGALM_LOG_ORDER)

/* The log of four steps with the columns 1 2. */
static void put_log(int64_t *log, const int64_t steps[FOUR][8]) {
    size_t step;
    for (step = 0; step < FOUR; step++) {
        put_step(log, step, steps[step]);
    }
    fill(log + FOUR * WURGALM_LOG_STEP, WURGALM_LOG_ORDER, 0);
    log[FOUR * WURGALM_LOG_STEP] = 1;
    log[FOUR * WURGALM_LOG_STEP + 1] = 2;
}

/* The steps of the run on K2: n x row 2 - row 1, row 2 up, the rows exchanged, (n + 1) x row 2 + n x row 1. */
static const int64_t k2_steps[FOUR][8] = {
    {2, 2, 1, 1, 0, 1, -1, 0}, {3, 2, 0, 0, 0, 0, 0, 0}, {1, 2, 1, 0, 0, 0, 0, 0}, {2, 2, 1, 1, 1, 1, 0, 1}};
/* Other ones: the rows exchanged, -row 2 + n x row 1, row 2 up, row 2 + (n + 1) x row 1. */
static const int64_t k2_others[FOUR][8] = {
    {1, 1, 2, 0, 0, 0, 0, 0}, {2, 2, 1, 1, -1, 0, 0, 1}, {3, 2, 0, 0, 0, 0, 0, 0}, {2, 2, 1, 1, 1, 0, 1, 1}};

static void k2_with_its_log(void) {
    static const int64_t report[WURGALM_LOGGED] = {2, 1, 1, 2, 0, 0, 1, 0, 2, 1, FOUR};
    static Stores stores, expected;
    static Logged logged, left;
    Asked call = asked();

    k2_stores(&stores);
    unlogged(&logged);
    unlogged(&left);
    fill(left.log, WURGALM_LOG, 0);
    put_log(left.log, k2_steps);
    memcpy(left.result, report, sizeof report);
    check(run_logged(&stores, call, &logged, WURGALM_LOG, WURGALM_LOGGED) == 0, "K2 with its log is accepted");
    k2_answer_stores(&expected);
    check(same(&stores, &expected), "the rows and relations of the run, and nothing past the needed parts");
    check(memcmp(&logged, &left, sizeof left) == 0, "four steps, their numbers, the order, zeros behind them");

    k2_stores(&stores);
    memcpy(expected.result, report, WURGALM_RESULT * sizeof *report);
    check(replay(&stores, call, FOUR, logged.log, FOUR_STEPS) == 0, "the replay of that log is accepted");
    check(same(&stores, &expected), "the same rows, relations and ten numbers");
    check(memcmp(&logged, &left, sizeof left) == 0, "and the log is only read");
}

static void k2_with_other_pivots(void) {
    static const int64_t report[WURGALM_RESULT] = {0, 1, 1, 2, 0, 0, 0, 0, 2, 0};
    static Stores stores, expected;
    static int64_t log[FOUR_STEPS];
    Asked call = asked();
    k2_stores(&stores);
    put_log(log, k2_others);
    check(replay(&stores, call, FOUR, log, FOUR_STEPS) == 0, "K2 with other pivots is accepted");
    /* x(n+1) - x(n) = 0 and y(n+1) - (n + 1) x(n) = 0 */
    prepare_two(&expected);
    polynomial(expected.rows, 0, 0, 0)[0] = 1;
    polynomial(expected.rows, 0, 1, 0)[0] = -1;
    polynomial(expected.rows, 1, 0, 1)[0] = 1;
    polynomial(expected.rows, 1, 1, 0)[0] = -1;
    polynomial(expected.rows, 1, 1, 0)[1] = -1;
    memcpy(expected.result, report, sizeof report);
    check(same(&stores, &expected), "two rows, no relation, one step up, order 1 2, no root, rank 2");
}

/* A replay of the other log with one number changed, that is refused during the work: zeros, and what is past the needed parts stays. */
static void replay_refused(size_t at, int64_t number, uint8_t refusal, const char *what) {
    static Stores stores, expected;
    static int64_t log[FOUR_STEPS];
    char line[120];
    k2_stores(&stores);
    put_log(log, k2_others);
    log[at] = number;
    expected = stores;
    fill(expected.rows, TWO_ROWS, 0);
    fill(expected.relations, WURGALM_RELATIONS, 0);
    fill(expected.result, WURGALM_RESULT, 0);
    snprintf(line, sizeof line, "replay, %s: %d, and zeros", what, refusal);
    check(replay(&stores, asked(), FOUR, log, FOUR_STEPS) == refusal && same(&stores, &expected), line);
}

static void replays_refused(void) {
    const size_t second = WURGALM_LOG_STEP, third = 2 * WURGALM_LOG_STEP, order = FOUR * WURGALM_LOG_STEP;
    replay_refused(0, 6, 13, "a kind that there is not");
    replay_refused(2, 1, 13, "a row exchanged with itself");
    replay_refused(3, 1, 13, "a field that an exchange does not use");
    replay_refused(second + 1, 3, 13, "a third row");
    replay_refused(second + 3, 2, 13, "an integer that does not divide");
    replay_refused(second + 4, 0, 13, "g zero");
    replay_refused(second + 4, 268435456, 13, "a coefficient of g past the limit");
    replay_refused(third + 1, 1, 13, "a step up that would lose a block");
    replay_refused(third, 4, 13, "a step down that would lose a block");
    replay_refused(third, 5, 13, "a drop of a row that is not zero");
    replay_refused(order, 2, 13, "a column twice in the order");
    replay_refused(order + 2, 1, 13, "a third column");
    replay_refused(second + 20, 268435455, 13, "a combination that leaves an entry to be shifted over");
    replay_refused(3 * WURGALM_LOG_STEP + 4, 268435455, 13, "a leading matrix that is not triangular");
}

/* A combination that meets a limit: (g x row 1) / 1 of K2, with so many relations before it. */
static void replay_limited(size_t power, int64_t number, size_t count, uint8_t refusal, const char *what) {
    static Stores stores, expected;
    static int64_t log[WURGALM_LOG_STEP + WURGALM_LOG_ORDER];
    char line[120];
    Asked call = asked();
    k2_stores(&stores);
    call.count = count;
    polynomial(stores.rows, 0, 1, 1)[1] = 3;
    fill(log, WURGALM_LOG_STEP + WURGALM_LOG_ORDER, 0);
    log[0] = 2;
    log[1] = 1;
    log[2] = 2;
    log[3] = 1;
    log[4 + power] = number;
    expected = stores;
    fill(expected.rows, TWO_ROWS, 0);
    fill(expected.relations, WURGALM_RELATIONS, 0);
    fill(expected.result, WURGALM_RESULT, 0);
    snprintf(line, sizeof line, "replay, %s: %d, and zeros", what, refusal);
    check(replay(&stores, call, 1, log, WURGALM_LOG_STEP + WURGALM_LOG_ORDER) == refusal && same(&stores, &expected), line);
}

static void replays_limited(void) {
    replay_limited(15, 1, 0, 7, "degree 16");
    replay_limited(0, 268435455, 0, 8, "a coefficient past the limit");
    replay_limited(15, 268435455, 16, 9, "a seventeenth relation, before the degree and the coefficient");
}

/* Calls that are refused before the work leave every store as it was. */
static void log_unread(Asked call, size_t steps, size_t length, int64_t number, uint8_t refusal, const char *what) {
    static Stores stores, before;
    static int64_t log[FOUR_STEPS];
    char line[120];
    k2_stores(&stores);
    put_log(log, k2_others);
    stores.rows[0] = number;
    before = stores;
    snprintf(line, sizeof line, "replay, %s: %d", what, refusal);
    check(replay(&stores, call, steps, log, length) == refusal && same(&stores, &before), line);
}

static void logs_unread(void) {
    Asked call = asked();
    log_unread(call, 1001, FOUR_STEPS, 0, 2, "1,001 steps");
    log_unread(call, (size_t)-1, 0, 0, 2, "more steps than a log can have, before a log too short");
    log_unread(call, FOUR, FOUR_STEPS - 1, 268435456, 1, "a log too short, before a coefficient past the limit");
    log_unread(call, FOUR + 1, FOUR_STEPS, 0, 1, "a step more than the log has");
    log_unread(call, FOUR, FOUR_STEPS, 268435456, 5, "a coefficient past the limit");
    call.m = 5;
    log_unread(call, FOUR, FOUR_STEPS - 1, 0, 2, "five unknowns, before a log too short");
    call = asked();
    call.rows = TWO_ROWS - 1;
    log_unread(call, FOUR, FOUR_STEPS, 0, 1, "a row store too short");
    call = asked();
    call.relations = WURGALM_RELATIONS - 1;
    log_unread(call, FOUR, FOUR_STEPS, 0, 1, "a relation store too short");
    call = asked();
    call.result = WURGALM_RESULT - 1;
    log_unread(call, FOUR, FOUR_STEPS, 0, 1, "a result store too short");
}

static void log_unwritten(Asked call, size_t log, size_t result, int64_t number, uint8_t refusal, const char *what) {
    static Stores stores, before;
    static Logged logged, left;
    char line[120];
    k2_stores(&stores);
    unlogged(&logged);
    unlogged(&left);
    stores.rows[0] = number;
    before = stores;
    snprintf(line, sizeof line, "run with its log, %s: %d", what, refusal);
    check(run_logged(&stores, call, &logged, log, result) == refusal && same(&stores, &before), line);
    check(memcmp(&logged, &left, sizeof left) == 0, "and neither log nor result is changed");
}

static void logs_unwritten(void) {
    Asked call = asked();
    log_unwritten(call, WURGALM_LOG - 1, WURGALM_LOGGED, 268435456, 1, "a log store too short, before a coefficient past the limit");
    log_unwritten(call, WURGALM_LOG, WURGALM_LOGGED - 1, 0, 1, "a result store too short");
    log_unwritten(call, WURGALM_LOG, WURGALM_LOGGED, 268435456, 5, "a coefficient past the limit");
    call.rows = TWO_ROWS - 1;
    log_unwritten(call, WURGALM_LOG, WURGALM_LOGGED, 0, 1, "a row store too short");
    call = asked();
    call.equations = 7;
    log_unwritten(call, 0, 0, 0, 2, "seven equations, before stores too short");
}

/* A run that is refused during the work leaves zeros, in the log and the result too. */
static void log_of_a_refused_run(void) {
    static Stores stores, expected;
    static Logged logged, left;
    Asked call = asked();
    k2_stores(&stores);
    unlogged(&logged);
    unlogged(&left);
    fill(left.log, WURGALM_LOG, 0);
    fill(left.result, WURGALM_LOGGED, 0);
    /* n x(n+1) - y(n) = 0 and 0 = 1 */
    fill(stores.rows + WURGALM_ROW, WURGALM_ROW, 0);
    stores.rows[WURGALM_ROW + WURGALM_RIGHT_SIDE] = 1;
    expected = stores;
    fill(expected.rows, TWO_ROWS, 0);
    fill(expected.relations, WURGALM_RELATIONS, 0);
    check(run_logged(&stores, call, &logged, WURGALM_LOG, WURGALM_LOGGED) == 10, "run with its log, 0 = 1: 10");
    check(same(&stores, &expected) && memcmp(&logged, &left, sizeof left) == 0, "and zeros in every needed part");
}

/* ---- polynomial solutions ---- */

/* The stores of the work, the list and the result, each with some numbers past the needed part. */
typedef struct {
    int64_t rows[ROWS + MORE];
    int64_t relations[WURGALM_RELATIONS + MORE];
    int64_t matrix[WURGALM_MATRIX + MORE];
    int64_t list[WURGALM_LIST + MORE];
    int64_t result[WURGALM_SOLUTIONS + MORE];
} Listed;

/* How many numbers of each are lent. */
typedef struct {
    size_t rows, relations, matrix, list, result;
} Lengths;

static Lengths lengths(void) {
    Lengths lent = {WURGALM_ROW, WURGALM_RELATIONS, WURGALM_MATRIX, WURGALM_LIST, WURGALM_SOLUTIONS};
    return lent;
}

static uint8_t solutions(const Stores *stores, Asked call, Listed *listed, Lengths lent) {
    return wurgalm_solutions(stores->rows, call.rows, stores->relations, call.relations, call.m, call.equations, call.l, call.t,
                             call.count, listed->rows, lent.rows, listed->relations, lent.relations, listed->matrix, lent.matrix,
                             listed->list, lent.list, listed->result, lent.result);
}

/* What every store of the work holds before a call. */
static void unlisted(Listed *listed) {
    fill(listed->rows, ROWS + MORE, 9);
    fill(listed->relations, WURGALM_RELATIONS + MORE, 9);
    fill(listed->matrix, WURGALM_MATRIX + MORE, 9);
    fill(listed->list, WURGALM_LIST + MORE, 9);
    fill(listed->result, WURGALM_SOLUTIONS + MORE, 9);
}

/* Zeros in the needed parts, for so many equations. */
static void zeroed(Listed *listed, size_t equations) {
    fill(listed->rows, equations * WURGALM_ROW, 0);
    fill(listed->relations, WURGALM_RELATIONS, 0);
    fill(listed->matrix, WURGALM_MATRIX, 0);
    fill(listed->list, WURGALM_LIST, 0);
    fill(listed->result, WURGALM_SOLUTIONS, 0);
}

/* A system of one unknown is read and asked: the answer, what the stores of the work hold then, and that the system stays as it was. */
static void check_listed(const char *sheet, Asked call, Lengths lent, uint8_t number, const Listed *expected, const char *what) {
    static Stores stores, kept;
    static Listed listed;
    uint8_t answer;
    prepare(&stores, 9);
    check(read_sheet(sheet, &stores, asked()) == 0, "a system to be solved is read");
    kept = stores;
    unlisted(&listed);
    answer = solutions(&stores, call, &listed, lent);
    check(answer == number, what);
    check(same(&stores, &kept), "the system is only read");
    check(memcmp(&listed, expected, sizeof listed) == 0, "every store of the work is left as it should be");
}

/* n (n - 1) (n - 2) x(n) = 0 with 2 x(0) + 3 x(1) - 5 x(2) = 0. */
static const char *const three = "3 1 1 -1\n1\n1 0 1 4 0 2 -3 1\n1\n1 3 1 1 1 -5 0 1 1 3 -1 1 1 2\n0\n";
/* The same with a right side of the relation. */
static const char *const three_sides = "3 1 1 -1\n1\n1 0 1 4 0 2 -3 1\n1\n1 3 1 1 1 -5 0 1 1 3 -1 1 1 2\n0\n2\n0\n1 4\n";

static Asked asked_of_three(void) {
    Asked call = asked();
    call.m = call.equations = call.count = 1;
    call.l = 1;
    call.t = -1;
    return call;
}

static Asked asked_of_one_block(size_t equations) {
    Asked call = asked();
    call.m = 1;
    call.equations = equations;
    call.l = call.t = 0;
    return call;
}

static void lists(void) {
    static Listed expected;
    Asked call = asked_of_three();
    unlisted(&expected);
    zeroed(&expected, 1);
    expected.list[0] = -3;
    expected.list[1] = 2;
    expected.list[WURGALM_SEQUENCE] = 5;
    expected.list[WURGALM_SEQUENCE + 2] = 2;
    expected.result[0] = 1;
    expected.result[1] = expected.result[2] = 2;
    check_listed(three, call, lengths(), 0, &expected, "solutions, two sequences up to N = 2");
    unlisted(&expected);
    zeroed(&expected, 1);
    call = asked_of_one_block(1);
    check_listed("3 1 0 0\n1\n1 0 1 1 7\n0\n0\n", call, lengths(), 0, &expected, "solutions, no root: none");
    check_listed("3 1 0 0\n1\n1 0 1 2 1 1\n0\n0\n", call, lengths(), 0, &expected, "solutions, N = -1: none");
    check_listed("3 1 0 0\n1\n1 0 1 2 -16 1\n0\n0\n", call, lengths(), 14, &expected, "solutions, N = 16: 14 during the work");
    call = asked_of_three();
    call.count = 2;
    check_listed("3 1 1 -1\n1\n1 0 1 4 0 2 -3 1\n2\n1 2 0 1 1 -1 -1 1 1 20000\n2 2 0 1 1 -1 -1 1 1 20000\n0\n", call, lengths(), 8,
                 &expected, "solutions, a listed value past its limit: 8");
    call = asked_of_one_block(1);
    call.count = 1;
    call.l = 64;
    call.t = 63;
    check_listed("3 1 64 63\n1\n1 63 1 2 -62 -1\n1\n-62 1 63 1 7 0 0 0 0 0 0 20\n0\n", call, lengths(), 12, &expected,
                 "solutions, 20 n^6 passes 2^40: 12");
    unlisted(&expected);
    zeroed(&expected, 0);
    check_listed("3 1 0 0\n0\n0\n0\n", asked_of_one_block(0), lengths(), 14, &expected, "solutions, rank below m: 14 during the work");
}

static void not_listed(void) {
    static Listed expected;
    Asked call = asked_of_three();
    Lengths lent = lengths();
    unlisted(&expected);
    check_listed(three_sides, call, lent, 14, &expected, "solutions, a right side: 14 before the work");
    call.m = 5;
    lent.list = 0;
    check_listed(three, call, lent, 2, &expected, "solutions, m = 5, before a store too short: 2");
    call = asked_of_three();
    lent = lengths();
    lent.rows--;
    check_listed(three, call, lent, 1, &expected, "solutions, work rows too short: 1");
    lent = lengths();
    lent.relations--;
    check_listed(three, call, lent, 1, &expected, "solutions, work relations too short: 1");
    lent = lengths();
    lent.matrix--;
    check_listed(three, call, lent, 1, &expected, "solutions, matrix too short: 1");
    lent = lengths();
    lent.list--;
    check_listed(three_sides, call, lent, 1, &expected, "solutions, list too short, before a right side: 1");
    lent = lengths();
    lent.result--;
    check_listed(three, call, lent, 1, &expected, "solutions, result too short: 1");
    lent = lengths();
    call.rows = WURGALM_ROW - 1;
    check_listed(three, call, lent, 1, &expected, "solutions, row store too short: 1");
}

/* A number past its limit is found before a right side. */
static void not_listed_numbers(void) {
    static Stores stores, kept;
    static Listed listed, expected;
    prepare(&stores, 9);
    check(read_sheet(three_sides, &stores, asked()) == 0, "a system with a right side is read");
    stores.rows[WURGALM_ROW - 1] = 268435456;
    kept = stores;
    unlisted(&listed);
    expected = listed;
    check(solutions(&stores, asked_of_three(), &listed, lengths()) == 5, "solutions, a number past its limit, before a right side: 5");
    check(same(&stores, &kept) && memcmp(&listed, &expected, sizeof listed) == 0, "and no store is changed");
}

/* ---- a whole batch ---- */

/* What a call on a batch answers and leaves: the number, and a result and an output that begin so, with everything past them as before. */
static void check_batch(const char *input, size_t length, size_t results, uint8_t number, int64_t result, const char *output,
                        size_t output_length, const char *what) {
    uint8_t bytes[300], expected[300];
    int64_t numbers[2] = {7, 7}, left[2] = {7, 7};
    uint8_t answer;
    memset(bytes, '#', sizeof bytes);
    memset(expected, '#', sizeof expected);
    memcpy(expected, output, output_length);
    left[0] = result;
    answer = wurgalm_batch((const uint8_t *)input, strlen(input), bytes, length, numbers, results);
    check(answer == number && memcmp(bytes, expected, sizeof bytes) == 0 && memcmp(numbers, left, sizeof left) == 0, what);
}

static void k2_in_a_batch(void) {
    static const char zeros[300] = {0}, none[] = "0 0\n0 0\n0 0\n0 0\n0 0\n0 0\n0 0\n0 0\n", *others = none + 4;
    static const char counts[] = "4\n4\n0 0\n0 0\n0 1\n0 0\n0 0\n0 0\n0 0\n0 1\n";
    char input[300], output[300];
    size_t length;
    snprintf(input, sizeof input, "1\n1 %d\n%s", (int)strlen(k2), k2);
    snprintf(output, sizeof output, "0\n%s1 0\n%s", k2_answer, others);
    length = strlen(output);
    check_batch(input, 300, 2, 0, (int64_t)length, output, length, "batch, K2, byte for byte, and nothing past its end");
    check_batch(input, length, 1, 0, (int64_t)length, output, length, "batch, an output store just long enough");
    check_batch(input, length - 1, 2, 1, 0, zeros, length - 1, "batch, an output store one byte too short: 1, and zeros");
    check_batch(input, 300, 0, 1, 7, "", 0, "batch, result store too short: 1, and no store is changed");
    check_batch(input, 0, 0, 1, 7, "", 0, "batch, no stores: 1");
    check_batch("", 300, 1, 0, 2, "3\n", 2, "batch, no bytes: worked, 3 is its only line");
    check_batch("0\n", 300, 1, 0, 32, none, 32, "batch, no sheets: a line for each client");
    check_batch("2\n8 0\n3 0\n", 300, 1, 0, (int64_t)strlen(counts), counts, strlen(counts),
                "batch, a sheet of client 8 and one of client 3, each counted for its client");
    snprintf(input + strlen(input), 10, "1 0\n");
    length -= 4 + strlen(others);
    memcpy(output + length, "3\n", 3);
    check_batch(input, 300, 1, 0, (int64_t)length + 2, output, length + 2, "batch, bytes left over: worked, 3 is its last line");
}

/* ---- refusals ---- */

/* Runs that are refused before the work leave every store as it was: K2 with one number of its row store changed. */
static void refused_before(Run *side, const char *name, Asked call, size_t at, int64_t number, uint8_t refusal,
                           const char *what) {
    static Stores stores, before;
    char line[100];
    k2_stores(&stores);
    stores.rows[at] = number;
    before = stores;
    snprintf(line, sizeof line, "%s, %s: %d", name, what, refusal);
    check(run(side, &stores, call) == refusal && same(&stores, &before), line);
}

static void runs_refused_before_the_work(Run *side, const char *name) {
    Asked call = asked();
    call.rows = TWO_ROWS - 1;
    refused_before(side, name, call, 0, 0, 1, "row store too short");
    call = asked();
    call.relations = WURGALM_RELATIONS - 1;
    refused_before(side, name, call, 0, 0, 1, "relation store too short");
    call = asked();
    call.result = WURGALM_RESULT - 1;
    refused_before(side, name, call, 0, 0, 1, "result store too short");
    call = asked();
    call.m = 5;
    refused_before(side, name, call, 0, 0, 2, "five unknowns");
    call = asked();
    call.equations = 7;
    refused_before(side, name, call, 0, 0, 2, "seven equations");
    call = asked();
    call.l = 65;
    call.t = 64;
    refused_before(side, name, call, 0, 0, 2, "block 65");
    call = asked();
    call.count = 17;
    call.rows = 0;
    refused_before(side, name, call, 0, 0, 2, "seventeen relations, before a row store too short");
    call = asked();
    refused_before(side, name, call, 0, 268435456, 5, "a coefficient past the limit");
    refused_before(side, name, call, 2 * 16, 1, 5, "a number at an unused position");
}

/* Runs that are refused during the work leave zeros in the needed parts, and what is past them as it was. */
static void refused_during(Run *side, const char *sheet, uint8_t refusal, const char *what) {
    static Stores stores, expected;
    char line[100];
    Asked call = asked();
    prepare(&stores, 9);
    snprintf(line, sizeof line, "%s: read", what);
    check(read_sheet(sheet, &stores, call) == 0, line);
    call.m = (size_t)stores.result[0];
    call.l = stores.result[1];
    call.t = stores.result[2];
    call.count = (size_t)stores.result[3];
    call.equations = (size_t)stores.result[8];
    expected = stores;
    fill(expected.rows, call.equations * WURGALM_ROW, 0);
    fill(expected.relations, WURGALM_RELATIONS, 0);
    fill(expected.result, WURGALM_RESULT, 0);
    snprintf(line, sizeof line, "%s: %d, and zeros", what, refusal);
    check(run(side, &stores, call) == refusal && same(&stores, &expected), line);
}

static void runs_refused_during_the_work(Run *side) {
    refused_during(side,
                   "3 2 0 0\n2\n2 0 1 16 0 0 0 0 0 0 0 0 0 0 0 0 0 0 0 1 0 2 1 1\n"
                   "2 0 1 1 1 0 2 2 0 1\n0\n0\n",
                   7, "n^15 x + y and x + n y");
    refused_during(side, "3 2 0 0\n2\n2 0 1 1 20000 0 2 1 1\n2 0 1 1 1 0 2 2 1 20000\n0\n0\n", 8,
                   "20,000 x + y and x + (20,000 n + 1) y");
    refused_during(side,
                   "3 2 0 0\n2\n2 0 1 2 0 1 0 2 1 1\n2 0 1 1 1 0 2 1 1\n16\n"
                   "0 0\n0 0\n0 0\n0 0\n0 0\n0 0\n0 0\n0 0\n0 0\n0 0\n0 0\n0 0\n0 0\n0 0\n0 0\n0 0\n0\n",
                   9, "n x + y and x + y with sixteen relations");
    refused_during(side, "3 1 0 0\n1\n0\n0\n0\n1\n1 7\n", 10, "0 = 7");
    refused_during(side, "3 1 0 0\n3\n0\n0\n1 0 1 1 1\n0\n0\n3\n0\n1 7\n0\n", 10, "0 = 0, 0 = 7 and x = 0");
    refused_during(side, "3 2 1 0\n2\n2 1 1 1 1 0 2 1 1\n2 1 1 1 1 0 2 1 1\n0\n0\n2\n1 1\n1 2\n", 10,
                   "the same left side with two right sides");
}

/* Sheets that are refused leave every store as it was. */
static void unread(const char *sheet, Asked call, uint8_t refusal, const char *what) {
    static Stores stores, before;
    char line[100];
    prepare(&stores, 9);
    before = stores;
    snprintf(line, sizeof line, "read, %s: %d", what, refusal);
    check(read_sheet(sheet, &stores, call) == refusal && same(&stores, &before), line);
}

static void sheets_refused(void) {
    Asked call = asked();
    unread("3 5 1 0\n", call, 2, "five unknowns");
    unread("3 1 1 0\n7\n", call, 2, "seven equations");
    unread("3 2 1 0\n0\n0\n2 1 1\n", call, 2, "a column twice in the order");
    unread("3 1 1 0\n0\n0\n0\n0\n", call, 3, "right sides of nothing");
    unread("3 1 1 0\n1\n1 1 2 1 1\n0\n0\n", call, 2, "column 2 of 1");
    unread("3 1 1 0\n1\n1 1 1 x 1\n0\n0\n", call, 3, "a token that is no number");
    unread("3 1 1 0\n1\n1 1 1 1 0\n0\n0\n", call, 3, "a zero last coefficient");
    unread("3 1 1 0\n1\n1 1 1", call, 4, "the bytes end early");
    unread("3 1 1 0\n1\n1 1 1 2 0 1\n0\n0\n\n", call, 3, "an empty line where the right sides would stand");
    unread("3 1 1 0\n1\n1 1 1 2 0 1\n0\n0\n1\n1 7\n\n", call, 4, "the bytes go on");
    unread("3 1 1 0\n1\n1 1 1 1 -268435456\n0\n0\n", call, 5, "a coefficient past the limit");
    call.rows = TWO_ROWS - 1;
    unread(k2, call, 1, "row store too short");
    call = asked();
    call.relations = WURGALM_RELATIONS - 1;
    unread(k2, call, 1, "relation store too short");
    call = asked();
    call.result = WURGALM_HEADING - 1;
    unread(k2, call, 1, "result store too short");
    unread("3 1 1 0\n1\n1 1 1", call, 4, "an early end, before a result store too short");
}

/* Systems that are not written leave the bytes and the result as they were. */
static void unwritten(Stores *stores, Asked call, const int64_t *order, uint8_t refusal, const char *what) {
    static Stores before;
    char line[100];
    uint8_t bytes[200];
    size_t i, untouched = 0;
    memset(bytes, '#', sizeof bytes);
    before = *stores;
    snprintf(line, sizeof line, "write, %s: %d", what, refusal);
    check(write_sheet(stores, call, order, bytes, sizeof bytes) == refusal && same(stores, &before), line);
    for (i = 0; i < sizeof bytes; i++) {
        untouched += bytes[i] == '#';
    }
    check(untouched == sizeof bytes, "and no byte is written");
}

static void systems_not_written(void) {
    static const int64_t none[4] = {0, 0, 0, 0}, twice[4] = {1, 1, 0, 0}, gap[4] = {0, 1, 0, 0};
    static Stores stores;
    Asked call = asked();
    k2_stores(&stores);
    call.m = 0;
    unwritten(&stores, call, none, 2, "no unknowns");
    call = asked();
    unwritten(&stores, call, twice, 2, "a column twice in the order");
    unwritten(&stores, call, gap, 2, "a column behind a zero in the order");
    call.equations = 7;
    unwritten(&stores, call, none, 2, "seven equations");
    call = asked();
    call.rows = TWO_ROWS - 1;
    unwritten(&stores, call, none, 1, "row store too short");
    call = asked();
    call.result = 0;
    unwritten(&stores, call, none, 1, "result store too short");
    call = asked();
    stores.relations[WURGALM_RELATIONS - 1] = 1;
    unwritten(&stores, call, none, 5, "a number past the relations");
}

/* Each refusal has a sentence of its own, and every other number the same one. python/tests/test_pages.py holds them
 * against those of Rust, Python and docs/REFUSALS.md. */
static void sentences(void) {
    const char *const none = wurgalm_refusal_sentence(6);
    Stores stores;
    int a, b, holds = 1;
    check(strcmp(none, "no call gives this number") == 0, "the sentence of no refusal");
    for (a = 0; a <= 14; a++) {
        for (b = 0; b < a; b++) {
            holds = holds && strcmp(wurgalm_refusal_sentence(a), wurgalm_refusal_sentence(b)) != 0;
        }
    }
    check(holds, "two refusals have two sentences");
    for (a = 15; a <= 300; a++) {
        holds = holds && strcmp(wurgalm_refusal_sentence(a), none) == 0;
        holds = holds && strcmp(wurgalm_refusal_sentence(-a), none) == 0;
    }
    check(holds, "every other number has the sentence of no refusal");
    prepare(&stores, 9);
    check(strcmp(wurgalm_refusal_sentence(read_sheet("3 1 0 0\n", &stores, asked())),
                 "the bytes end early, or go on behind the last section") == 0,
          "the sentence of what a call returns");
}

int main(void) {
    sentences();
    k2_read_run_written();
    k11_on_both_sides();
    k8_on_one_side(wurgalm_run_leading, 1, 1);
    k8_on_one_side(wurgalm_run_trailing, 0, 15);
    multiple_roots(wurgalm_run_leading, 1);
    multiple_roots(wurgalm_run_trailing, -1);
    repeated_on_one_side(wurgalm_run_leading, 1);
    repeated_on_one_side(wurgalm_run_trailing, 2);
    nothing_left(wurgalm_run_leading);
    nothing_left(wurgalm_run_trailing);
    k2_in_a_batch();
    bessel_read();
    bessel_written();
    records();
    k2_by_steps();
    states_refused();
    steps_refused();
    systems_not_prepared();
    k2_with_its_log();
    k2_with_other_pivots();
    replays_refused();
    replays_limited();
    logs_unread();
    logs_unwritten();
    log_of_a_refused_run();
    lists();
    not_listed();
    not_listed_numbers();
    runs_refused_before_the_work(wurgalm_run_leading, "leading");
    runs_refused_before_the_work(wurgalm_run_trailing, "trailing");
    runs_refused_during_the_work(wurgalm_run_leading);
    runs_refused_during_the_work(wurgalm_run_trailing);
    sheets_refused();
    systems_not_written();
    return 0;
}
