/* A sheet from standard input, run on the leading side: the report, the diagonal polynomials and the right sides.
 * The two commands at the beginning of README.md build the library; then
 *
 *     gcc -std=c99 -Iinclude examples/run.c -Ltarget/staticlib -lwurgalm -o target/run && target/run < examples/k2.sheet
 */
#include "wurgalm.h"

#include <inttypes.h>
#include <stdio.h>

#define SHEET 32768

static uint8_t sheet[SHEET + 1];
static int64_t rows[WURGALM_EQUATIONS * WURGALM_ROW];
static int64_t relations[WURGALM_RELATIONS];

/* The exit status of a refusal, after a message. */
static int refused(uint8_t refusal) {
    fprintf(stderr, "refused with %u: %s\n", (unsigned)refusal, wurgalm_refusal_sentence(refusal));
    return 1;
}

static void print_polynomial(const char *what, size_t row, const int64_t *coefficients) {
    size_t power;
    printf("row %u, %s:", (unsigned)row, what);
    for (power = 0; power < WURGALM_COEFFICIENTS; power++) {
        if (coefficients[power] != 0) {
            printf(" %+" PRId64 " n^%u", coefficients[power], (unsigned)power);
        }
    }
    printf("\n");
}

int main(void) {
    int64_t heading[WURGALM_HEADING], result[WURGALM_RESULT];
    size_t length = fread(sheet, 1, sizeof sheet, stdin), row;
    uint8_t refusal = wurgalm_read_sheet(sheet, length, rows, sizeof rows / sizeof *rows, relations, WURGALM_RELATIONS, heading,
                                         WURGALM_HEADING);
    if (refusal != WURGALM_ACCEPTED) {
        return refused(refusal);
    }
    refusal = wurgalm_run_leading(rows, sizeof rows / sizeof *rows, relations, WURGALM_RELATIONS, (size_t)heading[0], (size_t)heading[8],
                                  heading[1], heading[2], (size_t)heading[3], result, WURGALM_RESULT);
    if (refusal != WURGALM_ACCEPTED) {
        return refused(refusal);
    }
    printf("wurgalm %s: rank %" PRId64 ", relations %" PRId64 ", shifts %" PRId64 "\n", WURGALM_VERSION, result[8], result[0], result[1]);
    for (row = 1; row <= (size_t)result[8]; row++) {
        print_polynomial("diagonal", row, rows + WURGALM_POLYNOMIAL_AT(heading[1], row, heading[1], result[1 + row]));
        print_polynomial("right side", row, rows + WURGALM_RIGHT_SIDE_AT(row));
    }
    for (row = 1; row <= (size_t)result[0]; row++) {
        printf("relation %u at n = %" PRId64 "\n", (unsigned)row, relations[WURGALM_RELATION_AT(row)]);
    }
    if (result[6] == 1) {
        printf("last root %" PRId64 ", multiplicity %" PRId64 "\n", result[7], result[9]);
    }
    return 0;
}
