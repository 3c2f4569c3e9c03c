/* How much stack the calls of the library take: the figures of include/wurgalm.h, measured. Each call works some
 * hundred systems from a fixed seed on a thread whose stack was filled with one byte before; what is not that byte
 * any more was used. Then each call works them again on a thread that has just so much stack as the header says, and
 * some for the thread itself, above a page that must not be touched. Prints a line for each call; a call that takes
 * more ends the program with 1, or with a signal.
 *
 *     gcc -std=c99 -Iinclude tests/c/stack.c -Ltarget/staticlib -lwurgalm -lpthread -o target/stack && target/stack
 */
#define _DEFAULT_SOURCE
#include "wurgalm.h"

#include <pthread.h>
#include <stdio.h>
#include <stdlib.h>
#include <string.h>
#include <sys/mman.h>

#define SYSTEMS 400
#define FACTORS 10
#define SHEET 32768
#define SHEETS 20
#define PAGE 4096
#define PAINT 0xA5
/* A stack that is large enough for any call, and what the thread itself may take. */
#define LARGE (1024 * 1024)
#define THREAD (16 * 1024)
#define OUTPUT (SHEETS * 65538 + 192)

/* ---- systems from a fixed seed ---- */

typedef struct {
    int64_t rows[WURGALM_EQUATIONS * WURGALM_ROW];
    size_t m, equations;
    int64_t l, t;
    uint8_t sheet[SHEET], differential[SHEET];
    size_t sheet_length, differential_length;
} System;

static System systems[SYSTEMS];
static uint64_t seed = 45;

static int64_t below(int64_t limit) {
    seed = seed * 6364136223846793005u + 1442695040888963407u;
    return (int64_t)((seed >> 33) % (uint64_t)limit);
}

static int64_t rows[WURGALM_EQUATIONS * WURGALM_ROW], relations[WURGALM_RELATIONS];
static int64_t work_rows[WURGALM_EQUATIONS * WURGALM_ROW], work_relations[WURGALM_RELATIONS];
static int64_t matrix[WURGALM_MATRIX], list[WURGALM_LIST], logged[WURGALM_LOG], values[64 * 4];
static int64_t state[WURGALM_STATE], result[WURGALM_STEPS];
static uint8_t written[SHEET], output[OUTPUT], batch[SHEETS * (SHEET + 16)];
static size_t batch_length;

#define LENGTH(store) (sizeof(store) / sizeof *(store))
#define HELD rows, LENGTH(rows), relations, WURGALM_RELATIONS
#define SIZES(system) (system)->m, (system)->equations, (system)->l, (system)->t, 0

static void polynomial(int64_t *coefficients) {
    int64_t power, degree = below(3), large = below(8) == 0 ? 100000 : 4;
    for (power = 0; power <= degree; power++) {
        coefficients[power] = below(2 * large + 1) - large;
    }
}

/* (n^2 + a n + 2^27) x(n) + y(n) = 0 and x(n) + (n + 1) y(n) = 0, in one order or the other. The search for roots
 * calls itself once for each prime factor of a lowest coefficient, and none has more of them than 2^27: with an a
 * below 2^20 it tries all products of them. */
static void fill_factors(System *system, int64_t a, size_t first) {
    size_t second = 3 - first;
    int64_t *pivot = system->rows + WURGALM_POLYNOMIAL_AT(0, first, 0, 1);
    system->m = system->equations = 2;
    pivot[0] = (int64_t)1 << 27;
    pivot[1] = a;
    pivot[2] = 1;
    system->rows[WURGALM_POLYNOMIAL_AT(0, first, 0, 2)] = 1;
    system->rows[WURGALM_POLYNOMIAL_AT(0, second, 0, 1)] = 1;
    system->rows[WURGALM_POLYNOMIAL_AT(0, second, 0, 2)] = 1;
    system->rows[WURGALM_POLYNOMIAL_AT(0, second, 0, 2) + 1] = 1;
}

static void fill_any(System *system) {
    size_t row, column;
    int64_t block;
    system->m = (size_t)below(4) + 1;
    system->equations = (size_t)below((int64_t)system->m + 3);
    system->l = below(5) - 2;
    system->t = system->l - below(5);
    for (row = 1; row <= system->equations; row++) {
        for (block = system->t; block <= system->l; block++) {
            for (column = 1; column <= system->m; column++) {
                if (below(3) > 0) {
                    polynomial(system->rows + WURGALM_POLYNOMIAL_AT(system->l, row, block, column));
                }
            }
        }
        if (below(4) == 0) {
            polynomial(system->rows + WURGALM_RIGHT_SIDE_AT(row));
        }
    }
}

/* Some systems with many factors, and any others; with the sheet of each. */
static void fill(System *system, int64_t number) {
    int64_t order[4] = {0, 0, 0, 0};
    memset(system, 0, sizeof *system);
    if (number < FACTORS) {
        fill_factors(system, ((int64_t)1 << (20 - number / 2)) - 16385, (size_t)(number % 2) + 1);
    } else {
        fill_any(system);
    }
    memset(relations, 0, sizeof relations);
    if (wurgalm_write_sheet(system->rows, LENGTH(system->rows), relations, WURGALM_RELATIONS, SIZES(system), order, 4,
                            system->sheet, SHEET, result, 1) != 0) {
        printf("DIFFERENCE: a system is not written\n");
        exit(1);
    }
    system->sheet_length = (size_t)result[0];
}

/* Differential equations whose terms are all there, with small factors. */
static void fill_differential(System *system) {
    char *text = (char *)system->differential;
    size_t m = system->m;
    int64_t derivatives = below(3), powers = below(5 - derivatives), row, k, j, c;
    size_t at = (size_t)sprintf(text, "3 %u %d %d\n%u\n", (unsigned)m, (int)derivatives, (int)powers, (unsigned)m);
    for (row = 0; row < (int64_t)m; row++) {
        at += (size_t)sprintf(text + at, "%d", (int)((derivatives + 1) * (powers + 1) * (int64_t)m));
        for (k = derivatives; k >= 0; k--) {
            for (j = 0; j <= powers; j++) {
                for (c = 1; c <= (int64_t)m; c++) {
                    at += (size_t)sprintf(text + at, " %d %d %d %d", (int)k, (int)j, (int)c, (int)below(9) + 1);
                }
            }
        }
        at += (size_t)sprintf(text + at, "\n");
    }
    system->differential_length = at;
}

static void fill_batch(void) {
    size_t i;
    batch_length = (size_t)sprintf((char *)batch, "%d\n", SHEETS);
    for (i = 0; i < SHEETS; i++) {
        const System *system = &systems[i];
        char *end = (char *)batch + batch_length;
        batch_length += (size_t)sprintf(end, "%d %u\n", (int)(i % 8) + 1, (unsigned)system->sheet_length);
        memcpy(batch + batch_length, system->sheet, system->sheet_length);
        batch_length += system->sheet_length;
    }
}

/* ---- the calls, each on one system ---- */

static void hold(const System *system) {
    memcpy(rows, system->rows, sizeof rows);
    memset(relations, 0, sizeof relations);
}

static uint8_t run_leading(const System *system) {
    return wurgalm_run_leading(HELD, SIZES(system), result, WURGALM_RESULT);
}

static uint8_t run_trailing(const System *system) {
    return wurgalm_run_trailing(HELD, SIZES(system), result, WURGALM_RESULT);
}

static uint8_t read_sheet(const System *system) {
    return wurgalm_read_sheet(system->sheet, system->sheet_length, HELD, result, WURGALM_HEADING);
}

static uint8_t write_sheet(const System *system) {
    int64_t order[4] = {0, 0, 0, 0};
    return wurgalm_write_sheet(HELD, SIZES(system), order, 4, written, SHEET, result, 1);
}

static uint8_t read_differential(const System *system) {
    return wurgalm_read_differential(system->differential, system->differential_length, HELD, result, WURGALM_HEADING);
}

static uint8_t write_recurrence(const System *system) {
    return wurgalm_write_recurrence(system->differential, system->differential_length, written, SHEET, result, 1);
}

static uint8_t check_record(const System *system) {
    return wurgalm_check_record(HELD, SIZES(system), -30, 64, values, LENGTH(values), result, WURGALM_RECORD);
}

static uint8_t prepare(const System *system) {
    return wurgalm_prepare(HELD, SIZES(system), state, WURGALM_STATE);
}

static uint8_t run_steps(const System *system) {
    uint8_t refusal = wurgalm_prepare(HELD, SIZES(system), state, WURGALM_STATE);
    while (refusal == 0) {
        refusal = wurgalm_run_steps(HELD, state, WURGALM_STATE, 1, result, WURGALM_STEPS);
        if (result[1] == 1) {
            break;
        }
    }
    return refusal;
}

static uint8_t run_logged(const System *system) {
    return wurgalm_run_logged(HELD, SIZES(system), logged, WURGALM_LOG, result, WURGALM_LOGGED);
}

static uint8_t replay(const System *system) {
    uint8_t refusal = run_logged(system);
    size_t steps = (size_t)result[10];
    hold(system);
    if (refusal == 0) {
        refusal = wurgalm_replay(HELD, SIZES(system), steps, logged, WURGALM_LOG, result, WURGALM_RESULT);
    }
    return refusal;
}

static uint8_t solutions(const System *system) {
    size_t row;
    for (row = 1; row <= system->equations; row++) {
        memset(rows + WURGALM_RIGHT_SIDE_AT(row), 0, 16 * sizeof *rows);
    }
    return wurgalm_solutions(HELD, SIZES(system), work_rows, LENGTH(work_rows), work_relations, WURGALM_RELATIONS,
                             matrix, WURGALM_MATRIX, list, WURGALM_LIST, result, WURGALM_SOLUTIONS);
}

static uint8_t whole_batch(const System *system) {
    return system == systems ? wurgalm_batch(batch, batch_length, output, OUTPUT, result, 1) : 0;
}

/* ---- threads with their own stacks ---- */

typedef struct {
    const char *name;
    uint8_t (*call)(const System *);
    size_t most;
    size_t accepted, used;
    const unsigned char *bottom;
} Measured;

static void *all_systems(void *argument) {
    Measured *measured = (Measured *)argument;
    const unsigned char *here = (const unsigned char *)&measured, *at = measured->bottom;
    size_t i;
    measured->accepted = 0;
    for (i = 0; i < SYSTEMS; i++) {
        hold(&systems[i]);
        measured->accepted += measured->call(&systems[i]) == 0;
    }
    while (*at == PAINT) {
        at++;
    }
    measured->used = (size_t)(here - at);
    return NULL;
}

static void fail(const char *name, const char *what) {
    printf("DIFFERENCE: %s: %s\n", name, what);
    exit(1);
}

/* Works all systems on a stack of so many bytes, above a page that ends the program where it is touched. */
static void on_a_stack(Measured *measured, size_t size) {
    void *mapped = mmap(NULL, size + PAGE, PROT_READ | PROT_WRITE, MAP_PRIVATE | MAP_ANONYMOUS, -1, 0);
    unsigned char *memory = (unsigned char *)mapped;
    pthread_attr_t attributes;
    pthread_t thread;
    if (mapped == MAP_FAILED || mprotect(memory, PAGE, PROT_NONE) != 0) {
        fail(measured->name, "no memory for a stack");
    }
    measured->bottom = memory + PAGE;
    memset(memory + PAGE, PAINT, size);
    if (pthread_attr_init(&attributes) != 0 || pthread_attr_setstack(&attributes, memory + PAGE, size) != 0 ||
        pthread_create(&thread, &attributes, all_systems, measured) != 0 || pthread_join(thread, NULL) != 0) {
        fail(measured->name, "no thread");
    }
    pthread_attr_destroy(&attributes);
    munmap(memory, size + PAGE);
}

int main(void) {
    static Measured calls[] = {
        {"wurgalm_run_leading", run_leading, WURGALM_STACK, 0, 0, NULL},
        {"wurgalm_run_trailing", run_trailing, WURGALM_STACK, 0, 0, NULL},
        {"wurgalm_read_sheet", read_sheet, WURGALM_STACK, 0, 0, NULL},
        {"wurgalm_write_sheet", write_sheet, WURGALM_STACK, 0, 0, NULL},
        {"wurgalm_read_differential", read_differential, WURGALM_STACK, 0, 0, NULL},
        {"wurgalm_write_recurrence", write_recurrence, WURGALM_STACK, 0, 0, NULL},
        {"wurgalm_check_record", check_record, WURGALM_STACK, 0, 0, NULL},
        {"wurgalm_prepare", prepare, WURGALM_STACK, 0, 0, NULL},
        {"wurgalm_run_steps", run_steps, WURGALM_STACK, 0, 0, NULL},
        {"wurgalm_run_logged", run_logged, WURGALM_STACK, 0, 0, NULL},
        {"wurgalm_replay", replay, WURGALM_STACK, 0, 0, NULL},
        {"wurgalm_solutions", solutions, WURGALM_STACK, 0, 0, NULL},
        {"wurgalm_batch", whole_batch, WURGALM_BATCH_STACK, 0, 0, NULL},
    };
    size_t i, largest = 0;
    for (i = 0; i < SYSTEMS; i++) {
        fill(&systems[i], (int64_t)i);
        fill_differential(&systems[i]);
    }
    fill_batch();
    for (i = 0; i < LENGTH(calls); i++) {
        Measured *measured = &calls[i];
        on_a_stack(measured, LARGE);
        printf("%s: %s takes %u bytes of stack, %u of %d accepted\n",
               measured->used <= measured->most ? "ok" : "DIFFERENCE", measured->name, (unsigned)measured->used,
               (unsigned)measured->accepted, SYSTEMS);
        if (measured->used > measured->most) {
            return 1;
        }
        if (measured->accepted < SYSTEMS / 20) {
            fail(measured->name, "too few systems are accepted");
        }
        if (measured->most == WURGALM_STACK && measured->used > largest) {
            largest = measured->used;
        }
    }
    if (largest < WURGALM_STACK - WURGALM_STACK / 8 ||
        calls[LENGTH(calls) - 1].used < WURGALM_BATCH_STACK - WURGALM_BATCH_STACK / 8) {
        fail("include/wurgalm.h", "it names far more stack than any call takes");
    }
    for (i = 0; i < LENGTH(calls); i++) {
        on_a_stack(&calls[i], (calls[i].most + THREAD + PAGE - 1) / PAGE * PAGE);
        printf("ok: %s runs on so much stack as the header says\n", calls[i].name);
    }
    return 0;
}
