/* Times calls of the static library: operations on small tuples, each by a call from C, and all by one call of
   btspace_run, which makes the same calls of the space from Rattle. Both in turn, several times. Prints the medians in
   nanoseconds an operation, and their ratio. */
#include <stdint.h>
#include <stdio.h>
#include <stdlib.h>
#include <string.h>
#include <time.h>

#include "btspace.h"

enum { ROUNDS = 21, THREES = 30000, OPERATIONS = 3 * THREES, KEPT = 100, LONGEST = 24, ANSWER = 1025 };

static uint8_t script[(KEPT + OPERATIONS) * LONGEST];
static size_t ends[KEPT + OPERATIONS], count, len;
static uint8_t results[(KEPT + OPERATIONS) * LONGEST];

static void add(uint8_t tag, int number) {
    static const uint8_t front[] = {2, 2, 0, 3, 'j', 'o', 'b', 1, 0, 0, 0, 0};
    script[len++] = tag;
    memcpy(script + len, front, sizeof front);
    len += sizeof front;
    for (int shift = 24; shift >= 0; shift -= 8) script[len++] = (uint8_t)(number >> shift);
    ends[count++] = len;
}

static void fail(const char *what, uint8_t refusal) {
    fprintf(stderr, "%s: refused %u\n", what, refusal);
    exit(1);
}

/* Puts what is kept, and then puts, reads and takes one tuple after another. */
static void write_script(void) {
    for (int number = 0; number < KEPT; number++) add(0x21, THREES + number);
    for (int number = 0; number < THREES; number++) {
        for (uint8_t tag = 0x21; tag <= 0x23; tag++) add(tag, number);
    }
}

static double now(void) {
    struct timespec at;
    clock_gettime(CLOCK_MONOTONIC, &at);
    return 1e9 * (double)at.tv_sec + (double)at.tv_nsec;
}

static double by_run(void) {
    struct btspace_ran ran;
    double begin = now();
    uint8_t refusal = btspace_run(1, script, len, results, sizeof results, &ran);
    double end = now();
    if (refusal != 0 || ran.read != len) fail("btspace_run", refusal);
    return (end - begin) / (double)count;
}

static double by_calls(void) {
    struct btspace space = BTSPACE_CLOSED;
    uint8_t answer[ANSWER];
    size_t begins = 0, written;
    double begin = now();
    if (btspace_open(1, &space) != 0) fail("btspace_open", 0);
    for (size_t at = 0; at < count; at++) {
        uint8_t refusal = btspace_apply(&space, script + begins, ends[at] - begins, answer, sizeof answer, &written);
        if (refusal != 0) fail("btspace_apply", refusal);
        begins = ends[at];
    }
    btspace_close(&space);
    double end = now();
    return (end - begin) / (double)count;
}

static int compare(const void *a, const void *b) {
    double x = *(const double *)a, y = *(const double *)b;
    return (x > y) - (x < y);
}

static double median(double *values) {
    qsort(values, ROUNDS, sizeof *values, compare);
    return values[ROUNDS / 2];
}

int main(void) {
    static double run[ROUNDS], calls[ROUNDS];
    write_script();
    for (int round = 0; round < ROUNDS; round++) {
        run[round] = by_run();
        calls[round] = by_calls();
    }
    double from_rattle = median(run), from_c = median(calls);
    printf("from Rattle %.0f ns, from C %.0f ns an operation: ratio %.2f\n", from_rattle, from_c, from_c / from_rattle);
    return 0;
}
