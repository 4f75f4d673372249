/* What the tests in C count and print: the right answers of each function, and the numbers that were given. */
#ifndef ANSWERS_H
#define ANSWERS_H

#include <stdint.h>
#include <stdio.h>
#include <stdlib.h>

enum { NUMBERS = 28 };

static int answers;        /* how many answers of this function were right */
static int given[NUMBERS]; /* how often each number was given */

static void right(const char *file, int line, long got, long wanted) {
    if (got != wanted) {
        printf("%s:%d: %ld, and it should be %ld\n", file, line, got, wanted);
        exit(1);
    }
    answers++;
}
#define IS(got, wanted) right(__FILE__, __LINE__, (long)(got), (long)(wanted))

/* The number that a call gives. */
static void number(const char *file, int line, uint16_t got, uint16_t wanted) {
    right(file, line, got, wanted);
    given[wanted]++;
}
#define GIVES(wanted, call) number(__FILE__, __LINE__, call, wanted)

/* The test of a function. */
typedef struct {
    const char *name;
    void (*test)(void);
} Test;

/* Runs the tests, which must have given each number. */
static void run(const Test *tests, size_t count) {
    for (size_t i = 0; i < count; i++) {
        answers = 0;
        tests[i].test();
        printf("%s: %d answers are right\n", tests[i].name, answers);
    }
    for (int i = 0; i < NUMBERS; i++) IS(given[i] > 0, 1);
}
#define RUN(tests) run(tests, sizeof(tests) / sizeof *(tests))

#endif
