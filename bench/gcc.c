// The harness of bench/gcc.py, which puts a function with its bounds and verdicts in place of the words that begin with HERE.
#include <setjmp.h>
#include <signal.h>
#include <stdarg.h>
#include <stdio.h>
#include <stdlib.h>

static sigjmp_buf out;
static long states, checks, ends, in_run;
// How many states of one run are looked at.
enum { MOST_STATES = 20000 };
static unsigned long drawn = 88172645463325252UL;

static unsigned long draw(void) {
    drawn ^= drawn << 13;
    drawn ^= drawn >> 7;
    return drawn ^= drawn << 17;
}

// Any number, mostly a small one.
static int tmpl_any(void) {
    unsigned long kind = draw() % 10, value = draw();
    if (kind < 5) return (int)(value % 9) - 3;
    if (kind < 8) return (int)(value % 2001) - 1000;
    if (kind < 9) return (int)(value % 2000001) - 1000000;
    return (int)value;
}

// A bound at a point: the sum of so many variables, each times its factor, is at most a fraction. A point that nothing reaches has one
// without variables, which no state fits.
struct row {
    int point, count, var[64];
    long factor[64];
    __int128 top, bottom;
};

HERE_BOUNDS

// A state at a point: so many pairs of a variable and its value.
static void tmpl_see(int point, int count, ...) {
    int known[64] = {0};
    long value[64];
    va_list given;
    va_start(given, count);
    for (int k = 0; k < count; k++) {
        int var = va_arg(given, int);
        known[var] = 1;
        value[var] = va_arg(given, int);
    }
    va_end(given);
    states++;
    if (++in_run > MOST_STATES) siglongjmp(out, 1);
    for (const struct row *row = rows; row->point >= 0; row++) {
        if (row->point != point) continue;
        __int128 sum = 0;
        int whole = 1;
        for (int k = 0; k < row->count && whole; k++) {
            whole = known[row->var[k]];
            if (whole) sum += (__int128)row->factor[k] * value[row->var[k]];
        }
        if (whole && sum * row->bottom > row->top) {
            fprintf(stderr, "a state at point %d is above a bound\n", point);
            exit(1);
        }
    }
}

static void tmpl_holds(int check, int is_so) {
    checks++;
    if (is_so) return;
    if (proved[check]) {
        fprintf(stderr, "check %d is called proved, and is violated\n", check);
        exit(1);
    }
    siglongjmp(out, 1);
}

static int tmpl_index_of(int check, long size, long value) {
    tmpl_holds(check, 0 <= value && value < size);
    return (int)value;
}

static int tmpl_divisor(int check, int value) {
    tmpl_holds(check, value != 0);
    return value;
}

// An element that is written, wherever it is.
static int *tmpl_place(int index) {
    static int place;
    place = tmpl_any();
    return &place + 0 * index;
}

static int tmpl_element(int index) {
    (void)index;
    return tmpl_any();
}

static void tmpl_assumed(int is_so) {
    if (!is_so) siglongjmp(out, 1);
}

static void overflows(int number) {
    (void)number;
    siglongjmp(out, 1);
}

HERE_FUNCTION

int main(void) {
    signal(SIGABRT, overflows);
    signal(SIGFPE, overflows);
    for (volatile long run = 0; run < HERE_RUNS; run++) {
        in_run = 0;
        if (!sigsetjmp(out, 1)) {
            HERE_CALL;
            ends++;
        }
    }
    printf("%ld states, %ld checks, %ld of %ld runs to the end\n", states, checks, ends, (long)HERE_RUNS);
    return 0;
}
