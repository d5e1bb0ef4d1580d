#define _DEFAULT_SOURCE
#include "measure.h"

#include <stdint.h>
#include <string.h>
#include <time.h>
#include <ucontext.h>

double microseconds(void) {
    struct timespec now;
    clock_gettime(CLOCK_MONOTONIC, &now);
    return 1e6 * (double)now.tv_sec + 1e-3 * (double)now.tv_nsec;
}

static uint8_t stack[1 << 20];
static ucontext_t here, there;
static void (*to_run)(void);

static void on_the_stack(void) {
    to_run();
}

static size_t used_on(uint8_t paint, void (*run)(void)) {
    size_t untouched = 0;
    memset(stack, paint, sizeof stack);
    getcontext(&there);
    there.uc_stack.ss_sp = stack;
    there.uc_stack.ss_size = sizeof stack;
    there.uc_link = &here;
    to_run = run;
    makecontext(&there, on_the_stack, 0);
    swapcontext(&here, &there);
    while (untouched < sizeof stack && stack[untouched] == paint)
        untouched++;
    return sizeof stack - untouched;
}

/* On two paints: a byte that has the one's colour by chance hasn't the other's. */
static size_t used_by(void (*run)(void)) {
    size_t one = used_on(0xA5, run), other = used_on(0x5A, run);
    return one > other ? one : other;
}

static void nothing(void) {
}

size_t deepest(void (*run)(void)) {
    return used_by(run) - used_by(nothing);
}
