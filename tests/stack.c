/*
 * Every call on a thread with the stack that the header names for it (or the
 * least that a thread may have), and what the thread takes for itself. The
 * stack has a guard page below it, and is painted, so that what a call used is
 * seen too.
 */
#define _GNU_SOURCE
#include <khonvertseg.h>
#include <limits.h>
#include <pthread.h>
#include <stdlib.h>
#include <string.h>
#include <sys/mman.h>
#include <unistd.h>

#include "report.h"

enum { SIDE = KHON_SIDE_MAX, CELLS = SIDE * SIDE, LINES = 2 * (SIDE - 1), PAINT = 0xA5 };

static uint32_t cells[CELLS];
static uint8_t file[KHON_PLAN_ENOUGH(KHON_PIECES_MAX, SIDE, SIDE)];
static size_t file_len;
static khon_job job;
static uint32_t refusal; /* of the call that was run last */

/* ---- a thread on a painted stack ---- */

static void *thread_work(void *run) {
    (*(void (*const *)(void))run)();
    return NULL;
}

/* Runs it with so many bytes of stack; answers how many were used. */
static size_t on_a_thread(void (*run)(void), size_t size) {
    size_t page = (size_t)sysconf(_SC_PAGESIZE), whole = (size + page - 1) / page * page;
    uint8_t *memory = mmap(NULL, page + whole, PROT_READ | PROT_WRITE, MAP_PRIVATE | MAP_ANONYMOUS, -1, 0);
    pthread_attr_t attributes;
    pthread_t thread;
    size_t untouched = 0;
    if (memory == MAP_FAILED || mprotect(memory, page, PROT_NONE) != 0)
        abort();
    memset(memory + page, PAINT, whole);
    pthread_attr_init(&attributes);
    if (pthread_attr_setstack(&attributes, memory + page + (whole - size) / 16 * 16, size / 16 * 16) != 0)
        abort();
    if (pthread_create(&thread, &attributes, thread_work, &run) != 0)
        abort();
    pthread_join(thread, NULL);
    pthread_attr_destroy(&attributes);
    while (untouched < whole && memory[page + untouched] == PAINT)
        untouched++;
    munmap(memory, page + whole);
    return whole - untouched;
}

/* ---- the calls ---- */

static void run_nothing(void) {
}
static void run_open(void) {
    refusal = khon_open(SIDE, SIDE, cells, CELLS).refusal;
}
static void run_add(void) {
    refusal = khon_add(job, cells, CELLS, (khon_piece){1, 1, 1}).refusal;
}
static void run_correct(void) {
    refusal = khon_correct(job, cells, CELLS, 1, (khon_piece){1, 1, 1}).refusal;
}
static void run_remove(void) {
    refusal = khon_remove(job, cells, CELLS, 1).refusal;
}
static void run_ask(void) {
    refusal = khon_ask((const uint8_t *)&job, KHON_BLOCK_LENGTH(job.count), cells, CELLS, SIDE, SIDE).refusal;
}
static void run_plan(void) {
    khon_planned planned = khon_plan((const uint8_t *)&job, KHON_BLOCK_LENGTH(job.count), cells, CELLS, SIDE, SIDE,
                                     file, sizeof file);
    refusal = planned.refusal;
    file_len = planned.length;
}
static void run_check(void) {
    refusal = khon_check(file, file_len).refusal;
}

/* ---- what they are run on ---- */

/* A sheet of 240 by 240 with so many pieces, the first `least` by `least` and
   each other one wider: from 1 on every position is a point, and every square a
   piece, 479 levels deep; from 241 on there is no point. */
static void open_with(unsigned pieces, unsigned least) {
    job = khon_open(SIDE, SIDE, cells, CELLS).job;
    for (unsigned k = 0; k < pieces; k++)
        job = khon_add(job, cells, CELLS, (khon_piece){(uint16_t)(least + k), (uint16_t)(least + 3 * k % KHON_PIECES_MAX), 7}).job;
}

/* 479 levels, whatever the leaves: the deeper part of each line is the first or
   the second one, lines through the width before those through the height. */
static void write_leaning_file(int left) {
    uint8_t *at = file;
    uint32_t start = 6 + 3 * (2 * LINES + 1), sum = 1;
    const uint32_t trailer[3] = {start, start - 6, 0};
    memcpy(at, (const uint8_t[]){SIDE, 0, SIDE, 0, 0, 0}, 6);
    at += 6;
    for (int i = 0; i < LINES; i++) {
        at[0] = i < LINES / 2 ? 'V' : 'H';
        at[1] = (uint8_t)(left ? SIDE - 1 - i % (LINES / 2) : 1);
        at[2] = 0;
        at += 3;
        if (!left) {
            memcpy(at, "S\0\0", 3);
            at += 3;
        }
    }
    for (int i = 0; i <= (left ? LINES : 0); i++, at += 3)
        memcpy(at, "S\0\0", 3);
    memcpy(at, trailer, sizeof trailer);
    for (const uint8_t *byte = file; byte < at + 12; byte++)
        sum = 3 * sum + *byte;
    memcpy(at + 12, &sum, sizeof sum);
    file_len = start + 16;
}

/* ---- the checks ---- */

static size_t own;     /* what a thread takes for itself */
static const char *on; /* the job */

static void fits(void (*run)(void), size_t named, const char *what) {
    size_t size = own + named;
    refusal = 99;
    if (size < (size_t)PTHREAD_STACK_MIN)
        size = (size_t)PTHREAD_STACK_MIN;
    size_t used = on_a_thread(run, size);
    report(refusal == 0 && used <= own + named, "%s: %s: %zu bytes of %zu", on, what, used - own, named);
}

/* Every call on one job. */
static void all_calls(unsigned pieces, unsigned least) {
    open_with(pieces == KHON_PIECES_MAX ? pieces - 1 : pieces, least);
    fits(run_add, KHON_STACK_OTHER, "add");
    open_with(pieces, least);
    fits(run_correct, KHON_STACK_OTHER, "correct");
    fits(run_remove, KHON_STACK_OTHER, "remove");
    open_with(pieces, least);
    fits(run_ask, KHON_STACK_OTHER, "ask, all cells");
    fits(run_ask, KHON_STACK_OTHER, "ask, no cell");
    fits(run_plan, KHON_STACK_PLAN, "plan");
    fits(run_check, KHON_STACK_CHECK, "check of that plan");
}

int main(void) {
    own = on_a_thread(run_nothing, (size_t)PTHREAD_STACK_MIN);
    on = "240 by 240";
    fits(run_open, KHON_STACK_OTHER, "open");
    on = "one piece, 479 levels";
    all_calls(1, 1);
    on = "64 pieces, every position a point, 479 levels";
    all_calls(KHON_PIECES_MAX, 1);
    on = "64 pieces, no position a point";
    all_calls(KHON_PIECES_MAX, SIDE + 1);
    on = "no piece, 479 levels";
    write_leaning_file(1);
    fits(run_check, KHON_STACK_CHECK, "check, deep in the first parts");
    write_leaning_file(0);
    fits(run_check, KHON_STACK_CHECK, "check, deep in the second parts");
    return report_end();
}
