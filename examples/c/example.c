/*
 * A session with Khonvertseg: a board of 60 by 40 and three kinds of blank.
 *
 *     cc -Iinclude -o example examples/c/example.c target/staticlib/libkhonvertseg.a
 */
#include <stdio.h>
#include <stdlib.h>

#include "khonvertseg.h"

enum { WIDTH = 60, HEIGHT = 40, CELLS = WIDTH * HEIGHT };

/* The caller lends the table and the buffer; the library has no memory of its
   own. The buffer is large enough for any plan of this board with 3 pieces. */
static uint32_t cells[CELLS];
static uint8_t file[KHON_PLAN_ENOUGH(3, WIDTH, HEIGHT)];

static void stop_if_refused(const char *call, uint32_t refusal) {
    if (refusal != KHON_ACCEPTED) {
        printf("%s: refused %u, %s\n", call, refusal, khon_refusal_text(refusal));
        exit(1);
    }
}

static khon_job add(khon_job job, uint16_t width, uint16_t height, uint16_t value) {
    khon_changed changed = khon_add(job, cells, CELLS, (khon_piece){width, height, value});
    stop_if_refused("add", changed.refusal);
    printf("piece %u is %u by %u, value %u\n", changed.job.count, width, height, value);
    return changed.job;
}

/* On x86-64 a job in memory begins with its own job block. */
static void ask(const khon_job *job, uint32_t x, uint32_t y) {
    khon_asked asked = khon_ask((const uint8_t *)job, KHON_BLOCK_LENGTH(job->count), cells, CELLS,
                                x, y);
    stop_if_refused("ask", asked.refusal);
    printf("%u by %u: best value %u, %u cells worked out\n", x, y, asked.value, asked.worked);
}

static void plan_and_check(const khon_job *job, uint32_t x, uint32_t y) {
    khon_planned planned = khon_plan((const uint8_t *)job, KHON_BLOCK_LENGTH(job->count), cells,
                                     CELLS, x, y, file, sizeof file);
    stop_if_refused("plan", planned.refusal);
    khon_checked checked = khon_check(file, planned.length);
    stop_if_refused("check", checked.refusal);
    printf("plan of %u by %u: %u bytes, value %u, pieces cover %u, scrap %u\n", x, y,
           planned.length, checked.value, checked.piece_area, checked.scrap_area);
}

int main(void) {
    khon_changed opened = khon_open(WIDTH, HEIGHT, cells, CELLS);
    stop_if_refused("open", opened.refusal);
    khon_job job = opened.job;
    job = add(job, 13, 9, 120);
    job = add(job, 22, 17, 400);
    job = add(job, 31, 30, 1000);
    ask(&job, WIDTH, HEIGHT);
    ask(&job, WIDTH, HEIGHT);
    plan_and_check(&job, WIDTH, HEIGHT);

    /* Piece 3 was measured again. Only the cells where its old or its new size
       fits are emptied, so the next question costs only these. */
    khon_changed changed = khon_correct(job, cells, CELLS, 3, (khon_piece){30, 30, 980});
    stop_if_refused("correct", changed.refusal);
    job = changed.job;
    printf("piece 3 is now 30 by 30, value 980\n");
    ask(&job, 29, HEIGHT);
    ask(&job, WIDTH, HEIGHT);
    plan_and_check(&job, WIDTH, HEIGHT);
    return 0;
}
