/*
 * P and Q (rules 3.1 to 3.3) through the calls, against Herz's sorted list of
 * bench/points.c. Asked for a strip one unit high on a table from elsewhere
 * whose only number that counts stands in column c, the library earns that
 * number exactly when it tries a line at c: when c is a point. A line is tried
 * up to the middle, so that points are seen up to half of a side; beyond it
 * none is ever tried.
 */
#include <khonvertseg.h>
#include <string.h>

#include "../bench/points.h"
#include "report.h"

enum { SIDE = KHON_SIDE_MAX, CELLS = SIDE * SIDE };

static uint32_t cells[CELLS];
static khon_job job;

static void sheet(uint32_t width, uint32_t height) {
    memset(&job, 0, sizeof job);
    job.width = (uint16_t)width;
    job.height = (uint16_t)height;
}

static void add(uint32_t width, uint32_t height) {
    job.pieces[job.count++] = (khon_piece){(uint16_t)width, (uint16_t)height, 1};
}

/* Is a line at c tried? 1 or 0; 2 where the answer is neither. The strip lies
   along the width, or along the height where tall. */
static unsigned is_tried(int tall, uint32_t c) {
    uint32_t x = tall ? 1 : job.width, y = tall ? job.height : 1;
    uint32_t *found = &cells[tall ? KHON_CELL(job.width, 1, c) : KHON_CELL(job.width, c, 1)];
    uint32_t much = c * KHON_VALUE_MAX, both = 2 * c == x * y ? 2 * much : much;
    for (uint32_t i = 0; i < (uint32_t)job.width * job.height; i++)
        cells[i] = 0;
    *found = much;
    cells[KHON_CELL(job.width, x, y)] = KHON_EMPTY;
    khon_asked asked =
        khon_ask((const uint8_t *)&job, KHON_BLOCK_LENGTH(job.count), cells, CELLS, x, y);
    if (asked.refusal != 0 || asked.worked != 1 || *found != much)
        return 2;
    return asked.value == both ? 1 : asked.value <= 1 ? 0 : 2;
}

/* The number of points up to half of a side; -1 where the two ways differ. */
static int points_up_to_half(int tall) {
    static points list;
    uint32_t side = tall ? job.height : job.width, i = 0;
    listed_points(&job, tall, &list);
    for (uint32_t c = 1; 2 * c <= side; c++) {
        unsigned listed = i < list.count && list.at[i] == c;
        i += listed;
        if (is_tried(tall, c) != listed)
            return -1;
    }
    return (int)i;
}

/* A job with so many points across and up, up to half of each side. */
static void found(const char *what, int across, int up) {
    int p = points_up_to_half(0), q = points_up_to_half(1);
    report(p == across && q == up, "%s: %d points across and %d up", what, p, q);
}

static uint32_t state = 20261116;

static uint32_t draw(uint32_t most) {
    state = state * 1664525 + 1013904223;
    return 1 + (state >> 8) % most;
}

/* Jobs with so many pieces of sizes up to `most`. */
static void random_jobs(unsigned jobs, uint32_t pieces, uint32_t most) {
    unsigned bad = 0;
    for (unsigned i = 0; i < jobs; i++) {
        sheet(draw(SIDE), draw(SIDE));
        while (job.count < pieces)
            add(draw(most), draw(most));
        bad += points_up_to_half(0) < 0 || points_up_to_half(1) < 0;
    }
    report(bad == 0, "%u random jobs of %u pieces up to %u", jobs, pieces, most);
}

/* 64 pieces, and the positions that they reach. */
static void full_jobs(void) {
    uint32_t i;
    sheet(SIDE, SIDE);
    for (i = 0; i < KHON_PIECES_MAX; i++)
        add(KHON_PIECES_MAX - i, 1 + i);
    found("64 pieces of 1 to 64, every position reached", 120, 120);

    sheet(SIDE, SIDE);
    for (i = 1; i <= KHON_PIECES_MAX; i++)
        add(SIDE + i, KHON_SIZE_MAX + 1 - i);
    found("64 pieces larger than the sheet, no position reached", 0, 0);

    sheet(SIDE, SIDE);
    for (i = 1; i < KHON_PIECES_MAX; i++)
        add(SIDE + i, SIDE + i);
    add(1, 2);
    found("63 pieces too large and the last 1 by 2", 120, 60);

    sheet(SIDE, SIDE);
    for (i = 1; i <= KHON_PIECES_MAX; i++)
        add(SIDE / 2 + i, SIDE + 1 - i);
    found("64 pieces longer than half, no sum of two", 0, 0);

    sheet(SIDE, SIDE);
    for (i = 0; i < KHON_PIECES_MAX; i++)
        add(SIDE / 2 - i, 57 + i);
    found("64 pieces up to half", 64, 64);

    sheet(SIDE, SIDE);
    for (i = 1; i <= KHON_PIECES_MAX; i++)
        add(2 * i, 3 * i);
    found("64 pieces, multiples of 2 and of 3", 60, 40);
}

static void small_jobs(void) {
    sheet(SIDE, SIDE);
    found("no piece", 0, 0);
    add(SIDE, SIDE);
    found("one piece of the sheet's size", 0, 0);

    sheet(SIDE - 1, 1);
    add(7, 1);
    add(11, 1);
    add(14, 5);
    found("7, 11 and 14 on 239 by 1", 89, 0);
}

int main(void) {
    small_jobs();
    full_jobs();
    random_jobs(60, 1, 40);
    random_jobs(60, 5, 90);
    random_jobs(60, 20, 150);
    random_jobs(60, KHON_PIECES_MAX, 300);
    random_jobs(60, KHON_PIECES_MAX, KHON_SIZE_MAX);
    return report_end();
}
