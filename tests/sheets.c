/*
 * The sheets and runs of docs/RULES.md, section 12, tried on the reference first
 * (a broken reference must not pass) and then on the library. Expected numbers
 * and bytes are written out here: those that section 12 and docs/FORMAT.md give,
 * the others counted by hand.
 */
#include <stdio.h>
#include <string.h>

#include "face.h"
#include "report.h"

enum { BEYOND = 4, FILE_ROOM = REF_PLAN_MAX + 8 };

static const face *f;
static uint32_t cells[REF_CELLS_MAX + BEYOND];
static uint8_t block[REF_BLOCK_MAX], file[FILE_ROOM];
static ref_job job;
static uint32_t refusal;

#define CHECK(ok, ...) (void)report((ok), "%s: " __VA_ARGS__)

/* ---- calls on the job at hand ---- */

static size_t table_len(void) {
    return (size_t)job.width * job.height;
}

static void take(ref_changed answer) {
    refusal = answer.refusal;
    if (refusal == 0)
        job = answer.job;
}

static void open(uint32_t a, uint32_t b) {
    for (size_t i = 0; i < REF_CELLS_MAX + BEYOND; i++)
        cells[i] = 77;
    memset(&job, 0, sizeof job);
    take(f->open(a, b, cells, REF_CELLS_MAX));
}

static void add(uint16_t p, uint16_t q, uint16_t v) {
    take(f->add(job, cells, table_len(), (ref_piece){p, q, v}));
}

static void correct(uint32_t k, uint16_t p, uint16_t q, uint16_t v) {
    take(f->correct(job, cells, table_len(), k, (ref_piece){p, q, v}));
}

static ref_asked ask(uint32_t x, uint32_t y) {
    return f->ask(block, ref_block(&job, block), cells, table_len(), x, y);
}

static ref_planned plan(uint32_t x, uint32_t y) {
    memset(file, 0xA5, sizeof file);
    return f->plan(block, ref_block(&job, block), cells, table_len(), x, y, file, FILE_ROOM);
}

/* ---- what is compared ---- */

static int asked(ref_asked answer, uint32_t value, uint32_t worked) {
    return answer.refusal == 0 && answer.value == value && answer.worked == worked;
}

static int checked(ref_checked answer, uint32_t value, uint32_t note, uint32_t piece_area,
                   uint32_t scrap_area) {
    return answer.refusal == 0 && answer.value == value && answer.note == note &&
           answer.piece_area == piece_area && answer.scrap_area == scrap_area;
}

static int refused(ref_checked answer, uint32_t number) {
    return answer.refusal == number && answer.value == 0 && answer.note == 0 &&
           answer.piece_area == 0 && answer.scrap_area == 0;
}

/* The file at hand has exactly these nodes after its block, D1 and D2 to
   match, and bytes after its length are as they were. */
static int nodes_are(ref_planned answer, const char *letters, const uint32_t *numbers) {
    size_t block_len = 6 + 6 * (size_t)job.count, count = strlen(letters);
    size_t start = block_len + 3 * count;
    if (answer.refusal != 0 || answer.length != start + 16)
        return 0;
    for (size_t i = 0; i < count; i++) {
        const uint8_t *node = file + block_len + 3 * i;
        if (node[0] != letters[i] || node[1] != numbers[i] || node[2] != 0)
            return 0;
    }
    return ref_get32(file + start) == start && ref_get32(file + start + 4) == 3 * count &&
           ref_get32(file + start + 8) == answer.value && file[answer.length] == 0xA5;
}

static uint32_t count_empty(void) {
    uint32_t empty = 0;
    for (size_t i = 0; i < table_len(); i++)
        empty += cells[i] == REF_EMPTY;
    return empty;
}

static int is_empty(uint32_t x, uint32_t y) {
    return cells[ref_cell(job.width, x, y)] == REF_EMPTY;
}

/* ---- K1 to K10 ---- */

static const uint8_t k4_file[25] = {0x01, 0x00, 0x01, 0x00, 0x00, 0x00, 0x53, 0x00, 0x00,
                                    0x09, 0x00, 0x00, 0x00, 0x03, 0x00, 0x00, 0x00, 0x00,
                                    0x00, 0x00, 0x00, 0x3C, 0xF5, 0x29, 0x6E};

static void open_k1(void) {
    open(3, 3);
    add(1, 2, 2);
    add(2, 3, 6);
}

static void k1(void) {
    static const uint32_t table[9] = {0, 0, 0, 2, 4, 6, 2, 6, 8};
    static const uint8_t k1_block[18] = {3, 0, 3, 0, 2, 0, 1, 0, 2, 0, 2, 0, 2, 0, 3, 0, 6, 0};
    open_k1();
    CHECK(asked(ask(3, 3), 8, 9), "K1: 3 by 3 earns 8, nine cells worked out", f->name);
    CHECK(memcmp(cells, table, sizeof table) == 0, "K1: the whole table", f->name);
    ref_planned answer = plan(3, 3);
    CHECK(nodes_are(answer, "VHPSP", (uint32_t[]){1, 2, 1, 0, 2}) && answer.value == 8,
          "K1: nodes V1 H2 P1 S0 P2", f->name);
    CHECK(memcmp(file, k1_block, sizeof k1_block) == 0, "K1: the job block", f->name);
    CHECK(checked(f->check(file, answer.length), 8, 0, 8, 1),
          "K1: the plan is accepted, pieces 8 and scrap 1", f->name);
}

static void k2_k3(void) {
    static const uint32_t table[9] = {0, 0, 0, 2, 4, 6, 2, 4, 6};
    open_k1();
    (void)ask(3, 3);
    correct(2, 2, 2, 4);
    CHECK(count_empty() == 4 && is_empty(2, 2) && is_empty(3, 2) && is_empty(2, 3) &&
              is_empty(3, 3),
          "K2: the correction empties exactly four cells", f->name);
    CHECK(asked(ask(1, 3), 2, 0), "K3: 1 by 3 earns 2, none worked out", f->name);
    CHECK(asked(ask(3, 3), 6, 4), "K2: 3 by 3 earns 6, four worked out", f->name);
    CHECK(memcmp(cells, table, sizeof table) == 0, "K2: the whole table", f->name);
    CHECK(asked(ask(3, 3), 6, 0), "K2: asked again, none worked out", f->name);
}

static void k4_k9_k10(void) {
    uint8_t other[25];
    open(1, 1);
    CHECK(asked(ask(1, 1), 0, 1), "K4: no pieces, 1 by 1 earns 0", f->name);
    ref_planned answer = plan(1, 1);
    CHECK(answer.refusal == 0 && answer.length == 25 && answer.value == 0 &&
              memcmp(file, k4_file, 25) == 0 && file[25] == 0xA5,
          "K4: its file, byte for byte", f->name);
    CHECK(checked(f->check(k4_file, 25), 0, 0, 0, 1), "K4: its file is accepted", f->name);
    CHECK(refused(f->check(k4_file, 24), 9), "K9: without its last byte: 9", f->name);
    memcpy(other, k4_file, 25);
    other[0] = 2;
    CHECK(refused(f->check(other, 25), 10), "K10: with its first byte 2: 10", f->name);
}

static void k5_to_k8(void) {
    open(3, 3);
    add(2, 2, 5);
    CHECK(asked(ask(3, 3), 5, 9), "K5: 3 by 3 with 2 by 2 earns 5", f->name);
    CHECK(nodes_are(plan(3, 3), "VHPSS", (uint32_t[]){2, 2, 1, 0, 0}),
          "K5: nodes V2 H2 P1 S0 S0", f->name);
    CHECK(nodes_are(plan(2, 3), "HPS", (uint32_t[]){2, 1, 0}),
          "K5's piece in 2 by 3: nodes H2 P1 S0", f->name);
    CHECK(nodes_are(plan(3, 2), "VPS", (uint32_t[]){2, 1, 0}),
          "K5's piece in 3 by 2: nodes V2 P1 S0", f->name);
    open(5, 4);
    add(2, 2, 5);
    CHECK(asked(ask(5, 4), 20, 20), "K6: 5 by 4 with the same piece earns 20", f->name);
    open(1, 2);
    add(2, 1, 1);
    CHECK(asked(ask(1, 2), 0, 2), "K7: 1 by 2 with 2 by 1 earns 0", f->name);
    open(2, 3);
    add(2, 3, 6);
    CHECK(asked(ask(2, 3), 6, 6), "K8: 2 by 3 with 2 by 3 earns 6", f->name);
    CHECK(nodes_are(plan(2, 3), "P", (uint32_t[]){1}), "K8: one node, P1", f->name);
}

/* ---- the runs ---- */

static void open_table_1(void) {
    static const uint16_t sizes[5][2] = {{18, 65}, {24, 27}, {21, 13}, {36, 17}, {54, 20}};
    open(127, 98);
    for (int i = 0; i < 5; i++)
        add(sizes[i][0], sizes[i][1], (uint16_t)(sizes[i][0] * sizes[i][1]));
}

static void run_table_1(void) {
    static uint32_t best[REF_CELLS_MAX];
    open_table_1();
    CHECK(asked(ask(127, 98), 12348, 12446), "127 by 98 earns 12,348", f->name);
    ref_best(&job, best);
    CHECK(memcmp(best, cells, sizeof(uint32_t) * 12446) == 0,
          "127 by 98: every cell is the best value, every line tried", f->name);
    ref_planned answer = plan(127, 98);
    CHECK(answer.refusal == 0 && answer.value == 12348 &&
              checked(f->check(file, answer.length), 12348, 0, 12348, 127 * 98 - 12348),
          "127 by 98: the plan is accepted, and pieces earn their area", f->name);
}

static void run_unit_squares(void) {
    open(240, 240);
    add(1, 1, 65535);
    CHECK(asked(ask(240, 240), 3774816000u, 57600), "240 by 240 earns 3,774,816,000", f->name);
    ref_planned answer = plan(240, 240);
    CHECK(answer.refusal == 0 && answer.length == 345625 && answer.value == 3774816000u,
          "240 by 240: a file of 345,625 bytes", f->name);
    CHECK(checked(f->check(file, 345625), 3774816000u, 0, 57600, 0),
          "240 by 240: the file is accepted", f->name);
    open(241, 240);
    CHECK(refusal == 1, "241 by 240: 1", f->name);
}

static void run_full_job(void) {
    open(5, 5);
    for (int i = 0; i < 64; i++)
        add(1, 1, 1);
    CHECK(refusal == 0 && job.count == 64, "64 pieces are accepted", f->name);
    add(1, 1, 1);
    CHECK(refusal == 5, "n = 64 then add: 5", f->name);
    add(1, 0, 1);
    CHECK(refusal == 4, "n = 64 then add a piece out of range: 4", f->name);
}

/* ---- what newcomers write ---- */

static void newcomers(void) {
    open(4, 4);
    add(2, 2, 5);
    (void)ask(4, 4);
    correct(1, 3, 3, 5);
    CHECK(asked(ask(2, 2), 0, 1), "a piece enlarged: the old cells don't lie", f->name);
    open(5, 1);
    add(5, 1, 1);
    (void)ask(5, 1);
    correct(1, 2, 1, 1);
    CHECK(asked(ask(5, 1), 2, 4), "P is that after the correction", f->name);
    open_k1();
    (void)ask(3, 3);
    uint32_t length = plan(3, 3).length, start = length - 16;
    ref_put32(file + start + 8, 9);
    ref_put32(file + start + 12, ref_sum(file, length - 4));
    CHECK(refused(f->check(file, length), 13), "a claimed value is added up: 13", f->name);
}

static void a_job_of_zeros(void) {
    uint32_t lent[4] = {1, 2, 3, 4};
    ref_changed zeros = f->open(0, 1, lent, 4), later;
    ref_job none;
    memset(&none, 0, sizeof none);
    CHECK(zeros.refusal == 1 && memcmp(&zeros.job, &none, sizeof none) == 0,
          "a refused open returns a job of zeros", f->name);
    later = f->add(zeros.job, lent, 4, (ref_piece){1, 1, 1});
    CHECK(later.refusal == 1 && lent[0] == 1 && lent[3] == 4,
          "and the later call refuses it with 1", f->name);
}

/* A tree as deep as it can be: 239 lines one way, then 239 the other. */
static void deepest_file(void) {
    size_t at = 6, start;
    ref_put16(file, 240);
    ref_put16(file + 2, 240);
    ref_put16(file + 4, 0);
    for (int i = 0; i < 478; i++, at += 3) {
        file[at] = i < 239 ? 'V' : 'H';
        ref_put16(file + at + 1, 239 - (uint32_t)i % 239);
    }
    for (int i = 0; i < 479; i++, at += 3) {
        file[at] = 'S';
        ref_put16(file + at + 1, 0);
    }
    start = at;
    ref_put32(file + start, (uint32_t)start);
    ref_put32(file + start + 4, (uint32_t)start - 6);
    ref_put32(file + start + 8, 0);
    ref_put32(file + start + 12, ref_sum(file, start + 12));
    CHECK(checked(f->check(file, start + 16), 0, 0, 0, 57600), "479 levels are read", f->name);
}

static void all_sheets(const face *which) {
    f = which;
    k1();
    k2_k3();
    k4_k9_k10();
    k5_to_k8();
    run_table_1();
    run_unit_squares();
    run_full_job();
    newcomers();
    a_job_of_zeros();
    deepest_file();
    CHECK(cells[REF_CELLS_MAX] == 77 && cells[REF_CELLS_MAX + BEYOND - 1] == 77,
          "entries beyond the table stay", f->name);
}

static void points_of_table_1(void) {
    uint8_t marks[REF_SIDE_MAX + 1];
    f = &the_reference;
    open_table_1();
    CHECK(ref_points(&job, 0, marks) == 33, "127 by 98: P has 33 members", f->name);
    CHECK(ref_points(&job, 1, marks) == 60, "127 by 98: Q has 60 members", f->name);
}

int main(void) {
    points_of_table_1();
    all_sheets(&the_reference);
    all_sheets(&the_library);
    return report_end();
}
