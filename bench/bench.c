/*
 * The cases to measure, for the library, for C by hand, with the points marked
 * or in Herz's list, and for the dull scheme.
 *
 *   bench agree                   all give the same answers
 *   bench count CASE ENGINE WORK  prepares the case; if WORK is 1, one call
 *   bench times                   the least of several runs, in microseconds
 *   bench stack                   the deepest stack of each call, in bytes, for
 *                                 the library and both kinds of C by hand
 *   bench cases                   their names
 *
 * bench/run counts the instructions of "count .. 1" less those of "count .. 0".
 */
#include <stdio.h>
#include <stdlib.h>
#include <string.h>

#include "hand.h"
#include "jobs.h"
#include "measure.h"

enum { SIDE = KHON_SIDE_MAX, CELLS = SIDE * SIDE, RUNS = 7 };

static uint32_t cells[CELLS], prepared_cells[CELLS];
static uint8_t file[KHON_PLAN_ENOUGH(KHON_PIECES_MAX, SIDE, SIDE)];
static size_t file_len;
static khon_job job;

/* ---- engines ---- */

typedef struct {
    const char *name;
    khon_changed (*open)(uint32_t, uint32_t, uint32_t *, size_t);
    khon_changed (*add)(khon_job, uint32_t *, size_t, khon_piece);
    khon_changed (*correct)(khon_job, uint32_t *, size_t, uint32_t, khon_piece);
    khon_changed (*remove)(khon_job, uint32_t *, size_t, uint32_t);
    khon_asked (*ask)(const uint8_t *, size_t, uint32_t *, size_t, uint32_t, uint32_t);
    khon_planned (*plan)(const uint8_t *, size_t, const uint32_t *, size_t, uint32_t, uint32_t,
                         uint8_t *, size_t);
    khon_checked (*check)(const uint8_t *, size_t);
} engine;

enum { LIBRARY, HAND, HERZ, DULL, ENGINES };

/* Only ask and plan find points; the dull scheme has ask alone. */
static const engine engines[ENGINES] = {
    [LIBRARY] = {"library", khon_open, khon_add, khon_correct, khon_remove, khon_ask, khon_plan, khon_check},
    [HAND] = {"hand", hand_open, hand_add, hand_correct, hand_remove, hand_ask, hand_plan, hand_check},
    [HERZ] = {"herz", NULL, NULL, NULL, NULL, herz_ask, herz_plan, NULL},
    [DULL] = {"dull", NULL, NULL, NULL, NULL, dull_ask, NULL, NULL}};

/* ---- cases ---- */

static void must(uint32_t refusal) {
    if (refusal != KHON_ACCEPTED) {
        printf("a case is refused with %u\n", refusal);
        exit(1);
    }
}

/* The job of an accepted change. */
static void take(khon_changed changed) {
    must(changed.refusal);
    job = changed.job;
}

static khon_piece piece(uint32_t p, uint32_t q, uint32_t v) {
    return (khon_piece){(uint16_t)p, (uint16_t)q, (uint16_t)v};
}

static void open_sheet(uint32_t a, uint32_t b) {
    take(hand_open(a, b, cells, CELLS));
}

static void add(khon_piece added) {
    take(hand_add(job, cells, CELLS, added));
}

static void correct(uint32_t k, uint32_t p, uint32_t q, uint32_t v) {
    take(hand_correct(job, cells, CELLS, k, piece(p, q, v)));
}

static khon_asked ask_with(const engine *e) {
    return e->ask((const uint8_t *)&job, KHON_BLOCK_LENGTH(job.count), cells, CELLS, job.width,
                  job.height);
}

static khon_planned plan_with(const engine *e) {
    return e->plan((const uint8_t *)&job, KHON_BLOCK_LENGTH(job.count), cells, CELLS, job.width,
                   job.height, file, sizeof file);
}

static void prepare_dense(void) {
    open_sheet(SIDE, SIDE);
    for (uint32_t i = 0; i < KHON_PIECES_MAX; i++)
        add(dense_piece(i));
}

static void prepare_table_1(void) {
    open_sheet(TABLE_1_WIDTH, TABLE_1_HEIGHT);
    for (uint32_t i = 0; i < TABLE_1_PIECES; i++)
        add(table_1[i]);
}

static void prepare_sparse(void) {
    open_sheet(SIDE, SIDE);
    add(piece(61, 83, 61 * 83));
    add(piece(97, 55, 97 * 55));
    add(piece(74, 71, 74 * 71));
}

static void prepare_corrected(uint32_t p, uint32_t q) {
    prepare_dense();
    correct(7, p, q, p * q / 2 + 1);
    must(ask_with(&engines[HAND]).refusal);
    correct(7, p, q, p * q / 2 + 2);
}

static void prepare_corrected_large(void) {
    prepare_corrected(200, 180);
}

static void prepare_corrected_small(void) {
    prepare_corrected(15, 12);
}

static void prepare_again(void) {
    prepare_dense();
    must(ask_with(&engines[HAND]).refusal);
}

/* Every square a piece of its own, 479 levels; the other pieces earn less. */
static void open_squares(uint32_t pieces) {
    open_sheet(SIDE, SIDE);
    add(piece(1, 1, KHON_VALUE_MAX));
    for (uint32_t i = 1; i < pieces; i++)
        add(piece(1 + i, 1 + 3 * i % KHON_PIECES_MAX, 7));
}

static void prepare_63(void) {
    open_squares(KHON_PIECES_MAX - 1);
}

static void prepare_64(void) {
    open_squares(KHON_PIECES_MAX);
}

static void prepare_plan_of(uint32_t pieces) {
    open_squares(pieces);
    must(ask_with(&engines[HAND]).refusal);
}

static void prepare_plan(void) {
    prepare_plan_of(1);
}

static void prepare_plan_64(void) {
    prepare_plan_of(KHON_PIECES_MAX);
}

static void prepare_check(void) {
    prepare_plan();
    khon_planned planned = plan_with(&engines[HAND]);
    must(planned.refusal);
    file_len = planned.length;
}

typedef enum { ADD, CORRECT, REMOVE, ASK, PLAN, CHECK } call;

static const struct {
    const char *name, *what;
    void (*prepare)(void);
    call which;
} cases[] = {
    {"dense", "ask 240 by 240, 64 pieces, cold", prepare_dense, ASK},
    {"table-1", "ask 127 by 98, 5 pieces (Herz, Table 1), cold", prepare_table_1, ASK},
    {"sparse", "ask 240 by 240, 3 large pieces, cold", prepare_sparse, ASK},
    {"corrected-large", "ask again, 200 by 180 corrected", prepare_corrected_large, ASK},
    {"corrected-small", "ask again, 15 by 12 corrected", prepare_corrected_small, ASK},
    {"again", "ask again, 240 by 240, 64 pieces, nothing changed", prepare_again, ASK},
    {"plan-dense", "plan of 240 by 240, 64 pieces, 2,323 bytes", prepare_again, PLAN},
    {"plan", "plan of 345,625 bytes, 1 piece", prepare_plan, PLAN},
    {"plan-64", "plan of 346,003 bytes, 64 pieces", prepare_plan_64, PLAN},
    {"check", "check of 345,625 bytes, 1 piece", prepare_check, CHECK},
    {"add", "add 1 by 1 to 63 pieces, 240 by 240", prepare_63, ADD},
    {"correct", "correct 1 by 1 of 64 pieces, 240 by 240", prepare_64, CORRECT},
    {"remove", "remove 1 by 1 of 64 pieces, 240 by 240", prepare_64, REMOVE},
};
enum { CASES = sizeof cases / sizeof *cases };

static int can(const engine *e, call which) {
    return which == ASK || (which == PLAN && e->plan != NULL) || e->check != NULL;
}

static khon_changed change_with(const engine *e, call which) {
    if (which == ADD)
        return e->add(job, cells, CELLS, piece(1, 1, 1));
    if (which == CORRECT)
        return e->correct(job, cells, CELLS, 1, piece(1, 1, 1));
    return e->remove(job, cells, CELLS, 1);
}

/* What the last call answered; it was accepted. */
typedef struct {
    khon_job job;
    khon_asked asked;
    khon_planned planned;
    khon_checked checked;
} answer;
static answer last;

static void work(const engine *e, call which) {
    if (which == ASK) {
        last.asked = ask_with(e);
        must(last.asked.refusal);
    } else if (which == PLAN) {
        last.planned = plan_with(e);
        must(last.planned.refusal);
    } else if (which == CHECK) {
        last.checked = e->check(file, file_len);
        must(last.checked.refusal);
    } else {
        khon_changed changed = change_with(e, which);
        must(changed.refusal);
        last.job = changed.job;
    }
}

/* ---- the commands ---- */

/* What a call left: its answer, the table and the file. */
typedef struct {
    answer answer;
    uint32_t cells[CELLS];
    uint8_t file[sizeof file];
} state;

static void take_state(state *now) {
    memset(now, 0, sizeof *now);
    now->answer = last;
    memcpy(now->cells, cells, sizeof *cells * job.width * job.height);
    memcpy(now->file, file, sizeof file);
}

/* The dull scheme works every cell out, so it makes no count. */
static int agree(void) {
    static state first, other;
    static uint8_t prepared_file[sizeof file];
    int bad = 0;
    for (int i = 0; i < CASES; i++) {
        cases[i].prepare();
        memcpy(prepared_cells, cells, sizeof cells);
        memcpy(prepared_file, file, sizeof file);
        for (int k = 0; k < ENGINES; k++) {
            if (!can(&engines[k], cases[i].which))
                continue;
            memcpy(cells, prepared_cells, sizeof cells);
            memcpy(file, prepared_file, sizeof file);
            memset(&last, 0, sizeof last);
            work(&engines[k], cases[i].which);
            if (k == DULL)
                last.asked.worked = first.answer.asked.worked;
            take_state(k == LIBRARY ? &first : &other);
            if (k != LIBRARY && memcmp(&first, &other, sizeof first) != 0) {
                printf("%s: %s differs from the library\n", cases[i].name, engines[k].name);
                bad = 1;
            }
        }
    }
    return bad;
}

static int find_case(const char *name) {
    for (int i = 0; i < CASES; i++)
        if (strcmp(name, cases[i].name) == 0)
            return i;
    return -1;
}

static int find_engine(const char *name) {
    for (int k = 0; k < ENGINES; k++)
        if (strcmp(name, engines[k].name) == 0)
            return k;
    return -1;
}

static void times(void) {
    for (int i = 0; i < CASES; i++) {
        cases[i].prepare();
        memcpy(prepared_cells, cells, sizeof cells);
        for (int k = 0; k < ENGINES; k++) {
            double least = 1e18;
            if (!can(&engines[k], cases[i].which))
                continue;
            for (int run = 0; run < RUNS; run++) {
                memcpy(cells, prepared_cells, sizeof cells);
                double start = microseconds();
                work(&engines[k], cases[i].which);
                double took = microseconds() - start;
                least = took < least ? took : least;
            }
            printf("%s %s %.1f\n", cases[i].name, engines[k].name, least);
        }
    }
}

/* ---- stack ---- */

static const engine *measured;

static void run_open(void) {
    must(measured->open(SIDE, SIDE, cells, CELLS).refusal);
}
static void run_add(void) {
    must(change_with(measured, ADD).refusal);
}
static void run_correct(void) {
    must(change_with(measured, CORRECT).refusal);
}
static void run_remove(void) {
    must(change_with(measured, REMOVE).refusal);
}
static void run_ask(void) {
    must(ask_with(measured).refusal);
}
static void run_plan(void) {
    must(plan_with(measured).refusal);
}
static void run_check(void) {
    must(measured->check(file, file_len).refusal);
}

/* A file of 479 levels, each line's first part the deeper one: lines at 239,
   238 .. 1 in width, then so in height, and all leaves scrap. Its job is the
   one at hand. */
static void write_leaning_file(void) {
    uint8_t *at = file;
    uint32_t lines = 2 * (SIDE - 1), block = KHON_BLOCK_LENGTH(job.count), sum = 1;
    uint32_t start = block + 3 * (2 * lines + 1);
    const uint32_t trailer[3] = {start, start - block, 0};
    memcpy(at, &job, block);
    at += block;
    for (uint32_t i = 0; i <= 2 * lines; i++, at += 3) {
        at[0] = i >= lines ? 'S' : i < lines / 2 ? 'V' : 'H';
        at[1] = i >= lines ? 0 : (uint8_t)(SIDE - 1 - i % (lines / 2));
        at[2] = 0;
    }
    memcpy(at, trailer, sizeof trailer);
    for (const uint8_t *byte = file; byte < at + 12; byte++)
        sum = 3 * sum + *byte;
    memcpy(at + 12, &sum, sizeof sum);
    file_len = start + 16;
}

/* Each call on 240 by 240 with 64 pieces (63 before an add), on its deepest plan. */
static void stack_use(void) {
    static const struct {
        const char *name;
        void (*prepare)(void), (*run)(void);
        call which;
    } runs[] = {
        {"open", prepare_63, run_open, CHECK},     {"add", prepare_63, run_add, ADD},
        {"correct", prepare_64, run_correct, CORRECT}, {"remove", prepare_64, run_remove, REMOVE},
        {"ask", prepare_64, run_ask, ASK},         {"ask again", prepare_plan_64, run_ask, ASK},
        {"plan", prepare_plan_64, run_plan, PLAN}, {"check", prepare_64, run_check, CHECK},
    };
    for (size_t i = 0; i < sizeof runs / sizeof *runs; i++) {
        printf("%s", runs[i].name);
        for (measured = engines; measured < engines + DULL; measured++) {
            if (!can(measured, runs[i].which)) {
                printf(" | -");
                continue;
            }
            runs[i].prepare();
            write_leaning_file();
            printf(" | %zu", deepest(runs[i].run));
        }
        printf("\n");
    }
}

int main(int count, char **words) {
    if (count == 2 && strcmp(words[1], "agree") == 0)
        return agree();
    if (count == 2 && strcmp(words[1], "times") == 0) {
        times();
        return 0;
    }
    if (count == 2 && strcmp(words[1], "stack") == 0) {
        stack_use();
        return 0;
    }
    if (count == 2 && strcmp(words[1], "cases") == 0) {
        for (int i = 0; i < CASES; i++)
            printf("%s|%s\n", cases[i].name, cases[i].what);
        return 0;
    }
    if (count == 5 && strcmp(words[1], "count") == 0) {
        int i = find_case(words[2]), k = find_engine(words[3]);
        if (i >= 0 && k >= 0 && can(&engines[k], cases[i].which)) {
            cases[i].prepare();
            if (strcmp(words[4], "1") == 0)
                work(&engines[k], cases[i].which);
            return 0;
        }
        return 3;
    }
    fprintf(stderr, "usage: bench agree | times | stack | cases | count CASE ENGINE 0|1\n");
    return 2;
}
