/*
 * Finding the points by itself: on the library's board, and in C in the four
 * ways of points.h.
 *
 *   alone agree                   all find the same P and Q
 *   alone count CASE ENGINE WORK  prepares the case; if WORK is 1, finds P and Q
 *   alone times                   the least of several runs, in microseconds
 *   alone stack                   stack in bytes
 *   alone cases                   their names
 *
 * The library makes a board with its points; without WORK, one without them
 * (alone/lib.rt.in), so that what is left is the points.
 */
#include <stdbool.h>
#include <stdio.h>
#include <string.h>

#include "jobs.h"
#include "measure.h"
#include "points.h"

enum { SIDE = KHON_SIDE_MAX, RUNS = 25 };

/* The marks of P and those of Q, read off the library's board. */
enum { MARKS = SIDE + 1 };
typedef struct {
    bool across[MARKS], up[MARKS];
} laid;
laid board_with_points(khon_job job);
laid board_without_points(khon_job job);
size_t board_marks(void);

static khon_job job;
static laid board;
static points p, q;

/* ---- cases ---- */

static void sheet(uint32_t width, uint32_t height) {
    job = (khon_job){(uint16_t)width, (uint16_t)height, 0, {{0, 0, 0}}};
}

static void add_piece(khon_piece piece) {
    job.pieces[job.count++] = piece;
}

static void add(uint32_t width, uint32_t height) {
    add_piece((khon_piece){(uint16_t)width, (uint16_t)height, 1});
}

static void prepare_dense(void) {
    sheet(SIDE, SIDE);
    for (uint32_t i = 0; i < KHON_PIECES_MAX; i++)
        add_piece(dense_piece(i));
}

static void prepare_all(void) {
    sheet(SIDE, SIDE);
    for (uint32_t i = 0; i < KHON_PIECES_MAX; i++)
        add(KHON_PIECES_MAX - i, KHON_PIECES_MAX - i);
}

static void prepare_none(void) {
    sheet(SIDE, SIDE);
    for (uint32_t i = 1; i <= KHON_PIECES_MAX; i++)
        add(SIDE + i, KHON_SIZE_MAX + 1 - i);
}

static void prepare_late(void) {
    sheet(SIDE, SIDE);
    for (uint32_t i = 1; i <= KHON_PIECES_MAX; i++)
        add(SIDE / 2 + i, SIDE + 1 - i);
}

static void prepare_middle(void) {
    sheet(SIDE, SIDE);
    for (uint32_t i = 0; i < KHON_PIECES_MAX; i++)
        add(64 + i, 127 - i);
}

static void prepare_twos(void) {
    sheet(SIDE, SIDE);
    add(2, 3);
}

static void prepare_evens(void) {
    sheet(SIDE, SIDE);
    for (uint32_t i = 0; i < 20; i++)
        add(40 + 2 * i, 40 + 2 * i);
}

static void prepare_table_1(void) {
    sheet(TABLE_1_WIDTH, TABLE_1_HEIGHT);
    for (uint32_t i = 0; i < TABLE_1_PIECES; i++)
        add_piece(table_1[i]);
}

static const struct {
    const char *name, *what;
    void (*prepare)(void);
} cases[] = {
    {"dense", "240 by 240, 64 pieces of 9 to 75", prepare_dense},
    {"all", "240 by 240, 64 pieces of 1 to 64: every position", prepare_all},
    {"none", "240 by 240, 64 pieces too large: no position", prepare_none},
    {"late", "240 by 240, 64 pieces of 121 to 240: no sum of two", prepare_late},
    {"middle", "240 by 240, 64 pieces of 64 to 127", prepare_middle},
    {"evens", "240 by 240, 20 pieces of 40, 42 .. 78: half reached", prepare_evens},
    {"twos", "240 by 240, one piece 2 by 3", prepare_twos},
    {"table-1", "127 by 98, 5 pieces (Herz, Table 1)", prepare_table_1},
};
enum { CASES = sizeof cases / sizeof *cases };

/* ---- engines ---- */

static void library_with(void) {
    board = board_with_points(job);
}
static void library_without(void) {
    board = board_without_points(job);
}
static void hand(void) {
    stepped_points(&job, 0, &p);
    stepped_points(&job, 1, &q);
}
static void passed(void) {
    passed_points(&job, 0, &p);
    passed_points(&job, 1, &q);
}
static void herz(void) {
    listed_points(&job, 0, &p);
    listed_points(&job, 1, &q);
}
static void copied(void) {
    copied_points(&job, 0, &p);
    copied_points(&job, 1, &q);
}
static void nothing(void) {
}

static const struct {
    const char *name;
    void (*with)(void), (*without)(void);
} engines[] = {{"library", library_with, library_without},
               {"hand", hand, nothing},
               {"passed", passed, nothing},
               {"herz", herz, nothing},
               {"copied", copied, nothing}};
enum { ENGINES = sizeof engines / sizeof *engines };

/* ---- the commands ---- */

/* The marks of a list, on the board that the library laid out, are all of them. */
static int is_marked(const bool *marks, const points *list) {
    bool own[MARKS] = {0};
    for (uint32_t i = 0; i < list->count; i++)
        own[list->at[i]] = true;
    return memcmp(own, marks, sizeof own) == 0;
}

static int agree(void) {
    int bad = 0;
    for (int i = 0; i < CASES; i++) {
        cases[i].prepare();
        library_with();
        for (int k = 1; k < ENGINES; k++) {
            engines[k].with();
            if (!is_marked(board.across, &p) || !is_marked(board.up, &q)) {
                printf("%s: %s differs from the library\n", cases[i].name, engines[k].name);
                bad = 1;
            }
        }
    }
    return bad;
}

static double least_time(void (*run)(void)) {
    double least = 1e18;
    for (int i = 0; i < RUNS; i++) {
        double start = microseconds(), took;
        run();
        took = microseconds() - start;
        least = took < least ? took : least;
    }
    return least;
}

static void times(void) {
    for (int i = 0; i < CASES; i++) {
        cases[i].prepare();
        for (int k = 0; k < ENGINES; k++)
            printf("%s %s %.1f\n", cases[i].name, engines[k].name,
                   least_time(engines[k].with) - least_time(engines[k].without));
    }
}

/* The most over all cases, with the points and without them. */
static void stack_use(void) {
    for (int k = 0; k < ENGINES; k++) {
        size_t with = 0, without = 0;
        for (int i = 0; i < CASES; i++) {
            size_t used;
            cases[i].prepare();
            used = deepest(engines[k].with);
            with = used > with ? used : with;
            used = deepest(engines[k].without);
            without = used > without ? used : without;
        }
        printf("%s | %zu | %zu\n", engines[k].name, with, without);
    }
    printf("two lists of points %zu\n", sizeof p + sizeof q);
}

static int count(const char *name, const char *engine, int work) {
    for (int i = 0; i < CASES; i++)
        for (int k = 0; k < ENGINES; k++)
            if (strcmp(name, cases[i].name) == 0 && strcmp(engine, engines[k].name) == 0) {
                cases[i].prepare();
                (work ? engines[k].with : engines[k].without)();
                return 0;
            }
    return 3;
}

int main(int words, char **word) {
    if (board_marks() != MARKS) {
        fprintf(stderr, "alone: the library's board has %zu marks of a side, not %d\n", board_marks(), MARKS);
        return 1;
    }
    if (words == 2 && strcmp(word[1], "agree") == 0)
        return agree();
    if (words == 2 && strcmp(word[1], "times") == 0) {
        times();
        return 0;
    }
    if (words == 2 && strcmp(word[1], "stack") == 0) {
        stack_use();
        return 0;
    }
    if (words == 2 && strcmp(word[1], "cases") == 0) {
        for (int i = 0; i < CASES; i++)
            printf("%s|%s\n", cases[i].name, cases[i].what);
        return 0;
    }
    if (words == 5 && strcmp(word[1], "count") == 0)
        return count(word[2], word[3], strcmp(word[4], "1") == 0);
    fprintf(stderr, "usage: alone agree | times | stack | cases | count CASE ENGINE 0|1\n");
    return 2;
}
