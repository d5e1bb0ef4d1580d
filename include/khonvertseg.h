/*
 * Khonvertseg: the best guillotine cutting of one sheet into valued pieces.
 *
 * For C99 or later, and for C++. Link with libkhonvertseg.a or
 * libkhonvertseg.so (x86-64). Everything here works on what the caller lends:
 * the library allocates nothing, keeps nothing between two calls and has no
 * global state, so calls on different rows may run at the same time in
 * different threads.
 *
 * THE JOB. One sheet, width by height in whole units, and up to 64 kinds of
 * piece with the numbers 1, 2 and so on; of each kind any number may be cut,
 * and none is turned. Every cut goes from one edge to the opposite one, and
 * what it leaves is cut again likewise. A rectangle's best value is the most
 * that any such cutting of it can earn.
 *
 * THE TABLE. A row of 32-bit cells that the caller keeps beside the job, one
 * cell for each rectangle x by y that fits the sheet, at KHON_CELL(width, x, y).
 * KHON_EMPTY means that the cell isn't worked out. khon_open empties the
 * table; a change of the pieces empties just the cells that it may touch;
 * khon_ask fills what a question needs. Hand the job and the row from each
 * call to the next, and write neither yourself, then a filled cell holds the
 * best value for the pieces as they stand. A table from elsewhere is worked on
 * by the same rules, but its numbers are your own affair.
 *
 * THE JOB BLOCK. khon_ask and khon_plan take the job as bytes: width, height,
 * count, then width, height, value of each piece, two bytes each, the low byte
 * first. On x86-64 a khon_job begins with its own block:
 *
 *     khon_ask((const uint8_t *)&job, KHON_BLOCK_LENGTH(job.count), ...)
 *
 * POINTERS. None may be null, not even with length 0. Cells must be aligned as
 * uint32_t is; bytes need no alignment. A length counts elements (cells, or
 * bytes), all of which must be yours to read, and to write where the
 * pointer isn't const. Rows lent to one call must not overlap. Nothing outside
 * the lent rows is read or written. The library can't check any of this.
 *
 * STACK. No call takes more stack than KHON_STACK_PLAN, KHON_STACK_CHECK or
 * KHON_STACK_OTHER names, whatever is lent: plan and check go down one level
 * for each line inside another, 479 at most. What memcpy and memset take, or
 * the linker at their first call, comes on top. tests/stack.c runs every call
 * on a thread with that much.
 *
 * REFUSALS. Every answer has a refusal number, 0 when the call is accepted.
 * A refused call changes nothing lent; its other numbers are 0, and the job
 * comes back as it was given (from khon_open: a job of zeros, and whatever
 * call is given that refuses it with 1). Tests go in the order of numbers, so
 * the number is the least that applies. khon_refusal_text has words for
 * each number.
 */
#ifndef KHONVERTSEG_H
#define KHONVERTSEG_H

#include <stddef.h>
#include <stdint.h>

#ifdef __cplusplus
extern "C" {
#endif

/* The first number is raised when callers have to look at their code (a struct
   or a call changed, or a call gives another refusal), the second when
   something is added that they need not know, the third for all else. */
#define KHON_VERSION "1.1.0"

/* Limits. Every number below is at least 1, except the count of pieces. */
#define KHON_SIDE_MAX 240     /* a sheet's width and its height */
#define KHON_PIECES_MAX 64    /* kinds of piece in a job; none is allowed */
#define KHON_SIZE_MAX 4095    /* a piece's width and its height; one that is
                                 larger than the sheet is never cut */
#define KHON_VALUE_MAX 65535  /* a piece's value */
#define KHON_FILE_MIN 25      /* bytes of a plan file that is checked, least */
#define KHON_FILE_MAX 1048576 /* and most, its note included */

/* Bytes of stack that are enough: for khon_plan, for khon_check (a stranger's
   file chooses its depth), and for every other call. */
#define KHON_STACK_PLAN 73728
#define KHON_STACK_CHECK 43008
#define KHON_STACK_OTHER 6144

/* A cell that isn't worked out. */
#define KHON_EMPTY UINT32_C(4294967295)

/* Where the table of a sheet of this width has the rectangle x by y. */
#define KHON_CELL(width, x, y) \
    (((size_t)(y)-1) * (size_t)(width) + ((size_t)(x)-1))

/* Bytes of the job block of a job with so many pieces. */
#define KHON_BLOCK_LENGTH(count) (6 + 6 * (size_t)(count))

/* Bytes that are enough for the plan of x by y in a job with so many pieces:
   the block, the nodes (fewer than two for each unit square, three bytes
   each) and the trailer. */
#define KHON_PLAN_ENOUGH(count, x, y) \
    (KHON_BLOCK_LENGTH(count) + 3 * (2 * (size_t)(x) * (size_t)(y)-1) + 16)

/* Refusal numbers: which calls give them, and exactly when. */
#define KHON_ACCEPTED 0
#define KHON_BAD_JOB 1       /* open, add, correct, remove, ask, plan: a side,
                                the count or one of the pieces is out of range;
                                ask, plan: also a block of fewer than 6 bytes,
                                or not of 6 + 6 * count bytes */
#define KHON_SHORT_TABLE 2   /* open, add, correct, remove, ask, plan: fewer
                                than width * height cells are lent */
#define KHON_OUTSIDE 3       /* correct, remove: the number isn't 1 to count;
                                ask, plan: x isn't 1 to width or y isn't 1 to
                                height */
#define KHON_BAD_PIECE 4     /* add, correct: the new piece is out of range */
#define KHON_FULL 5          /* add: the job has 64 pieces already */
#define KHON_NOT_ASKED 6     /* plan: a cell (u, w), u <= x and w <= y, is
                                empty; ask for x by y first */
#define KHON_ALIEN_TABLE 7   /* ask, plan: a cell (u, w), u <= x and w <= y,
                                isn't empty and exceeds u * w * 65535; plan:
                                also, a cell's number is explained by no piece
                                and by no two cells of a line that is tried
                                (rule 6.6). Never on a table that these calls
                                kept */
#define KHON_SHORT_BUFFER 8  /* plan: the file is longer than the buffer */
#define KHON_NO_PLAN_FILE 9  /* check: the length is out of range, or the
                                trailer's way back to the job block is under 9
                                or leads out of the file */
#define KHON_BAD_SUM 10      /* check: the running sum differs */
#define KHON_BAD_BLOCK 11    /* check: the job block is out of range, or the
                                trailer's two ways back disagree with it */
#define KHON_BAD_NODES 12    /* check: a letter other than V, H, P and S; an S
                                whose number isn't 0; a P without such a piece,
                                or not of its size; a line on an edge or beyond
                                it; nodes that are missing or left over */
#define KHON_BAD_VALUE 13    /* check: the value stated isn't the sum of the
                                pieces cut */

/* What a refusal number says, in a few words for a message or a log: no
   capital, no full stop, no line feed. Any number has some, none is null. */
static inline const char *khon_refusal_text(uint32_t refusal) {
    switch (refusal) {
    case KHON_ACCEPTED:
        return "accepted";
    case KHON_BAD_JOB:
        return "the job is out of range, or its block has the wrong length";
    case KHON_SHORT_TABLE:
        return "the table has fewer cells than width times height";
    case KHON_OUTSIDE:
        return "no piece has this number, or the rectangle isn't inside the sheet";
    case KHON_BAD_PIECE:
        return "the new piece is out of range";
    case KHON_FULL:
        return "the job has as many pieces as it can have";
    case KHON_NOT_ASKED:
        return "a cell under the rectangle is empty: ask first";
    case KHON_ALIEN_TABLE:
        return "some cell of the table is wrong: these calls didn't keep it";
    case KHON_SHORT_BUFFER:
        return "the plan file is longer than the buffer";
    case KHON_NO_PLAN_FILE:
        return "not a plan file: its length or its way back to the block is out of range";
    case KHON_BAD_SUM:
        return "the plan file's running sum differs";
    case KHON_BAD_BLOCK:
        return "the plan file's block is out of range, or its trailer disagrees with it";
    case KHON_BAD_NODES:
        return "the plan file's nodes break a rule";
    case KHON_BAD_VALUE:
        return "the plan file's value isn't the sum of the pieces cut";
    default:
        return "unknown refusal number";
    }
}

/* A kind of piece: its size in units, and what one of it earns. */
typedef struct {
    uint16_t width, height, value;
} khon_piece;

/* A sheet and its pieces; piece number k is pieces[k - 1]. Records from
   pieces[count] on aren't read. */
typedef struct {
    uint16_t width, height, count;
    khon_piece pieces[KHON_PIECES_MAX];
} khon_job;

/* The answer of a call that makes or changes a job. Accepted, its records from
   pieces[count] on are zeros. */
typedef struct {
    uint32_t refusal;
    khon_job job;
} khon_changed;

/* The best value, and the number of cells that were worked out for it. */
typedef struct {
    uint32_t refusal, value, worked;
} khon_asked;

/* The bytes written, and the value of the plan. */
typedef struct {
    uint32_t refusal, length, value;
} khon_planned;

/* What a plan file holds: its value, the bytes of note before its job block,
   the area of the pieces cut and that of the scrap; the two areas together are
   the area of the rectangle planned. */
typedef struct {
    uint32_t refusal, value, note, piece_area, scrap_area;
} khon_checked;

/* Opens a job with no pieces on a sheet of width by height.
   Lent: cells, of which the first width * height are emptied (they may hold
   anything before); those after stay, here and in every other call.
   Refusals: 1, 2; a refused open returns a job of zeros. */
khon_changed khon_open(uint32_t width, uint32_t height, uint32_t *cells,
                       size_t cells_len);

/* Adds a piece; its number is the new count.
   Lent: cells; those (x, y) where the piece fits, its width <= x and its
   height <= y, are emptied, all others stay.
   Refusals: 1, 2, 4, 5. */
khon_changed khon_add(khon_job job, uint32_t *cells, size_t cells_len,
                      khon_piece piece);

/* Puts another piece in the place of piece number `number`.
   Lent: cells; those where the old or the new size fits are emptied, also when
   the two pieces are equal; all others stay.
   Refusals: 1, 2, 3, 4. */
khon_changed khon_correct(khon_job job, uint32_t *cells, size_t cells_len,
                          uint32_t number, khon_piece piece);

/* Takes out piece number `number`; each one after it gets a number one less.
   Lent: cells; those where that piece fits are emptied, all others stay.
   Refusals: 1, 2, 3. */
khon_changed khon_remove(khon_job job, uint32_t *cells, size_t cells_len,
                         uint32_t number);

/* The best value of x by y, and how many cells were worked out: those of the
   box u <= x, w <= y that were empty.
   Lent: block, read only; cells, of which the empty ones in that box are
   filled, all others stay. The second of two equal questions works out none.
   Refusals: 1, 2, 3, 7. */
khon_asked khon_ask(const uint8_t *block, size_t block_len, uint32_t *cells,
                    size_t cells_len, uint32_t x, uint32_t y);

/* Writes a plan that earns the number in the cell of x by y. Each cell of the
   box u <= x, w <= y must be filled: it is when x by y, or a rectangle at least
   as wide and as high, was asked and no change was accepted after that.
   Lent: block and cells, read only; file, of which the first `length` bytes
   of the answer are written and those after stay. The plan file has no note
   and its block states x by y. KHON_PLAN_ENOUGH bytes always hold it.
   Refusals: 1, 2, 3, 6, 7, 8. */
khon_planned khon_plan(const uint8_t *block, size_t block_len,
                       const uint32_t *cells, size_t cells_len, uint32_t x,
                       uint32_t y, uint8_t *file, size_t file_len);

/* Checks a plan file from anywhere: that it is whole, that its nodes cut its
   rectangle as the rules say, and that the pieces cut earn the stated value.
   That the value is the best one isn't checked.
   Lent: file, read only; a note of any bytes may stand before its job block.
   Refusals: 9 to 13. */
khon_checked khon_check(const uint8_t *file, size_t file_len);

#ifdef __cplusplus
}
#endif

#endif
