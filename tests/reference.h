/*
 * A reference of all calls, by docs/RULES.md and docs/FORMAT.md alone. It shares
 * no line with the library: it is plain where that is quick, and it is believed
 * only because it is short, because each function cites the rules that it
 * follows, and because the sheets of section 12 are tried on it first (sheets.c).
 */
#ifndef REFERENCE_H
#define REFERENCE_H

#include <stddef.h>
#include <stdint.h>

enum {
    REF_SIDE_MAX = 240,
    REF_PIECES_MAX = 64,
    REF_SIZE_MAX = 4095,
    REF_VALUE_MAX = 65535,
    REF_FILE_MIN = 25,
    REF_FILE_MAX = 1048576,
    REF_CELLS_MAX = REF_SIDE_MAX * REF_SIDE_MAX,
    REF_HEADER = 6,
    REF_RECORD = 6,
    REF_NODE = 3,
    REF_TRAILER = 16,
    REF_BLOCK_MAX = REF_HEADER + REF_RECORD * REF_PIECES_MAX,
    REF_PLAN_MAX = REF_BLOCK_MAX + REF_NODE * (2 * REF_CELLS_MAX - 1) + REF_TRAILER
};

#define REF_EMPTY UINT32_C(4294967295)

typedef struct {
    uint16_t width, height, value;
} ref_piece;

typedef struct {
    uint16_t width, height, count;
    ref_piece pieces[64];
} ref_job;

typedef struct {
    uint32_t refusal;
    ref_job job;
} ref_changed;

typedef struct {
    uint32_t refusal, value, worked;
} ref_asked;

typedef struct {
    uint32_t refusal, length, value;
} ref_planned;

typedef struct {
    uint32_t refusal, value, note, piece_area, scrap_area;
} ref_checked;

ref_changed ref_open(uint32_t width, uint32_t height, uint32_t *cells, size_t cells_len);
ref_changed ref_add(ref_job job, uint32_t *cells, size_t cells_len, ref_piece piece);
ref_changed ref_correct(ref_job job, uint32_t *cells, size_t cells_len, uint32_t number,
                        ref_piece piece);
ref_changed ref_remove(ref_job job, uint32_t *cells, size_t cells_len, uint32_t number);
ref_asked ref_ask(const uint8_t *block, size_t block_len, uint32_t *cells, size_t cells_len,
                  uint32_t x, uint32_t y);
ref_planned ref_plan(const uint8_t *block, size_t block_len, const uint32_t *cells,
                     size_t cells_len, uint32_t x, uint32_t y, uint8_t *file, size_t file_len);
ref_checked ref_check(const uint8_t *file, size_t file_len);

/* What the tests want to know besides. */

/* The place of cell (x, y) in the row (rule 4.1). */
size_t ref_cell(uint32_t a, uint32_t x, uint32_t y);

/* Is piece a piece (rule 7.4), is job a job (rule 7.1)? */
int ref_piece_in_range(ref_piece piece);
int ref_job_in_range(const ref_job *job);

/* The best value of every rectangle of the sheet, by the definition (rule 2.6):
   scrap, an exact piece, or any line at all. No points, no halves. */
void ref_best(const ref_job *job, uint32_t *best);

/* P (or, if tall, Q; rules 3.1 to 3.3): marks[s] for s from 1 to the side; answers
   their number. */
uint32_t ref_points(const ref_job *job, int tall, uint8_t marks[REF_SIDE_MAX + 1]);

/* The job block of a job (rule 8.4), whatever its numbers are; answers its length. */
size_t ref_block(const ref_job *job, uint8_t block[REF_BLOCK_MAX]);

/* The running sum of so many bytes (rule 8.9), and little-endian numbers (rule 8.1). */
uint32_t ref_sum(const uint8_t *bytes, size_t length);
uint32_t ref_get16(const uint8_t *at);
uint32_t ref_get32(const uint8_t *at);
void ref_put16(uint8_t *at, uint32_t number);
void ref_put32(uint8_t *at, uint32_t number);

/* How often each of rules 6.1 to 6.6 has struck in ref_plan, at 1 to 6, and at 0 how
   often it refused a cell above its bound (rule 7.7): for the tests' account of
   what they met. */
extern unsigned long ref_rule_struck[7];

#endif
