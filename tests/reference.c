/* See reference.h. Each function cites the rules that it follows. */
#include "reference.h"

#include <string.h>

unsigned long ref_rule_struck[7];

/* ---- numbers in bytes ---- */

/* Two bytes are read, the lowest first (rule 8.1). */
uint32_t ref_get16(const uint8_t *at) {
    return (uint32_t)at[0] + 256u * at[1];
}

/* Four bytes are read (rule 8.1). */
uint32_t ref_get32(const uint8_t *at) {
    return ref_get16(at) + 65536u * ref_get16(at + 2);
}

/* Two bytes are written (rule 8.1). */
void ref_put16(uint8_t *at, uint32_t number) {
    at[0] = (uint8_t)(number % 256);
    at[1] = (uint8_t)(number / 256 % 256);
}

/* Four bytes are written (rule 8.1). */
void ref_put32(uint8_t *at, uint32_t number) {
    ref_put16(at, number % 65536);
    ref_put16(at + 2, number / 65536);
}

/* From 1 on, byte by byte: three times the sum so far and the byte, modulo 2^32
   (rule 8.9). */
uint32_t ref_sum(const uint8_t *bytes, size_t length) {
    uint64_t sum = 1;
    for (size_t i = 0; i < length; i++)
        sum = (3 * sum + bytes[i]) % UINT64_C(4294967296);
    return (uint32_t)sum;
}

/* ---- the job ---- */

/* Least and most belong to a range (rules 1.2 to 1.6). */
static int within(uint64_t number, uint64_t least, uint64_t most) {
    return least <= number && number <= most;
}

/* Size and value of a piece (rules 1.4 and 1.5). */
int ref_piece_in_range(ref_piece piece) {
    return within(piece.width, 1, REF_SIZE_MAX) && within(piece.height, 1, REF_SIZE_MAX) &&
           within(piece.value, 1, REF_VALUE_MAX);
}

/* The sides, n and the first n pieces (rules 1.2 to 1.5); nothing behind them is
   looked at (rule 4.12). */
int ref_job_in_range(const ref_job *job) {
    if (!within(job->width, 1, REF_SIDE_MAX) || !within(job->height, 1, REF_SIDE_MAX))
        return 0;
    if (job->count > REF_PIECES_MAX)
        return 0;
    for (uint32_t i = 0; i < job->count; i++)
        if (!ref_piece_in_range(job->pieces[i]))
            return 0;
    return 1;
}

/* Sides, n and pieces, two bytes each (rule 8.4); 64 pieces where n is above that. */
size_t ref_block(const ref_job *job, uint8_t block[REF_BLOCK_MAX]) {
    uint32_t held = job->count <= REF_PIECES_MAX ? job->count : REF_PIECES_MAX;
    ref_put16(block, job->width);
    ref_put16(block + 2, job->height);
    ref_put16(block + 4, job->count);
    for (uint32_t i = 0; i < held; i++) {
        uint8_t *record = block + REF_HEADER + REF_RECORD * i;
        ref_put16(record, job->pieces[i].width);
        ref_put16(record + 2, job->pieces[i].height);
        ref_put16(record + 4, job->pieces[i].value);
    }
    return REF_HEADER + REF_RECORD * held;
}

/* Reads a job from bytes that have room for its pieces (rule 8.4); 0 if n is above
   64 (rule 1.3). */
static int read_job(const uint8_t *block, ref_job *job) {
    memset(job, 0, sizeof *job);
    job->width = (uint16_t)ref_get16(block);
    job->height = (uint16_t)ref_get16(block + 2);
    job->count = (uint16_t)ref_get16(block + 4);
    if (job->count > REF_PIECES_MAX)
        return 0;
    for (uint32_t i = 0; i < job->count; i++) {
        const uint8_t *record = block + REF_HEADER + REF_RECORD * i;
        job->pieces[i].width = (uint16_t)ref_get16(record);
        job->pieces[i].height = (uint16_t)ref_get16(record + 2);
        job->pieces[i].value = (uint16_t)ref_get16(record + 4);
    }
    return 1;
}

/* The job that was lent as bytes; 0 if they are no job block, or it isn't in its
   ranges (rules 4.14 and 7.1). */
static int lent_job(const uint8_t *block, size_t block_len, ref_job *job) {
    if (block_len < REF_HEADER)
        return 0;
    if (block_len != REF_HEADER + REF_RECORD * (size_t)ref_get16(block + 4))
        return 0;
    return read_job(block, job) && ref_job_in_range(job);
}

/* ---- the table ---- */

/* Row after row of a cells, from (1, 1) on (rule 4.1). */
size_t ref_cell(uint32_t a, uint32_t x, uint32_t y) {
    return (size_t)(y - 1) * a + (x - 1);
}

/* Fewer cells are lent than the sheet has (rule 7.2). */
static int table_is_short(const ref_job *job, size_t cells_len) {
    return cells_len < (size_t)job->width * job->height;
}

/* The size goes into x by y (rule 5.1). */
static int fits(ref_piece piece, uint32_t x, uint32_t y) {
    return piece.width <= x && piece.height <= y;
}

/* Empties the cells where the size fits, and no other (rules 5.2 and 5.3). */
static void empty_where_fits(const ref_job *job, uint32_t *cells, ref_piece piece) {
    for (uint32_t y = 1; y <= job->height; y++)
        for (uint32_t x = 1; x <= job->width; x++)
            if (fits(piece, x, y))
                cells[ref_cell(job->width, x, y)] = REF_EMPTY;
}

/* ---- open, add, correct, remove ---- */

/* A refusal: its number, and the job untouched (rule 4.15). */
static ref_changed unchanged(uint32_t refusal, const ref_job *job) {
    ref_changed answer;
    memset(&answer, 0, sizeof answer);
    answer.refusal = refusal;
    answer.job = *job;
    return answer;
}

/* Accepted: number 0 (rule 4.15), these pieces, and zeros behind them (rule 4.12). */
static ref_changed changed(const ref_job *job, const ref_piece *pieces, uint32_t count) {
    ref_changed answer;
    memset(&answer, 0, sizeof answer);
    answer.job.width = job->width;
    answer.job.height = job->height;
    answer.job.count = (uint16_t)count;
    for (uint32_t i = 0; i < count; i++)
        answer.job.pieces[i] = pieces[i];
    return answer;
}

/* Open (rule 4.4); refused by rules 7.1 and 7.2, with a job of zeros (rule 4.17). */
ref_changed ref_open(uint32_t width, uint32_t height, uint32_t *cells, size_t cells_len) {
    ref_job none, fresh;
    memset(&none, 0, sizeof none);
    if (!within(width, 1, REF_SIDE_MAX) || !within(height, 1, REF_SIDE_MAX))
        return unchanged(1, &none);
    fresh = none;
    fresh.width = (uint16_t)width;
    fresh.height = (uint16_t)height;
    if (table_is_short(&fresh, cells_len))
        return unchanged(2, &none);
    for (size_t i = 0; i < (size_t)width * height; i++)
        cells[i] = REF_EMPTY;
    return changed(&fresh, fresh.pieces, 0);
}

/* Add (rules 4.5 and 5.2); refused by rules 7.1 and 7.2, then rules 7.4 and 7.5. */
ref_changed ref_add(ref_job job, uint32_t *cells, size_t cells_len, ref_piece piece) {
    ref_piece pieces[REF_PIECES_MAX];
    if (!ref_job_in_range(&job))
        return unchanged(1, &job);
    if (table_is_short(&job, cells_len))
        return unchanged(2, &job);
    if (!ref_piece_in_range(piece))
        return unchanged(4, &job);
    if (job.count == REF_PIECES_MAX)
        return unchanged(5, &job);
    memcpy(pieces, job.pieces, sizeof pieces);
    pieces[job.count] = piece;
    empty_where_fits(&job, cells, piece);
    return changed(&job, pieces, job.count + 1u);
}

/* Correct (rules 4.6 and 5.2), equal pieces too; refused by rules 7.1 to 7.4. */
ref_changed ref_correct(ref_job job, uint32_t *cells, size_t cells_len, uint32_t number,
                        ref_piece piece) {
    ref_piece pieces[REF_PIECES_MAX];
    if (!ref_job_in_range(&job))
        return unchanged(1, &job);
    if (table_is_short(&job, cells_len))
        return unchanged(2, &job);
    if (!within(number, 1, job.count))
        return unchanged(3, &job);
    if (!ref_piece_in_range(piece))
        return unchanged(4, &job);
    memcpy(pieces, job.pieces, sizeof pieces);
    empty_where_fits(&job, cells, pieces[number - 1]);
    empty_where_fits(&job, cells, piece);
    pieces[number - 1] = piece;
    return changed(&job, pieces, job.count);
}

/* Remove (rules 4.7 and 5.2); refused by rules 7.1 to 7.3. */
ref_changed ref_remove(ref_job job, uint32_t *cells, size_t cells_len, uint32_t number) {
    ref_piece pieces[REF_PIECES_MAX];
    uint32_t left = 0;
    if (!ref_job_in_range(&job))
        return unchanged(1, &job);
    if (table_is_short(&job, cells_len))
        return unchanged(2, &job);
    if (!within(number, 1, job.count))
        return unchanged(3, &job);
    empty_where_fits(&job, cells, job.pieces[number - 1]);
    for (uint32_t k = 1; k <= job.count; k++)
        if (k != number)
            pieces[left++] = job.pieces[k - 1];
    return changed(&job, pieces, left);
}

/* ---- points ---- */

/* P or Q (rules 3.1 to 3.3): from 1 up to the side, a number is a point when it is
   a size, or a size more than a point. */
uint32_t ref_points(const ref_job *job, int tall, uint8_t marks[REF_SIDE_MAX + 1]) {
    uint32_t side = tall ? job->height : job->width, members = 0;
    memset(marks, 0, REF_SIDE_MAX + 1);
    for (uint32_t s = 1; s <= side; s++) {
        for (uint32_t i = 0; i < job->count; i++) {
            uint32_t size = tall ? job->pieces[i].height : job->pieces[i].width;
            if (size == s || (size < s && marks[s - size]))
                marks[s] = 1;
        }
        members += marks[s];
    }
    return members;
}

/* ---- ask ---- */

/* A filled cell of the box is above the bound of its area (rule 7.7). */
static int cell_exceeds(const ref_job *job, const uint32_t *cells, uint32_t x, uint32_t y) {
    for (uint32_t w = 1; w <= y; w++)
        for (uint32_t u = 1; u <= x; u++) {
            uint32_t cell = cells[ref_cell(job->width, u, w)];
            if (cell != REF_EMPTY && cell > (uint64_t)u * w * 65535)
                return 1;
        }
    return 0;
}

/* x by y is no rectangle of the sheet (rule 7.3). */
static int question_outside(const ref_job *job, uint32_t x, uint32_t y) {
    return !within(x, 1, job->width) || !within(y, 1, job->height);
}

/* The largest candidate of cell (u, w): nothing, a piece that fits, a line at a
   point up to half (rule 4.8). */
static uint32_t worth(const ref_job *job, const uint32_t *cells, const uint8_t *in_p,
                      const uint8_t *in_q, uint32_t u, uint32_t w) {
    uint32_t a = job->width;
    uint64_t largest = 0, candidate;
    for (uint32_t i = 0; i < job->count; i++)
        if (fits(job->pieces[i], u, w) && job->pieces[i].value > largest)
            largest = job->pieces[i].value;
    for (uint32_t c = 1; 2 * c <= u; c++)
        if (in_p[c]) {
            candidate = (uint64_t)cells[ref_cell(a, c, w)] + cells[ref_cell(a, u - c, w)];
            if (candidate > largest)
                largest = candidate;
        }
    for (uint32_t d = 1; 2 * d <= w; d++)
        if (in_q[d]) {
            candidate = (uint64_t)cells[ref_cell(a, u, d)] + cells[ref_cell(a, u, w - d)];
            if (candidate > largest)
                largest = candidate;
        }
    return (uint32_t)largest;
}

/* Ask (rules 4.8 and 4.9): rows upwards, each from the left, so that the cells on
   both sides of a line have their last numbers; refused by rules 7.1 to 7.3, then
   rule 7.7. */
ref_asked ref_ask(const uint8_t *block, size_t block_len, uint32_t *cells, size_t cells_len,
                  uint32_t x, uint32_t y) {
    ref_job job;
    uint8_t in_p[REF_SIDE_MAX + 1], in_q[REF_SIDE_MAX + 1];
    uint32_t worked = 0;
    if (!lent_job(block, block_len, &job))
        return (ref_asked){1, 0, 0};
    if (table_is_short(&job, cells_len))
        return (ref_asked){2, 0, 0};
    if (question_outside(&job, x, y))
        return (ref_asked){3, 0, 0};
    if (cell_exceeds(&job, cells, x, y))
        return (ref_asked){7, 0, 0};
    ref_points(&job, 0, in_p);
    ref_points(&job, 1, in_q);
    for (uint32_t w = 1; w <= y; w++)
        for (uint32_t u = 1; u <= x; u++) {
            uint32_t *cell = &cells[ref_cell(job.width, u, w)];
            if (*cell == REF_EMPTY) {
                *cell = worth(&job, cells, in_p, in_q, u, w);
                worked++;
            }
        }
    return (ref_asked){0, cells[ref_cell(job.width, x, y)], worked};
}

/* ---- the best value, by its definition ---- */

/* The most of the four ways of rules 2.2 to 2.5, for each rectangle (rule 2.6). */
void ref_best(const ref_job *job, uint32_t *best) {
    uint32_t a = job->width;
    for (uint32_t y = 1; y <= job->height; y++)
        for (uint32_t x = 1; x <= a; x++) {
            uint32_t most = 0; /* scrap */
            for (uint32_t i = 0; i < job->count; i++)
                if (job->pieces[i].width == x && job->pieces[i].height == y &&
                    job->pieces[i].value > most)
                    most = job->pieces[i].value;
            for (uint32_t c = 1; c < x; c++) {
                uint32_t sum = best[ref_cell(a, c, y)] + best[ref_cell(a, x - c, y)];
                if (sum > most)
                    most = sum;
            }
            for (uint32_t d = 1; d < y; d++) {
                uint32_t sum = best[ref_cell(a, x, d)] + best[ref_cell(a, x, y - d)];
                if (sum > most)
                    most = sum;
            }
            best[ref_cell(a, x, y)] = most;
        }
}

/* ---- plan ---- */

/* A plan while it is written: first apart, so that a refusal writes nothing
   (rule 4.15). */
typedef struct {
    const ref_job *job;
    const uint32_t *cells;
    uint8_t in_p[REF_SIDE_MAX + 1], in_q[REF_SIDE_MAX + 1];
    uint8_t file[REF_PLAN_MAX];
    size_t length;
} draft;

/* A letter and its number (rule 8.5). */
static void node(draft *plan, char letter, uint32_t number) {
    plan->file[plan->length] = (uint8_t)letter;
    ref_put16(plan->file + plan->length + 1, number);
    plan->length += REF_NODE;
}

/* The number in a cell (rule 4.1). */
static uint64_t cell_of(const draft *plan, uint32_t x, uint32_t y) {
    return plan->cells[ref_cell(plan->job->width, x, y)];
}

/* Rule 6.5: piece k with a line on its right and one above it, where there is
   something to cut off; near parts come first (rule 8.6). */
static void trim(draft *plan, uint32_t k, uint32_t x, uint32_t y) {
    uint32_t p = plan->job->pieces[k - 1].width, q = plan->job->pieces[k - 1].height;
    if (p < x)
        node(plan, 'V', p);
    if (q < y)
        node(plan, 'H', q);
    node(plan, 'P', k);
    if (q < y)
        node(plan, 'S', 0);
    if (p < x)
        node(plan, 'S', 0);
}

/* The tree for x by y, rules 6.1 to 6.6 in their order, its nodes in that of
   rule 8.6; 0 if rule 6.6 strikes. */
static int tree(draft *plan, uint32_t x, uint32_t y) {
    const ref_job *job = plan->job;
    uint64_t value = cell_of(plan, x, y);
    if (value == 0) {
        ref_rule_struck[1]++;
        node(plan, 'S', 0);
        return 1;
    }
    for (uint32_t k = 1; k <= job->count; k++) {
        ref_piece piece = job->pieces[k - 1];
        if (piece.width == x && piece.height == y && piece.value == value) {
            ref_rule_struck[2]++;
            node(plan, 'P', k);
            return 1;
        }
    }
    for (uint32_t c = 1; 2 * c <= x; c++)
        if (plan->in_p[c] && cell_of(plan, c, y) + cell_of(plan, x - c, y) == value) {
            ref_rule_struck[3]++;
            node(plan, 'V', c);
            return tree(plan, c, y) && tree(plan, x - c, y);
        }
    for (uint32_t d = 1; 2 * d <= y; d++)
        if (plan->in_q[d] && cell_of(plan, x, d) + cell_of(plan, x, y - d) == value) {
            ref_rule_struck[4]++;
            node(plan, 'H', d);
            return tree(plan, x, d) && tree(plan, x, y - d);
        }
    for (uint32_t k = 1; k <= job->count; k++)
        if (fits(job->pieces[k - 1], x, y) && job->pieces[k - 1].value == value) {
            ref_rule_struck[5]++;
            trim(plan, k, x, y);
            return 1;
        }
    ref_rule_struck[6]++;
    return 0;
}

/* The box has a cell that is empty (rule 7.6). */
static int cell_is_empty(const ref_job *job, const uint32_t *cells, uint32_t x, uint32_t y) {
    for (uint32_t w = 1; w <= y; w++)
        for (uint32_t u = 1; u <= x; u++)
            if (cells[ref_cell(job->width, u, w)] == REF_EMPTY)
                return 1;
    return 0;
}

/* D1, D2, value and sum (rules 8.7 to 8.9); without a note (rule 8.3) D1 is all that
   stands before. */
static void trailer(draft *plan, size_t block_len, uint32_t value) {
    size_t start = plan->length;
    ref_put32(plan->file + start, (uint32_t)start);
    ref_put32(plan->file + start + 4, (uint32_t)(start - block_len));
    ref_put32(plan->file + start + 8, value);
    ref_put32(plan->file + start + 12, ref_sum(plan->file, start + 12));
    plan->length += REF_TRAILER;
}

/* Plan (rule 4.10); refused by rules 7.1 to 7.3, then rules 7.6 to 7.8. */
ref_planned ref_plan(const uint8_t *block, size_t block_len, const uint32_t *cells,
                     size_t cells_len, uint32_t x, uint32_t y, uint8_t *file, size_t file_len) {
    static draft plan;
    ref_job job, planned;
    uint32_t value;
    if (!lent_job(block, block_len, &job))
        return (ref_planned){1, 0, 0};
    if (table_is_short(&job, cells_len))
        return (ref_planned){2, 0, 0};
    if (question_outside(&job, x, y))
        return (ref_planned){3, 0, 0};
    if (cell_is_empty(&job, cells, x, y))
        return (ref_planned){6, 0, 0};
    if (cell_exceeds(&job, cells, x, y)) {
        ref_rule_struck[0]++;
        return (ref_planned){7, 0, 0};
    }
    plan.job = &job;
    plan.cells = cells;
    ref_points(&job, 0, plan.in_p);
    ref_points(&job, 1, plan.in_q);
    /* the block's sides are x and y (rule 8.4) */
    planned = job;
    planned.width = (uint16_t)x;
    planned.height = (uint16_t)y;
    plan.length = ref_block(&planned, plan.file);
    if (!tree(&plan, x, y))
        return (ref_planned){7, 0, 0};
    value = cells[ref_cell(job.width, x, y)];
    trailer(&plan, block_len, value);
    if (plan.length > file_len)
        return (ref_planned){8, 0, 0};
    memcpy(file, plan.file, plan.length);
    return (ref_planned){0, (uint32_t)plan.length, value};
}

/* ---- check ---- */

/* What is read of the nodes, and what the leaves came to (rules 2.7 and 8.8). */
typedef struct {
    const ref_job *job;
    const uint8_t *next, *end;
    uint64_t value, piece_area, scrap_area;
} reader;

/* One part x by y, in the order of rule 8.6: 1 if its nodes keep rule 8.10. */
static int part(reader *nodes, uint32_t x, uint32_t y) {
    uint32_t letter, number;
    if (nodes->end - nodes->next < REF_NODE)
        return 0;
    letter = nodes->next[0];
    number = ref_get16(nodes->next + 1);
    nodes->next += REF_NODE;
    if (letter == 'S') {
        nodes->scrap_area += (uint64_t)x * y;
        return number == 0;
    }
    if (letter == 'P') {
        if (!within(number, 1, nodes->job->count))
            return 0;
        nodes->piece_area += (uint64_t)x * y;
        nodes->value += nodes->job->pieces[number - 1].value;
        return nodes->job->pieces[number - 1].width == x &&
               nodes->job->pieces[number - 1].height == y;
    }
    if (letter == 'V')
        return 1 <= number && number < x && part(nodes, number, y) && part(nodes, x - number, y);
    if (letter == 'H')
        return 1 <= number && number < y && part(nodes, x, number) && part(nodes, x, y - number);
    return 0;
}

/* Check (rules 4.11 and 8.11); refused by rules 7.9 to 7.13. */
ref_checked ref_check(const uint8_t *file, size_t file_len) {
    size_t start, first;
    uint64_t d1, d2;
    ref_job job;
    reader nodes;
    /* 9: the length, and where D1 leads (rules 1.6 and 7.9) */
    if (!within(file_len, REF_FILE_MIN, REF_FILE_MAX))
        return (ref_checked){9, 0, 0, 0, 0};
    start = file_len - REF_TRAILER;
    d1 = ref_get32(file + start);
    d2 = ref_get32(file + start + 4);
    if (d1 < 9 || d1 > start)
        return (ref_checked){9, 0, 0, 0, 0};
    first = start - (size_t)d1;
    /* 10: the sum, from the block to the value (rules 7.10 and 8.9) */
    if (ref_sum(file + first, (size_t)d1 + 12) != ref_get32(file + start + 12))
        return (ref_checked){10, 0, 0, 0, 0};
    /* 11: the block (rule 7.11); D1 against n and D2 is tested first, so that the
       block is known to lie before the trailer */
    if (d1 != REF_HEADER + REF_RECORD * (uint64_t)ref_get16(file + first + 4) + d2)
        return (ref_checked){11, 0, 0, 0, 0};
    if (!read_job(file + first, &job) || !ref_job_in_range(&job))
        return (ref_checked){11, 0, 0, 0, 0};
    /* 12: the nodes, all of them (rules 7.12 and 8.10) */
    nodes = (reader){&job, file + (start - (size_t)d2), file + start, 0, 0, 0};
    if (!part(&nodes, job.width, job.height) || nodes.next != nodes.end)
        return (ref_checked){12, 0, 0, 0, 0};
    /* 13: the value (rules 7.13 and 8.8) */
    if (nodes.value != ref_get32(file + start + 8))
        return (ref_checked){13, 0, 0, 0, 0};
    return (ref_checked){0, (uint32_t)nodes.value, (uint32_t)first, (uint32_t)nodes.piece_area,
                         (uint32_t)nodes.scrap_area};
}
