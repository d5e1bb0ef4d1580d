#include "hand.h"

#include <string.h>

/* ---- job ---- */

static uint32_t get16(const uint8_t *at) {
    return at[0] | (uint32_t)at[1] << 8;
}

static uint32_t get32(const uint8_t *at) {
    return get16(at) | get16(at + 2) << 16;
}

static uint8_t *put16(uint8_t *at, uint32_t number) {
    at[0] = (uint8_t)number;
    at[1] = (uint8_t)(number >> 8);
    return at + 2;
}

static uint8_t *put32(uint8_t *at, uint32_t number) {
    return put16(put16(at, number), number >> 16);
}

static int in_range(uint32_t number, uint32_t most) {
    return number - 1 < most;
}

static int piece_in_range(khon_piece piece) {
    return in_range(piece.width, KHON_SIZE_MAX) && in_range(piece.height, KHON_SIZE_MAX) &&
           piece.value != 0;
}

static int sheet_in_range(const khon_job *job) {
    return in_range(job->width, KHON_SIDE_MAX) && in_range(job->height, KHON_SIDE_MAX) &&
           job->count <= KHON_PIECES_MAX;
}

/* The block's job; 0 if it is out of range. */
static int read_job(const uint8_t *block, khon_job *job) {
    job->width = (uint16_t)get16(block);
    job->height = (uint16_t)get16(block + 2);
    job->count = (uint16_t)get16(block + 4);
    if (!sheet_in_range(job))
        return 0;
    for (uint32_t i = 0; i < job->count; i++) {
        const uint8_t *record = block + 6 + 6 * i;
        khon_piece piece = {(uint16_t)get16(record), (uint16_t)get16(record + 2),
                            (uint16_t)get16(record + 4)};
        if (!piece_in_range(piece))
            return 0;
        job->pieces[i] = piece;
    }
    return 1;
}

static uint32_t refuse_question(const uint8_t *block, size_t block_len, size_t cells_len,
                                uint32_t x, uint32_t y, khon_job *job) {
    if (block_len < 6 || block_len != KHON_BLOCK_LENGTH(get16(block + 4)) || !read_job(block, job))
        return KHON_BAD_JOB;
    if (cells_len < (size_t)job->width * job->height)
        return KHON_SHORT_TABLE;
    if (!in_range(x, job->width) || !in_range(y, job->height))
        return KHON_OUTSIDE;
    return KHON_ACCEPTED;
}

/* ---- changes ---- */

static uint32_t refuse_change(const khon_job *job, size_t cells_len) {
    if (!sheet_in_range(job))
        return KHON_BAD_JOB;
    for (uint32_t i = 0; i < job->count; i++)
        if (!piece_in_range(job->pieces[i]))
            return KHON_BAD_JOB;
    return cells_len < (size_t)job->width * job->height ? KHON_SHORT_TABLE : KHON_ACCEPTED;
}

static void empty_where_fits(const khon_job *job, uint32_t *cells, khon_piece size) {
    size_t a = job->width, b = job->height;
    for (size_t w = size.height; w <= b; w++)
        for (size_t u = size.width; u <= a; u++)
            cells[(w - 1) * a + u - 1] = KHON_EMPTY;
}

/* What stands behind the last piece comes back as zeros. */
static khon_changed accepted(khon_job job) {
    memset(job.pieces + job.count, 0, (KHON_PIECES_MAX - job.count) * sizeof *job.pieces);
    return (khon_changed){KHON_ACCEPTED, job};
}

khon_changed hand_open(uint32_t width, uint32_t height, uint32_t *cells, size_t cells_len) {
    khon_job job = {(uint16_t)width, (uint16_t)height, 0, {{0, 0, 0}}};
    if (!in_range(width, KHON_SIDE_MAX) || !in_range(height, KHON_SIDE_MAX))
        return (khon_changed){KHON_BAD_JOB, {0, 0, 0, {{0, 0, 0}}}};
    if (cells_len < (size_t)width * height)
        return (khon_changed){KHON_SHORT_TABLE, {0, 0, 0, {{0, 0, 0}}}};
    empty_where_fits(&job, cells, (khon_piece){1, 1, 0});
    return accepted(job);
}

khon_changed hand_add(khon_job job, uint32_t *cells, size_t cells_len, khon_piece piece) {
    uint32_t refusal = refuse_change(&job, cells_len);
    if (refusal == KHON_ACCEPTED && !piece_in_range(piece))
        refusal = KHON_BAD_PIECE;
    if (refusal == KHON_ACCEPTED && job.count == KHON_PIECES_MAX)
        refusal = KHON_FULL;
    if (refusal != KHON_ACCEPTED)
        return (khon_changed){refusal, job};
    empty_where_fits(&job, cells, piece);
    job.pieces[job.count++] = piece;
    return accepted(job);
}

khon_changed hand_correct(khon_job job, uint32_t *cells, size_t cells_len, uint32_t k,
                          khon_piece piece) {
    uint32_t refusal = refuse_change(&job, cells_len);
    if (refusal == KHON_ACCEPTED && !in_range(k, job.count))
        refusal = KHON_OUTSIDE;
    if (refusal == KHON_ACCEPTED && !piece_in_range(piece))
        refusal = KHON_BAD_PIECE;
    if (refusal != KHON_ACCEPTED)
        return (khon_changed){refusal, job};
    empty_where_fits(&job, cells, job.pieces[k - 1]);
    empty_where_fits(&job, cells, piece);
    job.pieces[k - 1] = piece;
    return accepted(job);
}

khon_changed hand_remove(khon_job job, uint32_t *cells, size_t cells_len, uint32_t k) {
    uint32_t refusal = refuse_change(&job, cells_len);
    if (refusal == KHON_ACCEPTED && !in_range(k, job.count))
        refusal = KHON_OUTSIDE;
    if (refusal != KHON_ACCEPTED)
        return (khon_changed){refusal, job};
    empty_where_fits(&job, cells, job.pieces[k - 1]);
    job.count--;
    memmove(job.pieces + k - 1, job.pieces + k, (job.count + 1 - k) * sizeof *job.pieces);
    return accepted(job);
}

/* ---- ask ---- */

/* Rows are looked through to their end, so that gcc makes vectors of it. */
static int exceeds(const uint32_t *cells, uint32_t a, uint32_t x, uint32_t y) {
    for (uint32_t w = 1; w <= y; w++) {
        const uint32_t *row = cells + (size_t)(w - 1) * a;
        uint32_t most = 0, found = 0;
        for (uint32_t u = 0; u < x; u++) {
            most += w * KHON_VALUE_MAX;
            found |= (row[u] != KHON_EMPTY) & (most < row[u]);
        }
        if (found)
            return 1;
    }
    return 0;
}

static uint32_t larger(uint32_t one, uint32_t other) {
    return one > other ? one : other;
}

static uint32_t worth(const khon_job *job, const uint32_t *cells, const points *p, const points *q,
                      uint32_t u, uint32_t w) {
    uint32_t a = job->width, most = 0;
    const uint32_t *row = cells + (size_t)(w - 1) * a; /* row[c - 1] is cell (c, w) */
    const uint32_t *column = cells + u - 1;            /* column[(d - 1) * a] is cell (u, d) */
    for (uint32_t i = 0; i < job->count; i++)
        if (job->pieces[i].width <= u && job->pieces[i].height <= w)
            most = larger(most, job->pieces[i].value);
    for (uint32_t i = 0; i < p->count && 2u * p->at[i] <= u; i++)
        most = larger(most, row[p->at[i] - 1] + row[u - p->at[i] - 1]);
    for (uint32_t i = 0; i < q->count && 2u * q->at[i] <= w; i++)
        most = larger(most, column[(q->at[i] - 1) * a] + column[(w - q->at[i] - 1) * a]);
    return most;
}

static int has_empty(const uint32_t *cells, uint32_t a, uint32_t x, uint32_t y) {
    for (uint32_t w = 0; w < y; w++) {
        const uint32_t *row = cells + (size_t)w * a;
        uint32_t found = 0;
        for (uint32_t u = 0; u < x; u++)
            found |= row[u] == KHON_EMPTY;
        if (found)
            return 1;
    }
    return 0;
}

static uint32_t fill(const khon_job *job, uint32_t *cells, uint32_t x, uint32_t y,
                     points_finder *find) {
    points p, q;
    uint32_t worked = 0;
    find(job, 0, &p);
    find(job, 1, &q);
    for (uint32_t w = 1; w <= y; w++)
        for (uint32_t u = 1; u <= x; u++) {
            uint32_t *cell = &cells[(w - 1) * job->width + u - 1];
            if (*cell == KHON_EMPTY) {
                *cell = worth(job, cells, &p, &q, u, w);
                worked++;
            }
        }
    return worked;
}

static inline khon_asked ask_by(points_finder *find, const uint8_t *block, size_t block_len,
                                uint32_t *cells, size_t cells_len, uint32_t x, uint32_t y) {
    khon_job job;
    uint32_t worked = 0;
    uint32_t refusal = refuse_question(block, block_len, cells_len, x, y, &job);
    if (refusal == KHON_ACCEPTED && exceeds(cells, job.width, x, y))
        refusal = KHON_ALIEN_TABLE;
    if (refusal != KHON_ACCEPTED)
        return (khon_asked){refusal, 0, 0};
    if (has_empty(cells, job.width, x, y))
        worked = fill(&job, cells, x, y, find);
    return (khon_asked){KHON_ACCEPTED, cells[(y - 1) * job.width + x - 1], worked};
}

khon_asked hand_ask(const uint8_t *block, size_t block_len, uint32_t *cells, size_t cells_len,
                    uint32_t x, uint32_t y) {
    return ask_by(stepped_points, block, block_len, cells, cells_len, x, y);
}

khon_asked herz_ask(const uint8_t *block, size_t block_len, uint32_t *cells, size_t cells_len,
                    uint32_t x, uint32_t y) {
    return ask_by(listed_points, block, block_len, cells, cells_len, x, y);
}

/* ---- the dull scheme ---- */

khon_asked dull_ask(const uint8_t *block, size_t block_len, uint32_t *cells, size_t cells_len,
                    uint32_t x, uint32_t y) {
    khon_job job;
    uint32_t refusal = refuse_question(block, block_len, cells_len, x, y, &job), a;
    if (refusal != KHON_ACCEPTED)
        return (khon_asked){refusal, 0, 0};
    a = job.width;
    for (uint32_t w = 1; w <= y; w++) {
        uint32_t *row = cells + (size_t)(w - 1) * a;
        for (uint32_t u = 1; u <= x; u++) {
            const uint32_t *column = cells + u - 1;
            uint32_t most = 0;
            for (uint32_t i = 0; i < job.count; i++)
                if (job.pieces[i].width == u && job.pieces[i].height == w)
                    most = larger(most, job.pieces[i].value);
            for (uint32_t c = 1; 2 * c <= u; c++)
                most = larger(most, row[c - 1] + row[u - c - 1]);
            for (uint32_t d = 1; 2 * d <= w; d++)
                most = larger(most, column[(d - 1) * a] + column[(w - d - 1) * a]);
            row[u - 1] = most;
        }
    }
    return (khon_asked){KHON_ACCEPTED, cells[(y - 1) * a + x - 1], x * y};
}

/* ---- plan ---- */

typedef struct {
    const khon_job *job;
    const uint32_t *cells;
    points p, q;
} sheet;

/* What rules 6.1 to 6.6 say of x by y: a letter of the file with its number, 'T'
   for rule 6.5's trim of a piece, or 0 for rule 6.6. */
typedef struct {
    uint32_t letter, number;
} choice;

static uint32_t cell(const sheet *s, uint32_t x, uint32_t y) {
    return s->cells[(y - 1) * s->job->width + x - 1];
}

static choice choose(const sheet *s, uint32_t x, uint32_t y) {
    uint32_t value = cell(s, x, y);
    const khon_job *job = s->job;
    if (value == 0)
        return (choice){'S', 0};
    for (uint32_t i = 0; i < job->count; i++)
        if (job->pieces[i].width == x && job->pieces[i].height == y &&
            job->pieces[i].value == value)
            return (choice){'P', i + 1};
    for (uint32_t i = 0; i < s->p.count && 2u * s->p.at[i] <= x; i++)
        if (cell(s, s->p.at[i], y) + cell(s, x - s->p.at[i], y) == value)
            return (choice){'V', s->p.at[i]};
    for (uint32_t i = 0; i < s->q.count && 2u * s->q.at[i] <= y; i++)
        if (cell(s, x, s->q.at[i]) + cell(s, x, y - s->q.at[i]) == value)
            return (choice){'H', s->q.at[i]};
    for (uint32_t i = 0; i < job->count; i++)
        if (job->pieces[i].width <= x && job->pieces[i].height <= y &&
            job->pieces[i].value == value)
            return (choice){'T', i + 1};
    return (choice){0, 0};
}

/* The number of nodes of x by y; at least 2^24 where rule 6.6 strikes. */
static uint32_t count_nodes(const sheet *s, uint32_t x, uint32_t y) {
    choice c = choose(s, x, y);
    switch (c.letter) {
    case 'V':
        return 1 + count_nodes(s, c.number, y) + count_nodes(s, x - c.number, y);
    case 'H':
        return 1 + count_nodes(s, x, c.number) + count_nodes(s, x, y - c.number);
    case 'T':
        return 1 + 2u * (s->job->pieces[c.number - 1].width < x) +
               2u * (s->job->pieces[c.number - 1].height < y);
    default:
        return c.letter == 0 ? 1u << 24 : 1;
    }
}

static uint8_t *node(uint8_t *at, uint32_t letter, uint32_t number) {
    *at = (uint8_t)letter;
    return put16(at + 1, number);
}

static uint8_t *write_trim(const sheet *s, uint32_t k, uint32_t x, uint32_t y, uint8_t *at) {
    uint32_t p = s->job->pieces[k - 1].width, q = s->job->pieces[k - 1].height;
    if (p < x)
        at = node(at, 'V', p);
    if (q < y)
        at = node(at, 'H', q);
    at = node(at, 'P', k);
    if (q < y)
        at = node(at, 'S', 0);
    if (p < x)
        at = node(at, 'S', 0);
    return at;
}

static uint8_t *write_nodes(const sheet *s, uint32_t x, uint32_t y, uint8_t *at) {
    choice c = choose(s, x, y);
    if (c.letter == 'T')
        return write_trim(s, c.number, x, y, at);
    at = node(at, c.letter, c.number);
    if (c.letter == 'V')
        return write_nodes(s, x - c.number, y, write_nodes(s, c.number, y, at));
    if (c.letter == 'H')
        return write_nodes(s, x, y - c.number, write_nodes(s, x, c.number, at));
    return at;
}

static uint32_t running_sum(const uint8_t *bytes, size_t length) {
    uint32_t sum = 1;
    for (size_t i = 0; i < length; i++)
        sum = 3 * sum + bytes[i];
    return sum;
}

static inline khon_planned plan_by(points_finder *find, const uint8_t *block, size_t block_len,
                                   const uint32_t *cells, size_t cells_len, uint32_t x, uint32_t y,
                                   uint8_t *file, size_t file_len) {
    khon_job job;
    sheet s = {&job, cells, {0}, {0}};
    uint32_t nodes, start;
    uint32_t refusal = refuse_question(block, block_len, cells_len, x, y, &job);
    if (refusal == KHON_ACCEPTED && has_empty(cells, job.width, x, y))
        refusal = KHON_NOT_ASKED;
    if (refusal == KHON_ACCEPTED && exceeds(cells, job.width, x, y))
        refusal = KHON_ALIEN_TABLE;
    if (refusal != KHON_ACCEPTED)
        return (khon_planned){refusal, 0, 0};
    find(&job, 0, &s.p);
    find(&job, 1, &s.q);
    nodes = count_nodes(&s, x, y);
    if (nodes >= 1u << 24)
        return (khon_planned){KHON_ALIEN_TABLE, 0, 0};
    start = (uint32_t)block_len + 3 * nodes;
    if (start + 16 > file_len)
        return (khon_planned){KHON_SHORT_BUFFER, 0, 0};
    memcpy(file, block, block_len);
    put16(put16(file, x), y);
    write_nodes(&s, x, y, file + block_len);
    put32(put32(put32(file + start, start), 3 * nodes), cell(&s, x, y));
    put32(file + start + 12, running_sum(file, start + 12));
    return (khon_planned){KHON_ACCEPTED, start + 16, cell(&s, x, y)};
}

khon_planned hand_plan(const uint8_t *block, size_t block_len, const uint32_t *cells,
                       size_t cells_len, uint32_t x, uint32_t y, uint8_t *file, size_t file_len) {
    return plan_by(stepped_points, block, block_len, cells, cells_len, x, y, file, file_len);
}

khon_planned herz_plan(const uint8_t *block, size_t block_len, const uint32_t *cells,
                       size_t cells_len, uint32_t x, uint32_t y, uint8_t *file, size_t file_len) {
    return plan_by(listed_points, block, block_len, cells, cells_len, x, y, file, file_len);
}

/* ---- check ---- */

typedef struct {
    const khon_job *job;
    const uint8_t *at, *end;
    uint32_t value, piece_area, scrap_area;
} reader;

static int part(reader *r, uint32_t x, uint32_t y) {
    uint32_t letter, number;
    if (r->end - r->at < 3)
        return 0;
    letter = r->at[0];
    number = get16(r->at + 1);
    r->at += 3;
    switch (letter) {
    case 'S':
        r->scrap_area += x * y;
        return number == 0;
    case 'P':
        if (!in_range(number, r->job->count) || r->job->pieces[number - 1].width != x ||
            r->job->pieces[number - 1].height != y)
            return 0;
        r->piece_area += x * y;
        r->value += r->job->pieces[number - 1].value;
        return 1;
    case 'V':
        return in_range(number, x - 1) && part(r, number, y) && part(r, x - number, y);
    case 'H':
        return in_range(number, y - 1) && part(r, x, number) && part(r, x, y - number);
    default:
        return 0;
    }
}

static khon_checked refused(uint32_t refusal) {
    return (khon_checked){refusal, 0, 0, 0, 0};
}

khon_checked hand_check(const uint8_t *file, size_t file_len) {
    khon_job job;
    size_t start, first;
    uint32_t d1, d2;
    if (file_len < KHON_FILE_MIN || file_len > KHON_FILE_MAX)
        return refused(KHON_NO_PLAN_FILE);
    start = file_len - 16;
    d1 = get32(file + start);
    d2 = get32(file + start + 4);
    if (d1 < 9 || d1 > start)
        return refused(KHON_NO_PLAN_FILE);
    first = start - d1;
    if (running_sum(file + first, (size_t)d1 + 12) != get32(file + start + 12))
        return refused(KHON_BAD_SUM);
    if (d1 != KHON_BLOCK_LENGTH(get16(file + first + 4)) + d2 || !read_job(file + first, &job))
        return refused(KHON_BAD_BLOCK);
    reader r = {&job, file + start - d2, file + start, 0, 0, 0};
    if (!part(&r, job.width, job.height) || r.at != r.end)
        return refused(KHON_BAD_NODES);
    if (r.value != get32(file + start + 8))
        return refused(KHON_BAD_VALUE);
    return (khon_checked){KHON_ACCEPTED, r.value, (uint32_t)first, r.piece_area, r.scrap_area};
}
