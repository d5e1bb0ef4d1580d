/*
 * The library's names over the reference, to try the tests themselves
 * (make selftest). Nothing that is delivered links this.
 *
 * SHIM_BREAK=NAME breaks it on purpose, in the way named below at broken(..):
 * the comparison must then fail. tests/run reads the names from this file.
 */
#include <stdlib.h>
#include <string.h>

#include "khonvertseg.h"
#include "reference.h"

static int broken(const char *name) {
    static const char *wanted;
    static int looked;
    if (!looked) {
        wanted = getenv("SHIM_BREAK");
        looked = 1;
    }
    return wanted != NULL && strcmp(wanted, name) == 0;
}

/* ---- from one header's types to the other's ---- */

static ref_job in(khon_job job) {
    ref_job same;
    memcpy(&same, &job, sizeof same);
    return same;
}

static ref_piece in_piece(khon_piece piece) {
    return (ref_piece){piece.width, piece.height, piece.value};
}

static khon_changed out(ref_changed answer) {
    khon_changed same;
    memset(&same, 0, sizeof same);
    same.refusal = answer.refusal;
    memcpy(&same.job, &answer.job, sizeof same.job);
    return same;
}

/* ---- open, add, correct, remove ---- */

static ref_job last_added; /* for P kept from before a correction */

khon_changed khon_open(uint32_t width, uint32_t height, uint32_t *cells, size_t cells_len) {
    ref_changed answer;
    if (broken("open takes sides modulo 65536"))
        width %= 65536, height %= 65536;
    if (broken("open empties the whole row"))
        for (size_t i = 0; i < cells_len; i++)
            cells[i] = REF_EMPTY;
    answer = ref_open(width, height, cells, cells_len);
    if (broken("a refused open returns its sides") && answer.refusal != 0) {
        answer.job.width = (uint16_t)width;
        answer.job.height = (uint16_t)height;
    }
    if (broken("open keeps one cell") && answer.refusal == 0)
        cells[0] = 0;
    last_added = answer.job;
    return out(answer);
}

khon_changed khon_add(khon_job job, uint32_t *cells, size_t cells_len, khon_piece piece) {
    ref_changed answer = ref_add(in(job), cells, cells_len, in_piece(piece));
    if (broken("a refused add returns a job of zeros") && answer.refusal != 0)
        memset(&answer.job, 0, sizeof answer.job);
    if (broken("an accepted add keeps records past n") && answer.refusal == 0)
        for (uint32_t i = answer.job.count; i < 64; i++)
            memcpy(&answer.job.pieces[i], &job.pieces[i], sizeof(ref_piece));
    if (broken("add finds the job full before a piece bad") && answer.refusal == 4 &&
        job.count == 64)
        answer.refusal = 5;
    if (broken("add of the 64th piece writes a cell of its own") && answer.refusal == 0 &&
        answer.job.count == 64)
        cells[0] = 0;
    if (broken("add reads records past n") && answer.refusal == 0)
        for (uint32_t i = job.count; i < 64; i++)
            if (job.pieces[i].width > 4095)
                answer = (ref_changed){1, in(job)};
    last_added = answer.job;
    return out(answer);
}

khon_changed khon_correct(khon_job job, uint32_t *cells, size_t cells_len, uint32_t number,
                          khon_piece piece) {
    ref_changed answer;
    uint32_t before[REF_CELLS_MAX];
    size_t kept = cells_len < REF_CELLS_MAX ? cells_len : REF_CELLS_MAX;
    memcpy(before, cells, kept * sizeof *before);
    if (broken("correct takes the number modulo 65536"))
        number %= 65536;
    answer = ref_correct(in(job), cells, cells_len, number, in_piece(piece));
    if (answer.refusal == 0)
        for (uint32_t y = 1; y <= job.height; y++)
            for (uint32_t x = 1; x <= job.width; x++) {
                size_t at = ref_cell(job.width, x, y);
                if (broken("correct empties only where the new size fits") &&
                    !(piece.width <= x && piece.height <= y))
                    cells[at] = before[at];
                if (broken("correct empties the whole table"))
                    cells[at] = REF_EMPTY;
                if (broken("correct empties nothing for an equal record") &&
                    memcmp(&piece, &job.pieces[number - 1], sizeof piece) == 0)
                    cells[at] = before[at];
            }
    if (broken("correct finds a piece bad before a number outside") && answer.refusal == 3 &&
        !ref_piece_in_range(in_piece(piece)))
        answer.refusal = 4;
    return out(answer);
}

khon_changed khon_remove(khon_job job, uint32_t *cells, size_t cells_len, uint32_t number) {
    ref_changed answer = ref_remove(in(job), cells, cells_len, number);
    if (broken("remove leaves the last record behind") && answer.refusal == 0)
        memcpy(&answer.job.pieces[answer.job.count], &job.pieces[answer.job.count],
               sizeof(ref_piece));
    if (broken("remove swaps the last piece in") && answer.refusal == 0 &&
        number < job.count) {
        answer.job = in(job);
        answer.job.pieces[number - 1] = answer.job.pieces[job.count - 1];
        answer.job.count--;
        for (uint32_t i = answer.job.count; i < 64; i++)
            answer.job.pieces[i] = (ref_piece){0, 0, 0};
    }
    if (broken("a refused remove empties a cell") && answer.refusal == 3)
        cells[0] = REF_EMPTY;
    return out(answer);
}

/* ---- ask ---- */

/* P or Q, or what stands for it where the points are broken. */
static void points_badly(const ref_job *job, int tall, uint8_t marks[REF_SIDE_MAX + 1]) {
    ref_job fewer = *job;
    uint8_t once[REF_SIDE_MAX + 1] = {1};
    uint32_t side = tall ? job->height : job->width;
    if (broken("the last piece makes no point") && job->count > 0)
        fewer.count--;
    ref_points(&fewer, tall, marks);
    if (!broken("a size makes points but once"))
        return;
    for (uint32_t i = 0; i < job->count; i++) {
        uint32_t size = tall ? job->pieces[i].height : job->pieces[i].width;
        for (uint32_t s = side; s >= size && s > 0; s--)
            once[s] |= once[s - size];
    }
    memcpy(marks + 1, once + 1, REF_SIDE_MAX);
}

/* The filling with a rule taken away; the tests of ask have passed. */
static void fill_badly(const ref_job *job, const ref_job *for_points, uint32_t *cells, uint32_t x,
                       uint32_t y) {
    uint8_t in_p[REF_SIDE_MAX + 1], in_q[REF_SIDE_MAX + 1];
    uint32_t a = job->width;
    points_badly(for_points, 0, in_p);
    points_badly(for_points, 1, in_q);
    for (uint32_t w = 1; w <= y; w++)
        for (uint32_t u = 1; u <= x; u++) {
            uint32_t *cell = &cells[ref_cell(a, u, w)], most = 0;
            if (*cell != REF_EMPTY)
                continue;
            for (uint32_t i = 0; i < job->count; i++) {
                ref_piece piece = job->pieces[i];
                int counts = piece.width <= u && piece.height <= w;
                if (broken("ask counts exact pieces only"))
                    counts = piece.width == u && piece.height == w;
                if (counts && piece.value > most)
                    most = piece.value;
            }
            for (uint32_t c = 1; 2 * c <= u; c++) {
                uint32_t sum = cells[ref_cell(a, c, w)] + cells[ref_cell(a, u - c, w)];
                if (broken("ask stops short of half") && 2 * c == u)
                    continue;
                if ((in_p[c] || broken("ask tries every line")) && sum > most)
                    most = sum;
            }
            for (uint32_t d = 1; 2 * d <= w; d++) {
                uint32_t sum = cells[ref_cell(a, u, d)] + cells[ref_cell(a, u, w - d)];
                if ((in_q[d] || broken("ask tries every line")) && sum > most)
                    most = sum;
            }
            *cell = most;
        }
}

static int fills_badly(void) {
    return broken("ask counts exact pieces only") || broken("ask stops short of half") ||
           broken("ask tries every line") || broken("ask keeps P from before a correction") ||
           broken("the last piece makes no point") || broken("a size makes points but once");
}

khon_asked khon_ask(const uint8_t *block, size_t block_len, uint32_t *cells, size_t cells_len,
                    uint32_t x, uint32_t y) {
    static uint32_t before[REF_CELLS_MAX];
    size_t kept = cells_len < REF_CELLS_MAX ? cells_len : REF_CELLS_MAX;
    uint32_t a = block_len >= 2 ? ref_get16(block) : 0;
    uint32_t b = block_len >= 4 ? ref_get16(block + 2) : 0;
    ref_asked answer;
    memcpy(before, cells, kept * sizeof *before);
    if (broken("ask takes x modulo 65536"))
        x %= 65536;
    if (broken("ask takes a block that is too long") && block_len > 6 &&
        block_len > 6 + 6 * ref_get16(block + 4))
        block_len = 6 + 6 * ref_get16(block + 4);
    if (broken("ask reads n before it knows the length") && block_len < 6)
        (void)*(volatile const uint8_t *)(block + 5);
    if (broken("ask counts zeros as empty"))
        for (size_t i = 0; i < kept; i++)
            if (cells[i] == 0)
                cells[i] = REF_EMPTY;
    answer = ref_ask(block, block_len, cells, cells_len, x, y);
    if (answer.refusal == 0 && fills_badly()) {
        ref_job job;
        memcpy(&job, block, block_len);
        memcpy(cells, before, kept * sizeof *before);
        fill_badly(&job,
                   broken("ask keeps P from before a correction") &&
                           last_added.width == job.width && last_added.height == job.height
                       ? &last_added
                       : &job,
                   cells, x, y);
        answer.value = cells[ref_cell(a, x, y)];
    }
    if (broken("ask refuses everything"))
        answer = (ref_asked){1, 0, 0};
    if (broken("ask answers one value") && answer.refusal == 0)
        answer.value = 0;
    if (broken("ask counts the whole box") && answer.refusal == 0)
        answer.worked = x * y;
    if (broken("ask writes beyond the table") && answer.refusal == 0 &&
        cells_len > (size_t)a * b)
        cells[(size_t)a * b] = 0;
    if (broken("ask writes past the lent row") && answer.refusal == 0)
        cells[cells_len] = 0;
    if (broken("ask writes before the lent row") && answer.refusal == 0)
        cells[-1] = 0;
    if (broken("ask fills the whole sheet") && answer.refusal == 0)
        (void)ref_ask(block, block_len, cells, cells_len, a, b);
    if (broken("ask fills nothing") && answer.refusal == 0)
        memcpy(cells, before, kept * sizeof *before);
    if (broken("ask refuses a cell at its bound") && answer.refusal == 0 &&
        before[0] == 65535)
        answer = (ref_asked){7, 0, 0};
    if (broken("ask looks for bad cells outside the box") && answer.refusal == 0 &&
        ref_ask(block, block_len, before, kept, a, b).refusal == 7)
        answer = (ref_asked){7, 0, 0};
    if (broken("ask gives numbers with a refusal") && answer.refusal == 7)
        answer.worked = 1;
    return (khon_asked){answer.refusal, answer.value, answer.worked};
}

/* ---- plan ---- */

khon_planned khon_plan(const uint8_t *block, size_t block_len, const uint32_t *cells,
                       size_t cells_len, uint32_t x, uint32_t y, uint8_t *file, size_t file_len) {
    ref_planned answer = ref_plan(block, block_len, cells, cells_len, x, y, file, file_len);
    int accepted = answer.refusal == 0;
    if (broken("plan writes one byte more") && accepted && file_len > answer.length)
        file[answer.length] ^= 1;
    if (broken("plan writes past the lent buffer") && accepted && file_len == answer.length)
        file[answer.length] ^= 1;
    if (broken("plan writes before it refuses with 8") && answer.refusal == 8 && file_len > 0)
        file[0] ^= 1;
    if (broken("plan states the sheet and not the rectangle") && accepted) {
        memcpy(file, block, 4);
        ref_put32(file + answer.length - 4, ref_sum(file, answer.length - 4));
    }
    if (broken("plan wants a byte more than the file") && accepted && file_len == answer.length)
        answer = (ref_planned){8, 0, 0};
    if (broken("plan finds a large cell before an empty one") && answer.refusal == 6)
        for (size_t i = 0; i < cells_len; i++)
            if (cells[i] != REF_EMPTY && cells[i] > 3774816000u)
                answer.refusal = 7;
    if (broken("plan writes a cell") && accepted)
        ((uint32_t *)(uintptr_t)cells)[0] ^= 1;
    if (broken("plan leaves the value out") && accepted)
        answer.value = 0;
    if (broken("plan cuts the larger part off first") && accepted)
        for (size_t at = block_len; at + 16 < answer.length; at += 3)
            if (file[at] == 'V' && 2 * ref_get16(file + at + 1) < x && at == block_len)
                ref_put16(file + at + 1, x - ref_get16(file + at + 1));
    if (broken("plan takes the last of equal pieces") && accepted)
        for (size_t at = block_len; at + 16 < answer.length; at += 3)
            for (uint32_t k = 1; file[at] == 'P' && k <= ref_get16(block + 4); k++)
                if (memcmp(block + 6 * k, block + 6 * ref_get16(file + at + 1), 6) == 0)
                    ref_put16(file + at + 1, k);
    return (khon_planned){answer.refusal, answer.length, answer.value};
}

/* ---- check ---- */

/* The file with one field put right, and with it the sum. */
static ref_checked check_mended(const uint8_t *file, size_t file_len, size_t at, uint32_t number) {
    static uint8_t copy[REF_FILE_MAX];
    size_t start = file_len - REF_TRAILER;
    size_t first = start - ref_get32(file + start);
    memcpy(copy, file, file_len);
    ref_put32(copy + at, number);
    ref_put32(copy + file_len - 4, ref_sum(copy + first, file_len - 4 - first));
    return ref_check(copy, file_len);
}

khon_checked khon_check(const uint8_t *file, size_t file_len) {
    ref_checked answer = ref_check(file, file_len);
    size_t start = file_len - REF_TRAILER;
    if (broken("check believes the claimed value") && answer.refusal == 13)
        for (uint32_t value = 0; value < 2000 && answer.refusal == 13; value++) {
            answer = check_mended(file, file_len, start + 8, value);
            if (answer.refusal == 0)
                answer.value = ref_get32(file + start + 8);
        }
    if (broken("check adds D2 modulo 4294967296") && answer.refusal == 11 &&
        ref_get32(file + start + 4) > 4294967000u)
        answer.refusal = 12;
    if (broken("check swaps the areas") && answer.refusal == 0) {
        uint32_t area = answer.piece_area;
        answer.piece_area = answer.scrap_area;
        answer.scrap_area = area;
    }
    if (broken("check leaves the note out") && answer.refusal == 0)
        answer.note = 0;
    if (broken("check takes no file of 1048576 bytes") && file_len == REF_FILE_MAX)
        answer = (ref_checked){9, 0, 0, 0, 0};
    if (broken("check takes a file of 1048577 bytes") && file_len == REF_FILE_MAX + 1)
        answer.refusal = 10;
    if (broken("check allows bytes after the tree") && answer.refusal == 12 && file[start - 1] == 0 &&
        file[start - 3] == 'S')
        answer.refusal = 13;
    if (broken("check allows scrap with a number") && answer.refusal == 12 &&
        file[start - 3] == 'S' && file[start - 1] != 0)
        answer.refusal = 13;
    if (broken("check reads past the file"))
        (void)*(volatile const uint8_t *)(file + file_len);
    if (broken("check reads before the file"))
        (void)*(volatile const uint8_t *)(file - 1);
    if (broken("check finds the value wrong before the nodes") && answer.refusal == 12 &&
        ref_get32(file + start + 8) > 4000000000u)
        answer.refusal = 13;
    if (broken("check writes the file") && answer.refusal == 0)
        ((uint8_t *)(uintptr_t)file)[file_len - 1] ^= 1;
    return (khon_checked){answer.refusal, answer.value, answer.note, answer.piece_area,
                          answer.scrap_area};
}
