#include "face.h"

#include <string.h>

#include "khonvertseg.h"

/* The two headers were written apart; here they must agree. */
#define SAME(khon, ref) _Static_assert((khon) == (ref), #khon " is not " #ref)
SAME(sizeof(khon_piece), 6);
SAME(sizeof(khon_job), 390);
SAME(sizeof(khon_piece), sizeof(ref_piece));
SAME(sizeof(khon_job), sizeof(ref_job));
SAME(sizeof(khon_changed), sizeof(ref_changed));
SAME(sizeof(khon_asked), sizeof(ref_asked));
SAME(sizeof(khon_planned), sizeof(ref_planned));
SAME(sizeof(khon_checked), sizeof(ref_checked));
SAME(offsetof(khon_job, pieces), offsetof(ref_job, pieces));
SAME(offsetof(khon_changed, job), offsetof(ref_changed, job));
SAME(offsetof(khon_asked, worked), offsetof(ref_asked, worked));
SAME(offsetof(khon_planned, value), offsetof(ref_planned, value));
SAME(offsetof(khon_checked, scrap_area), offsetof(ref_checked, scrap_area));
SAME((int)KHON_SIDE_MAX, (int)REF_SIDE_MAX);
SAME((int)KHON_PIECES_MAX, (int)REF_PIECES_MAX);
SAME((int)KHON_SIZE_MAX, (int)REF_SIZE_MAX);
SAME((int)KHON_VALUE_MAX, (int)REF_VALUE_MAX);
SAME((int)KHON_FILE_MIN, (int)REF_FILE_MIN);
SAME((int)KHON_FILE_MAX, (int)REF_FILE_MAX);
SAME(KHON_EMPTY, REF_EMPTY);
SAME(KHON_BLOCK_LENGTH(KHON_PIECES_MAX), (size_t)REF_BLOCK_MAX);
SAME(KHON_PLAN_ENOUGH(KHON_PIECES_MAX, KHON_SIDE_MAX, KHON_SIDE_MAX), (size_t)REF_PLAN_MAX);
SAME(KHON_PLAN_ENOUGH(0, 1, 1), (size_t)25);          /* K4's file */
SAME(KHON_PLAN_ENOUGH(1, 240, 240), (size_t)345625);   /* the largest plan of one piece */
SAME(KHON_CELL(7, 3, 2), (size_t)9);

const face the_reference = {"reference", ref_open, ref_add,  ref_correct,
                            ref_remove,  ref_ask,  ref_plan, ref_check};

static ref_changed from_changed(khon_changed answer) {
    ref_changed same;
    memset(&same, 0, sizeof same);
    same.refusal = answer.refusal;
    memcpy(&same.job, &answer.job, sizeof same.job);
    return same;
}

static khon_job to_job(ref_job job) {
    khon_job same;
    memcpy(&same, &job, sizeof same);
    return same;
}

static khon_piece to_piece(ref_piece piece) {
    return (khon_piece){piece.width, piece.height, piece.value};
}

static ref_changed library_open(uint32_t width, uint32_t height, uint32_t *cells, size_t len) {
    return from_changed(khon_open(width, height, cells, len));
}

static ref_changed library_add(ref_job job, uint32_t *cells, size_t len, ref_piece piece) {
    return from_changed(khon_add(to_job(job), cells, len, to_piece(piece)));
}

static ref_changed library_correct(ref_job job, uint32_t *cells, size_t len, uint32_t number,
                                   ref_piece piece) {
    return from_changed(khon_correct(to_job(job), cells, len, number, to_piece(piece)));
}

static ref_changed library_remove(ref_job job, uint32_t *cells, size_t len, uint32_t number) {
    return from_changed(khon_remove(to_job(job), cells, len, number));
}

static ref_asked library_ask(const uint8_t *block, size_t block_len, uint32_t *cells, size_t len,
                             uint32_t x, uint32_t y) {
    khon_asked answer = khon_ask(block, block_len, cells, len, x, y);
    return (ref_asked){answer.refusal, answer.value, answer.worked};
}

static ref_planned library_plan(const uint8_t *block, size_t block_len, const uint32_t *cells,
                                size_t len, uint32_t x, uint32_t y, uint8_t *file,
                                size_t file_len) {
    khon_planned answer = khon_plan(block, block_len, cells, len, x, y, file, file_len);
    return (ref_planned){answer.refusal, answer.length, answer.value};
}

static ref_checked library_check(const uint8_t *file, size_t file_len) {
    khon_checked answer = khon_check(file, file_len);
    return (ref_checked){answer.refusal, answer.value, answer.note, answer.piece_area,
                         answer.scrap_area};
}

const face the_library = {"library",      library_open, library_add,  library_correct,
                          library_remove, library_ask,  library_plan, library_check};
