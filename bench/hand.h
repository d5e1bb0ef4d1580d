/*
 * The same work in C by hand, to measure beside the library: the changes, ask
 * cell by cell as rule 4.8 reads, the dull scheme with every line, plan and
 * check. Written as a C programmer would who trusts the caller's pointers and
 * wants it quick without rearranging the rule; every refusal of rules 7.1 to
 * 7.13 is tested (in the dull scheme 7.1 to 7.3), since that is part of the work.
 * hand_ask and hand_plan find the points as the library does, herz_ask and
 * herz_plan in Herz's list (points.h).
 */
#ifndef HAND_H
#define HAND_H

#include "points.h"

khon_changed hand_open(uint32_t width, uint32_t height, uint32_t *cells, size_t cells_len);
khon_changed hand_add(khon_job job, uint32_t *cells, size_t cells_len, khon_piece piece);
khon_changed hand_correct(khon_job job, uint32_t *cells, size_t cells_len, uint32_t k,
                          khon_piece piece);
khon_changed hand_remove(khon_job job, uint32_t *cells, size_t cells_len, uint32_t k);
khon_asked hand_ask(const uint8_t *block, size_t block_len, uint32_t *cells, size_t cells_len,
                    uint32_t x, uint32_t y);
khon_asked herz_ask(const uint8_t *block, size_t block_len, uint32_t *cells, size_t cells_len,
                    uint32_t x, uint32_t y);
khon_planned hand_plan(const uint8_t *block, size_t block_len, const uint32_t *cells,
                       size_t cells_len, uint32_t x, uint32_t y, uint8_t *file, size_t file_len);
khon_planned herz_plan(const uint8_t *block, size_t block_len, const uint32_t *cells,
                       size_t cells_len, uint32_t x, uint32_t y, uint8_t *file, size_t file_len);
khon_checked hand_check(const uint8_t *file, size_t file_len);

/* Every rectangle up to x by y by growing height and width, every line up to
   half, exact pieces; no points, and nothing kept from before. */
khon_asked dull_ask(const uint8_t *block, size_t block_len, uint32_t *cells, size_t cells_len,
                    uint32_t x, uint32_t y);

#endif
