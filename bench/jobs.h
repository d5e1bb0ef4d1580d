/* Pieces that both programs measure. */
#ifndef JOBS_H
#define JOBS_H

#include "khonvertseg.h"

/* One of 64 pieces of many sizes: nearly all numbers from 20 on are points. */
static inline khon_piece dense_piece(uint32_t i) {
    uint32_t p = 11 + i * 29 % 61, q = 9 + i * 23 % 67;
    return (khon_piece){(uint16_t)p, (uint16_t)q, (uint16_t)(p * q + i * 7 % 13)};
}

/* Table 1 of Herz's paper, on 127 by 98; a piece's value is its area. */
enum { TABLE_1_WIDTH = 127, TABLE_1_HEIGHT = 98, TABLE_1_PIECES = 5 };
static const khon_piece table_1[TABLE_1_PIECES] = {
    {18, 65, 18 * 65}, {24, 27, 24 * 27}, {21, 13, 21 * 13}, {36, 17, 36 * 17}, {54, 20, 54 * 20}};

#endif
