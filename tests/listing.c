/*
 * What the program must print (rules 9.1 to 9.6), by the reference alone:
 *
 *   listing              reads a job block from standard input, prints
 *   listing block SEED   a random block to try, good or bad
 */
#include <stdio.h>
#include <stdlib.h>
#include <string.h>

#include "reference.h"

/* The program's own rows (rule 9.2). */
enum { TABLE = 16384, BUFFER = 32768, INPUT_MAX = 70000 };

static uint32_t cells[TABLE];
static uint8_t file[BUFFER];

/* The one line of a refusal (rule 9.4). */
static int refused(uint32_t number) {
    printf("refused %u\n", number);
    return 0;
}

/* ---- the lines, one for each node in file order (rule 9.5) ---- */

/* What the part at this node earns; *at moves past it. */
static uint32_t earning(const ref_job *job, size_t *at) {
    uint32_t letter = file[*at], number = ref_get16(file + *at + 1), sum;
    *at += REF_NODE;
    if (letter == 'S')
        return 0;
    if (letter == 'P')
        return job->pieces[number - 1].value;
    sum = earning(job, at);
    return sum + earning(job, at);
}

static void print_part(const ref_job *job, size_t *at, uint32_t level, uint32_t x, uint32_t y) {
    uint32_t letter = file[*at], number = ref_get16(file + *at + 1);
    size_t after = *at;
    printf("%u %u %u %u %s %u\n", level, x, y, earning(job, &after),
           letter == 'V'   ? "VERTICAL"
           : letter == 'H' ? "HORIZONTAL"
           : letter == 'P' ? "PIECE"
                           : "SCRAP",
           number);
    *at += REF_NODE;
    if (letter == 'V') {
        print_part(job, at, level + 1, number, y);
        print_part(job, at, level + 1, x - number, y);
    }
    if (letter == 'H') {
        print_part(job, at, level + 1, x, number);
        print_part(job, at, level + 1, x, y - number);
    }
}

/* Open, add, ask and plan, one after the other (rule 9.1): the first refusal is
   printed, be it of the bytes (rule 9.3) or of a call, or else the listing. */
static int list(const uint8_t *block, size_t length) {
    if (length < REF_HEADER || length != REF_HEADER + REF_RECORD * (size_t)ref_get16(block + 4) ||
        ref_get16(block + 4) > REF_PIECES_MAX)
        return refused(1);
    uint32_t a = ref_get16(block), b = ref_get16(block + 2);
    ref_changed changed = ref_open(a, b, cells, TABLE);
    for (size_t at = REF_HEADER; changed.refusal == 0 && at < length; at += REF_RECORD) {
        ref_piece piece = {(uint16_t)ref_get16(block + at), (uint16_t)ref_get16(block + at + 2),
                           (uint16_t)ref_get16(block + at + 4)};
        changed = ref_add(changed.job, cells, TABLE, piece);
    }
    if (changed.refusal != 0)
        return refused(changed.refusal);
    ref_asked asked = ref_ask(block, length, cells, TABLE, a, b);
    if (asked.refusal != 0)
        return refused(asked.refusal);
    ref_planned planned = ref_plan(block, length, cells, TABLE, a, b, file, BUFFER);
    if (planned.refusal != 0)
        return refused(planned.refusal);
    printf("value %u worked %u\n", asked.value, asked.worked);
    print_part(&changed.job, &length, 1, a, b);
    return 0;
}

/* ---- random blocks ---- */

static uint32_t from_to(uint32_t least, uint32_t most) {
    return least + (uint32_t)rand() % (most - least + 1);
}

static int chance(uint32_t in_hundred) {
    return from_to(1, 100) <= in_hundred;
}

static void write_block(uint32_t seed) {
    static uint8_t block[INPUT_MAX];
    srand(seed);
    uint32_t a = chance(80) ? from_to(1, 30) : from_to(1, 250);
    uint32_t b = chance(80) ? from_to(1, 30) : from_to(1, 250);
    uint32_t n = chance(90) ? from_to(0, 6) : from_to(0, 66);
    size_t length = REF_HEADER + REF_RECORD * n;
    ref_put16(block, a);
    ref_put16(block + 2, b);
    ref_put16(block + 4, n);
    for (uint32_t i = 0; i < n; i++) {
        uint8_t *record = block + REF_HEADER + REF_RECORD * i;
        ref_put16(record, chance(97) ? from_to(1, 1 + a / 2) : from_to(0, 5000));
        ref_put16(record + 2, chance(97) ? from_to(1, 1 + b / 2) : from_to(0, 5000));
        ref_put16(record + 4, chance(97) ? from_to(1, 300) : from_to(0, 65535));
    }
    if (chance(6))
        length -= from_to(0, (uint32_t)length);
    else if (chance(6))
        length += from_to(1, 400);
    fwrite(block, 1, length, stdout);
}

int main(int count, char **words) {
    static uint8_t input[INPUT_MAX];
    if (count == 3 && strcmp(words[1], "block") == 0) {
        write_block((uint32_t)strtoul(words[2], NULL, 10));
        return 0;
    }
    if (count != 1) {
        fprintf(stderr, "usage: listing [block SEED]\n");
        return 2;
    }
    return list(input, fread(input, 1, sizeof input, stdin));
}
