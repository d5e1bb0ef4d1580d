/*
 * Lending: the same content as two rows, one to the library and one to the
 * reference. The library's row has guard values beyond both its ends, or one
 * of its ends at a page that may not be touched, so that a read beyond it is
 * seen too. The reference's row is a heap block of just its length, for the
 * address sanitizer.
 */
#ifndef LEND_H
#define LEND_H

#include <stddef.h>
#include <stdint.h>

typedef enum { LEND_BLOCK, LEND_CELLS, LEND_FILE, LEND_ROWS } lend_which;

typedef struct {
    uint8_t *library, *reference;
    size_t bytes, before, after; /* before and after: how many guard values */
} lent;

/* Lends so many bytes of content; place is any number and decides where in its
   area the library's row lies; a multiple of align (1 or 4) bytes in. */
lent lend(lend_which which, const void *content, size_t bytes, size_t align, uint64_t place);

/* What is wrong after a call, or NULL: a guard value changed, or the rows
   differ; *at is the byte where they do. */
const char *lend_wrong(const lent *row, size_t *at);

/* Gives the rows back. */
void lend_back(lent *row);

#endif
