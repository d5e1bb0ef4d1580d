#define _DEFAULT_SOURCE
#include "lend.h"

#include <stdio.h>
#include <stdlib.h>
#include <string.h>
#include <sys/mman.h>
#include <unistd.h>

#include "reference.h"

enum { GUARDS = 64, GUARD_VALUE = 0xC7 };

/* Room for the largest row of all, a file longer than the longest. */
static const size_t most = REF_FILE_MAX + 4096;

static struct {
    uint8_t *start, *end; /* untouchable pages before start and from end on */
} areas[LEND_ROWS];

static void fence(lend_which which) {
    size_t page = (size_t)sysconf(_SC_PAGESIZE);
    size_t size = (most + 2 * GUARDS + page) / page * page;
    uint8_t *all = mmap(NULL, size + 2 * page, PROT_READ | PROT_WRITE, MAP_PRIVATE | MAP_ANONYMOUS,
                        -1, 0);
    if (all == MAP_FAILED || mprotect(all, page, PROT_NONE) != 0 ||
        mprotect(all + page + size, page, PROT_NONE) != 0) {
        perror("mmap");
        exit(2);
    }
    areas[which].start = all + page;
    areas[which].end = all + page + size;
}

lent lend(lend_which which, const void *content, size_t bytes, size_t align, uint64_t place) {
    lent row = {NULL, NULL, bytes, GUARDS, GUARDS};
    if (bytes > most)
        exit(2);
    if (areas[which].start == NULL)
        fence(which);
    switch (place % 4) {
    case 0: /* nothing may be touched before it */
        row.library = areas[which].start;
        row.before = 0;
        break;
    case 1: /* in the middle */
        row.library = areas[which].start + GUARDS + (place / 4 % 16) * align;
        break;
    default: /* nothing may be touched after it */
        row.library = areas[which].end - bytes;
        row.after = 0;
    }
    memset(row.library - row.before, GUARD_VALUE, row.before);
    memset(row.library + bytes, GUARD_VALUE, row.after);
    row.reference = malloc(bytes);
    if (row.reference == NULL && bytes != 0)
        exit(2);
    if (bytes != 0) {
        memcpy(row.library, content, bytes);
        memcpy(row.reference, content, bytes);
    }
    return row;
}

const char *lend_wrong(const lent *row, size_t *at) {
    for (size_t i = 0; i < row->before; i++)
        if (row->library[-1 - (ptrdiff_t)i] != GUARD_VALUE) {
            *at = i;
            return "a byte before the row was written";
        }
    for (size_t i = 0; i < row->after; i++)
        if (row->library[row->bytes + i] != GUARD_VALUE) {
            *at = i;
            return "a byte after the row was written";
        }
    if (row->bytes != 0 && memcmp(row->library, row->reference, row->bytes) != 0)
        for (size_t i = 0; i < row->bytes; i++)
            if (row->library[i] != row->reference[i]) {
                *at = i;
                return "the row differs from the reference's";
            }
    return NULL;
}

void lend_back(lent *row) {
    free(row->reference);
    row->reference = NULL;
}
