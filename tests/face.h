/* The seven calls as a table of functions, so that one test serves the
   reference and the library. */
#ifndef FACE_H
#define FACE_H

#include "reference.h"

typedef struct {
    const char *name;
    ref_changed (*open)(uint32_t, uint32_t, uint32_t *, size_t);
    ref_changed (*add)(ref_job, uint32_t *, size_t, ref_piece);
    ref_changed (*correct)(ref_job, uint32_t *, size_t, uint32_t, ref_piece);
    ref_changed (*remove)(ref_job, uint32_t *, size_t, uint32_t);
    ref_asked (*ask)(const uint8_t *, size_t, uint32_t *, size_t, uint32_t, uint32_t);
    ref_planned (*plan)(const uint8_t *, size_t, const uint32_t *, size_t, uint32_t, uint32_t,
                        uint8_t *, size_t);
    ref_checked (*check)(const uint8_t *, size_t);
} face;

extern const face the_reference, the_library;

#endif
