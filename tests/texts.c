/* Prints "NUMBER<tab>TEXT" for refusal numbers, known and unknown; the last is
   the largest number, which surely is none. */
#include <inttypes.h>
#include <stdio.h>

#include "khonvertseg.h"

static void print_text(uint32_t refusal) {
    printf("%" PRIu32 "\t%s\n", refusal, khon_refusal_text(refusal));
}

int main(void) {
    for (uint32_t refusal = 0; refusal <= 99; refusal++)
        print_text(refusal);
    print_text(UINT32_MAX);
    return 0;
}
