/* The header's structs and numbers, as a binding in another language must have
   them: "STRUCT size alignment", "STRUCT.FIELD TYPE offset size", "NAME number". */
#include <stdio.h>

#include "khonvertseg.h"

#define TYPE(type, field)                                     \
    _Generic(((type *)0)->field,                              \
             uint16_t: "uint16_t", uint32_t: "uint32_t",      \
             khon_job: "khon_job", khon_piece *: "khon_piece[]")
#define FIELD(type, field)                                                                   \
    printf(#type "." #field " %s %zu %zu\n", TYPE(type, field), offsetof(type, field),       \
           sizeof((type *)0)->field)
/* All fields follow the type, as zeros: a field that the header has besides is
   an error of the compiler (-Wextra, a missing initializer). */
#define STRUCT(type, ...)                                               \
    ((void)(type){__VA_ARGS__},                                         \
     printf(#type " %zu %zu\n", sizeof(type), _Alignof(type)))
#define NUMBER(name) printf(#name " %zu\n", (size_t)(name))

static void print_lent(void) {
    STRUCT(khon_piece, 0, 0, 0);
    FIELD(khon_piece, width);
    FIELD(khon_piece, height);
    FIELD(khon_piece, value);
    STRUCT(khon_job, 0, 0, 0, {{0, 0, 0}});
    FIELD(khon_job, width);
    FIELD(khon_job, height);
    FIELD(khon_job, count);
    FIELD(khon_job, pieces);
}

static void print_answers(void) {
    STRUCT(khon_changed, 0, {0, 0, 0, {{0, 0, 0}}});
    FIELD(khon_changed, refusal);
    FIELD(khon_changed, job);
    STRUCT(khon_asked, 0, 0, 0);
    FIELD(khon_asked, refusal);
    FIELD(khon_asked, value);
    FIELD(khon_asked, worked);
    STRUCT(khon_planned, 0, 0, 0);
    FIELD(khon_planned, refusal);
    FIELD(khon_planned, length);
    FIELD(khon_planned, value);
    STRUCT(khon_checked, 0, 0, 0, 0, 0);
    FIELD(khon_checked, refusal);
    FIELD(khon_checked, value);
    FIELD(khon_checked, note);
    FIELD(khon_checked, piece_area);
    FIELD(khon_checked, scrap_area);
}

int main(void) {
    print_lent();
    print_answers();
    NUMBER(KHON_SIDE_MAX);
    NUMBER(KHON_PIECES_MAX);
    return 0;
}
