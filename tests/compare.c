/*
 * The library against the reference, call by call, on random input: answer,
 * job, every cell and every byte are compared after each call, and the guard
 * values beyond each lent row.
 *
 * KHON_CALLS   at least so many calls (1,000,000)
 * KHON_SEED    the seed (1), printed
 * KHON_SESSION only this session of that seed, to look at a difference again
 */
#define _DEFAULT_SOURCE
#include <signal.h>
#include <stdio.h>
#include <stdlib.h>
#include <string.h>
#include <unistd.h>

#include "face.h"
#include "lend.h"
#include "report.h"

/* ---- chance ---- */

static uint64_t seed, session, chance_state;

static uint64_t draw(void) { /* splitmix64 */
    uint64_t z = chance_state += UINT64_C(0x9E3779B97F4A7C15);
    z = (z ^ (z >> 30)) * UINT64_C(0xBF58476D1CE4E5B9);
    z = (z ^ (z >> 27)) * UINT64_C(0x94D049BB133111EB);
    return z ^ (z >> 31);
}

static uint32_t from_to(uint32_t least, uint32_t most) {
    return least + (uint32_t)(draw() % ((uint64_t)most - least + 1));
}

static int chance(uint32_t in_hundred) {
    return draw() % 100 < in_hundred;
}

#define ONE_OF(...) \
    (((const uint32_t[]){__VA_ARGS__})[draw() % (sizeof((const uint32_t[]){__VA_ARGS__}) / 4)])

/* ---- the account of what was met ---- */

typedef enum { OPEN, ADD, CORRECT, REMOVE, ASK, PLAN, CHECK, KINDS } kind;

static const char *const kind_names[KINDS] = {"open", "add",  "correct", "remove",
                                              "ask",  "plan", "check"};
enum { NUMBERS = 32 }; /* more than any refusal number; the last entry is for all above */
static unsigned long met[KINDS][NUMBERS];
static unsigned long calls, calls_of[KINDS];
static unsigned long kept_questions, kept_plans, notes_accepted, full_files, from_elsewhere;

/* ---- the session at hand ---- */

enum { BEYOND_MAX = 8, TABLE_ROOM = REF_CELLS_MAX + BEYOND_MAX, FILE_ROOM = REF_FILE_MAX + 64 };

static ref_job job;                  /* as the last accepted call returned it */
static uint32_t table[TABLE_ROOM];   /* the lent row, cells and entries beyond */
static size_t table_len;             /* its length */
static int kept;                     /* written by these calls alone, in order */
static uint32_t best[REF_CELLS_MAX]; /* the best values of the job, if known */
static int best_known;
static uint8_t file[FILE_ROOM], other_file[FILE_ROOM];

/* ---- the call at hand, for a message ---- */

static struct {
    kind which;
    ref_job job;
    const uint8_t *block;
    size_t block_len, cells_len, file_len;
    uint32_t x, y, number;
    ref_piece piece;
    const uint8_t *file;
} now;

static void print_bytes(const char *what, const uint8_t *bytes, size_t length) {
    printf("  %s, %zu bytes:", what, length);
    for (size_t i = 0; i < length && i < 512; i++)
        printf(" %02X", bytes[i]);
    printf("%s\n", length > 512 ? " .." : "");
}

static void print_call(void) {
    printf("  seed %llu, session %llu, call %lu: %s\n", (unsigned long long)seed,
           (unsigned long long)session, calls + 1, kind_names[now.which]);
    switch (now.which) {
    case OPEN:
        printf("  sides %u %u\n", now.x, now.y);
        break;
    case ADD:
    case CORRECT:
    case REMOVE:
        print_bytes("job", (const uint8_t *)&now.job, sizeof now.job);
        printf("  number %u, piece %u %u %u\n", now.number, now.piece.width, now.piece.height,
               now.piece.value);
        break;
    case ASK:
    case PLAN:
        print_bytes("block", now.block, now.block_len);
        printf("  x %u, y %u, buffer of %zu bytes\n", now.x, now.y, now.file_len);
        break;
    default:
        print_bytes("file", now.file, now.file_len);
    }
    if (now.which != CHECK) {
        printf("  %zu cells lent:", now.cells_len);
        for (size_t i = 0; i < now.cells_len && i < 256; i++)
            printf(" %u", table[i]);
        printf("%s\n", now.cells_len > 256 ? " .." : "");
    }
    printf("  again: KHON_SEED=%llu KHON_SESSION=%llu\n", (unsigned long long)seed,
           (unsigned long long)session);
}

static void differ(const char *what, unsigned long library, unsigned long reference) {
    report(0, "%s: %s: library %lu, reference %lu", kind_names[now.which], what, library,
           reference);
    print_call();
    exit(report_end());
}

static void crashed(int signal_number) {
    report(0, "%s: signal %d: a crash, or memory touched that isn't lent", kind_names[now.which],
           signal_number);
    print_call();
    report_end();
    fflush(stdout);
    _exit(1);
}

/* ---- one call, made twice and compared ---- */

#define SAME(what)                                                  \
    do {                                                            \
        if (library.what != reference.what)                         \
            differ(#what, (unsigned long)library.what, (unsigned long)reference.what); \
    } while (0)

static void same_row(const lent *row, const char *what) {
    size_t at = 0;
    const char *wrong = lend_wrong(row, &at);
    if (wrong != NULL) {
        char text[100];
        snprintf(text, sizeof text, "%s: %s, byte %zu", what, wrong, at);
        differ(text, at < row->bytes ? row->library[at] : 0,
               at < row->bytes ? row->reference[at] : 0);
    }
}

static void account(kind which, uint32_t refusal) {
    calls++;
    calls_of[which]++;
    met[which][refusal < NUMBERS ? refusal : NUMBERS - 1]++;
}

static lent lend_cells(size_t cells_len) {
    now.cells_len = cells_len;
    return lend(LEND_CELLS, table, cells_len * sizeof *table, 4, draw());
}

/* Compares what open, add, correct and remove leave, and takes the table. */
static ref_changed settle(lent *cells, ref_changed library, ref_changed reference) {
    SAME(refusal);
    for (size_t i = 0; i < sizeof(ref_job); i++)
        if (((uint8_t *)&library.job)[i] != ((uint8_t *)&reference.job)[i])
            differ("a byte of the job", ((uint8_t *)&library.job)[i],
                   ((uint8_t *)&reference.job)[i]);
    same_row(cells, "cells");
    if (cells->bytes != 0)
        memcpy(table, cells->reference, cells->bytes);
    lend_back(cells);
    account(now.which, reference.refusal);
    return reference;
}

static ref_changed call_open(uint32_t a, uint32_t b, size_t cells_len) {
    now.which = OPEN;
    now.x = a;
    now.y = b;
    lent cells = lend_cells(cells_len);
    ref_changed library = the_library.open(a, b, (uint32_t *)(void *)cells.library, cells_len);
    ref_changed reference =
        the_reference.open(a, b, (uint32_t *)(void *)cells.reference, cells_len);
    return settle(&cells, library, reference);
}

static ref_changed call_change(kind which, const ref_job *given, size_t cells_len, uint32_t number,
                               ref_piece piece) {
    now.which = which;
    now.job = *given;
    now.number = number;
    now.piece = piece;
    lent cells = lend_cells(cells_len);
    ref_changed answers[2];
    for (int i = 0; i < 2; i++) {
        const face *f = i == 0 ? &the_library : &the_reference;
        uint32_t *row = (uint32_t *)(void *)(i == 0 ? cells.library : cells.reference);
        answers[i] = which == ADD       ? f->add(*given, row, cells_len, piece)
                     : which == CORRECT ? f->correct(*given, row, cells_len, number, piece)
                                        : f->remove(*given, row, cells_len, number);
    }
    return settle(&cells, answers[0], answers[1]);
}

static void now_question(kind which, const uint8_t *block, size_t block_len, uint32_t x,
                         uint32_t y, size_t file_len) {
    now.which = which;
    now.block = block;
    now.block_len = block_len;
    now.x = x;
    now.y = y;
    now.file_len = file_len;
}

static ref_asked call_ask(const uint8_t *bytes, size_t block_len, size_t cells_len, uint32_t x,
                          uint32_t y) {
    now_question(ASK, bytes, block_len, x, y, 0);
    lent block = lend(LEND_BLOCK, bytes, block_len, 1, draw());
    lent cells = lend_cells(cells_len);
    ref_asked library = the_library.ask(block.library, block_len,
                                        (uint32_t *)(void *)cells.library, cells_len, x, y);
    ref_asked reference = the_reference.ask(
        block.reference, block_len, (uint32_t *)(void *)cells.reference, cells_len, x, y);
    SAME(refusal);
    SAME(value);
    SAME(worked);
    same_row(&block, "block");
    same_row(&cells, "cells");
    if (cells.bytes != 0)
        memcpy(table, cells.reference, cells.bytes);
    lend_back(&block);
    lend_back(&cells);
    account(ASK, reference.refusal);
    return reference;
}

/* Writes into file, of which file_len bytes are lent. */
static ref_planned call_plan(const uint8_t *bytes, size_t block_len, size_t cells_len, uint32_t x,
                             uint32_t y, size_t file_len) {
    now_question(PLAN, bytes, block_len, x, y, file_len);
    lent block = lend(LEND_BLOCK, bytes, block_len, 1, draw());
    lent cells = lend_cells(cells_len);
    lent buffer = lend(LEND_FILE, file, file_len, 1, draw());
    ref_planned library =
        the_library.plan(block.library, block_len, (const uint32_t *)(void *)cells.library,
                         cells_len, x, y, buffer.library, file_len);
    ref_planned reference =
        the_reference.plan(block.reference, block_len, (const uint32_t *)(void *)cells.reference,
                           cells_len, x, y, buffer.reference, file_len);
    SAME(refusal);
    SAME(length);
    SAME(value);
    same_row(&block, "block");
    same_row(&cells, "cells");
    same_row(&buffer, "file");
    if (buffer.bytes != 0)
        memcpy(file, buffer.reference, buffer.bytes);
    lend_back(&block);
    lend_back(&cells);
    lend_back(&buffer);
    account(PLAN, reference.refusal);
    return reference;
}

static ref_checked call_check(const uint8_t *bytes, size_t file_len) {
    now.which = CHECK;
    now.file = bytes;
    now.file_len = file_len;
    lent row = lend(LEND_FILE, bytes, file_len, 1, draw());
    ref_checked library = the_library.check(row.library, file_len);
    ref_checked reference = the_reference.check(row.reference, file_len);
    SAME(refusal);
    SAME(value);
    SAME(note);
    SAME(piece_area);
    SAME(scrap_area);
    same_row(&row, "file");
    lend_back(&row);
    account(CHECK, reference.refusal);
    if (reference.refusal == 0 && reference.note > 0)
        notes_accepted++;
    return reference;
}

/* ---- arguments, good and bad ---- */

static ref_piece some_piece(void) {
    ref_piece piece;
    uint32_t value;
    piece.width = (uint16_t)from_to(1, job.width + 1u);
    piece.height = (uint16_t)from_to(1, job.height + 1u);
    if (chance(40)) { /* small ones, that go in often */
        piece.width = (uint16_t)from_to(1, 1 + job.width / 3u);
        piece.height = (uint16_t)from_to(1, 1 + job.height / 3u);
    }
    if (chance(4))
        piece.width = (uint16_t)ONE_OF(4095, 4094, 240, 241, 256, 257);
    if (chance(4))
        piece.height = (uint16_t)ONE_OF(4095, 4094, 240, 241, 256, 257);
    switch (draw() % 5) {
    case 0:
        value = (uint32_t)piece.width * piece.height;
        break;
    case 1:
        value = from_to(1, 4);
        break;
    case 2:
        value = from_to(1, 65535);
        break;
    case 3:
        value = ONE_OF(65535, 65534, 32768, 256, 255);
        break;
    default:
        value = from_to(1, 60);
    }
    piece.value = (uint16_t)(value > 65535 ? 65535 : value);
    if (job.count > 0 && chance(12)) /* an equal one, or of equal size */
        piece = job.pieces[draw() % job.count];
    if (job.count > 0 && chance(5))
        piece.value = job.pieces[draw() % job.count].value;
    return piece;
}

static ref_piece bad_piece(ref_piece piece) {
    switch (draw() % 5) {
    case 0:
        piece.width = 0;
        break;
    case 1:
        piece.width = (uint16_t)ONE_OF(4096, 4097, 8192, 65535);
        break;
    case 2:
        piece.height = 0;
        break;
    case 3:
        piece.height = (uint16_t)ONE_OF(4096, 4097, 8192, 65535);
        break;
    default:
        piece.value = 0;
    }
    return piece;
}

static uint32_t bad_side(uint32_t side) {
    return ONE_OF(0, 241, 242, 256, 256 + side, 65535);
}

/* The job with something out of range, of another sheet, or with a changed
   piece. */
static ref_job other_job(void) {
    ref_job other = job;
    switch (draw() % 7) {
    case 0:
        other.width = (uint16_t)bad_side(job.width);
        break;
    case 1:
        other.height = (uint16_t)bad_side(job.height);
        break;
    case 2:
        other.count = (uint16_t)ONE_OF(65, 66, 128, 256, 65535);
        break;
    case 3:
    case 4:
        if (job.count > 0) {
            uint32_t i = (uint32_t)(draw() % job.count);
            other.pieces[i] = bad_piece(other.pieces[i]);
        }
        break;
    case 5:
        other.width = (uint16_t)from_to(1, job.width + 2u);
        other.height = (uint16_t)from_to(1, job.height + 1u);
        break;
    default:
        if (job.count > 0)
            other.pieces[draw() % job.count] = some_piece();
    }
    return other;
}

/* Any numbers behind the n-th piece, where no call looks (rule 4.12). */
static void scribble_past_n(ref_job *other) {
    for (uint32_t i = other->count; i < REF_PIECES_MAX; i++) {
        other->pieces[i].width = (uint16_t)draw();
        other->pieces[i].height = (uint16_t)draw();
        other->pieces[i].value = (uint16_t)draw();
    }
}

static uint32_t bad_number(uint32_t good, uint32_t most) {
    return ONE_OF(0, most + 1, most + 2, 65536 + good, 65536, 256 + good, 4294967295u,
                  (uint32_t)draw());
}

static size_t bad_table_len(void) {
    size_t needed = (size_t)job.width * job.height;
    switch (draw() % 4) {
    case 0:
        return 0;
    case 1:
        return draw() % needed;
    default:
        return needed - 1;
    }
}

/* In one call out of some, each argument may be bad, so that refusals meet. */
static int rough;

static void decide_rough(void) {
    rough = chance(22);
}

static int spoil(void) {
    return rough && chance(35);
}

/* ---- open, add, correct, remove ---- */

static void own_change(kind which, uint32_t number, ref_piece piece) {
    ref_job given = job;
    size_t cells_len = table_len;
    decide_rough();
    if (spoil())
        given = other_job();
    if (chance(25))
        scribble_past_n(&given);
    if (spoil())
        cells_len = bad_table_len();
    if (spoil())
        number = bad_number(number, job.count);
    if (spoil())
        piece = bad_piece(piece);
    int own = memcmp(&given, &job, 6 + 6 * (size_t)job.count) == 0;
    ref_changed answer = call_change(which, &given, cells_len, number, piece);
    if (answer.refusal != 0)
        return;
    if (own) {
        job = answer.job;
        best_known = 0;
    } else {
        kept = 0;
    }
}

static uint32_t some_number(void) {
    return job.count == 0 ? 1 : from_to(1, job.count);
}

static void open_session(uint32_t a, uint32_t b) {
    size_t needed = (size_t)a * b;
    table_len = needed + (chance(50) ? 0 : from_to(0, BEYOND_MAX));
    for (size_t i = 0; i < table_len; i++)
        table[i] = chance(50) ? (uint32_t)draw() : (uint32_t)(draw() % 4);
    if (chance(30)) {
        size_t cells_len = table_len;
        uint32_t bad_a = a, bad_b = b;
        if (chance(50))
            bad_a = chance(50) ? bad_side(a) : 65536 * from_to(1, 65535) + a;
        if (chance(40))
            bad_b = chance(50) ? bad_side(b) : 65536 * from_to(1, 65535) + b;
        if (chance(50))
            cells_len = chance(60) ? needed - 1 : draw() % needed;
        (void)call_open(bad_a, bad_b, cells_len);
    }
    ref_changed answer = call_open(a, b, table_len);
    job = answer.job;
    kept = answer.refusal == 0;
    best_known = 0;
}

/* ---- ask ---- */

/* On a kept table a filled cell has the best value (rule 10.5). */
static void look_at_kept_table(void) {
    if (!best_known)
        ref_best(&job, best);
    best_known = 1;
    for (size_t i = 0; i < (size_t)job.width * job.height; i++)
        if (table[i] != REF_EMPTY && table[i] != best[i])
            differ("a filled cell of a kept table against the best value", table[i], best[i]);
}

static size_t some_block(uint8_t *block, int *own) {
    ref_job given = job;
    size_t length;
    *own = 1;
    if (spoil())
        given = other_job();
    length = ref_block(&given, block);
    if (given.count == 65 && chance(70)) { /* n too large, the length in order */
        memcpy(block + length, block + 6, 6);
        if (job.count == 0)
            memset(block + 6, 1, 6 * 65);
        length = 6 + 6 * 65;
    }
    if (spoil())
        switch (draw() % 4) {
        case 0:
            length = draw() % 7;
            break;
        case 1:
            length -= 1;
            break;
        case 2:
            for (uint32_t more = from_to(1, 7); more > 0; more--)
                block[length++] = (uint8_t)draw();
            break;
        default:
            ref_put16(block + 4, ONE_OF(given.count + 1u, given.count + 256u, 0, 64, 65));
        }
    *own = length == 6 + 6 * (size_t)job.count && memcmp(block, &job, length) == 0;
    return length;
}

static void some_question(uint32_t *x, uint32_t *y) {
    *x = chance(30) ? job.width : from_to(1, job.width);
    *y = chance(30) ? job.height : from_to(1, job.height);
    if (spoil())
        *x = bad_number(*x, job.width);
    if (spoil())
        *y = bad_number(*y, job.height);
}

static void own_ask(void) {
    uint8_t block[REF_BLOCK_MAX + 16];
    uint32_t x, y;
    int own;
    decide_rough();
    size_t block_len = some_block(block, &own);
    size_t cells_len = spoil() ? bad_table_len() : table_len;
    some_question(&x, &y);
    ref_asked answer = call_ask(block, block_len, cells_len, x, y);
    if (!own && answer.refusal == 0)
        kept = 0;
    if (kept && own) {
        if (answer.refusal == 7)
            differ("refusal 7 on a kept table", 7, 0);
        look_at_kept_table();
        kept_questions += answer.refusal == 0;
    }
}

/* Asks for the rectangle, or for the sheet if there is no such rectangle. */
static void own_ask_for(uint32_t x, uint32_t y) {
    uint8_t block[REF_BLOCK_MAX];
    size_t block_len = ref_block(&job, block);
    int inside = x - 1 < job.width && y - 1 < job.height;
    (void)call_ask(block, block_len, table_len, inside ? x : job.width,
                   inside ? y : job.height);
}

/* ---- tables from elsewhere ---- */

static uint64_t bound(uint32_t u, uint32_t w) {
    return (uint64_t)u * w * 65535;
}

static uint32_t foreign_number(int manner, uint32_t u, uint32_t w, uint32_t old) {
    switch (manner) {
    case 0:
        return (uint32_t)(draw() % 4);
    case 1:
        return (uint32_t)(draw() % (bound(u, w) + 1));
    case 2:
        return (uint32_t)bound(u, w);
    case 3:
        return chance(20) ? old + 1 : old;
    case 4:
        return chance(40) ? REF_EMPTY : (uint32_t)(draw() % 9);
    case 5:
        return job.count > 0 ? job.pieces[0].value : 0;
    case 6: /* each line adds up, where the first piece is 1 by 1 or so */
        return job.count > 0 ? u * w * job.pieces[0].value : u * w;
    case 7:
        return chance(50) && job.count > 0 ? job.pieces[draw() % job.count].value : 0;
    default:
        return (uint32_t)draw();
    }
}

static void table_from_elsewhere(void) {
    int manner = (int)(draw() % 10);
    for (uint32_t w = 1; w <= job.height; w++)
        for (uint32_t u = 1; u <= job.width; u++) {
            uint32_t *cell = &table[ref_cell(job.width, u, w)];
            if (manner != 9)
                *cell = foreign_number(manner, u, w, *cell);
        }
    for (uint32_t more = (uint32_t)(draw() % 3); more > 0; more--) { /* a few cells by themselves */
        uint32_t u = from_to(1, job.width), w = from_to(1, job.height);
        table[ref_cell(job.width, u, w)] =
            ONE_OF(0, REF_EMPTY, REF_EMPTY - 1, (uint32_t)bound(u, w), (uint32_t)bound(u, w) + 1,
                   (uint32_t)bound(u, w) - 1, (uint32_t)draw());
    }
    kept = 0;
    from_elsewhere++;
}

/* ---- files ---- */

/* Makes the sum true again, if D1 leads to a place in the file. */
static void mend(uint8_t *bytes, size_t length) {
    size_t start = length - REF_TRAILER;
    uint32_t d1 = ref_get32(bytes + start);
    if (d1 <= start)
        ref_put32(bytes + length - 4, ref_sum(bytes + (start - d1), (size_t)d1 + 12));
}

static void check_mended(uint8_t *bytes, size_t length) {
    mend(bytes, length);
    (void)call_check(bytes, length);
}

static uint8_t other_byte(uint8_t byte) {
    switch (draw() % 5) {
    case 0:
        return (uint8_t)(byte + 1);
    case 1:
        return (uint8_t)(byte - 1);
    case 2:
        return byte ^ (uint8_t)(1u << draw() % 8);
    case 3: {
        uint8_t letter = (uint8_t)"VHPS"[draw() % 4];
        return letter != byte ? letter : (uint8_t)0;
    }
    default:
        return (uint8_t)(byte + from_to(1, 255));
    }
}

/* Damages every byte (of a long file, some), with and without a true sum. */
static void damage(const uint8_t *good, size_t length) {
    size_t step = length <= 700 ? 1 : length / 60;
    for (size_t at = 0; at < length; at += step) {
        size_t spot = step == 1 ? at : draw() % length;
        memcpy(other_file, good, length);
        other_file[spot] = other_byte(good[spot]);
        (void)call_check(other_file, length);
        check_mended(other_file, length);
    }
}

/* Cuts the file short, at its end and at its front, to every length. */
static void cut_short(const uint8_t *good, size_t length) {
    size_t step = length <= 700 ? 1 : 1 + length / 60;
    for (size_t left = 0; left < length; left += step) {
        (void)call_check(good, left);
        (void)call_check(good + (length - left), left);
    }
}

/* Bytes more at the end, before the trailer, and after the block. */
static void lengthen(const uint8_t *good, size_t length) {
    size_t start = length - REF_TRAILER;
    for (uint32_t more = 1; more <= 6; more++) {
        memcpy(other_file, good, length);
        for (uint32_t i = 0; i < more; i++)
            other_file[length + i] = (uint8_t)draw();
        (void)call_check(other_file, length + more);
        for (int both = 0; both < 2; both++) {
            memcpy(other_file, good, start);
            memcpy(other_file + start + more, good + start, REF_TRAILER);
            for (uint32_t i = 0; i < more; i++)
                other_file[start + i] = i % 3 == 0 ? 'S' : 0;
            ref_put32(other_file + start + more, ref_get32(good + start) + more);
            if (both)
                ref_put32(other_file + start + more + 4, ref_get32(good + start + 4) + more);
            check_mended(other_file, length + more);
        }
    }
}

static void with_notes(const uint8_t *good, size_t length) {
    for (int i = 0; i < 3; i++) {
        uint32_t note = i == 0 ? 1 : from_to(1, 90);
        for (uint32_t k = 0; k < note; k++)
            other_file[k] = (uint8_t)draw();
        memcpy(other_file + note, good, length);
        (void)call_check(other_file, note + length);
        if (i == 2) { /* damage to the note is no damage */
            other_file[draw() % note] ^= 1;
            (void)call_check(other_file, note + length);
        }
    }
    if (length < 5000 && chance(4)) /* as long as a file may be, and a byte longer */
        for (size_t total = REF_FILE_MAX; total <= REF_FILE_MAX + 1; total++) {
            memset(other_file, (int)(draw() % 256), total - length);
            memcpy(other_file + (total - length), good, length);
            full_files += call_check(other_file, total).refusal == 0;
        }
}

static size_t block_length(const uint8_t *bytes) {
    return 6 + 6 * (size_t)ref_get16(bytes + 4);
}

/* Nodes changed, taken out and put in, with everything else made to match. */
static void other_nodes(const uint8_t *good, size_t length) {
    size_t start = length - REF_TRAILER, first = block_length(good);
    size_t count = (start - first) / 3;
    for (int i = 0; i < 12; i++) {
        size_t at = first + 3 * (draw() % count);
        memcpy(other_file, good, length);
        if (chance(40))
            other_file[at] = (uint8_t)"VHPSvhTs"[draw() % 8];
        if (chance(70))
            ref_put16(other_file + at + 1,
                      ONE_OF(0, 1, 2, ref_get16(good + at + 1) + 1, ref_get16(good + at + 1) - 1,
                             ref_get16(good), ref_get16(good + 2), ref_get16(good + 4),
                             ref_get16(good + 4) + 1u, 256 + ref_get16(good + at + 1), 65535));
        check_mended(other_file, length);
    }
    for (int i = 0; i < 4 && length < 5000; i++) {
        size_t at = first + 3 * (draw() % (count + 1));
        int more = i % 2;
        size_t changed_start = more ? start + 3 : start - 3;
        if (!more && at == start)
            at -= 3;
        memcpy(other_file, good, at);
        if (more) {
            other_file[at] = (uint8_t)"VHPS"[draw() % 4];
            ref_put16(other_file + at + 1, ONE_OF(0, 1, 2));
            memcpy(other_file + at + 3, good + at, length - at);
        } else {
            memcpy(other_file + at, good + at + 3, length - at - 3);
        }
        ref_put32(other_file + changed_start, (uint32_t)changed_start);
        ref_put32(other_file + changed_start + 4, (uint32_t)(changed_start - first));
        check_mended(other_file, changed_start + REF_TRAILER);
    }
}

/* The trailer's numbers changed, and n with them. */
static void other_trailer(const uint8_t *good, size_t length) {
    size_t start = length - REF_TRAILER, first = block_length(good);
    uint32_t d1 = ref_get32(good + start), d2 = ref_get32(good + start + 4);
    uint32_t value = ref_get32(good + start + 8), n = ref_get16(good + 4);
    for (int i = 0; i < 6; i++) {
        memcpy(other_file, good, length);
        ref_put32(other_file + start, ONE_OF(0, 8, 9, 10, 12, 15, d1 - 1, d1 + 1, d1 - 3, d1 - 6,
                                             65536 + d1, 4294967295u, (uint32_t)draw()));
        if (chance(50)) /* so that both lead to the same place */
            ref_put32(other_file + start + 4, ref_get32(other_file + start) - (uint32_t)first);
        check_mended(other_file, length);
        memcpy(other_file, good, length);
        ref_put32(other_file + start + 4,
                  ONE_OF(0, d2 - 1, d2 + 1, d2 - 3, d2 + 3, d2 + 65536, d2 + 16777216,
                         4294967295u, 4294967280u + d2, (uint32_t)draw()));
        check_mended(other_file, length);
        memcpy(other_file, good, length);
        ref_put32(other_file + start + 8,
                  ONE_OF(value + 1, value - 1, 0, value + 65536, value ^ 0x80000000u,
                         4294967295u, (uint32_t)draw()));
        check_mended(other_file, length);
        if (chance(30)) { /* a wrong value and broken nodes at once */
            other_file[first + 3 * (draw() % ((start - first) / 3))] = 'X';
            check_mended(other_file, length);
        }
        /* another n, and D2 that fits it: modulo 2^32, where it must be below 0 */
        memcpy(other_file, good, length);
        uint32_t other_n = ONE_OF(n + 1, n - 1, n + 2, 0, 64, 65, 256 + n, 65535) % 65536;
        ref_put16(other_file + 4, other_n);
        ref_put32(other_file + start + 4, d1 - 6 - 6 * other_n);
        check_mended(other_file, length);
    }
}

/* Sides and pieces of the block out of range, at their limits, or changed. */
static void other_blocks(const uint8_t *good, size_t length) {
    uint32_t n = ref_get16(good + 4);
    for (int i = 0; i < 5; i++) {
        size_t field = 2 * (draw() % (2 + (n > 0)));
        memcpy(other_file, good, length);
        if (field == 4)
            field = 6 + 2 * (draw() % (3 * (size_t)n));
        ref_put16(other_file + field, ONE_OF(0, 1, 240, 241, 4095, 4096, 65535, 256));
        check_mended(other_file, length);
    }
}

static void treat_file(const uint8_t *good, size_t length) {
    static uint8_t whole[FILE_ROOM];
    memcpy(whole, good, length);
    damage(whole, length);
    cut_short(whole, length);
    lengthen(whole, length);
    with_notes(whole, length);
    other_nodes(whole, length);
    other_trailer(whole, length);
    other_blocks(whole, length);
}

/* A tree that no tracer made; answers its value. */
static uint64_t grow(uint8_t *bytes, size_t *at, uint32_t x, uint32_t y) {
    uint32_t c = 0, k = 0;
    char letter = 'S';
    for (uint32_t i = 1; i <= job.count; i++)
        if (job.pieces[i - 1].width == x && job.pieces[i - 1].height == y && (k == 0 || chance(50)))
            k = i;
    if (k != 0 && chance(85)) {
        letter = 'P';
        c = k;
    } else if (x > 1 && chance(60)) {
        letter = 'V';
        c = from_to(1, x - 1);
    } else if (y > 1 && chance(60)) {
        letter = 'H';
        c = from_to(1, y - 1);
    }
    bytes[*at] = (uint8_t)letter;
    ref_put16(bytes + *at + 1, c);
    *at += REF_NODE;
    if (letter == 'P')
        return job.pieces[c - 1].value;
    if (letter == 'S')
        return 0;
    uint64_t near = letter == 'V' ? grow(bytes, at, c, y) : grow(bytes, at, x, c);
    return near + (letter == 'V' ? grow(bytes, at, x - c, y) : grow(bytes, at, x, y - c));
}

static void grown_file(void) {
    size_t at = ref_block(&job, file);
    size_t first = at;
    uint64_t value = grow(file, &at, job.width, job.height);
    ref_put32(file + at, (uint32_t)at);
    ref_put32(file + at + 4, (uint32_t)(at - first));
    ref_put32(file + at + 8, (uint32_t)value);
    size_t length = at + REF_TRAILER;
    mend(file, length);
    if (call_check(file, length).refusal != 0)
        differ("a tree grown by the rules is refused", 0, 0);
    if (length < 700) {
        other_nodes(file, length);
        if (chance(10))
            treat_file(file, length);
    }
}

/* ---- plan ---- */

static size_t some_buffer(size_t length) {
    switch (draw() % 6) {
    case 0:
        return length == 0 ? 0 : length - 1;
    case 1:
        return length + from_to(0, 20);
    case 2:
        return chance(50) ? draw() % (length + 1) : draw() % 60;
    default:
        return length;
    }
}

static void own_plan(void) {
    static uint8_t scratch[REF_PLAN_MAX];
    uint8_t block[REF_BLOCK_MAX + 16];
    uint32_t x, y;
    int own;
    decide_rough();
    size_t block_len = some_block(block, &own);
    size_t cells_len = spoil() ? bad_table_len() : table_len;
    some_question(&x, &y);
    if (chance(50)) /* else it is mostly a 6 */
        own_ask_for(x, y);
    ref_planned expected =
        ref_plan(block, block_len, table, cells_len, x, y, scratch, sizeof scratch);
    size_t file_len = some_buffer(expected.refusal == 0 ? expected.length : 40);
    for (size_t i = 0; i < file_len; i++)
        file[i] = (uint8_t)draw();
    ref_planned answer = call_plan(block, block_len, cells_len, x, y, file_len);
    if (kept && own && answer.refusal == 7)
        differ("refusal 7 on a kept table", 7, 0);
    if (answer.refusal != 0)
        return;
    ref_checked checked = call_check(file, answer.length);
    if (checked.refusal != 0 || checked.value != answer.value || checked.note != 0 ||
        checked.piece_area + checked.scrap_area != x * y)
        differ("check of a file just planned", checked.refusal, checked.value);
    kept_plans += (unsigned long)(kept && own);
    if (chance(answer.length <= 700 ? 6 : 3))
        treat_file(file, answer.length);
}

/* ---- sessions ---- */

static void some_sheet(uint32_t *a, uint32_t *b) {
    uint32_t throw = from_to(1, 1000);
    if (throw <= 860) {
        *a = from_to(1, 9);
        *b = from_to(1, 9);
    } else if (throw <= 960) {
        *a = from_to(1, 24);
        *b = from_to(1, 24);
    } else if (throw <= 992) {
        *a = ONE_OF(240, 239, from_to(1, 240));
        *b = from_to(1, 4);
        if (chance(50)) {
            uint32_t side = *a;
            *a = *b;
            *b = side;
        }
    } else if (throw <= 998) {
        *a = from_to(20, 90);
        *b = from_to(20, 90);
    } else {
        *a = ONE_OF(240, from_to(100, 240));
        *b = ONE_OF(240, from_to(100, 240));
    }
}

static void fill_the_job(void) {
    for (int tries = 0; tries < 200 && job.count < REF_PIECES_MAX; tries++)
        own_change(ADD, 1, some_piece());
    for (int i = 0; i < 12; i++)
        own_change(ADD, 1, some_piece());
}

static void step(void) {
    uint32_t throw = from_to(1, 100);
    if (throw <= 20)
        own_change(ADD, some_number(), some_piece());
    else if (throw <= 33)
        own_change(CORRECT, some_number(),
                   job.count > 0 && chance(15) ? job.pieces[some_number() - 1] : some_piece());
    else if (throw <= 39)
        own_change(REMOVE, some_number(), some_piece());
    else if (throw <= 68)
        own_ask();
    else if (throw <= 92)
        own_plan();
    else if (throw <= 95 && (size_t)job.width * job.height < 1000)
        grown_file();
    else if (throw <= 98)
        table_from_elsewhere();
    else if (throw <= 99)
        open_session(job.width, job.height);
    else if (chance(25))
        fill_the_job();
}

static void run_session(void) {
    uint32_t a, b;
    chance_state = seed * UINT64_C(0x2545F4914F6CDD1D) ^ session * UINT64_C(0x9E3779B97F4A7C15);
    some_sheet(&a, &b);
    open_session(a, b);
    for (uint32_t steps = from_to(5, 45); steps > 0; steps--)
        step();
}

/* ---- the whole ---- */

static uint64_t setting(const char *name, uint64_t otherwise) {
    const char *text = getenv(name);
    return text != NULL && *text != '\0' ? strtoull(text, NULL, 10) : otherwise;
}

/* What must have been met, or the run shows less than it claims. */
static void report_met(void) {
    static const uint32_t possible[KINDS] = {/* by bits */
                                             1 | 1 << 1 | 1 << 2,
                                             1 | 1 << 1 | 1 << 2 | 1 << 4 | 1 << 5,
                                             1 | 1 << 1 | 1 << 2 | 1 << 3 | 1 << 4,
                                             1 | 1 << 1 | 1 << 2 | 1 << 3,
                                             1 | 1 << 1 | 1 << 2 | 1 << 3 | 1 << 7,
                                             1 | 1 << 1 | 1 << 2 | 1 << 3 | 1 << 6 | 1 << 7 | 1 << 8,
                                             1 | 1 << 9 | 1 << 10 | 1 << 11 | 1 << 12 | 1 << 13};
    for (int which = 0; which < KINDS; which++) {
        int all = 1;
        printf("       %-8s", kind_names[which]);
        for (int number = 0; number < NUMBERS; number++)
            if (possible[which] >> number & 1) {
                printf(" %d: %lu ", number, met[which][number]);
                all = all && met[which][number] >= 10;
            } else {
                all = all && met[which][number] == 0;
            }
        printf("\n");
        report(all, "%s: each answer it can give was met ten times or more, and no other", kind_names[which]);
    }
    for (int rule = 0; rule <= 6; rule++)
        report(ref_rule_struck[rule] >= 10, "tree: %s%d struck %lu times",
               rule == 0 ? "a cell above its bound (rule 7.7), entry " : "rule 6.", rule,
               ref_rule_struck[rule]);
    report(kept_questions >= 1000 && kept_plans >= 200,
           "kept tables: %lu answers are best values, every line tried; %lu plans, never a 7",
           kept_questions, kept_plans);
    report(notes_accepted >= 100 && full_files >= 1 && from_elsewhere >= 100,
           "%lu files with notes accepted, %lu of 1,048,576 bytes; %lu tables from elsewhere",
           notes_accepted, full_files, from_elsewhere);
}

static void catch_crashes(void) {
    static uint8_t stack[65536];
    stack_t other = {.ss_sp = stack, .ss_size = sizeof stack};
    struct sigaction action;
    memset(&action, 0, sizeof action);
    action.sa_handler = crashed;
    action.sa_flags = SA_ONSTACK;
    sigaltstack(&other, NULL);
    sigaction(SIGSEGV, &action, NULL);
    sigaction(SIGBUS, &action, NULL);
    sigaction(SIGILL, &action, NULL);
    sigaction(SIGFPE, &action, NULL);
}

int main(void) {
    uint64_t wanted = setting("KHON_CALLS", 1000000);
    const char *one = getenv("KHON_SESSION");
    seed = setting("KHON_SEED", 1);
    catch_crashes();
    printf("seed %llu\n", (unsigned long long)seed);
    if (one != NULL && *one != '\0') {
        session = strtoull(one, NULL, 10);
        run_session();
        report(1, "session %llu: %lu calls agree", (unsigned long long)session, calls);
        return report_end();
    }
    for (session = 1; calls < wanted; session++)
        run_session();
    for (int which = 0; which < KINDS; which++)
        report(calls_of[which] > 0, "%s: %lu calls agree with the reference in all they leave",
               kind_names[which], calls_of[which]);
    if (wanted >= 100000)
        report_met();
    printf("seed %llu, %llu sessions, %lu calls compared\n", (unsigned long long)seed,
           (unsigned long long)session - 1, calls);
    return report_end();
}
