// bench                          lists the cases, a line each: name, size, times to be measured, parts of its work, what a part is
// bench TIMES CASE SIZE SIDE     runs one case; SIDE is ours or c
// bench time CASE SIZE SIDE      prints how long a call of it takes, in picoseconds
//
// Before it runs the side, a case is run on both sides and the contents of all buffers are compared; a request is run on spoilt buffers too, and
// both sides must refuse them alike. What this and the filling cost is the same whatever TIMES is, so it falls out of a difference of two runs.
//
// A new case: a function that fills the buffers, one call for each side, one line of `cases`. Kernels and requests in C go to c/.
#include <stdbool.h>
#include <stddef.h>
#include <stdint.h>
#include <stdio.h>
#include <stdlib.h>
#include <string.h>

#include <nyuzolamba.h>

#include "c/face.h"
#include "c/kernels.h"
#include "c/product.h"
#include "c/requests.h"
#include "common.h"

// Ours: a slice is its start and its number of elements. 0 is done, anything else a refusal; a turn gives back the steps done, or REFUSED. A row step
// is repeated on our side.
typedef uint64_t row_steps(uint64_t *d, size_t d_len, const uint64_t *s, size_t s_len, size_t q, size_t times);

row_steps bench_add, bench_subtract, bench_table_step;
read_one bench_check;
combined_to_one bench_combination;
one_to_one bench_negation, bench_transpose;
scaled_to_one bench_scaling;
cells_to_one bench_pack;
one_to_cells bench_unpack;
job_begun bench_product, bench_opening;
job_continued bench_turn;
uint64_t bench_copies(const uint8_t *a, size_t a_bytes, const uint8_t *b, size_t b_bytes, uint8_t *out, size_t out_bytes, uint64_t *u, size_t u_len,
                      uint64_t *v, size_t v_len);

enum { BUFFERS = 4, SIZES = 5 };

// What a case works on; a buffer of bytes is one of words, cast.
struct work {
    size_t size, width; // a job's width; 0 is the default
    uint64_t *at[BUFFERS];
    size_t words[BUFFERS];
};

// Two random bits a cell; a cell that got the illegal pair draws again, so the three digits are equally likely.
static void random_cells(uint64_t *unit, uint64_t *sign)
{
    uint64_t open = ~(uint64_t)0;
    *unit = *sign = 0;
    while (open != 0) {
        uint64_t u = random_word(), s = random_word();
        *unit |= open & u;
        *sign |= open & u & s;
        open &= ~u & s;
    }
}

static void words(struct work *w, int i, size_t n)
{
    // A cache line's alignment, so that no count depends on where a buffer happens to lie.
    size_t bytes = (n * sizeof(uint64_t) + 63) / 64 * 64;
    w->at[i] = aligned_alloc(64, bytes == 0 ? 64 : bytes);
    if (w->at[i] == NULL)
        die(2, "no memory for buffer", "aligned_alloc");
    w->words[i] = n;
    memset(w->at[i], 0, bytes);
}

// The columns among the places of the last word of a plane.
static uint64_t columns_of_last(size_t c)
{
    return ~(uint64_t)0 >> (64 * planes(c) - c);
}

static void matrix(struct work *w, int i, size_t r, size_t c)
{
    size_t q = planes(c);
    words(w, i, 2 * q * r);
    for (size_t row = 0; row < r; row++) {
        uint64_t *unit = w->at[i] + 2 * q * row, *sign = unit + q;
        for (size_t j = 0; j < q; j++)
            random_cells(&unit[j], &sign[j]);
        unit[q - 1] &= columns_of_last(c);
        sign[q - 1] &= columns_of_last(c);
    }
}

static void digits(struct work *w, int i, size_t n)
{
    words(w, i, (n + 7) / 8);
    uint8_t *cells = (uint8_t *)w->at[i];
    for (size_t k = 0; k < n; k++)
        cells[k] = random_word() % 3;
}

// A buffer to be written holds anything, so that a word which a side forgets shows.
static void anything(struct work *w, int i, size_t n)
{
    words(w, i, n);
    for (size_t k = 0; k < n; k++)
        w->at[i][k] = random_word();
}

// Row steps: d has two rows, of which add and subtract touch the first alone, and s one.
static void row_step(struct work *w)
{
    matrix(w, 0, 2, 64 * w->size);
    matrix(w, 1, 1, 64 * w->size);
}

#define WORDS(i) w->at[i], w->words[i]
#define ROW_STEP(name, call)                                     \
    static uint64_t ours_##name(struct work *w, size_t times)    \
    {                                                            \
        return bench_##name(WORDS(0), WORDS(1), w->size, times); \
    }                                                            \
    static uint64_t c_##name(struct work *w, size_t times)       \
    {                                                            \
        uint64_t *d = w->at[0], *s = w->at[1];                   \
        size_t q = w->size;                                      \
        for (size_t i = 0; i < times; i++)                       \
            call;                                                \
        return 0;                                                \
    }

ROW_STEP(add, add_row(d, s, q))
ROW_STEP(subtract, subtract_row(d, s, q))
ROW_STEP(table_step, table_step(d + 2 * q, d, s, q))

// Requests: the matrices have as many columns as rows. Both sides take the same arguments, and the loop that repeats the call is here for both.
static void fill_one(struct work *w)
{
    matrix(w, 0, w->size, w->size);
}

static void fill_one_to_one(struct work *w)
{
    matrix(w, 0, w->size, w->size);
    anything(w, 1, matrix_words(w->size));
}

static void fill_two_to_one(struct work *w)
{
    matrix(w, 0, w->size, w->size);
    matrix(w, 1, w->size, w->size);
    anything(w, 2, matrix_words(w->size));
}

static void fill_cells_to_one(struct work *w)
{
    digits(w, 0, w->size * w->size);
    anything(w, 1, matrix_words(w->size));
}

static void fill_one_to_cells(struct work *w)
{
    matrix(w, 0, w->size, w->size);
    anything(w, 1, (w->size * w->size + 7) / 8);
}

#define CELLS(i) (uint8_t *)w->at[i], w->size * w->size
#define SIDE(side, function, ...)                             \
    static uint64_t side(struct work *w, size_t times)        \
    {                                                         \
        uint64_t answer = 0;                                  \
        for (size_t i = 0; i < times; i++)                    \
            answer = function(w->size, w->size, __VA_ARGS__); \
        return answer;                                        \
    }
#define REQUEST(name, ...)                       \
    SIDE(ours_##name, bench_##name, __VA_ARGS__) \
    SIDE(c_##name, matrix_##name, __VA_ARGS__)

REQUEST(check, WORDS(0))
// A fault in the last row: 0 where it was refused each time.
#define REFUSED_SIDE(side, function, ...)                         \
    static uint64_t side(struct work *w, size_t times)            \
    {                                                             \
        uint64_t done = 0;                                        \
        for (size_t i = 0; i < times; i++)                        \
            done |= function(w->size, w->size, __VA_ARGS__) == 0; \
        return done;                                              \
    }
REFUSED_SIDE(ours_refused_check, bench_check, WORDS(0))
REFUSED_SIDE(c_refused_check, matrix_check, WORDS(0))
#define COMBINATION(digit)                                                                           \
    SIDE(ours_combination_##digit, bench_combination, digit, WORDS(0), WORDS(1), WORDS(2)) \
    SIDE(c_combination_##digit, matrix_combination, digit, WORDS(0), WORDS(1), WORDS(2))

COMBINATION(0)
COMBINATION(1)
COMBINATION(2)
REQUEST(negation, WORDS(0), WORDS(1))
REQUEST(scaling, 2, WORDS(0), WORDS(1))
REQUEST(transpose, WORDS(0), WORDS(1))
SIDE(c_transpose_blocks, matrix_transpose_blocks, WORDS(0), WORDS(1))
REQUEST(pack, CELLS(0), WORDS(1))
REQUEST(unpack, WORDS(0), CELLS(1))

// The C face: the same buffers as bytes. On x86-64 a word's bytes already lie lowest first.
#define BYTES(i) (uint8_t *)w->at[i], sizeof(uint64_t) * w->words[i]
#define FACE(name, ...)                                    \
    SIDE(ours_face_##name, nyuzolamba_##name, __VA_ARGS__) \
    SIDE(c_face_##name, face_##name, __VA_ARGS__)

FACE(check, BYTES(0))
FACE(combination, w->size, w->size, 1, BYTES(0), BYTES(1), BYTES(2))
FACE(product, w->size, w->size, BYTES(0), BYTES(1), BYTES(2))
// The copies of a product alone. Ours is handed the words that they go through, so that none of them is left out.
static uint64_t ours_face_copies(struct work *w, size_t times)
{
    static uint64_t u[128], v[128];
    uint64_t answer = 0;
    for (size_t i = 0; i < times; i++)
        answer = bench_copies(BYTES(0), BYTES(1), BYTES(2), u, w->words[0], v, w->words[1]);
    return answer;
}
SIDE(c_face_copies, face_copies, BYTES(0), BYTES(1), BYTES(2))

// Products: A, B, table and product. A turn reads all four, so for a lone one table and product are legal.
static void whole(struct work *w)
{
    matrix(w, 0, w->size, w->size);
    matrix(w, 1, w->size, w->size);
    anything(w, 2, 2 * planes(w->size) << matrix_width(w->size, w->size, w->width));
    anything(w, 3, matrix_words(w->size));
}

static void lone_turn(struct work *w)
{
    matrix(w, 0, w->size, w->size);
    matrix(w, 1, w->size, w->size);
    matrix(w, 2, (size_t)1 << w->width, w->size);
    matrix(w, 3, w->size, w->size);
}

#define JOB WORDS(0), WORDS(1), WORDS(2), WORDS(3)

REQUEST(opening, w->size, w->width, JOB)
static uint8_t record[NYUZOLAMBA_RECORD_BYTES];
FACE(open, w->size, w->size, w->width, record, sizeof record, BYTES(0), BYTES(1), BYTES(2), BYTES(3))
REQUEST(product, w->size, w->width, JOB)
REQUEST(turn, w->size, w->width, 0, JOB, 0)

// A whole job: its opening, and turns of 1,000 steps to the end. The C's turn finds its place by counting too, having no more than the record.
#define TURNS(side, opening, turn)                                        \
    static uint64_t side(struct work *w, size_t times)                    \
    {                                                                     \
        uint64_t n = w->size, answer = 0;                                 \
        for (size_t i = 0; i < times && answer == 0; i++) {               \
            uint64_t done = 0, made = 1000;                               \
            answer = opening(n, n, n, w->width, JOB);                     \
            while (answer == 0 && made == 1000) {                         \
                uint64_t next = turn(n, n, n, w->width, done, JOB, 1000); \
                answer = next == REFUSED ? REFUSED : 0;                   \
                made = next - done;                                       \
                done = next;                                              \
            }                                                             \
        }                                                                 \
        return answer;                                                    \
    }

TURNS(ours_turns, bench_opening, bench_turn)
TURNS(c_turns, matrix_opening, matrix_turn)

// Spoils a buffer that is read; false is that there is no further way to. The faults stand at the buffer's end, where a side that leaves a test
// out, or ends it early, does not see them.
typedef bool spoil(struct work *w, int buffer, int way);

static bool spoil_matrix(struct work *w, int buffer, int way)
{
    size_t q = planes(w->size);
    uint64_t *sign = w->at[buffer] + w->words[buffer] - 1, *unit = sign - q;
    uint64_t columns = columns_of_last(w->size), highest = columns ^ columns >> 1;
    if (way >= 2 && columns == ~(uint64_t)0)
        return false;
    switch (way) {
    case 0:
        w->words[buffer]--;
        return true;
    case 1:
        *unit &= ~highest;
        *sign |= highest;
        return true;
    case 2:
        *sign |= ~columns;
        return true;
    case 3: // a padding bit in the first row too: the stray sign comes before it all the same
        w->at[buffer][q - 1] |= ~columns;
        *unit &= ~highest;
        *sign |= highest;
        return true;
    default:
        return false;
    }
}

static bool spoil_cells(struct work *w, int buffer, int way)
{
    uint8_t *cells = (uint8_t *)w->at[buffer];
    cells[w->size * w->size - 1] = 3;
    return way == 0;
}

// The last cell holds sign without unit.
static void fill_one_bad(struct work *w)
{
    fill_one(w);
    spoil_matrix(w, 0, 1);
}

typedef uint64_t call(struct work *w, size_t times);

// What a call's work is made up of.
enum part { WORD, CELL, STEP };
static const char *const part_names[] = {"word", "cell", "step"};

// The size quote: as many steps as if no P and no N were 0.
static size_t steps(size_t n, size_t asked)
{
    size_t quote = 0, width = matrix_width(n, n, asked);
    for (size_t s = 0; s < n; s += width) {
        size_t w = n - s < width ? n - s : width;
        quote += ((size_t)1 << w) - 1 + 2 * n;
    }
    return quote;
}

struct bench_case {
    const char *name;
    size_t sizes[SIZES]; // up to the first 0
    size_t times;
    void (*fill)(struct work *w);
    call *ours, *c;
    enum part part;
    int reads; // buffers, from the first on, that `spoil` spoils
    spoil *spoil;
    size_t width; // a job's; 0 is the default
};

#define PRODUCT whole, ours_product, c_product, STEP, 2, spoil_matrix

// At 1,000 columns the last word of a plane has padding. Each width of a product stands at the sizes where it is the best or next to it, so that
// the best at each size is found by the run.
static const struct bench_case cases[] = {
    {"add-row", {1, 4, 16}, 1000, row_step, ours_add, c_add, WORD, 0, NULL, 0},
    {"subtract-row", {1, 4, 16}, 1000, row_step, ours_subtract, c_subtract, WORD, 0, NULL, 0},
    {"table-step", {1, 4, 16}, 1000, row_step, ours_table_step, c_table_step, WORD, 0, NULL, 0},
    {"check", {64, 256, 1000, 1024}, 4, fill_one, ours_check, c_check, WORD, 1, spoil_matrix, 0},
    {"check-refused", {64, 256, 1000, 1024}, 4, fill_one_bad, ours_refused_check, c_refused_check, WORD, 0, NULL, 0},
    {"combination-0", {64, 256, 1024}, 4, fill_two_to_one, ours_combination_0, c_combination_0, WORD, 2, spoil_matrix, 0},
    {"combination-1", {64, 256, 1000, 1024}, 4, fill_two_to_one, ours_combination_1, c_combination_1, WORD, 2, spoil_matrix, 0},
    {"combination-2", {64, 256, 1024}, 4, fill_two_to_one, ours_combination_2, c_combination_2, WORD, 2, spoil_matrix, 0},
    {"negation", {64, 256, 1024}, 4, fill_one_to_one, ours_negation, c_negation, WORD, 1, spoil_matrix, 0},
    {"scaling", {64, 256, 1024}, 4, fill_one_to_one, ours_scaling, c_scaling, WORD, 1, spoil_matrix, 0},
    {"transpose", {64, 256, 1000, 1024}, 2, fill_one_to_one, ours_transpose, c_transpose, CELL, 1, spoil_matrix, 0},
    {"transpose-blocks", {64, 256, 1024}, 2, fill_one_to_one, ours_transpose, c_transpose_blocks, CELL, 1, spoil_matrix, 0},
    {"pack", {64, 256, 1000, 1024}, 2, fill_cells_to_one, ours_pack, c_pack, CELL, 1, spoil_cells, 0},
    {"unpack", {64, 256, 1000, 1024}, 2, fill_one_to_cells, ours_unpack, c_unpack, CELL, 1, spoil_matrix, 0},
    {"opening-4", {8, 32}, 4, whole, ours_opening, c_opening, WORD, 2, spoil_matrix, 4},
    {"opening-0", {8, 32}, 4, whole, ours_opening, c_opening, WORD, 2, spoil_matrix, 0},
    {"product-0", {64, 128, 256, 512, 1024}, 2, PRODUCT, 0},
    {"product-4", {64, 128, 1024}, 2, PRODUCT, 4},
    {"product-5", {64, 128}, 2, PRODUCT, 5},
    {"product-6", {64, 128, 256}, 2, PRODUCT, 6},
    {"product-7", {128, 256, 512}, 2, PRODUCT, 7},
    {"product-8", {256, 512, 1024}, 2, PRODUCT, 8},
    {"turn-of-0", {1024}, 2, lone_turn, ours_turn, c_turn, STEP, 4, spoil_matrix, 8},
    {"turns-of-1000", {1024}, 1, whole, ours_turns, c_turns, STEP, 2, spoil_matrix, 8},
    {"face-check", {64}, 4, fill_one, ours_face_check, c_face_check, WORD, 1, spoil_matrix, 0},
    {"face-combination", {64}, 4, fill_two_to_one, ours_face_combination, c_face_combination, WORD, 2, spoil_matrix, 0},
    {"face-open-4", {8, 32}, 4, whole, ours_face_open, c_face_open, WORD, 2, spoil_matrix, 4},
    {"face-open-0", {8, 32}, 4, whole, ours_face_open, c_face_open, WORD, 2, spoil_matrix, 0},
    {"face-product", {64}, 4, fill_two_to_one, ours_face_product, c_face_product, STEP, 2, spoil_matrix, 0},
    {"face-copies", {64}, 4, fill_two_to_one, ours_face_copies, c_face_copies, WORD, 0, NULL, 0},
};

enum { CASES = sizeof cases / sizeof *cases };

static struct work filled(const struct bench_case *k, size_t size)
{
    struct work w = {.size = size, .width = k->width};
    random_start();
    k->fill(&w);
    return w;
}

static struct work run(const struct bench_case *k, size_t size, size_t times, call *side)
{
    struct work w = filled(k, size);
    if (side(&w, times) != 0)
        die(1, "refused", k->name);
    return w;
}

static void same(const struct bench_case *k, const struct work *a, const struct work *b)
{
    for (int i = 0; i < BUFFERS; i++)
        if (a->words[i] != b->words[i] || (a->words[i] != 0 && memcmp(a->at[i], b->at[i], a->words[i] * sizeof(uint64_t)) != 0))
            die(1, "the two sides differ", k->name);
}

// Twice, so that a side which takes no notice of `times` is found out.
static void compare(const struct bench_case *k, size_t size)
{
    struct work a = run(k, size, 2, k->ours), b = run(k, size, 2, k->c);
    same(k, &a, &b);
}

static void compare_refusals(const struct bench_case *k, size_t size)
{
    for (int buffer = 0; buffer < k->reads; buffer++)
        for (int way = 0;; way++) {
            struct work a = filled(k, size), b = filled(k, size);
            if (!k->spoil(&a, buffer, way) || !k->spoil(&b, buffer, way))
                break;
            uint64_t answer = k->ours(&a, 1);
            if (answer == 0 || answer != k->c(&b, 1))
                die(1, "the two sides refuse differently", k->name);
            same(k, &a, &b);
        }
}

struct timed {
    const struct bench_case *k;
    struct work w;
    call *side;
};

static void make_timed(void *with, size_t times)
{
    struct timed *t = with;
    if (t->side(&t->w, times) != 0)
        die(1, "refused", t->k->name);
}

static bool has_size(const struct bench_case *k, size_t size)
{
    for (int i = 0; i < SIZES && k->sizes[i] != 0; i++)
        if (k->sizes[i] == size)
            return true;
    return false;
}

// Of one call; a row step has as many words as its row.
static size_t parts(const struct bench_case *k, size_t size)
{
    switch (k->part) {
    case WORD:
        return k->fill == row_step ? 2 * size : matrix_words(size);
    case CELL:
        return size * size;
    default:
        return steps(size, k->width);
    }
}

static void list_cases(void)
{
    for (int c = 0; c < CASES; c++)
        for (int i = 0; i < SIZES && cases[c].sizes[i] != 0; i++) {
            const struct bench_case *k = &cases[c];
            printf("%s %zu %zu %zu %s\n", k->name, k->sizes[i], k->times, parts(k, k->sizes[i]), part_names[k->part]);
        }
}

int main(int argc, char **argv)
{
    if (argc == 1) {
        list_cases();
        return 0;
    }
    if (argc != 5)
        die(2, "usage", "bench [TIMES|time CASE SIZE SIDE]");
    const struct bench_case *k = NULL;
    for (int c = 0; c < CASES; c++)
        if (strcmp(argv[2], cases[c].name) == 0)
            k = &cases[c];
    size_t size = number(argv[3]);
    if (k == NULL || !has_size(k, size))
        die(2, "no such case or size", argv[2]);
    bool ours = strcmp(argv[4], "ours") == 0;
    if (!ours && strcmp(argv[4], "c") != 0)
        die(2, "neither ours nor c", argv[4]);
    compare(k, size);
    compare_refusals(k, size);
    call *side = ours ? k->ours : k->c;
    if (strcmp(argv[1], "time") == 0) {
        struct timed t = {k, filled(k, size), side};
        print_time(make_timed, &t);
    } else {
        run(k, size, number(argv[1]), side);
    }
    return 0;
}
