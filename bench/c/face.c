// The bench's requests in C over bytes: bytes are copied to words, the request is made, and its words are copied back.
#include "face.h"

#include <string.h>

#include "product.h"
#include "requests.h"
#include "tests.h"

enum { LIMIT = 64, MOST_WORDS = 2 * LIMIT, TABLE_WORDS = 2 << 7, RECORD_BYTES = 56 };

// One move for a whole buffer is the cheapest copy there is, and right where a word's lowest byte lies first.
_Static_assert(__BYTE_ORDER__ == __ORDER_LITTLE_ENDIAN__, "copies are of whole buffers");

static inline bool above(uint64_t rows, uint64_t columns)
{
    return rows > LIMIT || columns > LIMIT;
}

static inline bool unfit_bytes(size_t r, size_t c, size_t bytes)
{
    return bytes != r * 2 * planes(c) * sizeof(uint64_t);
}

uint64_t face_check(uint64_t rows, uint64_t columns, const uint8_t *a, size_t a_bytes)
{
    uint64_t u[MOST_WORDS];
    if (over(rows, columns))
        return TOO_LARGE;
    if (above(rows, columns))
        return ABOVE_LIMIT;
    if (unfit_bytes(rows, columns, a_bytes))
        return LENGTH_WRONG;
    memcpy(u, a, a_bytes);
    return matrix_check(rows, columns, u, a_bytes / sizeof *u);
}

// `fits`: the sizes are as the request asks. The result is A's rows by B's columns.
static inline uint64_t judge(uint64_t a_rows, uint64_t a_columns, uint64_t b_rows, uint64_t b_columns, bool fits, size_t a_bytes, size_t b_bytes,
                             size_t out_bytes)
{
    if (over(a_rows, a_columns) || over(b_rows, b_columns))
        return TOO_LARGE;
    if (above(a_rows, a_columns) || above(b_rows, b_columns))
        return ABOVE_LIMIT;
    if (!fits)
        return SIZES_DIFFER;
    if (unfit_bytes(a_rows, a_columns, a_bytes) || unfit_bytes(b_rows, b_columns, b_bytes) || unfit_bytes(a_rows, b_columns, out_bytes))
        return LENGTH_WRONG;
    return DONE;
}

uint64_t face_combination(uint64_t a_rows, uint64_t a_columns, uint64_t b_rows, uint64_t b_columns, uint64_t digit, const uint8_t *a, size_t a_bytes,
                          const uint8_t *b, size_t b_bytes, uint8_t *out, size_t out_bytes)
{
    uint64_t u[MOST_WORDS], v[MOST_WORDS], w[MOST_WORDS];
    uint64_t no = judge(a_rows, a_columns, b_rows, b_columns, a_rows == b_rows && a_columns == b_columns, a_bytes, b_bytes, out_bytes);
    if (no != DONE)
        return no;
    if (digit > 2)
        return DIGIT_WRONG;
    memcpy(u, a, a_bytes);
    memcpy(v, b, b_bytes);
    no = matrix_combination(a_rows, a_columns, (uint8_t)digit, u, a_bytes / sizeof *u, v, b_bytes / sizeof *v, w, out_bytes / sizeof *w);
    if (no == DONE)
        memcpy(out, w, out_bytes);
    return no;
}

uint64_t face_product(uint64_t a_rows, uint64_t a_columns, uint64_t b_rows, uint64_t b_columns, const uint8_t *a, size_t a_bytes,
                      const uint8_t *b, size_t b_bytes, uint8_t *out, size_t out_bytes)
{
    uint64_t u[MOST_WORDS], v[MOST_WORDS], w[MOST_WORDS], table[TABLE_WORDS];
    uint64_t no = judge(a_rows, a_columns, b_rows, b_columns, a_columns == b_rows, a_bytes, b_bytes, out_bytes);
    if (no != DONE)
        return no;
    memcpy(u, a, a_bytes);
    memcpy(v, b, b_bytes);
    uint64_t width = matrix_width(a_rows, a_columns, 0);
    no = matrix_product(a_rows, a_columns, b_columns, width, u, a_bytes / sizeof *u, v, b_bytes / sizeof *v, table,
                        planes(b_columns) * 2 << width, w, out_bytes / sizeof *w);
    if (no == DONE)
        memcpy(out, w, out_bytes);
    return no;
}

uint64_t face_open(uint64_t a_rows, uint64_t a_columns, uint64_t b_rows, uint64_t b_columns, uint64_t width, uint8_t *record,
                   size_t record_bytes, const uint8_t *a, size_t a_bytes, const uint8_t *b, size_t b_bytes, uint8_t *table, size_t table_bytes,
                   uint8_t *product, size_t product_bytes)
{
    uint64_t u[MOST_WORDS], v[MOST_WORDS], t[2 << 8], p[MOST_WORDS];
    if (record_bytes != RECORD_BYTES)
        return LENGTH_WRONG;
    uint64_t no = judge(a_rows, a_columns, b_rows, b_columns, a_columns == b_rows, a_bytes, b_bytes, product_bytes);
    if (no != DONE && no != LENGTH_WRONG)
        return no;
    if (width > 8)
        return WIDTH_WRONG;
    width = matrix_width(a_rows, a_columns, width);
    if (no != DONE || unfit_bytes((size_t)1 << width, b_columns, table_bytes))
        return LENGTH_WRONG;
    memcpy(u, a, a_bytes);
    memcpy(v, b, b_bytes);
    no = matrix_opening(a_rows, a_columns, b_columns, width, u, a_bytes / sizeof *u, v, b_bytes / sizeof *v, t, table_bytes / sizeof *t, p,
                        product_bytes / sizeof *p);
    if (no != DONE)
        return no;
    uint64_t words[RECORD_BYTES / 8] = {a_rows, a_columns, b_columns, width, 0, 0, 0};
    memcpy(record, words, RECORD_BYTES);
    memcpy(table, t, table_bytes);
    memcpy(product, p, product_bytes);
    return DONE;
}

uint64_t face_copies(uint64_t rows, uint64_t columns, const uint8_t *a, size_t a_bytes, const uint8_t *b, size_t b_bytes, uint8_t *out,
                     size_t out_bytes)
{
    uint64_t u[MOST_WORDS], v[MOST_WORDS];
    if (above(rows, columns))
        return ABOVE_LIMIT;
    memcpy(u, a, a_bytes);
    memcpy(v, b, b_bytes);
    // Nothing is made of the words, and yet they are to be copied.
    __asm__ volatile("" : : "r"(u), "r"(v) : "memory");
    memcpy(out, u, out_bytes);
    return DONE;
}
