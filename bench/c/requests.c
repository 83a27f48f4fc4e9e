// Plain loops over rows, words and cells, as they would be written for a product in C; of several ways to write a loop over cells, the one that
// gcc makes the fewest instructions of. Compiled apart from the loop that repeats them, so that every call pays for its own tests.
//
// `restrict`: the callers see to it that a buffer to be written shares no byte with another, as callers of ours must.
#include "requests.h"

#include <string.h>

#include "rows.h"
#include "tests.h"

// How many of the 64 cells from cell `from` on a row of n has.
static size_t real(size_t n, size_t from)
{
    return n - from < 64 ? n - from : 64;
}

// r by c: the matrix to be written.
INLINE uint64_t judge_one(uint64_t rows, uint64_t columns, const uint64_t *a, size_t a_len, uint64_t r, uint64_t c, size_t out_len)
{
    if (over(rows, columns))
        return TOO_LARGE;
    if (unfit(rows, columns, a_len) || unfit(r, c, out_len))
        return LENGTH_WRONG;
    return fault(1, rows, columns, a);
}

static uint64_t judge_two(uint64_t rows, uint64_t columns, uint8_t d, const uint64_t *a, size_t a_len, const uint64_t *b, size_t b_len,
                          size_t out_len)
{
    if (over(rows, columns))
        return TOO_LARGE;
    if (unfit(rows, columns, a_len) || unfit(rows, columns, b_len) || unfit(rows, columns, out_len))
        return LENGTH_WRONG;
    if (d > 2)
        return DIGIT_WRONG;
    uint64_t no = fault(1, rows, columns, a);
    return no != DONE ? no : fault(2, rows, columns, b);
}

uint64_t matrix_check(uint64_t rows, uint64_t columns, const uint64_t *a, size_t a_len)
{
    return judge_one(rows, columns, a, a_len, rows, columns, a_len);
}

INLINE void make_rows(operation *op, uint64_t rows, uint64_t columns, const uint64_t *a, const uint64_t *b, uint64_t *restrict out)
{
    size_t q = planes(columns);
    for (size_t i = 0; i < rows; i++)
        make_row(op, out + 2 * q * i, a + 2 * q * i, b + 2 * q * i, q);
}

// A loop for each digit, chosen once: no loop costs what it would with masks.
uint64_t matrix_combination(uint64_t rows, uint64_t columns, uint8_t d, const uint64_t *a, size_t a_len, const uint64_t *b, size_t b_len,
                            uint64_t *out, size_t out_len)
{
    uint64_t no = judge_two(rows, columns, d, a, a_len, b, b_len, out_len);
    if (no != DONE)
        return no;
    if (d == 0)
        memcpy(out, a, sizeof *out * out_len);
    else if (d == 1)
        make_rows(sum, rows, columns, a, b, out);
    else
        make_rows(difference, rows, columns, a, b, out);
    return DONE;
}

INLINE void scale_rows(uint8_t d, uint64_t rows, uint64_t columns, const uint64_t *a, uint64_t *restrict out)
{
    size_t q = planes(columns);
    struct pair by = {-(uint64_t)(d != 0), -(uint64_t)(d == 2)};
    for (size_t i = 0; i < rows; i++)
        scale_row(by, out + 2 * q * i, a + 2 * q * i, q);
}

uint64_t matrix_negation(uint64_t rows, uint64_t columns, const uint64_t *a, size_t a_len, uint64_t *out, size_t out_len)
{
    uint64_t no = judge_one(rows, columns, a, a_len, rows, columns, out_len);
    if (no == DONE)
        scale_rows(2, rows, columns, a, out);
    return no;
}

uint64_t matrix_scaling(uint64_t rows, uint64_t columns, uint8_t d, const uint64_t *a, size_t a_len, uint64_t *out, size_t out_len)
{
    if (over(rows, columns))
        return TOO_LARGE;
    if (unfit(rows, columns, a_len) || unfit(rows, columns, out_len))
        return LENGTH_WRONG;
    if (d > 2)
        return DIGIT_WRONG;
    uint64_t no = fault(1, rows, columns, a);
    if (no == DONE)
        scale_rows(d, rows, columns, a, out);
    return no;
}

// Cell by cell: each word of the transpose is gathered from 64 rows.
static inline void by_cells(uint64_t rows, uint64_t columns, const uint64_t *a, uint64_t *restrict out)
{
    size_t q = planes(columns), p = planes(rows);
    for (size_t j = 0; j < columns; j++)
        for (size_t k = 0; k < p; k++) {
            const uint64_t *from = a + 2 * q * 64 * k + j / 64;
            uint64_t unit = 0, sign = 0;
            for (const uint64_t *at = from + 2 * q * real(rows, 64 * k); at != from;) {
                at -= 2 * q;
                unit = 2 * unit + (at[0] >> j % 64 & 1);
                sign = 2 * sign + (at[q] >> j % 64 & 1);
            }
            out[2 * p * j + k] = unit;
            out[2 * p * j + p + k] = sign;
        }
}

uint64_t matrix_transpose(uint64_t rows, uint64_t columns, const uint64_t *a, size_t a_len, uint64_t *out, size_t out_len)
{
    uint64_t no = judge_one(rows, columns, a, a_len, columns, rows, out_len);
    if (no == DONE)
        by_cells(rows, columns, a, out);
    return no;
}

// In each square of 2h by 2h cells, the square of h by h at the upper right changes places with the one at the lower left.
static inline void exchange(uint64_t w[64], int h, uint64_t low)
{
    for (int i = 0; i < 64; i += 2 * h)
        for (int j = i; j < i + h; j++) {
            uint64_t t = (w[j] >> h ^ w[j + h]) & low;
            w[j] ^= t << h;
            w[j + h] ^= t;
        }
}

static void turn(uint64_t w[64])
{
    exchange(w, 32, 0x00000000ffffffff);
    exchange(w, 16, 0x0000ffff0000ffff);
    exchange(w, 8, 0x00ff00ff00ff00ff);
    exchange(w, 4, 0x0f0f0f0f0f0f0f0f);
    exchange(w, 2, 0x3333333333333333);
    exchange(w, 1, 0x5555555555555555);
}

// Block by block: 64 by 64 cells at a time.
static inline void by_blocks(uint64_t rows, uint64_t columns, const uint64_t *a, uint64_t *restrict out)
{
    size_t q = planes(columns), p = planes(rows);
    for (size_t k = 0; k < p; k++)
        for (size_t j = 0; j < q; j++)
            for (size_t plane = 0; plane < 2; plane++) {
                uint64_t w[64];
                size_t n = real(rows, 64 * k), m = real(columns, 64 * j);
                const uint64_t *from = a + 2 * q * 64 * k + q * plane + j;
                uint64_t *to = out + 2 * p * 64 * j + p * plane + k;
                for (size_t t = 0; t < n; t++)
                    w[t] = from[2 * q * t];
                for (size_t t = n; t < 64; t++)
                    w[t] = 0;
                turn(w);
                for (size_t t = 0; t < m; t++)
                    to[2 * p * t] = w[t];
            }
}

uint64_t matrix_transpose_blocks(uint64_t rows, uint64_t columns, const uint64_t *a, size_t a_len, uint64_t *out, size_t out_len)
{
    uint64_t no = judge_one(rows, columns, a, a_len, columns, rows, out_len);
    if (no == DONE)
        by_blocks(rows, columns, a, out);
    return no;
}

uint64_t matrix_pack(uint64_t rows, uint64_t columns, const uint8_t *cells, size_t cells_len, uint64_t *restrict out, size_t out_len)
{
    if (over(rows, columns))
        return TOO_LARGE;
    if (cells_len != rows * columns || unfit(rows, columns, out_len))
        return LENGTH_WRONG;
    uint8_t above = 0;
    for (size_t k = 0; k < cells_len; k++)
        above |= cells[k] > 2;
    if (above) {
        size_t k = 0;
        while (cells[k] <= 2)
            k++;
        return placed(DIGIT_WRONG, 1, k / columns, k % columns);
    }
    size_t q = planes(columns);
    for (size_t i = 0; i < rows; i++)
        for (size_t j = 0; j < q; j++) {
            const uint8_t *from = cells + columns * i + 64 * j;
            uint64_t unit = 0, sign = 0;
            for (size_t t = real(columns, 64 * j); t-- > 0;) {
                uint64_t d = from[t];
                unit = 2 * unit + (d + 1) / 2;
                sign = 2 * sign + d / 2;
            }
            out[2 * q * i + j] = unit;
            out[2 * q * i + q + j] = sign;
        }
    return DONE;
}

uint64_t matrix_unpack(uint64_t rows, uint64_t columns, const uint64_t *a, size_t a_len, uint8_t *restrict out, size_t out_len)
{
    if (over(rows, columns))
        return TOO_LARGE;
    if (unfit(rows, columns, a_len) || out_len != rows * columns)
        return LENGTH_WRONG;
    uint64_t no = fault(1, rows, columns, a);
    if (no != DONE)
        return no;
    size_t q = planes(columns);
    for (size_t i = 0; i < rows; i++)
        for (size_t j = 0; j < q; j++) {
            uint64_t unit = a[2 * q * i + j], sign = a[2 * q * i + q + j];
            uint8_t *to = out + columns * i + 64 * j;
            size_t n = real(columns, 64 * j);
            for (size_t t = 0; t < n; t++)
                to[t] = (unit >> t & 1) + (sign >> t & 1);
        }
    return DONE;
}
