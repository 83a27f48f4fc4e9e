// The list of row steps in C. No list is longer than 1,050,112 steps, so an opening and a whole product count none. A turn does: the record says
// how many steps are done and not where they end.
#include "product.h"

#include <string.h>

#include "rows.h"
#include "tests.h"

struct job {
    size_t m, l, n, width;
    const uint64_t *a, *b;
    uint64_t *table, *product;
};

// What is left of a turn: steps that were made before, and steps that may be made.
struct left {
    uint64_t skip, budget;
};

// In a whole product nothing is left out, and it pays for no test.
INLINE bool due(struct left *left)
{
    if (left == NULL)
        return true;
    if (left->skip != 0) {
        left->skip--;
        return false;
    }
    if (left->budget == 0)
        return false;
    left->budget--;
    return true;
}

static inline size_t least(size_t x, size_t y)
{
    return x < y ? x : y;
}

// The w bits from column s on of a plane, also where they cross from one word into the next.
static inline uint64_t window(const uint64_t *plane, size_t s, size_t w)
{
    size_t j = s / 64, t = s % 64;
    uint64_t bits = plane[j] >> t;
    if (t + w > 64)
        bits |= plane[j + 1] << (64 - t);
    return bits & (((uint64_t)1 << w) - 1);
}

INLINE void table_part(const struct job *job, size_t s, size_t w, struct left *left)
{
    size_t q = planes(job->n);
    uint64_t *table = job->table;
    const uint64_t *b = job->b + 2 * q * s;
    for (size_t x = 1; x < (size_t)1 << w; x++)
        if (due(left))
            make_row(sum, table + 2 * q * x, table + 2 * q * (x & (x - 1)), b + 2 * q * __builtin_ctzll(x), q);
}

INLINE void rows_part(const struct job *job, size_t s, size_t w, struct left *left)
{
    size_t q = planes(job->n), p = planes(job->l), m = job->m;
    const uint64_t *table = job->table, *unit = job->a;
    uint64_t *row = job->product;
    for (size_t i = 0; i < m; i++, unit += 2 * p, row += 2 * q) {
        uint64_t twos = window(unit + p, s, w), ones = window(unit, s, w) ^ twos;
        if (ones != 0 && due(left))
            change_row(sum, row, table + 2 * q * ones, q);
        if (twos != 0 && due(left))
            change_row(difference, row, table + 2 * q * twos, q);
    }
}

static uint64_t block_count(const struct job *job, size_t s, size_t w)
{
    size_t p = planes(job->l), m = job->m;
    const uint64_t *unit = job->a;
    uint64_t count = ((uint64_t)1 << w) - 1;
    for (size_t i = 0; i < m; i++, unit += 2 * p) {
        uint64_t twos = window(unit + p, s, w), ones = window(unit, s, w) ^ twos;
        count += (ones != 0) + (twos != 0);
    }
    return count;
}

static uint64_t judge(uint64_t m, uint64_t l, uint64_t n, uint64_t width, const uint64_t *a, size_t a_len, const uint64_t *b, size_t b_len,
                      size_t table_len, size_t product_len)
{
    if (over(m, l) || over(l, n))
        return TOO_LARGE;
    if (width > 8)
        return WIDTH_WRONG;
    if (unfit(m, l, a_len) || unfit(l, n, b_len) || unfit((size_t)1 << width, n, table_len) || unfit(m, n, product_len))
        return LENGTH_WRONG;
    uint64_t no = fault(1, m, l, a);
    return no != DONE ? no : fault(2, l, n, b);
}

static inline uint64_t block_quote(uint64_t m, uint64_t w)
{
    return ((uint64_t)1 << w) - 1 + m * least(w, 2);
}

uint64_t matrix_width(uint64_t m, uint64_t l, uint64_t width)
{
    if (width != 0)
        return width;
    uint64_t best = 1, steps = l * block_quote(m, 1);
    for (uint64_t k = 2; k <= 8; k++) {
        uint64_t quote = l / k * block_quote(m, k) + block_quote(m, l % k);
        if (quote < steps) {
            best = k;
            steps = quote;
        }
    }
    return best;
}

uint64_t matrix_opening(uint64_t m, uint64_t l, uint64_t n, uint64_t width, const uint64_t *a, size_t a_len, const uint64_t *b, size_t b_len,
                        uint64_t *table, size_t table_len, uint64_t *product, size_t product_len)
{
    uint64_t no = judge(m, l, n, matrix_width(m, l, width), a, a_len, b, b_len, table_len, product_len);
    if (no != DONE)
        return no;
    memset(table, 0, table_len * sizeof *table);
    memset(product, 0, product_len * sizeof *product);
    return DONE;
}

uint64_t matrix_product(uint64_t m, uint64_t l, uint64_t n, uint64_t width, const uint64_t *a, size_t a_len, const uint64_t *b, size_t b_len,
                        uint64_t *table, size_t table_len, uint64_t *product, size_t product_len)
{
    width = matrix_width(m, l, width);
    uint64_t no = matrix_opening(m, l, n, width, a, a_len, b, b_len, table, table_len, product, product_len);
    if (no != DONE)
        return no;
    struct job job = {m, l, n, width, a, b, table, product};
    for (size_t s = 0; s < l; s += job.width) {
        size_t w = least(job.width, l - s);
        table_part(&job, s, w, NULL);
        rows_part(&job, s, w, NULL);
    }
    return DONE;
}

uint64_t matrix_turn(uint64_t m, uint64_t l, uint64_t n, uint64_t width, uint64_t done, const uint64_t *a, size_t a_len, const uint64_t *b,
                     size_t b_len, uint64_t *table, size_t table_len, uint64_t *product, size_t product_len, uint32_t budget)
{
    if (width == 0 || judge(m, l, n, width, a, a_len, b, b_len, table_len, product_len) != DONE)
        return REFUSED;
    if (fault(3, (size_t)1 << width, n, table) != DONE || fault(4, m, n, product) != DONE)
        return REFUSED;
    struct job job = {m, l, n, width, a, b, table, product};
    uint64_t total = 0, before = 0;
    size_t from = 0;
    for (size_t s = 0; s < l; s += width) {
        total += block_count(&job, s, least(width, l - s));
        if (total <= done) {
            from = s + width;
            before = total;
        }
    }
    if (done > total)
        return REFUSED;
    uint64_t made = least(budget, total - done);
    struct left left = {done - before, made};
    for (size_t s = from; s < l && left.budget != 0; s += width) {
        size_t w = least(width, l - s);
        table_part(&job, s, w, &left);
        rows_part(&job, s, w, &left);
    }
    return done + made;
}
