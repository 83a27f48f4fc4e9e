// The tests that requests in C share, compiled into each file of them. The words are those of the library.
#include <stdbool.h>
#include <stddef.h>
#include <stdint.h>

#include "planes.h"

enum {
    DONE = 0,
    TOO_LARGE = 1,
    SIZES_DIFFER = 2,
    WIDTH_WRONG = 3,
    LENGTH_WRONG = 4,
    STRAY_SIGN = 5,
    PADDING_SET = 6,
    DIGIT_WRONG = 8,
    ABOVE_LIMIT = 11
};

static inline bool over(uint64_t rows, uint64_t columns)
{
    return rows > 1024 || columns > 1024;
}

static inline bool unfit(size_t r, size_t c, size_t len)
{
    return len != r * 2 * planes(c);
}

static inline uint64_t placed(uint64_t number, uint64_t buffer, uint64_t row, uint64_t column)
{
    return number | buffer << 8 | row << 16 | column << 32;
}

// The first place with the fault of this number, which there is. Only a refusal comes here.
__attribute__((noinline, unused)) static uint64_t first_place(uint64_t number, uint64_t buffer, size_t c, const uint64_t *a)
{
    size_t q = planes(c);
    for (size_t i = 0;; i++)
        for (size_t j = 0; j < q; j++) {
            uint64_t unit = a[2 * q * i + j], sign = a[2 * q * i + q + j];
            uint64_t columns = j < q - 1 ? ~(uint64_t)0 : ~(uint64_t)0 >> (64 * q - c);
            uint64_t bad = number == STRAY_SIGN ? sign & ~unit & columns : (unit | sign) & ~columns;
            if (bad != 0)
                return placed(number, buffer, i, 64 * j + (uint64_t)__builtin_ctzll(bad));
        }
}

// One pass for both faults. Nothing is decided in it, so that it becomes vector code: a legal matrix, the usual one, is read to its end anyway.
static inline uint64_t fault(uint64_t buffer, size_t r, size_t c, const uint64_t *a)
{
    size_t q = planes(c);
    if (q == 0)
        return DONE;
    size_t last = q - 1;
    uint64_t columns = ~(uint64_t)0 >> (64 * q - c);
    uint64_t stray = 0, padding = 0;
    for (size_t i = 0; i < r; i++) {
        const uint64_t *unit = a + 2 * q * i, *sign = unit + q;
        for (size_t j = 0; j < last; j++)
            stray |= sign[j] & ~unit[j];
        stray |= sign[last] & ~unit[last] & columns;
        padding |= (unit[last] | sign[last]) & ~columns;
    }
    if ((stray | padding) == 0)
        return DONE;
    return first_place(stray != 0 ? STRAY_SIGN : PADDING_SET, buffer, c, a);
}
