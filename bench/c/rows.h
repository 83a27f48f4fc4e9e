// Rows in C: q unit words, then q sign words, as in the library. Each file that includes this has them compiled into its own loops.
//
// A row to be written overlaps no other, which `restrict` says, so that no call pays for a test of it. Said of either plane by itself it spares the
// kernels more; the loops of requests become shorter where it is said of the row. Each stands where it gives the fewer instructions.
#include <stddef.h>
#include <stdint.h>

#define INLINE static inline __attribute__((always_inline))

// 64 cells.
struct pair {
    uint64_t unit, sign;
};

typedef struct pair operation(struct pair x, struct pair y);

INLINE struct pair sum(struct pair x, struct pair y)
{
    uint64_t a = x.unit ^ y.sign, b = x.sign ^ y.unit;
    return (struct pair){(a ^ x.sign) | (b ^ y.sign), a & b};
}

INLINE struct pair difference(struct pair x, struct pair y)
{
    uint64_t t = x.unit ^ y.unit;
    return (struct pair){t | (x.sign ^ y.sign), (t ^ y.sign) & (y.unit ^ x.sign)};
}

INLINE void loop(operation *op, uint64_t *unit, uint64_t *sign, const uint64_t *xu, const uint64_t *xs, const uint64_t *y, size_t q)
{
    for (size_t j = 0; j < q; j++) {
        struct pair r = op((struct pair){xu[j], xs[j]}, (struct pair){y[j], y[q + j]});
        unit[j] = r.unit;
        sign[j] = r.sign;
    }
}

// to = x op y, to = to op y, by planes
INLINE void make_planes(operation *op, uint64_t *restrict unit, uint64_t *restrict sign, const uint64_t *x, const uint64_t *y, size_t q)
{
    loop(op, unit, sign, x, x + q, y, q);
}

INLINE void change_planes(operation *op, uint64_t *restrict unit, uint64_t *restrict sign, const uint64_t *y, size_t q)
{
    loop(op, unit, sign, unit, sign, y, q);
}

// to = x op y
INLINE void make_row(operation *op, uint64_t *restrict to, const uint64_t *x, const uint64_t *y, size_t q)
{
    loop(op, to, to + q, x, x + q, y, q);
}

// to = to op y
INLINE void change_row(operation *op, uint64_t *to, const uint64_t *y, size_t q)
{
    change_planes(op, to, to + q, y, q);
}

// to = x times by, a digit at all 64 places
INLINE void scale_row(struct pair by, uint64_t *restrict to, const uint64_t *x, size_t q)
{
    for (size_t j = 0; j < q; j++) {
        uint64_t u = x[j] & by.unit, s = x[q + j] ^ by.sign;
        to[j] = u;
        to[q + j] = u & s;
    }
}
