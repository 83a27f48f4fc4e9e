// Compiled apart from the loops that repeat them. In a product each step meets other rows, so what a call finds out about its own rows must not be
// found out once for all repetitions.
#include "kernels.h"

#include "rows.h"

// d += s
void add_row(uint64_t *d, const uint64_t *s, size_t q)
{
    change_row(sum, d, s, q);
}

// d -= s
void subtract_row(uint64_t *d, const uint64_t *s, size_t q)
{
    change_row(difference, d, s, q);
}

// x = y + s
void table_step(uint64_t *x, const uint64_t *y, const uint64_t *s, size_t q)
{
    make_planes(sum, x, x + q, y, s, q);
}
