#include "peer.h"

#include <flint/nmod_mat.h>

static nmod_mat_t left, right, made;

static void fill(nmod_mat_t to, size_t n, const uint8_t *cells)
{
    nmod_mat_init(to, n, n, 3);
    for (size_t i = 0; i < n; i++)
        for (size_t j = 0; j < n; j++)
            nmod_mat_entry(to, i, j) = cells[n * i + j];
}

void peer_takes(size_t n, const uint8_t *a, const uint8_t *b)
{
    fill(left, n, a);
    fill(right, n, b);
    nmod_mat_init(made, n, n, 3);
}

void peer_multiplies(void)
{
    nmod_mat_mul(made, left, right);
}

unsigned peer_cell(size_t i, size_t j)
{
    return nmod_mat_entry(made, i, j);
}
