#include "peer.h"

#include <givaro/modular.h>
#include <linbox/matrix/sliced3.h>

// Its cells' type is one that its words take without a conversion.
typedef LinBox::MatrixDomain<LinBox::SlicedField<Givaro::Modular<uint32_t>, uint64_t>> Domain;

static Domain domain;
static Domain::Matrix *left, *right, *made;

static Domain::Matrix *filled(size_t n, const uint8_t *cells)
{
    Domain::Matrix *to = new Domain::Matrix(domain, n, n);
    for (size_t i = 0; i < n; i++)
        for (size_t j = 0; j < n; j++)
            to->setEntry(i, j, cells[n * i + j]);
    return to;
}

void peer_takes(size_t n, const uint8_t *a, const uint8_t *b)
{
    left = filled(n, a);
    right = filled(n, b);
    made = new Domain::Matrix(domain, n, n);
}

void peer_multiplies(void)
{
    domain.mul(*made, *left, *right);
}

unsigned peer_cell(size_t i, size_t j)
{
    return made->getEntry(i, j);
}
