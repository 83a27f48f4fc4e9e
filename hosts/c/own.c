#include "own.h"

#include <string.h>

uint64_t scramble(uint64_t seed, uint64_t x, uint64_t y)
{
    uint64_t z = seed * 0x9e3779b97f4a7c15u + x * 0xd1342543de82ef95u + y * 0xaf251af3b0f025b5u + 1;
    int i;
    for (i = 0; i < 3; i++) {
        z ^= z >> 29;
        z *= 0xbf58476d1ce4e5b9u;
        z ^= z >> 32;
    }
    return z;
}

void own_random(struct digits *m, unsigned rows, unsigned columns, uint64_t seed)
{
    unsigned style = (unsigned)(scramble(seed, 1, 0) % 8), i, j;
    memset(m, 0, sizeof *m);
    m->rows = rows;
    m->columns = columns;
    for (i = 0; i < rows; i++)
        for (j = 0; j < columns; j++) {
            uint64_t r = scramble(seed, 2 + i, j);
            switch (style) {
            case 0: m->cell[i][j] = 0; break;
            case 1: m->cell[i][j] = 2; break;
            case 2: m->cell[i][j] = r % 16 == 0 ? (uint8_t)(1 + r / 16 % 2) : 0; break;
            default: m->cell[i][j] = (uint8_t)(r % 3);
            }
        }
}

void own_pack(const struct digits *m, uint8_t *bytes)
{
    unsigned q = (m->columns + 63) / 64, i, j;
    memset(bytes, 0, (size_t)m->rows * q * 16);
    for (i = 0; i < m->rows; i++)
        for (j = 0; j < m->columns; j++) {
            uint8_t *unit = bytes + (size_t)i * 16 * q + j / 8, *sign = unit + 8 * q;
            if (m->cell[i][j] != 0)
                *unit = (uint8_t)(*unit | 1u << j % 8);
            if (m->cell[i][j] == 2)
                *sign = (uint8_t)(*sign | 1u << j % 8);
        }
}

void own_product(const struct digits *a, const struct digits *b, struct digits *product)
{
    unsigned i, j, t;
    memset(product, 0, sizeof *product);
    product->rows = a->rows;
    product->columns = b->columns;
    for (i = 0; i < a->rows; i++)
        for (j = 0; j < b->columns; j++) {
            unsigned sum = 0;
            for (t = 0; t < a->columns; t++)
                sum += (unsigned)a->cell[i][t] * b->cell[t][j];
            product->cell[i][j] = (uint8_t)(sum % 3);
        }
}

uint64_t own_quote(unsigned rows, unsigned columns, unsigned width)
{
    uint64_t steps = 0;
    unsigned first;
    for (first = 0; first < columns; first += width) {
        unsigned w = columns - first < width ? columns - first : width;
        steps += ((uint64_t)1 << w) - 1 + (uint64_t)rows * (w < 2 ? w : 2);
    }
    return steps;
}

unsigned own_default_width(unsigned rows, unsigned columns)
{
    unsigned width, best = 1;
    for (width = 2; width <= 8; width++)
        if (own_quote(rows, columns, width) < own_quote(rows, columns, best))
            best = width;
    return best;
}

uint64_t own_total(const struct digits *a, unsigned width)
{
    uint64_t steps = 0;
    unsigned first, x, i, t;
    for (first = 0; first < a->columns; first += width) {
        unsigned w = a->columns - first < width ? a->columns - first : width;
        for (x = 1; x < 1u << w; x++)
            steps++;
        for (i = 0; i < a->rows; i++) {
            int ones = 0, twos = 0;
            for (t = 0; t < w; t++) {
                ones |= a->cell[i][first + t] == 1;
                twos |= a->cell[i][first + t] == 2;
            }
            steps += (uint64_t)(ones + twos);
        }
    }
    return steps;
}
