/* The host's own arithmetic, by which it checks what the library sells: digits one by one, nothing packed, nothing shared with the library. */
#ifndef OWN_H
#define OWN_H

#include <stddef.h>
#include <stdint.h>

enum { MOST = 64 }; /* rows and columns of a matrix here */

/* A matrix of digits. */
struct digits {
    unsigned rows, columns;
    uint8_t cell[MOST][MOST];
};

/* A number that depends on these three alone. */
uint64_t scramble(uint64_t seed, uint64_t x, uint64_t y);

/* Fills a matrix of the given size with digits that follow from the seed: uniform, sparse, all 2 or all 0. */
void own_random(struct digits *m, unsigned rows, unsigned columns, uint64_t seed);

/* The only legal buffer of these digits, in document 01's bytes. */
void own_pack(const struct digits *m, uint8_t *bytes);

void own_product(const struct digits *a, const struct digits *b, struct digits *product);

/* The size quote, block by block, and the width from 1 to 8 that has the least one, the smallest where several have. */
uint64_t own_quote(unsigned rows, unsigned columns, unsigned width);
unsigned own_default_width(unsigned rows, unsigned columns);

/* The length of the list of row steps, counted step by step. */
uint64_t own_total(const struct digits *a, unsigned width);

#endif
