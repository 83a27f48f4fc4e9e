// The kernels in C that ours are held against. Rows are as in the library: q unit words, then q sign words.
#include <stddef.h>
#include <stdint.h>

void add_row(uint64_t *d, const uint64_t *s, size_t q);
void subtract_row(uint64_t *d, const uint64_t *s, size_t q);
void table_step(uint64_t *x, const uint64_t *y, const uint64_t *s, size_t q);
