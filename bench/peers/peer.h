// What each peer gives: its own form of two n by n matrices, their product over the field of three elements, and a cell of it.
#include <stddef.h>
#include <stdint.h>

#ifdef __cplusplus
extern "C" {
#endif

// Cells are digits, row by row.
void peer_takes(size_t n, const uint8_t *a, const uint8_t *b);
void peer_multiplies(void);
unsigned peer_cell(size_t i, size_t j);

#ifdef __cplusplus
}
#endif
