// The requests in C that ours are held against: the same arguments, the same tests, the same numbers back. Matrices are as in the library.
#include <stddef.h>
#include <stdint.h>

typedef uint64_t read_one(uint64_t rows, uint64_t columns, const uint64_t *a, size_t a_len);
typedef uint64_t one_to_one(uint64_t rows, uint64_t columns, const uint64_t *a, size_t a_len, uint64_t *out, size_t out_len);
typedef uint64_t combined_to_one(uint64_t rows, uint64_t columns, uint8_t d, const uint64_t *a, size_t a_len, const uint64_t *b, size_t b_len,
                                 uint64_t *out, size_t out_len);
typedef uint64_t scaled_to_one(uint64_t rows, uint64_t columns, uint8_t d, const uint64_t *a, size_t a_len, uint64_t *out, size_t out_len);
typedef uint64_t cells_to_one(uint64_t rows, uint64_t columns, const uint8_t *cells, size_t cells_len, uint64_t *out, size_t out_len);
typedef uint64_t one_to_cells(uint64_t rows, uint64_t columns, const uint64_t *a, size_t a_len, uint8_t *out, size_t out_len);

read_one matrix_check;
combined_to_one matrix_combination;
one_to_one matrix_negation, matrix_transpose, matrix_transpose_blocks;
scaled_to_one matrix_scaling;
cells_to_one matrix_pack;
one_to_cells matrix_unpack;
