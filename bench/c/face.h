// Four calls of the C face in C: the arguments, tests and numbers of nyuzolamba.h.
#include <stddef.h>
#include <stdint.h>

uint64_t face_check(uint64_t rows, uint64_t columns, const uint8_t *a, size_t a_bytes);

typedef uint64_t face_two_to_one(uint64_t a_rows, uint64_t a_columns, uint64_t b_rows, uint64_t b_columns, const uint8_t *a, size_t a_bytes,
                                 const uint8_t *b, size_t b_bytes, uint8_t *out, size_t out_bytes);

face_two_to_one face_product;

uint64_t face_combination(uint64_t a_rows, uint64_t a_columns, uint64_t b_rows, uint64_t b_columns, uint64_t digit, const uint8_t *a, size_t a_bytes,
                          const uint8_t *b, size_t b_bytes, uint8_t *out, size_t out_bytes);

uint64_t face_open(uint64_t a_rows, uint64_t a_columns, uint64_t b_rows, uint64_t b_columns, uint64_t width, uint8_t *record,
                   size_t record_bytes, const uint8_t *a, size_t a_bytes, const uint8_t *b, size_t b_bytes, uint8_t *table, size_t table_bytes,
                   uint8_t *product, size_t product_bytes);

// The copies of a product alone: bytes to words twice, and words to bytes.
uint64_t face_copies(uint64_t rows, uint64_t columns, const uint8_t *a, size_t a_bytes, const uint8_t *b, size_t b_bytes, uint8_t *out,
                     size_t out_bytes);
