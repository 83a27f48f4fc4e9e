// The whole product, an opening and a turn in C, m by l times l by n cells. Tests are as in the library.
#include <stddef.h>
#include <stdint.h>

// What a refused turn gives back: no list has as many steps.
#define REFUSED UINT64_MAX

typedef uint64_t job_begun(uint64_t m, uint64_t l, uint64_t n, uint64_t width, const uint64_t *a, size_t a_len, const uint64_t *b, size_t b_len,
                           uint64_t *table, size_t table_len, uint64_t *product, size_t product_len);
typedef uint64_t job_continued(uint64_t m, uint64_t l, uint64_t n, uint64_t width, uint64_t done, const uint64_t *a, size_t a_len,
                               const uint64_t *b, size_t b_len, uint64_t *table, size_t table_len, uint64_t *product, size_t product_len,
                               uint32_t budget);

// The width meant: 0 is the one from 1 to 8 that quotes least, the smallest where several do.
uint64_t matrix_width(uint64_t m, uint64_t l, uint64_t width);

job_begun matrix_product, matrix_opening;
job_continued matrix_turn;
