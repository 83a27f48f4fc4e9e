// PEER TIMES SIZE     makes the product of two random matrices of SIZE by SIZE cells TIMES times, in a peer's own form
// PEER time SIZE      prints how long it takes, in picoseconds
//
// Its last product is compared with that of the bench's C, so that what is counted is known to be the same product.
#include "peer.h"

#include <string.h>

#include "../c/product.h"
#include "../c/requests.h"
#include "../common.h"

static void *room(size_t bytes)
{
    void *at = calloc(1, bytes);
    if (at == NULL)
        die(2, "no memory", "calloc");
    return at;
}

static uint8_t *digits(size_t n)
{
    uint8_t *cells = room(n * n);
    for (size_t k = 0; k < n * n; k++)
        cells[k] = random_word() % 3;
    return cells;
}

static uint64_t *packed(size_t n, const uint8_t *cells)
{
    uint64_t *a = room(matrix_words(n) * sizeof *a);
    if (matrix_pack(n, n, cells, n * n, a, matrix_words(n)) != 0)
        die(1, "refused", "pack");
    return a;
}

// The cells of the product of two matrices, by the bench's C.
static uint8_t *product(size_t n, const uint8_t *a, const uint8_t *b)
{
    size_t words = matrix_words(n), table_words = 2 * planes(n) << 4;
    uint64_t *table = room(table_words * sizeof *table), *out = room(words * sizeof *out);
    uint8_t *cells = room(n * n);
    if (matrix_product(n, n, n, 4, packed(n, a), words, packed(n, b), words, table, table_words, out, words) != 0 ||
        matrix_unpack(n, n, out, words, cells, n * n) != 0)
        die(1, "refused", "product");
    return cells;
}

static void multiply(void *with, size_t times)
{
    (void)with;
    for (size_t k = 0; k < times; k++)
        peer_multiplies();
}

int main(int argc, char **argv)
{
    if (argc != 3)
        die(2, "usage", "PEER TIMES|time SIZE");
    size_t n = number(argv[2]);
    random_start();
    uint8_t *a = digits(n), *b = digits(n), *right = product(n, a, b);
    peer_takes(n, a, b);
    if (strcmp(argv[1], "time") == 0)
        print_time(multiply, NULL);
    else
        multiply(NULL, number(argv[1]));
    for (size_t i = 0; i < n; i++)
        for (size_t j = 0; j < n; j++)
            if (peer_cell(i, j) != right[n * i + j])
                die(1, "the peer's product is another", argv[0]);
    return 0;
}
