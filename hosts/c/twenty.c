#include <nyuzolamba.h>
#include <stdio.h>

int main(void)
{
    /* Rows 1 2 and 0 1: unit word 11, sign word 10; unit word 10, sign word 00. Eight bytes a word, lowest first. */
    uint8_t a[32] = {3, 0, 0, 0, 0, 0, 0, 0, 2, 0, 0, 0, 0, 0, 0, 0, 2}, product[32];
    uint64_t word = nyuzolamba_product(2, 2, 2, 2, a, sizeof a, a, sizeof a, product, sizeof product);
    if (word != NYUZOLAMBA_DONE) {
        printf("refused, number %u\n", (unsigned)NYUZOLAMBA_NUMBER(word));
        return 1;
    }
    for (size_t i = 0; i < 2; i++) {
        uint64_t unit = nyuzolamba_word(product, 2 * i), sign = nyuzolamba_word(product, 2 * i + 1);
        for (int j = 0; j < 2; j++)
            printf("%d ", (int)(unit >> j & 1) + (int)(sign >> j & 1));
        printf("\n");
    }
    return 0;
}
