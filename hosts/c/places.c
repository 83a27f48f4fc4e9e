/* Whether the C face says which cell is wrong. Buffers with faults are made here bit by bit, without the library, and a call has to return the word
 * that stands beside them, written by hand. Refused, it has to leave every byte as it was. */
#include <nyuzolamba.h>
#include <stdio.h>
#include <string.h>

enum call { CHECK, NEGATION, COMBINATION_0, COMBINATION_1, COMBINATION_2, PRODUCT, OPEN, TURN };
static const char *const CALL[] = {"check", "negation", "combination by 0", "combination by 1", "combination by 2", "product", "open", "turn"};

/* The buffers here: A to P have the numbers that words have for them, and P is every result. */
enum { RECORD = 0, A = 1, B = 2, T = 3, P = 4, BUFFERS = 5 };

/* What a place can hold. A fault is sign alone in a real column, and anything but neither beyond the last one. */
enum bits { NEITHER = 0, UNIT = 1, SIGN = 2, BOTH = 3 };

struct fault {
    int buffer;
    unsigned row, column;
    enum bits bits;
};

/* What is wrong beside cells. */
enum twist { FITTING, ROWS_1025, ROWS_65, MISFIT, WIDTH_9, WIDTH_0, A_SHORT, P_LONG, RECORD_SHORT, STEPS_MANY, DIGIT_3, DIGIT_WIDE };

/* A is m by l. B is as large for a combination, and else l by n. */
struct example {
    enum call call;
    unsigned m, l, n;
    struct fault fault[4];
    enum twist twist;
    uint64_t word, number, buffer, row, column;
};

/* A word in hexadecimal shows its parts: eight digits column, four row, two buffer, two number. */
#define WORD(column, row, buffer, number) UINT64_C(0x##column##row##buffer##number)

static const struct example EXAMPLES[] = {
    /* Legal ones: all digits, and no bit beyond them. */
    {CHECK, 10, 62, 0, {{0}}, FITTING, WORD(00000000, 0000, 00, 00), 0, 0, 0, 0},
    {NEGATION, 64, 64, 0, {{0}}, FITTING, WORD(00000000, 0000, 00, 00), 0, 0, 0, 0},
    {COMBINATION_0, 10, 62, 0, {{0}}, FITTING, WORD(00000000, 0000, 00, 00), 0, 0, 0, 0},
    {COMBINATION_1, 64, 3, 0, {{0}}, FITTING, WORD(00000000, 0000, 00, 00), 0, 0, 0, 0},
    {COMBINATION_2, 1, 1, 0, {{0}}, FITTING, WORD(00000000, 0000, 00, 00), 0, 0, 0, 0},
    {PRODUCT, 64, 62, 3, {{0}}, FITTING, WORD(00000000, 0000, 00, 00), 0, 0, 0, 0},
    {OPEN, 10, 62, 3, {{0}}, FITTING, WORD(00000000, 0000, 00, 00), 0, 0, 0, 0},
    {TURN, 10, 62, 3, {{0}}, FITTING, WORD(00000000, 0000, 00, 00), 0, 0, 0, 0},
    /* A sign without unit: in the first place, in the last, and behind a padding bit of an earlier row. */
    {CHECK, 10, 62, 0, {{A, 0, 0, SIGN}}, FITTING, WORD(00000000, 0000, 01, 05), 5, 1, 0, 0},
    {CHECK, 64, 64, 0, {{A, 63, 63, SIGN}}, FITTING, WORD(0000003f, 003f, 01, 05), 5, 1, 63, 63},
    {CHECK, 10, 62, 0, {{A, 9, 61, SIGN}, {A, 0, 62, BOTH}}, FITTING, WORD(0000003d, 0009, 01, 05), 5, 1, 9, 61},
    {COMBINATION_1, 10, 62, 0, {{A, 9, 61, SIGN}, {A, 0, 63, UNIT}, {B, 0, 0, SIGN}}, FITTING, WORD(0000003d, 0009, 01, 05), 5, 1, 9, 61},
    {PRODUCT, 1, 1, 1, {{A, 0, 0, SIGN}, {A, 0, 1, SIGN}}, FITTING, WORD(00000000, 0000, 01, 05), 5, 1, 0, 0},
    /* A padding bit: in either plane, in both, and sign alone there is no sign without unit. */
    {CHECK, 4, 3, 0, {{A, 0, 63, UNIT}}, FITTING, WORD(0000003f, 0000, 01, 06), 6, 1, 0, 63},
    {CHECK, 4, 3, 0, {{A, 1, 3, SIGN}}, FITTING, WORD(00000003, 0001, 01, 06), 6, 1, 1, 3},
    {CHECK, 4, 3, 0, {{A, 3, 32, BOTH}}, FITTING, WORD(00000020, 0003, 01, 06), 6, 1, 3, 32},
    {NEGATION, 64, 63, 0, {{A, 63, 63, SIGN}}, FITTING, WORD(0000003f, 003f, 01, 06), 6, 1, 63, 63},
    /* Several faults of one kind: the first row counts, and in it the first column, whichever plane has it. */
    {CHECK, 10, 62, 0, {{A, 5, 40, SIGN}, {A, 5, 7, SIGN}, {A, 5, 61, SIGN}}, FITTING, WORD(00000007, 0005, 01, 05), 5, 1, 5, 7},
    {CHECK, 10, 62, 0, {{A, 8, 0, SIGN}, {A, 3, 50, SIGN}, {A, 9, 1, SIGN}}, FITTING, WORD(00000032, 0003, 01, 05), 5, 1, 3, 50},
    {CHECK, 4, 3, 0, {{A, 2, 40, UNIT}, {A, 2, 12, SIGN}, {A, 2, 63, BOTH}}, FITTING, WORD(0000000c, 0002, 01, 06), 6, 1, 2, 12},
    {CHECK, 4, 3, 0, {{A, 2, 12, SIGN}, {A, 2, 11, UNIT}}, FITTING, WORD(0000000b, 0002, 01, 06), 6, 1, 2, 11},
    {CHECK, 4, 3, 0, {{A, 3, 3, UNIT}, {A, 1, 60, SIGN}}, FITTING, WORD(0000003c, 0001, 01, 06), 6, 1, 1, 60},
    /* Faults of B, and of A before those of B: one buffer is finished before the next. */
    {COMBINATION_1, 10, 62, 0, {{B, 4, 20, SIGN}, {B, 0, 62, UNIT}}, FITTING, WORD(00000014, 0004, 02, 05), 5, 2, 4, 20},
    {COMBINATION_1, 10, 62, 0, {{A, 9, 62, SIGN}, {B, 0, 0, SIGN}}, FITTING, WORD(0000003e, 0009, 01, 06), 6, 1, 9, 62},
    {COMBINATION_0, 10, 62, 0, {{B, 4, 21, SIGN}, {B, 0, 62, UNIT}}, FITTING, WORD(00000015, 0004, 02, 05), 5, 2, 4, 21},
    {COMBINATION_2, 10, 62, 0, {{B, 7, 63, SIGN}, {B, 8, 62, UNIT}}, FITTING, WORD(0000003f, 0007, 02, 06), 6, 2, 7, 63},
    {PRODUCT, 2, 64, 3, {{B, 63, 2, SIGN}, {B, 0, 3, BOTH}}, FITTING, WORD(00000002, 003f, 02, 05), 5, 2, 63, 2},
    {PRODUCT, 2, 64, 3, {{B, 1, 4, UNIT}, {B, 2, 3, UNIT}}, FITTING, WORD(00000004, 0001, 02, 06), 6, 2, 1, 4},
    {OPEN, 10, 62, 3, {{A, 2, 1, SIGN}, {A, 2, 0, SIGN}}, FITTING, WORD(00000000, 0002, 01, 05), 5, 1, 2, 0},
    {OPEN, 10, 62, 3, {{B, 61, 3, SIGN}}, FITTING, WORD(00000003, 003d, 02, 06), 6, 2, 61, 3},
    /* A turn looks at table and product too. */
    {TURN, 10, 62, 3, {{A, 6, 6, SIGN}, {B, 0, 0, SIGN}, {T, 0, 0, SIGN}, {P, 0, 0, SIGN}}, FITTING, WORD(00000006, 0006, 01, 05), 5, 1, 6, 6},
    {TURN, 10, 62, 3, {{B, 6, 6, UNIT}, {T, 0, 0, SIGN}, {P, 0, 0, SIGN}}, FITTING, WORD(00000006, 0006, 02, 06), 6, 2, 6, 6},
    {TURN, 10, 62, 3, {{T, 255, 2, SIGN}, {T, 0, 3, UNIT}, {P, 0, 0, SIGN}}, FITTING, WORD(00000002, 00ff, 03, 05), 5, 3, 255, 2},
    {TURN, 10, 62, 3, {{T, 128, 63, SIGN}, {T, 129, 3, SIGN}, {P, 0, 0, SIGN}}, FITTING, WORD(0000003f, 0080, 03, 06), 6, 3, 128, 63},
    {TURN, 10, 62, 3, {{P, 9, 1, SIGN}, {P, 9, 2, SIGN}, {P, 0, 3, UNIT}}, FITTING, WORD(00000001, 0009, 04, 05), 5, 4, 9, 1},
    {TURN, 10, 62, 3, {{P, 4, 5, BOTH}, {P, 7, 3, BOTH}}, STEPS_MANY, WORD(00000005, 0004, 04, 06), 6, 4, 4, 5},
    /* Without a place the word is the number, though cells are wrong too. */
    {CHECK, 10, 62, 0, {{A, 0, 0, SIGN}}, ROWS_1025, WORD(00000000, 0000, 00, 01), 1, 0, 0, 0},
    {CHECK, 10, 62, 0, {{A, 0, 0, SIGN}}, ROWS_65, WORD(00000000, 0000, 00, 0b), 11, 0, 0, 0},
    {NEGATION, 10, 62, 0, {{A, 0, 0, SIGN}}, P_LONG, WORD(00000000, 0000, 00, 04), 4, 0, 0, 0},
    {COMBINATION_1, 10, 62, 0, {{B, 9, 61, SIGN}}, MISFIT, WORD(00000000, 0000, 00, 02), 2, 0, 0, 0},
    {COMBINATION_1, 10, 62, 0, {{A, 0, 0, SIGN}}, DIGIT_3, WORD(00000000, 0000, 00, 08), 8, 0, 0, 0},
    {COMBINATION_1, 10, 62, 0, {{B, 0, 62, UNIT}}, DIGIT_WIDE, WORD(00000000, 0000, 00, 08), 8, 0, 0, 0},
    {PRODUCT, 10, 62, 3, {{A, 9, 61, SIGN}}, MISFIT, WORD(00000000, 0000, 00, 02), 2, 0, 0, 0},
    {OPEN, 10, 62, 3, {{A, 0, 62, UNIT}}, WIDTH_9, WORD(00000000, 0000, 00, 03), 3, 0, 0, 0},
    {OPEN, 10, 62, 3, {{A, 0, 0, SIGN}}, RECORD_SHORT, WORD(00000000, 0000, 00, 04), 4, 0, 0, 0},
    /* Width 0 of 10 by 62 is not 8, whose table is lent here. */
    {OPEN, 10, 62, 3, {{A, 0, 0, SIGN}}, WIDTH_0, WORD(00000000, 0000, 00, 04), 4, 0, 0, 0},
    {TURN, 10, 62, 3, {{T, 0, 0, SIGN}}, WIDTH_0, WORD(00000000, 0000, 00, 03), 3, 0, 0, 0},
    {TURN, 10, 62, 3, {{P, 0, 0, SIGN}}, A_SHORT, WORD(00000000, 0000, 00, 04), 4, 0, 0, 0},
    {TURN, 10, 62, 3, {{P, 0, 0, SIGN}}, ROWS_65, WORD(00000000, 0000, 00, 0b), 11, 0, 0, 0},
    {TURN, 10, 62, 3, {{0}}, STEPS_MANY, WORD(00000000, 0000, 00, 07), 7, 0, 0, 0},
};

enum { WIDTH = 8, MOST_BYTES = (1 << WIDTH) * 16 + 1 };

/* All that a call is handed. */
struct given {
    uint64_t a_rows, a_columns, b_rows, b_columns, width, digit;
    size_t bytes[BUFFERS];
    uint8_t buffer[BUFFERS][MOST_BYTES];
};

/* Puts bits in a place of a buffer whose rows have one word a plane. */
static void put(uint8_t *buffer, unsigned row, unsigned column, enum bits bits)
{
    uint8_t *unit = buffer + 16 * row + column / 8, *sign = unit + 8, bit = (uint8_t)(1u << column % 8);
    *unit = (uint8_t)(bits & UNIT ? *unit | bit : *unit & ~bit);
    *sign = (uint8_t)(bits & SIGN ? *sign | bit : *sign & ~bit);
}

/* A matrix with all three digits in it, 64 columns or fewer. */
static void legal(struct given *given, int which, unsigned rows, unsigned columns)
{
    static const enum bits DIGIT[3] = {NEITHER, UNIT, BOTH};
    unsigned i, j;
    given->bytes[which] = rows * 16;
    memset(given->buffer[which], 0, rows * 16);
    for (i = 0; i < rows; i++)
        for (j = 0; j < columns; j++)
            put(given->buffer[which], i, j, DIGIT[(i + 2 * j + 1) % 3]);
}

/* Legal buffers of the right lengths, and the faults. What a call only overwrites is no matrix. */
static void make(struct given *given, const struct example *e)
{
    int factors = e->call >= PRODUCT, turn = e->call == TURN;
    unsigned columns = factors ? e->n : e->l, i;
    memset(given, 0, sizeof *given);
    memset(given->buffer, 0xee, sizeof given->buffer);
    given->a_rows = e->m;
    given->a_columns = e->l;
    given->b_rows = factors ? e->l : e->m;
    given->b_columns = columns;
    given->width = WIDTH;
    given->digit = e->call == COMBINATION_1 ? 1 : e->call == COMBINATION_2 ? 2 : 0;
    given->bytes[RECORD] = NYUZOLAMBA_RECORD_BYTES;
    given->bytes[T] = 16 << WIDTH;
    given->bytes[P] = 16 * e->m;
    legal(given, A, e->m, e->l);
    legal(given, B, factors ? e->l : e->m, columns);
    if (turn) {
        legal(given, T, 1u << WIDTH, columns);
        legal(given, P, e->m, columns);
    }
    for (i = 0; i < 4; i++)
        if (e->fault[i].buffer != RECORD)
            put(given->buffer[e->fault[i].buffer], e->fault[i].row, e->fault[i].column, e->fault[i].bits);
}

/* What is wrong beside cells, and then the record, which has the sizes as they are now. */
static void disturb(struct given *given, enum twist twist)
{
    uint64_t steps = 0;
    switch (twist) {
    case FITTING: break;
    case ROWS_1025: given->a_rows = 1025; break;
    case ROWS_65: given->a_rows = 65; break;
    case MISFIT: given->b_rows++; break;
    case WIDTH_9: given->width = 9; break;
    case WIDTH_0: given->width = 0; break;
    case A_SHORT: given->bytes[A]--; break;
    case P_LONG: given->bytes[P]++; break;
    case RECORD_SHORT: given->bytes[RECORD]--; break;
    case STEPS_MANY: steps = 1000000; break;
    case DIGIT_3: given->digit = 3; break;
    case DIGIT_WIDE: given->digit = (UINT64_C(1) << 32) + 1; break;
    }
    nyuzolamba_set_word(given->buffer[RECORD], NYUZOLAMBA_A_ROWS, given->a_rows);
    nyuzolamba_set_word(given->buffer[RECORD], NYUZOLAMBA_MIDDLE, given->a_columns);
    nyuzolamba_set_word(given->buffer[RECORD], NYUZOLAMBA_B_COLUMNS, given->b_columns);
    nyuzolamba_set_word(given->buffer[RECORD], NYUZOLAMBA_JOB_WIDTH, given->width);
    nyuzolamba_set_word(given->buffer[RECORD], NYUZOLAMBA_STEPS_DONE, steps);
}

static uint64_t asked(enum call call, struct given *g)
{
    uint8_t *record = g->buffer[RECORD], *a = g->buffer[A], *b = g->buffer[B], *t = g->buffer[T], *p = g->buffer[P];
    size_t of_record = g->bytes[RECORD], of_a = g->bytes[A], of_b = g->bytes[B], of_t = g->bytes[T], of_p = g->bytes[P];
    switch (call) {
    case CHECK: return nyuzolamba_check(g->a_rows, g->a_columns, a, of_a);
    case NEGATION: return nyuzolamba_negation(g->a_rows, g->a_columns, a, of_a, p, of_p);
    case COMBINATION_0:
    case COMBINATION_1:
    case COMBINATION_2:
        return nyuzolamba_combination(g->a_rows, g->a_columns, g->b_rows, g->b_columns, g->digit, a, of_a, b, of_b, p, of_p);
    case PRODUCT: return nyuzolamba_product(g->a_rows, g->a_columns, g->b_rows, g->b_columns, a, of_a, b, of_b, p, of_p);
    case OPEN:
        return nyuzolamba_open(g->a_rows, g->a_columns, g->b_rows, g->b_columns, g->width, record, of_record, a, of_a, b, of_b, t, of_t, p, of_p);
    default: return nyuzolamba_turn(record, of_record, a, of_a, b, of_b, t, of_t, p, of_p, 100);
    }
}

/* Says what differs, if anything does: the word or a part of it, or a byte after a refusal. */
static int right(const struct example *e)
{
    static struct given given, before;
    unsigned place = (unsigned)(e - EXAMPLES) + 1;
    uint64_t word;
    make(&given, e);
    disturb(&given, e->twist);
    before = given;
    word = asked(e->call, &given);
    if (word != e->word || NYUZOLAMBA_NUMBER(word) != e->number || NYUZOLAMBA_BUFFER(word) != e->buffer || NYUZOLAMBA_ROW(word) != e->row ||
        NYUZOLAMBA_COLUMN(word) != e->column) {
        printf("example %u, %s: expected %016llx, number %u, buffer %u, row %u, column %u; got %016llx, %u, %u, %u, %u\n", place, CALL[e->call],
               (unsigned long long)e->word, (unsigned)e->number, (unsigned)e->buffer, (unsigned)e->row, (unsigned)e->column,
               (unsigned long long)word, (unsigned)NYUZOLAMBA_NUMBER(word), (unsigned)NYUZOLAMBA_BUFFER(word), (unsigned)NYUZOLAMBA_ROW(word),
               (unsigned)NYUZOLAMBA_COLUMN(word));
        return 0;
    }
    if (word != NYUZOLAMBA_DONE && memcmp(given.buffer, before.buffer, sizeof given.buffer) != 0) {
        printf("example %u, %s: refused, and yet a byte was written\n", place, CALL[e->call]);
        return 0;
    }
    return 1;
}

int main(void)
{
    size_t count = sizeof EXAMPLES / sizeof EXAMPLES[0], i, wrong = 0;
    for (i = 0; i < count; i++)
        wrong += !right(&EXAMPLES[i]);
    printf("%u words written by hand, %u wrong\n", (unsigned)count, (unsigned)wrong);
    return wrong > 0;
}
