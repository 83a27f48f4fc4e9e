/*
 * Nyuzolamba: packed matrices over the field of three elements (digits 0, 1, 2). The C face; docs/01-scope.md is its law.
 *
 * A MATRIX IS A BUFFER OF BYTES. With c columns a row is q = c / 64 (rounded up) unit words, then q sign words, 64 bits each; every word is
 * eight bytes, lowest byte first, on every machine. Column 64 j + t is the bit of weight 2^t in word j of either plane. The digit 0 has neither
 * bit, 1 has unit alone, 2 has both. Sign without unit is illegal, and so is any bit at or beyond column c. Rows follow one another, so that
 * a matrix has exactly nyuzolamba_bytes(rows, columns) bytes. Rows and columns run from 0 to NYUZOLAMBA_LIMIT. Buffers need no alignment.
 *
 * WHO OWNS WHAT. All buffers are the host's, before, during and after a call. The library has no memory of its own, keeps no pointer, allocates
 * nothing, reads no file and prints nothing. A call reads and writes the bytes it was handed and no others.
 *
 * POINTERS. Each pointer comes with the number of bytes behind it, and that many must really be there. No pointer may be null. A matrix without
 * rows or without columns has no bytes: hand in any pointer that is not null (the address of any variable will do) and the length 0.
 *
 * OVERLAP. Buffers that are only read may overlap or be one: A and B may be the same buffer. A buffer that is written (out, product, table,
 * record) shares no byte with any other buffer of the call. No call can test this: the host sees to it.
 *
 * THREADS. There is no state: calls may run at once in any number of threads as long as no call writes a buffer that another one uses. An opening
 * or a turn uses up to eight kilobytes of stack, a product up to six, every other call up to four.
 *
 * ANSWERS. Each call returns a word of 64 bits: in its lowest eight bits one of the numbers below, and above them, with two of the numbers, the place
 * of the fault. On any word but NYUZOLAMBA_DONE, which is 0, the call has written nothing: every buffer, the record too, holds what it held. Where
 * several numbers would fit, the first one in the order written at the call comes back. A test runs over all that it can apply to before the next
 * one starts. Of the cells, buffers are looked at in the order A, B, table, product, and in one buffer any NYUZOLAMBA_SIGN comes before any
 * NYUZOLAMBA_PADDING. Every value of every argument has an answer: counts are never cut or wrapped.
 */
#ifndef NYUZOLAMBA_H
#define NYUZOLAMBA_H

#include <stddef.h>
#include <stdint.h>

#ifdef __cplusplus
extern "C" {
#endif

/* The version, counted as CHANGELOG.md says. It stands here alone: `make install` hands it to pkg-config. */
#define NYUZOLAMBA_VERSION_MAJOR 5
#define NYUZOLAMBA_VERSION_MINOR 0
#define NYUZOLAMBA_VERSION_PATCH 0
#define NYUZOLAMBA_VERSION "5.0.0"

/* What comes back: word = number + 2^8 * buffer + 2^16 * row + 2^32 * column, where the number is one of these. NYUZOLAMBA_SIGN and
 * NYUZOLAMBA_PADDING come with a place, which makes the word another value than the number: compare NYUZOLAMBA_NUMBER(word) with them. With all other
 * numbers buffer, row and column are 0, and the word is the number itself; `word != NYUZOLAMBA_DONE` says that a call was refused. The numbers are
 * those of document 01; 10 belongs to requests that the C face does not have. */
enum {
    NYUZOLAMBA_DONE = 0,      /* done */
    NYUZOLAMBA_SIZE = 1,      /* a row or column count is above 1,024 */
    NYUZOLAMBA_UNFIT = 2,     /* combination: the sizes differ; product, open: A's columns aren't B's rows */
    NYUZOLAMBA_WIDTH = 3,     /* the width is above 8; in a turn, also 0 */
    NYUZOLAMBA_LENGTH = 4,    /* a buffer isn't of the exact length */
    NYUZOLAMBA_SIGN = 5,      /* a real column holds sign without unit; the word has its place */
    NYUZOLAMBA_PADDING = 6,   /* a bit beyond the last column is set; the word has its place */
    NYUZOLAMBA_STEPS = 7,     /* the record's steps done exceed the length of the list of row steps */
    NYUZOLAMBA_DIGIT = 8,     /* combination: the digit is above 2 */
    NYUZOLAMBA_FACE_LIMIT = 11 /* a row or column count is above 64, and none above 1,024 */
};

/* The buffer of a place: buffers count from 1 in the order in which a call looks at them, and 0 says that the word has no place. What table and
 * product hold is looked at by turns alone. */
enum {
    NYUZOLAMBA_BUFFER_A = 1, /* also the one matrix of a check or a negation */
    NYUZOLAMBA_BUFFER_B = 2,
    NYUZOLAMBA_BUFFER_TABLE = 3,
    NYUZOLAMBA_BUFFER_PRODUCT = 4
};

/*
 * The parts of a word, each a uint64_t. The place is the first one with a fault of that number in that buffer, by row and then by column: a padding
 * bit may stand in a row before the sign without unit that is named. Rows and columns count from 0. The column of a padding bit is its position in
 * the row, which is the matrix's column count or more; the unit plane, the sign plane or both may have it there.
 *
 * Sites count from 1. A host tells one what is wrong with its plan:
 *
 *     uint64_t word = nyuzolamba_check(rows, columns, plan, plan_bytes);
 *     if (NYUZOLAMBA_NUMBER(word) == NYUZOLAMBA_SIGN)
 *         printf("plan refused: row %u, column %u of the plan has a sign without unit\n",
 *                (unsigned)NYUZOLAMBA_ROW(word) + 1, (unsigned)NYUZOLAMBA_COLUMN(word) + 1);
 *
 * For the word 5 + 256 * 1 + 65536 * 9 + 4294967296 * 61 this prints
 *
 *     plan refused: row 10, column 62 of the plan has a sign without unit
 */
#define NYUZOLAMBA_NUMBER(word) ((uint64_t)(word) & 255)
#define NYUZOLAMBA_BUFFER(word) (((uint64_t)(word) >> 8) & 255)
#define NYUZOLAMBA_ROW(word) (((uint64_t)(word) >> 16) & 65535)
#define NYUZOLAMBA_COLUMN(word) ((uint64_t)(word) >> 32)

/* Sizes. */
enum {
    NYUZOLAMBA_LIMIT = 64,          /* most rows and most columns */
    NYUZOLAMBA_WIDTH_MOST = 8,      /* widest blocks */
    NYUZOLAMBA_RECORD_BYTES = 56,   /* a job's record: seven words of eight bytes */
    NYUZOLAMBA_COUNT_BYTES = 8      /* a width or a quote: one word */
};

/* The words of a job's record, by their place: nyuzolamba_word(record, NYUZOLAMBA_STEPS_DONE). */
enum {
    NYUZOLAMBA_A_ROWS = 0,      /* m: rows of A and of the product */
    NYUZOLAMBA_MIDDLE = 1,      /* l: columns of A, rows of B */
    NYUZOLAMBA_B_COLUMNS = 2,   /* n: columns of B, of the table and of the product */
    NYUZOLAMBA_JOB_WIDTH = 3,   /* the width, 1 to 8 */
    NYUZOLAMBA_STEPS_DONE = 4,  /* steps of the list that are done */
    NYUZOLAMBA_STEPS_MADE = 5,  /* steps that the last turn made; a turn doesn't read it */
    NYUZOLAMBA_ENDED = 6        /* 1 if the list has ended, else 0; a turn doesn't read it */
};

/* The bytes of a matrix of these sizes, which are at most NYUZOLAMBA_LIMIT. (Above it no length is right, and the answer does not look at it.) */
static inline size_t nyuzolamba_bytes(uint64_t rows, uint64_t columns)
{
    return (size_t)(rows * (columns / 64 + (columns % 64 != 0)) * 16);
}

/* Word number `index` of a buffer. */
static inline uint64_t nyuzolamba_word(const uint8_t *bytes, size_t index)
{
    uint64_t word = 0;
    size_t i;
    for (i = 8; i-- > 0;)
        word = word << 8 | bytes[8 * index + i];
    return word;
}

/* Sets word number `index` of a buffer. */
static inline void nyuzolamba_set_word(uint8_t *bytes, size_t index, uint64_t word)
{
    size_t i;
    for (i = 0; i < 8; i++)
        bytes[8 * index + i] = (uint8_t)(word >> 8 * i);
}

/*
 * Is this buffer a legal matrix of `rows` by `columns`? Writes nothing.
 * Order: SIZE, FACE_LIMIT, LENGTH, SIGN, PADDING.
 */
uint64_t nyuzolamba_check(uint64_t rows, uint64_t columns, const uint8_t *a, size_t a_bytes);

/*
 * out = A + digit * B, cell by cell, modulo 3: A + B by the digit 1, and A - B by 2, since 2 is -1. By 0 it is A, and B is looked at all the same.
 * `out` is of A's size; what it held is not looked at.
 * Order: SIZE, FACE_LIMIT, UNFIT, LENGTH (of a, b, out), DIGIT, SIGN and PADDING of A, then of B.
 */
uint64_t nyuzolamba_combination(uint64_t a_rows, uint64_t a_columns, uint64_t b_rows, uint64_t b_columns, uint64_t digit, const uint8_t *a,
                                size_t a_bytes, const uint8_t *b, size_t b_bytes, uint8_t *out, size_t out_bytes);

/*
 * out = -A: 1 becomes 2 and 2 becomes 1. `out` is of A's size; what it held is not looked at.
 * Order: SIZE, FACE_LIMIT, LENGTH (of a, out), SIGN, PADDING.
 */
uint64_t nyuzolamba_negation(uint64_t rows, uint64_t columns, const uint8_t *a, size_t a_bytes, uint8_t *out, size_t out_bytes);

/*
 * product = A times B, all at once, with a table of its own and the default width. `product` is a_rows by b_columns; what it held is not
 * looked at. A middle of 0 (A without columns, B without rows) gives zeros.
 * Order: SIZE, FACE_LIMIT, UNFIT, LENGTH (of a, b, product), SIGN and PADDING of A, then of B.
 */
uint64_t nyuzolamba_product(uint64_t a_rows, uint64_t a_columns, uint64_t b_rows, uint64_t b_columns, const uint8_t *a, size_t a_bytes,
                            const uint8_t *b, size_t b_bytes, uint8_t *product, size_t product_bytes);

/*
 * The width that an opening means, as one word in `meant`: `width` itself from 1 to 8, and for 0 the default, which is the width from 1 to 8 with the
 * least quote for these two counts, the smallest where several quote alike. It is 1 for A without columns or with one, and at most 7: a table at the
 * default width never has more than 128 rows here. What `meant` held is not looked at.
 * Order: SIZE, FACE_LIMIT, WIDTH, LENGTH (of meant, which is NYUZOLAMBA_COUNT_BYTES).
 */
uint64_t nyuzolamba_width(uint64_t a_rows, uint64_t a_columns, uint64_t width, uint8_t *meant, size_t meant_bytes);

/*
 * The size quote, as one word in `steps`: no job of an A of these counts has more row steps at this width, whatever its cells, and for every such size
 * there is one with as many. Width 0 is the default, as in an opening. What `steps` held is not looked at.
 * Order: SIZE, FACE_LIMIT, WIDTH, LENGTH (of steps, which is NYUZOLAMBA_COUNT_BYTES).
 *
 *     uint8_t steps[NYUZOLAMBA_COUNT_BYTES];
 *     if (nyuzolamba_quote(2, 3, 0, steps, sizeof steps) == NYUZOLAMBA_DONE)
 *         printf("at most %u row steps\n", (unsigned)nyuzolamba_word(steps, 0));
 *
 * prints
 *
 *     at most 9 row steps
 */
uint64_t nyuzolamba_quote(uint64_t a_rows, uint64_t a_columns, uint64_t width, uint8_t *steps, size_t steps_bytes);

/* The bytes of a job's table: 2^w rows of as many columns as B has, where w is the width meant, also where A has fewer columns than that. It takes
 * A's counts since the default does. Where nyuzolamba_width refuses, there is no table, and it gives 0. */
static inline size_t nyuzolamba_table_bytes(uint64_t a_rows, uint64_t a_columns, uint64_t b_columns, uint64_t width)
{
    uint8_t meant[NYUZOLAMBA_COUNT_BYTES];
    if (nyuzolamba_width(a_rows, a_columns, width, meant, sizeof meant) != NYUZOLAMBA_DONE)
        return 0;
    return nyuzolamba_bytes((uint64_t)1 << nyuzolamba_word(meant, 0), b_columns);
}

/*
 * Opens a job: a product of A and B to be made in turns. Sets table (nyuzolamba_table_bytes) and product to zero and fills the record: m, l, n,
 * the width meant (nyuzolamba_width), and 0 in the other three words. What the three held is not looked at. Opening makes no step. A host that lends a
 * table of 16 rows whatever the sizes are says width 4.
 *
 * Between opening and the last turn A, B, table, product and record stay as they are: the host keeps them, in memory or in a file, and hands
 * them in again. Nothing else ties a record to its buffers.
 * Order: LENGTH of the record, before all else; SIZE, FACE_LIMIT, UNFIT, WIDTH, LENGTH (of a, b, table, product), SIGN and PADDING of A,
 * then of B.
 */
uint64_t nyuzolamba_open(uint64_t a_rows, uint64_t a_columns, uint64_t b_rows, uint64_t b_columns, uint64_t width, uint8_t *record,
                         size_t record_bytes, const uint8_t *a, size_t a_bytes, const uint8_t *b, size_t b_bytes, uint8_t *table,
                         size_t table_bytes, uint8_t *product, size_t product_bytes);

/*
 * Gives a job a turn: carries out the next steps of its list, as many as the budget allows or until the list ends, on table and product as
 * they are. Then the record's steps done have grown by the steps made, which stand in word NYUZOLAMBA_STEPS_MADE, and word NYUZOLAMBA_ENDED is 1
 * if the list has ended, else 0. The other words stay. At the list's end, or with budget 0, no step is made; all tests are, and a first turn with
 * budget 0 says whether there is anything to do. Each row step writes one row of table or product.
 *
 * SIZE, FACE_LIMIT and WIDTH are about the record's words, STEPS about its steps done: a record may hold any seven words.
 * Order: LENGTH of the record, before all else; SIZE, FACE_LIMIT, WIDTH, LENGTH (of a, b, table, product), SIGN and PADDING of A, of B, of table, of
 * product, then STEPS.
 */
uint64_t nyuzolamba_turn(uint8_t *record, size_t record_bytes, const uint8_t *a, size_t a_bytes, const uint8_t *b, size_t b_bytes,
                         uint8_t *table, size_t table_bytes, uint8_t *product, size_t product_bytes, uint32_t budget);

#ifdef __cplusplus
}
#endif

#endif
