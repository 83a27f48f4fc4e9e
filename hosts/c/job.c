#define _POSIX_C_SOURCE 200809L
#include "job.h"

#include "nyuzolamba.h"

#include <errno.h>
#include <fcntl.h>
#include <stdarg.h>
#include <stdio.h>
#include <stdlib.h>
#include <string.h>
#include <sys/stat.h>
#include <unistd.h>

enum { GUARD = 32, ROOM = 4096 };
static const char MAGIC[8] = "nyzjob1\n";

static void say(const char *format, va_list values)
{
    fputs("store: ", stderr);
    vfprintf(stderr, format, values);
    fputc('\n', stderr);
}

void stop(int status, const char *format, ...)
{
    va_list values;
    va_start(values, format);
    say(format, values);
    va_end(values);
    exit(status);
}

void fail(const char *format, ...)
{
    va_list values;
    va_start(values, format);
    say(format, values);
    va_end(values);
    exit(WRONG);
}

/* ---- buffers */

static uint8_t guard_byte(size_t i)
{
    return (uint8_t)(0xa5u ^ i * 29);
}

static struct buffer buffer_new(size_t bytes)
{
    struct buffer made;
    uint8_t *all = malloc(GUARD + bytes + GUARD);
    size_t i;
    if (all == NULL)
        fail("no memory");
    for (i = 0; i < GUARD; i++) {
        all[i] = guard_byte(i);
        all[GUARD + bytes + i] = guard_byte(i + 7);
    }
    memset(all + GUARD, 0xee, bytes);
    made.start = all + GUARD;
    made.bytes = bytes;
    return made;
}

static int guards_stand(const struct buffer *b)
{
    size_t i;
    for (i = 0; i < GUARD; i++)
        if ((b->start - GUARD)[i] != guard_byte(i) || b->start[b->bytes + i] != guard_byte(i + 7))
            return 0;
    return 1;
}

/* After every call: the guards stand, and A and B are what they were. */
static void look(const struct job *job, const uint8_t *a, const uint8_t *b)
{
    int i;
    for (i = 0; i < BUFFERS; i++)
        if (!guards_stand(&job->buffer[i]))
            fail("site %llu: a byte beside buffer %d was written", (unsigned long long)job->site, i);
    if (memcmp(a, job->buffer[A].start, job->buffer[A].bytes) != 0 || memcmp(b, job->buffer[B].start, job->buffer[B].bytes) != 0)
        fail("site %llu: A or B was written", (unsigned long long)job->site);
}

void job_free(struct job *job)
{
    int i;
    for (i = 0; i < BUFFERS; i++)
        free(job->buffer[i].start - GUARD);
}

/* ---- requests, openings, turns */

void site_request(uint64_t seed, uint64_t site, struct digits *a, struct digits *b, unsigned *width)
{
    unsigned size[3], i;
    for (i = 0; i < 3; i++) {
        uint64_t r = scramble(seed, 1000 + i, site);
        /* Many of the largest, some of none. */
        size[i] = r % 4 == 0 ? MOST : r % 16 == 1 ? 0 : (unsigned)(r / 16 % (MOST + 1));
    }
    *width = (unsigned)(scramble(seed, 1003, site) % 9);
    own_random(a, size[0], size[1], scramble(seed, 1004, site));
    own_random(b, size[1], size[2], scramble(seed, 1005, site));
}

/* Ends the program with the number of a refusal and, where it has one, the place, whose row and column are counted from 1 as sites count them.
 * `first` is the buffer that the call looks at first. */
static void refused(const struct job *job, const char *what, unsigned first, uint64_t word)
{
    static const char *const name[BUFFERS] = {[A] = "A", [B] = "B", [TABLE] = "the table", [PRODUCT] = "the product"};
    unsigned long long site = job->site, number = NYUZOLAMBA_NUMBER(word);
    unsigned long long row = NYUZOLAMBA_ROW(word) + 1, column = NYUZOLAMBA_COLUMN(word) + 1;
    uint64_t buffer = first - 1 + NYUZOLAMBA_BUFFER(word);
    const char *fault = number == NYUZOLAMBA_SIGN ? "has a sign without unit" : "is beyond the last column, and not empty";
    if (NYUZOLAMBA_BUFFER(word) == 0)
        fail("site %llu: %s was refused with number %llu", site, what, number);
    if (buffer >= BUFFERS)
        fail("site %llu: %s was refused with number %llu in a buffer that it does not have", site, what, number);
    fail("site %llu: %s was refused with number %llu: row %llu, column %llu of %s %s", site, what, number, row, column, name[buffer], fault);
}

/* Ends the program unless what the site sent as A or as B is a legal matrix. */
static void check(const struct job *job, unsigned which, const struct digits *sent)
{
    uint64_t word = nyuzolamba_check(sent->rows, sent->columns, job->buffer[which].start, job->buffer[which].bytes);
    if (word != NYUZOLAMBA_DONE)
        refused(job, "a matrix", which, word);
}

/* The width that a site's request means. */
static unsigned meant(const struct digits *a, unsigned width)
{
    return width == 0 ? own_default_width(a->rows, a->columns) : width;
}

/* Ends the program unless the library means the same width and quotes as many steps. */
static void check_quote(const struct job *job, const struct digits *a, unsigned width)
{
    uint8_t given[2][NYUZOLAMBA_COUNT_BYTES];
    if (nyuzolamba_width(a->rows, a->columns, width, given[0], sizeof given[0]) != NYUZOLAMBA_DONE ||
        nyuzolamba_word(given[0], 0) != meant(a, width))
        fail("site %llu: another width is meant", (unsigned long long)job->site);
    if (nyuzolamba_quote(a->rows, a->columns, width, given[1], sizeof given[1]) != NYUZOLAMBA_DONE ||
        nyuzolamba_word(given[1], 0) != own_quote(a->rows, a->columns, meant(a, width)))
        fail("site %llu: another quote is made", (unsigned long long)job->site);
}

void job_open(struct job *job, uint64_t seed, uint64_t site)
{
    struct digits a, b;
    struct buffer *at = job->buffer;
    uint8_t copy[2][MOST * 16];
    unsigned width;
    uint64_t word;
    site_request(seed, site, &a, &b, &width);
    memset(job, 0, sizeof *job);
    job->site = site;
    at[RECORD] = buffer_new(NYUZOLAMBA_RECORD_BYTES);
    at[A] = buffer_new(nyuzolamba_bytes(a.rows, a.columns));
    at[B] = buffer_new(nyuzolamba_bytes(b.rows, b.columns));
    at[TABLE] = buffer_new(nyuzolamba_table_bytes(a.rows, a.columns, b.columns, width));
    at[PRODUCT] = buffer_new(nyuzolamba_bytes(a.rows, b.columns));
    own_pack(&a, at[A].start);
    own_pack(&b, at[B].start);
    memcpy(copy[0], at[A].start, at[A].bytes);
    memcpy(copy[1], at[B].start, at[B].bytes);
    check(job, A, &a);
    check(job, B, &b);
    check_quote(job, &a, width);
    word = nyuzolamba_open(a.rows, a.columns, b.rows, b.columns, width, at[RECORD].start, at[RECORD].bytes, at[A].start, at[A].bytes,
                           at[B].start, at[B].bytes, at[TABLE].start, at[TABLE].bytes, at[PRODUCT].start, at[PRODUCT].bytes);
    if (word != NYUZOLAMBA_DONE)
        refused(job, "an opening", A, word);
    look(job, copy[0], copy[1]);
}

void job_turn(struct job *job, uint32_t budget)
{
    struct buffer *at = job->buffer;
    uint8_t copy[2][MOST * 16];
    uint64_t before = job_steps(job), word;
    memcpy(copy[0], at[A].start, at[A].bytes);
    memcpy(copy[1], at[B].start, at[B].bytes);
    word = nyuzolamba_turn(at[RECORD].start, at[RECORD].bytes, at[A].start, at[A].bytes, at[B].start, at[B].bytes, at[TABLE].start,
                           at[TABLE].bytes, at[PRODUCT].start, at[PRODUCT].bytes, budget);
    if (word != NYUZOLAMBA_DONE)
        refused(job, "a turn", A, word);
    look(job, copy[0], copy[1]);
    job->turns++;
    job->sold = nyuzolamba_word(at[RECORD].start, NYUZOLAMBA_STEPS_MADE);
    if (job->sold > budget || before + job->sold != job_steps(job) || (job->sold < budget && !job_ended(job)))
        fail("site %llu: the record does not say what the turn made", (unsigned long long)job->site);
}

uint64_t job_steps(const struct job *job)
{
    return nyuzolamba_word(job->buffer[RECORD].start, NYUZOLAMBA_STEPS_DONE);
}

int job_ended(const struct job *job)
{
    return nyuzolamba_word(job->buffer[RECORD].start, NYUZOLAMBA_ENDED) == 1;
}

int job_stands(const struct job *job, uint64_t seed)
{
    struct digits a, b;
    const uint8_t *record = job->buffer[RECORD].start;
    uint8_t bytes[MOST * 16];
    unsigned width;
    uint64_t total;
    site_request(seed, job->site, &a, &b, &width);
    if (nyuzolamba_word(record, NYUZOLAMBA_A_ROWS) != a.rows || nyuzolamba_word(record, NYUZOLAMBA_MIDDLE) != a.columns ||
        nyuzolamba_word(record, NYUZOLAMBA_B_COLUMNS) != b.columns || nyuzolamba_word(record, NYUZOLAMBA_JOB_WIDTH) != meant(&a, width))
        return 0;
    own_pack(&a, bytes);
    if (memcmp(bytes, job->buffer[A].start, job->buffer[A].bytes) != 0)
        return 0;
    own_pack(&b, bytes);
    if (memcmp(bytes, job->buffer[B].start, job->buffer[B].bytes) != 0)
        return 0;
    total = own_total(&a, meant(&a, width));
    return job_steps(job) <= total && job->finished == (job->turns > 0 && job_steps(job) == total);
}

int job_right(const struct job *job, uint64_t seed)
{
    struct digits a, b, product;
    uint8_t bytes[MOST * 16];
    unsigned width;
    site_request(seed, job->site, &a, &b, &width);
    own_product(&a, &b, &product);
    own_pack(&product, bytes);
    return job->buffer[PRODUCT].bytes == nyuzolamba_bytes(a.rows, b.columns) &&
           memcmp(bytes, job->buffer[PRODUCT].start, job->buffer[PRODUCT].bytes) == 0;
}

uint64_t job_total(const struct job *job, uint64_t seed)
{
    struct digits a, b;
    unsigned width;
    site_request(seed, job->site, &a, &b, &width);
    return own_total(&a, meant(&a, width));
}

/* ---- the job's file: words and buffers, then a check sum over all of it */

void path_of(char *path, size_t room, const char *folder, const char *format, ...)
{
    va_list values;
    size_t used = (size_t)snprintf(path, room, "%s/", folder);
    if (used >= room)
        fail("the folder's name is too long");
    va_start(values, format);
    if ((size_t)vsnprintf(path + used, room - used, format, values) >= room - used)
        fail("the folder's name is too long");
    va_end(values);
}

void sync_folder(const char *folder)
{
    int fd = open(folder, O_RDONLY);
    if (fd < 0 || fsync(fd) != 0 || close(fd) != 0)
        fail("%s: %s", folder, strerror(errno));
}

void write_all(int fd, const void *bytes, size_t count, const char *path)
{
    size_t done = 0;
    while (done < count) {
        ssize_t wrote = write(fd, (const uint8_t *)bytes + done, count - done);
        if (wrote < 0 && errno != EINTR)
            fail("%s: %s", path, strerror(errno));
        if (wrote > 0)
            done += (size_t)wrote;
    }
}

static uint64_t check_sum(const uint8_t *bytes, size_t count)
{
    uint64_t sum = 0xcbf29ce484222325u;
    size_t i;
    for (i = 0; i < count; i++)
        sum = (sum ^ bytes[i]) * 0x100000001b3u;
    return sum;
}

enum { HEAD = 8 + 4 * 8 + 8 * BUFFERS };

void job_save(const struct job *job, const char *folder)
{
    char path[ROOM], beside[ROOM];
    size_t size = HEAD, at = HEAD;
    uint8_t *bytes;
    int fd, i;
    for (i = 0; i < BUFFERS; i++)
        size += job->buffer[i].bytes;
    bytes = malloc(size + 8);
    if (bytes == NULL)
        fail("no memory");
    memcpy(bytes, MAGIC, 8);
    nyuzolamba_set_word(bytes, 1, job->site);
    nyuzolamba_set_word(bytes, 2, job->turns);
    nyuzolamba_set_word(bytes, 3, job->sold);
    nyuzolamba_set_word(bytes, 4, job->finished);
    for (i = 0; i < BUFFERS; i++) {
        nyuzolamba_set_word(bytes, 5 + (size_t)i, job->buffer[i].bytes);
        memcpy(bytes + at, job->buffer[i].start, job->buffer[i].bytes);
        at += job->buffer[i].bytes;
    }
    nyuzolamba_set_word(bytes + size, 0, check_sum(bytes, size));
    path_of(path, sizeof path, folder, "site-%llu.job", (unsigned long long)job->site);
    path_of(beside, sizeof beside, folder, "site-%llu.new", (unsigned long long)job->site);
    fd = open(beside, O_WRONLY | O_CREAT | O_TRUNC, 0644);
    if (fd < 0)
        fail("%s: %s", beside, strerror(errno));
    write_all(fd, bytes, size + 8, beside);
    if (fsync(fd) != 0 || close(fd) != 0 || rename(beside, path) != 0)
        fail("%s: %s", beside, strerror(errno));
    sync_folder(folder);
    free(bytes);
}

/* The longest file that job_save writes, and a byte more, by which a longer one is known. */
enum { LARGEST = HEAD + NYUZOLAMBA_RECORD_BYTES + 3 * MOST * 16 + 256 * 16 + 8, TOO_LARGE = LARGEST + 1 };

/* Reads a file, or of a longer one TOO_LARGE bytes. Gives 0 if there is none. */
static int file_read(const char *path, uint8_t *bytes, size_t *size)
{
    struct stat found;
    FILE *file = fopen(path, "rb");
    if (file == NULL) {
        if (errno != ENOENT)
            fail("%s: %s", path, strerror(errno));
        return 0;
    }
    if (fstat(fileno(file), &found) != 0 || !S_ISREG(found.st_mode))
        fail("%s: not a file", path);
    *size = fread(bytes, 1, TOO_LARGE, file);
    if (ferror(file) || fclose(file) != 0)
        fail("%s: not read", path);
    return 1;
}

/* Whether the file is as long as its lengths say, and these are the ones that its record gives. No number of the file is added to another
 * before it is known to be small. */
static int lengths_fit(const uint8_t *bytes, size_t size)
{
    const uint8_t *record = bytes + HEAD;
    size_t wanted[BUFFERS], all = HEAD + 8, i;
    uint64_t m, l, n, width;
    if (size < HEAD + NYUZOLAMBA_RECORD_BYTES + 8)
        return 0;
    m = nyuzolamba_word(record, NYUZOLAMBA_A_ROWS);
    l = nyuzolamba_word(record, NYUZOLAMBA_MIDDLE);
    n = nyuzolamba_word(record, NYUZOLAMBA_B_COLUMNS);
    width = nyuzolamba_word(record, NYUZOLAMBA_JOB_WIDTH);
    if (m > MOST || l > MOST || n > MOST || width == 0 || width > NYUZOLAMBA_WIDTH_MOST)
        return 0;
    wanted[RECORD] = NYUZOLAMBA_RECORD_BYTES;
    wanted[A] = nyuzolamba_bytes(m, l);
    wanted[B] = nyuzolamba_bytes(l, n);
    wanted[TABLE] = nyuzolamba_table_bytes(m, l, n, width);
    wanted[PRODUCT] = nyuzolamba_bytes(m, n);
    for (i = 0; i < BUFFERS; i++) {
        if (nyuzolamba_word(bytes, 5 + i) != wanted[i])
            return 0;
        all += wanted[i];
    }
    return size == all;
}

/* Whether head and record agree: both say what the last turn made, and whether the list has ended; before the first turn nothing was made. */
static int words_fit(const struct job *job)
{
    uint64_t made = nyuzolamba_word(job->buffer[RECORD].start, NYUZOLAMBA_STEPS_MADE);
    uint64_t ended = nyuzolamba_word(job->buffer[RECORD].start, NYUZOLAMBA_ENDED);
    if (job->turns == 0 && (job_steps(job) != 0 || ended != 0))
        return 0;
    return job->finished <= 1 && job->finished == ended && job->sold == made && made <= job_steps(job);
}

int job_load(struct job *job, const char *folder, uint64_t site)
{
    char path[ROOM];
    uint8_t bytes[TOO_LARGE];
    size_t size, at = HEAD, i;
    path_of(path, sizeof path, folder, "site-%llu.job", (unsigned long long)site);
    if (!file_read(path, bytes, &size))
        return 0;
    if (size < HEAD + 8 || size > LARGEST || memcmp(bytes, MAGIC, 8) != 0 ||
        nyuzolamba_word(bytes + size - 8, 0) != check_sum(bytes, size - 8))
        fail("%s: not whole", path);
    if (!lengths_fit(bytes, size))
        fail("%s: its lengths are not those of its record", path);
    memset(job, 0, sizeof *job);
    job->site = nyuzolamba_word(bytes, 1);
    job->turns = nyuzolamba_word(bytes, 2);
    job->sold = nyuzolamba_word(bytes, 3);
    job->finished = nyuzolamba_word(bytes, 4);
    for (i = 0; i < BUFFERS; i++) {
        job->buffer[i] = buffer_new((size_t)nyuzolamba_word(bytes, 5 + i));
        memcpy(job->buffer[i].start, bytes + at, job->buffer[i].bytes);
        at += job->buffer[i].bytes;
    }
    if (job->site != site)
        fail("%s: the job of another site", path);
    if (!words_fit(job))
        fail("%s: its head and its record do not agree", path);
    return 1;
}
