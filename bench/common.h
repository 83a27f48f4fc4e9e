// What the bench's programs share: ends, numbers from the command line, random words, the size of a matrix, and time.
#include <stdint.h>
#include <stdio.h>
#include <stdlib.h>
#include <time.h>

#include "c/planes.h"

static void die(int status, const char *what, const char *about)
{
    fprintf(stderr, "bench: %s: %s\n", what, about);
    exit(status);
}

static size_t number(const char *text)
{
    char *end;
    unsigned long n = strtoul(text, &end, 10);
    if (*text < '0' || *text > '9' || *end != '\0')
        die(2, "not a number", text);
    return n;
}

static uint64_t seed;

// From here on the same words come again.
static inline void random_start(void)
{
    seed = 3;
}

static uint64_t random_word(void)
{
    uint64_t z = seed += 0x9e3779b97f4a7c15;
    z = (z ^ z >> 30) * 0xbf58476d1ce4e5b9;
    z = (z ^ z >> 27) * 0x94d049bb133111eb;
    return z ^ z >> 31;
}

// Of n by n cells.
static inline size_t matrix_words(size_t n)
{
    return 2 * planes(n) * n;
}

static inline uint64_t nanoseconds(void)
{
    struct timespec now;
    if (clock_gettime(CLOCK_MONOTONIC, &now) != 0)
        die(2, "no clock", "clock_gettime");
    return (uint64_t)now.tv_sec * 1000000000 + (uint64_t)now.tv_nsec;
}

// Prints what a call takes, in picoseconds: the shortest of fifteen runs, each of as many calls as take five milliseconds or more.
static inline void print_time(void (*make)(void *with, size_t times), void *with)
{
    uint64_t least = UINT64_MAX;
    size_t times = 1;
    for (int runs = 0; runs < 15;) {
        uint64_t from = nanoseconds();
        make(with, times);
        uint64_t took = nanoseconds() - from;
        if (took < 5000000) {
            times *= 2;
            continue;
        }
        uint64_t each = took * 1000 / times;
        least = each < least ? each : least;
        runs++;
    }
    printf("%llu\n", (unsigned long long)least);
}
