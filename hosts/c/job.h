/* One site's job: its buffers with guard bytes about each, and its file. */
#ifndef JOB_H
#define JOB_H

#include "own.h"

enum { RECORD, A, B, TABLE, PRODUCT, BUFFERS };

struct buffer {
    uint8_t *start; /* guard bytes stand before and behind */
    size_t bytes;
};

struct job {
    uint64_t site;
    uint64_t turns;    /* turns given */
    uint64_t sold;     /* steps made by the last of them */
    uint64_t finished; /* 1 once the list has ended and the product was found right */
    struct buffer buffer[BUFFERS];
};

/* What a site sends, by its number: sizes, width (0 is the default) and matrices. */
void site_request(uint64_t seed, uint64_t site, struct digits *a, struct digits *b, unsigned *width);

/* Opens the job of a site's request. Ends the program if the library refuses, and says which place is wrong where the refusal has one. */
void job_open(struct job *job, uint64_t seed, uint64_t site);

/* Gives it a turn. Ends the program if the library refuses or touches what it may not. */
void job_turn(struct job *job, uint32_t budget);

/* The record's words. */
uint64_t job_steps(const struct job *job);
int job_ended(const struct job *job);

/* Whether sizes, width, A and B are what the site sent, and the steps done are no more than its list has, all of them where the job is finished. */
int job_stands(const struct job *job, uint64_t seed);

/* Whether the product is, byte for byte, the schoolbook product of what the site sent. */
int job_right(const struct job *job, uint64_t seed);

/* The length of the job's list, by the host's own walk. */
uint64_t job_total(const struct job *job, uint64_t seed);

/* Puts the job's file in place of the last one, all or nothing. */
void job_save(const struct job *job, const char *folder);

/* Reads the job's file: 1, or 0 if there is none. Ends the program if there is one that no store wrote for this site, whatever its bytes are: after
 * it every buffer has the length that the record gives. */
int job_load(struct job *job, const char *folder, uint64_t site);

void job_free(struct job *job);

/* How the program ends where it does not end well: something was found wrong; it was called wrongly; another one has the folder. */
enum { WRONG = 1, MISUSED = 2, IN_USE = 3 };

/* Says in one sentence what is wrong and ends the program with this status; fail ends it with WRONG. */
void stop(int status, const char *format, ...);
void fail(const char *format, ...);

/* A name in a folder. */
void path_of(char *path, size_t room, const char *folder, const char *format, ...);

/* Writes all of it. Ends the program if that fails. */
void write_all(int fd, const void *bytes, size_t count, const char *path);

/* So that a rename in the folder outlives a crash of the machine. */
void sync_folder(const char *folder);

#endif
