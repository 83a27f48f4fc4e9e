/*
 * A host that keeps the jobs of many sites.
 *
 *     store run FOLDER SITES SEED MOST     goes on until every site has its product, with budgets of up to MOST steps
 *     store audit FOLDER SITES SEED        checks every product, and the ledger against the lists of row steps
 *
 * Sixteen jobs are open at a time and get turns one after the other. A turn is sold in two acts: the job's new file (record, A, B, table, product,
 * and which turn this was) takes the place of the old one by a rename; then the ledger gets its line. The store may be killed at any moment.
 * Killed before the rename, the turn was never given: it is given again from the old file. Killed between the two, the file is one turn ahead of
 * the ledger, and the line is written at the next start. So no step is sold twice and none is lost.
 *
 * A folder belongs to one store at a time: run and audit lock its ledger. Status 0: all is well; 1: something was found wrong; 2: called wrongly;
 * 3: another store has the folder. On 1 to 3 standard error says why.
 */
#define _POSIX_C_SOURCE 200809L
#include "job.h"
#include "ledger.h"

#include <errno.h>
#include <stdio.h>
#include <stdlib.h>
#include <string.h>
#include <sys/stat.h>
#include <time.h>

/* Jobs that are open at a time; sites of a folder, for each of which the ledger takes sixteen bytes of memory. */
enum { OPEN = 16, SITES_MOST = 1000000 };

static double now(void)
{
    struct timespec t;
    clock_gettime(CLOCK_MONOTONIC, &t);
    return (double)t.tv_sec + (double)t.tv_nsec / 1e9;
}

/* A number in decimal digits and nothing else, from `least` to `most`. */
static uint64_t number(const char *name, const char *text, uint64_t least, uint64_t most)
{
    uint64_t value = 0;
    const char *at = text;
    while (*at >= '0' && *at <= '9' && value <= (UINT64_MAX - (uint64_t)(*at - '0')) / 10)
        value = 10 * value + (uint64_t)(*at++ - '0');
    if (at == text || *at != 0 || value < least || value > most)
        stop(MISUSED, "%s has to be a number from %llu to %llu, in decimal digits", name, (unsigned long long)least, (unsigned long long)most);
    return value;
}

/* The budget of a site's next turn: now and then 0 and now and then 1. */
static uint32_t budget(uint64_t seed, const struct job *job, uint64_t most)
{
    uint64_t r = scramble(seed, 2000 + job->site, job->turns);
    return r % 32 == 0 ? 0 : r % 32 == 1 ? 1 : (uint32_t)(r / 32 % (most + 1));
}

/* A finished job is checked before its file says so. */
static void finish(struct job *job, uint64_t seed)
{
    if (!job_right(job, seed))
        fail("site %llu: the product is not the schoolbook one", (unsigned long long)job->site);
    if (job_steps(job) != job_total(job, seed))
        fail("site %llu: the list has another length", (unsigned long long)job->site);
    job->finished = 1;
}

static void sell(struct job *job, struct ledger *ledger, const char *folder, uint64_t seed, uint64_t most)
{
    job_turn(job, budget(seed, job, most));
    if (job_ended(job))
        finish(job, seed);
    job_save(job, folder);
    ledger_write(ledger, job->site, job->turns, job_steps(job) - job->sold, job->sold);
}

/* The job of a site as the last run left it, or newly opened. Makes up for a line that the ledger lacks. */
static void take_up(struct job *job, struct ledger *ledger, const char *folder, uint64_t seed, uint64_t site)
{
    if (!job_load(job, folder, site)) {
        if (ledger->turns[site] != 0)
            fail("site %llu: it has no file, and turns in the ledger", (unsigned long long)site);
        job_open(job, seed, site);
        job_save(job, folder);
    } else if (!job_stands(job, seed)) {
        fail("site %llu: the file holds another job than the site's", (unsigned long long)site);
    } else if (job->turns == ledger->turns[site] + 1 && job_steps(job) - job->sold == ledger->steps[site]) {
        fprintf(stderr, "made up for: site %llu, turn %llu\n", (unsigned long long)site, (unsigned long long)job->turns);
        ledger_write(ledger, site, job->turns, job_steps(job) - job->sold, job->sold);
    }
    if (job->turns != ledger->turns[site] || job_steps(job) != ledger->steps[site])
        fail("site %llu: file and ledger do not agree", (unsigned long long)site);
}

/* Makes the folder, if it is told to and there is none. */
static void folder_stands(const char *folder, int make)
{
    struct stat found;
    if (make && mkdir(folder, 0755) != 0 && errno != EEXIST)
        fail("the folder %s cannot be made: %s", folder, strerror(errno));
    if (stat(folder, &found) != 0)
        fail("the folder %s: %s", folder, strerror(errno));
    if (!S_ISDIR(found.st_mode))
        fail("%s is not a folder", folder);
}

static int run(const char *folder, uint64_t sites, uint64_t seed, uint64_t most)
{
    struct ledger ledger;
    struct job job[OPEN];
    uint64_t next = 0, finished = 0, turns, steps;
    double start;
    unsigned open = 0, i;
    folder_stands(folder, 1);
    ledger_open(&ledger, folder, sites, 1);
    start = now();
    turns = ledger.all_turns;
    steps = ledger.all_steps;
    while (next < sites || open > 0) {
        while (open < OPEN && next < sites) {
            take_up(&job[open], &ledger, folder, seed, next++);
            if (job[open].finished) {
                job_free(&job[open]);
                finished++;
            } else {
                open++;
            }
        }
        for (i = 0; i < open;) {
            sell(&job[i], &ledger, folder, seed, most);
            if (job[i].finished) {
                job_free(&job[i]);
                job[i] = job[--open];
                finished++;
            } else {
                i++;
            }
        }
    }
    turns = ledger.all_turns - turns;
    steps = ledger.all_steps - steps;
    printf("%llu sites finished; this run: %llu turns given, %llu steps sold, %.0f rows a second with storing\n", (unsigned long long)finished,
           (unsigned long long)turns, (unsigned long long)steps, (double)steps / (now() - start + 1e-9));
    ledger_close(&ledger);
    return 0;
}

static int audit(const char *folder, uint64_t sites, uint64_t seed)
{
    struct ledger ledger;
    struct job job;
    uint64_t site, lists = 0;
    folder_stands(folder, 0);
    ledger_open(&ledger, folder, sites, 0);
    for (site = 0; site < sites; site++) {
        uint64_t total;
        if (!job_load(&job, folder, site) || !job.finished)
            fail("site %llu is not finished", (unsigned long long)site);
        if (!job_stands(&job, seed))
            fail("site %llu: the file holds another job than the site's", (unsigned long long)site);
        total = job_total(&job, seed);
        if (!job_right(&job, seed))
            fail("site %llu: the product is not the schoolbook one", (unsigned long long)site);
        if (ledger.steps[site] != total || ledger.turns[site] != job.turns)
            fail("site %llu: %llu steps sold, and the list has %llu", (unsigned long long)site, (unsigned long long)ledger.steps[site],
                 (unsigned long long)total);
        lists += total;
        job_free(&job);
    }
    if (ledger.all_steps != lists)
        fail("%llu steps sold, and the lists have %llu", (unsigned long long)ledger.all_steps, (unsigned long long)lists);
    printf("%llu products right, %llu turns given, %llu steps sold, and the lists have %llu\n", (unsigned long long)sites,
           (unsigned long long)ledger.all_turns, (unsigned long long)ledger.all_steps, (unsigned long long)lists);
    ledger_close(&ledger);
    return 0;
}

int main(int count, char **words)
{
    int running = count == 6 && strcmp(words[1], "run") == 0;
    uint64_t sites, seed;
    if (!running && !(count == 5 && strcmp(words[1], "audit") == 0)) {
        fputs("usage: store run FOLDER SITES SEED MOST | store audit FOLDER SITES SEED\n", stderr);
        return MISUSED;
    }
    if (words[2][0] == 0)
        stop(MISUSED, "FOLDER has to be a name");
    sites = number("SITES", words[3], 1, SITES_MOST);
    seed = number("SEED", words[4], 0, UINT64_MAX);
    return running ? run(words[2], sites, seed, number("MOST", words[5], 1, UINT32_MAX)) : audit(words[2], sites, seed);
}
