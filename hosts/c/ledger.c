#define _POSIX_C_SOURCE 200809L
#include "ledger.h"

#include "job.h"

#include <errno.h>
#include <fcntl.h>
#include <stdio.h>
#include <stdlib.h>
#include <string.h>
#include <unistd.h>

/* Four numbers of up to eight digits, each with a byte behind it. */
enum { PLACES = 8, LINE = 4 * (PLACES + 1), ROOM = 4096 };
static const char FORM[] = "%8llu %8llu %8llu %8llu\n";

static void take(struct ledger *ledger, uint64_t site, uint64_t turn, uint64_t before, uint64_t sold)
{
    if (site >= ledger->sites)
        fail("the ledger has a line of site %llu, and the sites are %llu", (unsigned long long)site, (unsigned long long)ledger->sites);
    if (turn != ledger->turns[site] + 1 || before != ledger->steps[site])
        fail("the ledger sells a step twice, or leaves one out: site %llu, turn %llu, from step %llu", (unsigned long long)site,
             (unsigned long long)turn, (unsigned long long)before);
    ledger->turns[site] = turn;
    ledger->steps[site] += sold;
    ledger->all_turns++;
    ledger->all_steps += sold;
}

/* Takes the lock of an open ledger. The system takes it back when the process ends, also when it is killed. */
static void lock(int fd, const char *folder)
{
    struct flock all;
    memset(&all, 0, sizeof all);
    all.l_type = F_WRLCK;
    all.l_whence = SEEK_SET;
    if (fcntl(fd, F_SETLK, &all) == 0)
        return;
    if (errno == EACCES || errno == EAGAIN)
        stop(IN_USE, "%s is in use by another store", folder);
    fail("%s: its ledger cannot be locked: %s", folder, strerror(errno));
}

/* The bytes of the next line; fewer than LINE at the end of the file alone, since what is left there is taken away. */
static size_t line_read(int fd, char *line, const char *path)
{
    size_t got = 0;
    while (got < LINE) {
        ssize_t more = read(fd, line + got, LINE - got);
        if (more < 0 && errno != EINTR)
            fail("%s: %s", path, strerror(errno));
        if (more == 0)
            break;
        if (more > 0)
            got += (size_t)more;
    }
    return got;
}

/* A number as FORM writes it, at the right end of its places. It is below 100,000,000: what a site was sold is below twice that, since the steps
 * before its last turn stand in a line, and no sum over all sites wraps. */
static int number_read(const char *places, uint64_t *value)
{
    int i = 0;
    while (i < PLACES - 1 && places[i] == ' ')
        i++;
    if (i < PLACES - 1 && places[i] == '0')
        return 0;
    for (*value = 0; i < PLACES; i++) {
        if (places[i] < '0' || places[i] > '9')
            return 0;
        *value = 10 * *value + (uint64_t)(places[i] - '0');
    }
    return 1;
}

void ledger_open(struct ledger *ledger, const char *folder, uint64_t sites, int make)
{
    char path[ROOM], line[LINE];
    uint64_t number[4];
    off_t whole = 0;
    int i;
    path_of(path, sizeof path, folder, "ledger");
    memset(ledger, 0, sizeof *ledger);
    ledger->sites = sites;
    ledger->turns = calloc((size_t)sites, sizeof *ledger->turns);
    ledger->steps = calloc((size_t)sites, sizeof *ledger->steps);
    if (ledger->turns == NULL || ledger->steps == NULL)
        fail("no memory");
    ledger->fd = open(path, make ? O_RDWR | O_CREAT : O_RDWR, 0644);
    if (ledger->fd < 0)
        fail("%s: %s", path, strerror(errno));
    lock(ledger->fd, folder);
    while (line_read(ledger->fd, line, path) == LINE) {
        for (i = 0; i < 4; i++)
            if (!number_read(line + i * (PLACES + 1), &number[i]) || line[i * (PLACES + 1) + PLACES] != (i < 3 ? ' ' : '\n'))
                fail("%s: line %llu is not of the form", path, (unsigned long long)(whole / LINE + 1));
        take(ledger, number[0], number[1], number[2], number[3]);
        whole += LINE;
    }
    if (ftruncate(ledger->fd, whole) != 0 || lseek(ledger->fd, whole, SEEK_SET) != whole)
        fail("%s: %s", path, strerror(errno));
}

void ledger_write(struct ledger *ledger, uint64_t site, uint64_t turn, uint64_t before, uint64_t sold)
{
    char line[LINE + 1];
    take(ledger, site, turn, before, sold);
    if (snprintf(line, sizeof line, FORM, (unsigned long long)site, (unsigned long long)turn, (unsigned long long)before,
                 (unsigned long long)sold) != LINE)
        fail("a number is too long for the ledger");
    write_all(ledger->fd, line, LINE, "ledger");
    if (fsync(ledger->fd) != 0)
        fail("ledger: %s", strerror(errno));
}

void ledger_close(struct ledger *ledger)
{
    close(ledger->fd);
    free(ledger->turns);
    free(ledger->steps);
}
