/* The ledger of steps sold: one line a turn, in the order they were sold. */
#ifndef LEDGER_H
#define LEDGER_H

#include <stdint.h>

struct ledger {
    int fd;
    uint64_t sites;
    uint64_t *turns; /* by site: turns written */
    uint64_t *steps; /* by site: steps written */
    uint64_t all_turns, all_steps;
};

/* Locks the ledger and with it the folder, until ledger_close or the program's end; reads it; takes away a line that was cut short, which is
 * what a crash leaves. Where there is none it makes one, if it is told to. Ends the program if another one has the lock, and then it has written
 * nothing; if a line is not of the form or of no site here; if the turns of a site are not 1, 2, 3, .. or its steps do not follow on one another. */
void ledger_open(struct ledger *ledger, const char *folder, uint64_t sites, int make);

/* Writes a turn: which one it was of its site, the steps that were done before, the steps sold. */
void ledger_write(struct ledger *ledger, uint64_t site, uint64_t turn, uint64_t before, uint64_t sold);

void ledger_close(struct ledger *ledger);

#endif
