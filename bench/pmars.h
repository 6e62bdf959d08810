// pMARS' own loop, played again and again in this process.
#ifndef PMARS_H
#define PMARS_H

#include "battles.h"
#include <stdbool.h>

// makes a battle the one that pMARS plays: each name a warrior of its own
void pmars_set(const battle *b);
// clears the core, loads the warriors and plays so many steps, of all warriors together; whether it played them all
bool pmars_play(long steps);
// the place of the last step
long pmars_place(void);

#endif
