// A match of sixteen warriors, and the ways of loading it into a fresh machine.
#ifndef MATCHES_H
#define MATCHES_H

#include "records.h"

enum { WARRIORS = 16, BODY = 100, WAYS = 4 };

// one way: its name, and how it loads; whether nothing was refused
typedef struct {
    const char *name;
    bool (*load)(record *r);
} way;

// nothing but the fresh machine; one call; a place and a start for names and bodies that are known; reading the file, then each
// line, and its place and start
extern const way LOADING[WAYS];

// makes the match: so many warriors, each of so many instructions, with names of their own
void make_match(void);
// a fresh machine, then the match loaded that way
bool load_match_by(const way *w, record *r);

#endif
