// A record in C's memory: made by the library and by the plain C, and compared.
#ifndef RECORDS_H
#define RECORDS_H

#include "battles.h"
#include "plain.h"

typedef struct {
    uint32_t size, slots;
    uint64_t core[M], queue[SLOTS];
    sumacadze_header_t header;
} record;

typedef sumacadze_report_t stepping(uint64_t *, size_t, uint64_t *, size_t, sumacadze_header_t *);
typedef sumacadze_report_t running(uint64_t *, size_t, uint64_t *, size_t, sumacadze_header_t *, bool, uint64_t);

void library_record(record *r, const start *s);
void plain_record(record *r, const start *s);
sumacadze_report_t play_run(running *run, record *r, uint64_t steps);
// so many steps, or up to the first answer not 0, with all their writes and steps
sumacadze_report_t play_steps(stepping *step, record *r, uint64_t steps);
bool same_records(const record *x, const record *y);
// so many random records, unsound ones among them, played by the library and by the plain C: 0 if both always leave the same
int agree(int seed, int count);

#endif
