// The same machine written plainly in C, over the library's record: the rival of the tables in README.md.
#ifndef PLAIN_H
#define PLAIN_H

#include "sumacadze.h"

sumacadze_header_t plain_fresh(sumacadze_rules_t rules, uint64_t *core, uint64_t *queue, uint32_t slots);
void plain_start(uint64_t *queue, uint32_t slots, sumacadze_header_t *h, const char *name, uint32_t place);
sumacadze_report_t plain_step(uint64_t *core, size_t m, uint64_t *queue, size_t slots, sumacadze_header_t *h);
sumacadze_report_t plain_run(uint64_t *core, size_t m, uint64_t *queue, size_t slots, sumacadze_header_t *h, bool said,
                             uint64_t ceiling);

#endif
