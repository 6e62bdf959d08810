// Plays a match file with the library, as `play` does: play [FILE], or standard input.
// It prints answer, steps and writes of the run, then each name and its count; a refusal gives one line.
#include "sumacadze.h"
#include <stdio.h>

// Each of the sixteen names that a match may have holds at most 125 of the 2,000 entries.
enum { LARGEST_FILE = 32768, LARGEST_SIZE = 8000, PROCESSES = 125, QUEUE = 2000 };

static uint8_t file[LARGEST_FILE + 1];
static uint64_t core[LARGEST_SIZE], queue[QUEUE];

// Prints a refusal: the number, and for 13 its position.
static int refused(uint8_t number, size_t position) {
    if (number == SUMACADZE_MALFORMED)
        printf("%u %zu\n", number, position);
    else
        printf("%u\n", number);
    return 0;
}

// Prints what came of the run, and the names.
static int played(sumacadze_report_t run, const sumacadze_header_t *header) {
    printf("%u %llu %llu\n", run.number, (unsigned long long)run.steps, (unsigned long long)run.writes);
    for (uint32_t i = 0; i < header->names.held; i++) {
        fwrite(header->names.bytes + SUMACADZE_NAME_BYTES * i, 1, header->names.lengths[i], stdout);
        printf(" %u\n", header->counts[i]);
    }
    return 0;
}

int main(int words, char **word) {
    FILE *in = words > 1 ? fopen(word[1], "rb") : stdin;
    if (!in) {
        perror(word[1]);
        return 1;
    }
    size_t length = fread(file, 1, sizeof file, in);
    if (length > LARGEST_FILE)
        return refused(SUMACADZE_MALFORMED, LARGEST_FILE);
    sumacadze_contents_t contents = sumacadze_read(file, length);
    if (contents.number)
        return refused(contents.number, contents.position);
    uint32_t size = contents.size;
    if (size > LARGEST_SIZE)
        return refused(SUMACADZE_INVALID_CORE_SIZE, 0);
    sumacadze_rules_t rules = sumacadze_rules_of_size(size, PROCESSES);
    sumacadze_fresh_t machine = sumacadze_fresh(rules, core, size, queue, QUEUE);
    if (machine.number)
        return refused(machine.number, 0);
    sumacadze_loads_t loads = sumacadze_load_match(core, size, queue, QUEUE, machine.header, file, length);
    if (loads.report.number)
        return refused(loads.report.number, loads.report.value);
    sumacadze_report_t run = sumacadze_run(core, size, queue, QUEUE, &loads.header, false, 0);
    return played(run, &loads.header);
}
