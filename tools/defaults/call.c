// Places an instruction of modifier 255 for every opcode, A mode and B mode byte: call < TABLE, for compare.py.
// TABLE has a byte for each of 19 opcodes, 8 A modes and 8 B modes: the default modifier, 255 where there is none.
// Built as: gcc -std=c11 -O2 -Wall -Wextra -Wpedantic -Werror -Iinclude -o call tools/defaults/call.c LIBRARY
#include "sumacadze.h"
#include <stdio.h>
#include <string.h>

enum { OPCODES = 19, MODES = 8, BYTES = 256, DEFAULT = 255, NONE = 255, ENTRIES = 16 };

// A machine of one cell, in which each name may hold one entry.
typedef struct {
    uint64_t core[1], queue[ENTRIES];
    sumacadze_header_t header;
} machine;

static uint8_t table[OPCODES][MODES][MODES];

static uint8_t wanted_modifier(unsigned opcode, unsigned a_mode, unsigned b_mode) {
    return opcode < OPCODES && a_mode < MODES && b_mode < MODES ? table[opcode][a_mode][b_mode] : NONE;
}

static uint64_t word(uint64_t opcode, uint64_t modifier, uint64_t a_mode, uint64_t b_mode) {
    return opcode << 41 | modifier << 38 | a_mode << 35 | b_mode << 32;
}

static sumacadze_report_t place(machine *m, unsigned opcode, unsigned a_mode, unsigned b_mode) {
    const uint8_t body[12] = {(uint8_t)opcode, DEFAULT, (uint8_t)a_mode, (uint8_t)b_mode};
    return sumacadze_place(m->core, 1, m->queue, ENTRIES, &m->header, (const uint8_t *)"a", 1, body, sizeof body, 0);
}

int main(void) {
    machine fresh;
    sumacadze_fresh_t made = sumacadze_fresh(sumacadze_rules_of_size(1, 1), fresh.core, 1, fresh.queue, ENTRIES);
    fresh.header = made.header;
    if (made.number || fread(table, 1, sizeof table, stdin) != sizeof table) {
        fputs("no fresh machine, or a table cut short\n", stderr);
        return 1;
    }
    unsigned placed = 0, refused = 0, differ = 0;
    for (unsigned triple = 0; triple < BYTES * BYTES * BYTES; triple++) {
        unsigned opcode = triple / BYTES / BYTES, a_mode = triple / BYTES % BYTES, b_mode = triple % BYTES;
        uint8_t modifier = wanted_modifier(opcode, a_mode, b_mode);
        machine m = fresh;
        sumacadze_report_t report = place(&m, opcode, a_mode, b_mode);
        uint8_t number = modifier == NONE ? SUMACADZE_INVALID_CODE : SUMACADZE_DONE;
        uint64_t cell = modifier == NONE ? fresh.core[0] : word(opcode, modifier, a_mode, b_mode);
        placed += report.number == SUMACADZE_DONE;
        refused += report.number != SUMACADZE_DONE;
        if (report.number == number && report.value == 0 && m.core[0] == cell)
            continue;
        if (!differ++)
            printf("opcode %u, A mode %u, B mode %u: number %u, value %zu, cell %012llx; model: number %u, cell %012llx\n",
                   opcode, a_mode, b_mode, report.number, report.value, (unsigned long long)m.core[0], number,
                   (unsigned long long)cell);
    }
    printf("%u triples with modifier 255: %u placed, %u refused, %u differ\n", placed + refused, placed, refused, differ);
    return differ != 0;
}
