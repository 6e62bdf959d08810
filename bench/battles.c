// The battles that the driver plays, and how a machine stands when one begins.
#include "battles.h"
#include <stdio.h>
#include <string.h>

#define IMP {{0, 1, 6, 1, 1, 0, 1}, {.opcode = -1}}

const battle BATTLES[ALL] = {
    {"imp", 1, 0, IMP},
    {"dwarf", 1, 0, {{0, 2, 2, 0, 1, 4, 3}, {1, 1, 6, 1, 3, 2, 2}, {2, 7, 1, 1, 1, -2, 0}, {3, 0, 4, 0, 0, 0, 0}, {.opcode = -1}}},
    // a dwarf whose bombs fall beside a warrior that splits off children, which end at once
    {"splitter", 2, 4000,
     {{0, 2, 2, 0, 1, 4, 3}, {1, 1, 6, 1, 3, 2, 2}, {2, 7, 1, 1, 1, -2, 0}, {3, 0, 4, 0, 0, 0, 0},
      {4000, 15, 1, 1, 1, 2, 0}, {4001, 7, 1, 1, 1, -1, 0}, {4002, 0, 4, 1, 1, 0, 0}, {.opcode = -1}}},
    // a loop over all opcodes but those that end or split, with all modes and modifiers
    {"mixed", 1, 0,
     {{0, 1, 0, 6, 1, 40, 60}, {1, 2, 1, 7, 2, 41, 42}, {2, 3, 0, 4, 3, 43, 44}, {3, 4, 5, 1, 1, 45, 46}, {4, 1, 2, 0, 1, 5, 75},
      {5, 5, 2, 0, 1, 7, 70}, {6, 6, 2, 0, 1, 7, 73}, {7, 8, 3, 1, 0, 1, 0}, {8, 9, 0, 1, 1, 1, 50}, {9, 10, 1, 1, 1, 1, 51},
      {10, 11, 6, 1, 5, 52, 53}, {11, 16, 4, 1, 1, 0, 0}, {12, 12, 5, 4, 6, 54, 55}, {13, 16, 4, 1, 1, 0, 0}, {14, 13, 4, 5, 7, 56, 57},
      {15, 16, 4, 1, 1, 0, 0}, {16, 14, 1, 0, 1, 3, 58}, {17, 16, 4, 1, 1, 0, 0}, {18, 7, 1, 1, 1, -18, 0}, {75, 0, 4, 1, 1, 3, 5},
      {.opcode = -1}}},
    {"imps", 2, 0, IMP},
    {"imps", 16, 0, IMP},
};

void put(start *s, uint32_t at, line l) {
    uint8_t *p = s->body + 12 * at;
    int32_t numbers[2] = {l.a, l.b};
    p[0] = l.opcode, p[1] = l.modifier, p[2] = l.a_mode, p[3] = l.b_mode;
    memcpy(p + 4, numbers, sizeof numbers);
}

void start_of(start *s, const battle *b) {
    s->size = s->read = s->write = M, s->processes = PROCESSES, s->slots = SLOTS;
    s->names = b->names, s->apart = b->apart, s->length = 0;
    for (const line *l = b->lines; l->opcode >= 0; l++) {
        while (s->length < (uint32_t)l->at)
            put(s, s->length++, (line){0, 0, 4, 1, 1, 0, 0});
        put(s, s->length++, *l);
    }
}

void name_of(uint32_t index, char name[NAME]) { snprintf(name, NAME, "warrior-%u", 10 + index); }

void oracle(const battle *b, const char *steps) {
    printf("%d | load =first -", M);
    int at = 0;
    for (const line *l = b->lines; l->opcode >= 0; l++) {
        for (; at < l->at; at++)
            printf(" 0.4.1.1.0.0");
        printf(" %d.%d.%d.%d.%d.%d", l->opcode, l->modifier, l->a_mode, l->b_mode, l->a, l->b);
        at++;
    }
    if (b->names > 1)
        printf(" | load =second %d", b->apart);
    printf(" | run %s\n", steps);
}
