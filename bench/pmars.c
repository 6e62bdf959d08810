// pMARS' own loop, played again and again in this process: the globals of its simulator1 are set from a battle.
// Compiled against pMARS' headers, with its own options, and linked to its sources; run.sh fetches them.
#include "pmars.h"
#include <global.h>
#include <sim.h>
#include <stdlib.h>
#include <string.h>

enum { CELLS = 100, APART = 100 };

static mem_struct bodies[2][CELLS];

// opcodes, modifiers and modes by their numbers in docs/MACHINE.md
static const FIELD_T OPCODES[] = {DAT, MOV, ADD, SUB, MUL, DIV, MOD, JMP, JMZ, JMN, DJN, CMP, SEQ, SNE, SLT, SPL, NOP};
static const FIELD_T MODIFIERS[] = {mA, mB, mAB, mBA, mF, mX, mI};
static const FIELD_T MODES[] = {IMMEDIATE, DIRECT, 0x80 | INDIRECT, INDIRECT, 0x80 | PREDECR, PREDECR, 0x80 | POSTINC, POSTINC};

static mem_struct cell_of(line l) {
    mem_struct c = {.A_value = (l.a + M) % M, .B_value = (l.b + M) % M};
    c.opcode = OPCODES[l.opcode] << 3 | MODIFIERS[l.modifier];
    c.A_mode = MODES[l.a_mode];
    c.B_mode = MODES[l.b_mode];
    return c;
}

// the warrior with an index has the lines from its start up to the next one's
static void set_warrior(const battle *b, int k) {
    int first = k * b->apart, last = k + 1 < b->names ? first + b->apart : M;
    warrior_struct *w = &warrior[k];
    memset(w, 0, sizeof *w);
    w->instBank = bodies[k];
    for (const line *l = b->lines; l->opcode >= 0; l++) {
        if (l->at < first || l->at >= last)
            continue;
        while (w->instLen < l->at - first)
            bodies[k][w->instLen++] = INITIALINST;
        bodies[k][w->instLen++] = cell_of(*l);
    }
}

// what pMARS' loop calls where memory is short; its own stands beside its main
void Exit(int code) { exit(code); }

void pmars_set(const battle *b) {
    INITIALINST = cell_of((line){0, 0, 4, 1, 1, 0, 0});
    coreSize = M, taskNum = PROCESSES, rounds = 1, warriors = b->names;
    separation = APART, SWITCH_F = b->apart ? b->apart : APART;
    for (int k = 0; k < b->names; k++)
        set_warrior(b, k);
}

bool pmars_play(long steps) {
    cycles = steps / warriors;
    simulator1();
    return cycle == 0 && warriorsLeft == warriors;
}

long pmars_place(void) { return progCnt; }
