// The battles that the driver plays, and how a machine stands when one begins.
#ifndef BATTLES_H
#define BATTLES_H

#include <stdint.h>

enum { M = 8000, SLOTS = 2000, PROCESSES = 125, FOUR = 4, ALL = 6, NAME = 16 };

// One instruction, by the numbers of docs/MACHINE.md, and its place.
typedef struct {
    int at, opcode, modifier, a_mode, b_mode, a, b;
} line;

// The first name has the lines as its body at place 0; each name k starts a process at k * apart. A line with opcode -1 ends it.
typedef struct {
    const char *name;
    int names, apart;
    line lines[24];
} battle;

// imp, dwarf, splitter and mixed; then imps of 2 and of 16 names
extern const battle BATTLES[ALL];

// What a machine is made of: its rules, the queue memory's length, its names and the first one's body, as bytes to be placed.
typedef struct {
    uint32_t size, read, write, processes, slots, names, apart, length;
    uint8_t body[12 * M];
} start;

// with both limits M
void start_of(start *s, const battle *b);
void put(start *s, uint32_t at, line l);
// the name with an index; all begin alike
void name_of(uint32_t index, char name[NAME]);
// a battle of so many steps as a line for tools/oracle
void oracle(const battle *b, const char *steps);

#endif
