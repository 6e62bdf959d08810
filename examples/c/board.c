// A board for a class, with the library: both warriors are placed first, and each is started when the class is ready.
// After each part it prints the board, the steps taken, and each name with its processes; board.stdout is what it prints.
#include "sumacadze.h"
#include <stdio.h>
#include <stdlib.h>
#include <string.h>

// Each of the sixteen names that a machine may hold has at most 4 of the 64 entries.
enum { SIZE = 40, PROCESSES = 4, QUEUE = 64, DWARF_AT = 0, IMP_AT = 20 };

// An instruction is opcode, modifier (255 is the default one), A mode, B mode, and the A and the B number of 4 bytes each.
static const uint8_t DWARF[] = {
    2, 255, 0, 1, 4, 0, 0, 0, 3, 0, 0, 0,         // ADD #4, $3
    1, 255, 1, 3, 2, 0, 0, 0, 2, 0, 0, 0,         // MOV $2, @2
    7, 255, 1, 1, 254, 255, 255, 255, 0, 0, 0, 0, // JMP $-2, $0
    0, 255, 0, 0, 0, 0, 0, 0, 0, 0, 0, 0,         // DAT #0, #0    the bomb
};
static const uint8_t IMP[] = {1, 255, 1, 1, 0, 0, 0, 0, 1, 0, 0, 0}; // MOV $0, $1

static uint64_t core[SIZE], queue[QUEUE];
static sumacadze_header_t header;

// A call that the machine refuses is an error of this program.
static void demand(uint8_t number) {
    if (number != SUMACADZE_DONE) {
        fprintf(stderr, "refused with %u\n", number);
        exit(1);
    }
}

static void place(const char *name, const uint8_t *body, size_t length, uint32_t at) {
    const uint8_t *bytes = (const uint8_t *)name;
    demand(sumacadze_place(core, SIZE, queue, QUEUE, &header, bytes, strlen(name), body, length, at).number);
}

static void start(const char *name, uint32_t at) {
    const uint8_t *bytes = (const uint8_t *)name;
    demand(sumacadze_start(core, SIZE, queue, QUEUE, &header, bytes, strlen(name), at).number);
}

// The first letter of a cell's opcode; a dot where the cell is as on a fresh board, DAT.F $0, $0.
static char letter(int32_t at) {
    sumacadze_reading_t cell = sumacadze_get(core, SIZE, queue, QUEUE, header, at);
    demand(cell.number);
    bool fresh = cell.opcode == 0 && cell.modifier == 4 && cell.a_mode == 1 && cell.b_mode == 1 && !cell.a && !cell.b;
    return fresh ? '.' : "DMASMDMJJJDCSSSSNLS"[cell.opcode];
}

// The board in one line, and the steps, names and counts in the next.
static void show(void) {
    for (int32_t at = 0; at < SIZE; at++)
        putchar(letter(at));
    printf("\n%u steps", header.steps);
    for (uint32_t i = 0; i < header.names.held; i++) {
        const char *name = (const char *)header.names.bytes + SUMACADZE_NAME_BYTES * i;
        printf(", %.*s %u", header.names.lengths[i], name, header.counts[i]);
    }
    puts("\n");
}

// Runs up to so many steps in all, or up to the end of a name's last process.
static sumacadze_report_t run(uint64_t steps) {
    return sumacadze_run(core, SIZE, queue, QUEUE, &header, true, steps);
}

int main(void) {
    sumacadze_fresh_t machine = sumacadze_fresh(sumacadze_rules_of_size(SIZE, PROCESSES), core, SIZE, queue, QUEUE);
    demand(machine.number);
    header = machine.header;
    place("Dwarf", DWARF, sizeof DWARF, DWARF_AT);
    place("Imp", IMP, sizeof IMP, IMP_AT);
    puts("Both are placed, and nothing runs.");
    show();
    start("Dwarf", DWARF_AT);
    demand(run(12).number);
    puts("The dwarf was started.");
    show();
    start("Imp", IMP_AT);
    demand(run(24).number);
    puts("The imp was started, too.");
    show();
    sumacadze_report_t last = run(1000);
    printf("Both ran on, to the answer %u, at cell %zu.\n", last.number, last.value);
    show();
    return 0;
}
