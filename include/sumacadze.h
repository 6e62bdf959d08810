/* The machine of docs/MACHINE.md for C and C++ on x86-64: what the static library, crate sumacadze_c, exports.
 *
 * `bin/library` proves it and writes target/staticlib/libsumacadze.a, the one file to link.
 * Each call's promise stands at its function in crates/sumacadze_c/src; `number` is always one of docs/MACHINE.md's table.
 *
 * The caller owes what C does not check:
 * - no pointer is null, not even where its length is 0;
 * - each is aligned for its type, and that many elements can be read there, and written where it is not const;
 * - a memory or header that a call may write overlaps nothing else that the call is given;
 * - nothing else uses them while the call runs.
 * What the bytes say is not the caller's duty: memories, headers, names, bodies and files may hold anything. A refusal
 * changes nothing, except that of a run the steps before it stand, and of a match loaded in one call what was placed and
 * started before it: the warriors before the refused one, and its own body where only its start was refused.
 */
#ifndef SUMACADZE_H
#define SUMACADZE_H

#include <stdbool.h>
#include <stddef.h>
#include <stdint.h>

#ifdef __cplusplus
extern "C" {
#endif

/* What a call gives back, and the value given with it: an index, a place or a position, else 0. */
enum {
    SUMACADZE_DONE = 0,
    SUMACADZE_INVALID_CORE_SIZE = 1,
    SUMACADZE_INVALID_MEMORY = 2, /* a memory's length, or a process limit out of its range or too large for the queue memory */
    SUMACADZE_WARRIOR_TOO_LONG = 3,
    SUMACADZE_INVALID_CODE = 4, /* the lowest index of a faulty instruction */
    SUMACADZE_INVALID_NAME_OR_PLACE = 5,
    SUMACADZE_NO_ROOM = 6, /* a seventeenth name, or a start under one that holds as many entries as the process limit allows */
    SUMACADZE_NO_REMAINING_PROCESSES = 7,
    SUMACADZE_NUMBERS_EXHAUSTED = 8,
    SUMACADZE_UNSOUND_RECORD = 9,
    SUMACADZE_PRIVATE_MEMORY = 10,
    SUMACADZE_EXECUTE_DAT = 11, /* the place of the DAT */
    SUMACADZE_DIVIDE_BY_ZERO = 12,
    SUMACADZE_MALFORMED = 13, /* the position of the fault in the file */
    SUMACADZE_INVALID_LIMIT = 14 /* the read or the write limit */
};

/* The last is the origin of a match file's warrior that has none, meaning 0. */
enum { SUMACADZE_NAMES = 16, SUMACADZE_NAME_BYTES = 32, SUMACADZE_NO_ORIGIN = 65535 };

/* What a fresh machine is given and no call changes: the core's size; how far a process reads and writes from its own
 * place; and the process limit P, how many entries of the queue each name may hold. The read and the write limit each divide
 * the size; a machine without them has the size for both (sumacadze_rules_of_size). P is 1 to 4,095, and the queue memory
 * has 16 times P entries or more, so that there is room for sixteen names with P entries each. */
typedef struct {
    uint32_t size, read, write, processes;
} sumacadze_rules_t;

/* Where the ring of queued processes begins, and how many entries it has. */
typedef struct {
    uint32_t head, length;
} sumacadze_ring_t;

/* The names held, in the order in which they were registered. A name has 32 of the bytes, from 32 times its index on. */
typedef struct {
    uint32_t held;
    uint8_t bytes[SUMACADZE_NAMES * SUMACADZE_NAME_BYTES];
    uint8_t lengths[SUMACADZE_NAMES];
} sumacadze_roster_t;

/* The record that the machine keeps beside its two memories; each name has a count and a next thread number. */
typedef struct {
    sumacadze_rules_t rules;
    sumacadze_ring_t ring;
    uint32_t steps;
    sumacadze_roster_t names;
    uint32_t counts[SUMACADZE_NAMES];
    uint32_t threads[SUMACADZE_NAMES];
} sumacadze_header_t;

typedef struct {
    uint8_t number;
    size_t value;
    uint64_t writes, steps;
} sumacadze_report_t;

typedef struct {
    uint8_t number;
    sumacadze_header_t header;
} sumacadze_fresh_t;

/* The report of a match loaded in one call, the number, from 0, of the warrior that was refused, else 0, and the header left. */
typedef struct {
    sumacadze_report_t report;
    size_t warrior;
    sumacadze_header_t header;
} sumacadze_loads_t;

typedef struct {
    uint8_t number, opcode, modifier, a_mode, b_mode;
    uint32_t a, b;
} sumacadze_reading_t;

typedef struct {
    uint8_t number;
    size_t position, warriors;
    uint32_t size;
} sumacadze_contents_t;

typedef struct {
    uint8_t number;
    size_t position, name_start, name_length, body_start, body_length;
    uint16_t origin;
    uint32_t place;
} sumacadze_line_t;

/* The rules of a core of that size and a process limit, without a read and a write limit. */
static inline sumacadze_rules_t sumacadze_rules_of_size(uint32_t size, uint32_t processes) {
    sumacadze_rules_t rules = {size, size, size, processes};
    return rules;
}

/* A fresh machine of these rules: fresh cells in the core memory, zeros in the queue memory, which has 1 to 65,535 entries,
 * and its header. A refusal gives a header of zeros. */
sumacadze_fresh_t sumacadze_fresh(sumacadze_rules_t rules, uint64_t *core, size_t core_length, uint64_t *queue,
                                  size_t queue_length);

/* Places a body under a name: its cells are written from the place on, going on at cell 0 past the end, and a name that is
 * not held yet is registered, by an empty body too. Nothing is started: a name that is never started runs nothing. Warriors
 * of one name share it; an empty name is Warrior0. A name that holds P entries may be placed under. The writes are the
 * instructions of the body. The refusals, in the order tested: 9, 3, 4, 5, 6 (a seventeenth name). */
sumacadze_report_t sumacadze_place(uint64_t *core, size_t core_length, const uint64_t *queue, size_t queue_length,
                                   sumacadze_header_t *header, const uint8_t *name, size_t name_length,
                                   const uint8_t *body, size_t body_length, uint32_t place);

/* Starts a process under a name at any place below the core's size, whatever stands there: an entry with the name's next
 * thread number is queued behind the others. A name that is not held yet is registered; an empty name is Warrior0. No cell
 * is written: the writes are 0. The refusals, in the order tested: 9, 5, 6 (SUMACADZE_NO_ROOM: a seventeenth name, or one that
 * holds P entries), 8 (a name whose thread numbers are used up). */
sumacadze_report_t sumacadze_start(const uint64_t *core, size_t core_length, uint64_t *queue, size_t queue_length,
                                   sumacadze_header_t *header, const uint8_t *name, size_t name_length, uint32_t place);

/* Loads every warrior of a match file in file order, up to the first refused: each is placed, and then started at its place
 * plus its origin, modulo the core's size, before the next is placed. What was placed and started before a refusal stands,
 * with its writes; so does the body of the refused warrior where it was placed and could not be started.
 * The header that comes back is the machine's from then on; where nothing was placed it is the one given. */
sumacadze_loads_t sumacadze_load_match(uint64_t *core, size_t core_length, uint64_t *queue, size_t queue_length,
                                       sumacadze_header_t header, const uint8_t *file, size_t file_length);

/* Executes one instruction of the process at the front. SPL's child is dropped if its name held P entries before the step. */
sumacadze_report_t sumacadze_step(uint64_t *core, size_t core_length, uint64_t *queue, size_t queue_length,
                                  sumacadze_header_t *header);

/* Steps while steps taken are below the ceiling, if one is said, else below 10,000, up to the first number not 0. */
sumacadze_report_t sumacadze_run(uint64_t *core, size_t core_length, uint64_t *queue, size_t queue_length,
                                 sumacadze_header_t *header, bool said, uint64_t ceiling);

/* The cell at any number, reduced; all fields are 0 where it is refused. */
sumacadze_reading_t sumacadze_get(const uint64_t *core, size_t core_length, const uint64_t *queue, size_t queue_length,
                                  sumacadze_header_t header, int32_t number);

/* How many warriors a match file has, and its core size. */
sumacadze_contents_t sumacadze_read(const uint8_t *file, size_t file_length);

/* Which bytes of a match file are a warrior's name and body, and its origin and place; warriors count from 0. A program that
 * places and starts a file's warriors itself starts each at (place + origin) mod the core's size, an origin of
 * SUMACADZE_NO_ORIGIN being 0. */
sumacadze_line_t sumacadze_read_line(const uint8_t *file, size_t file_length, size_t warrior);

#ifdef __cplusplus
}
#define SUMACADZE_ASSERT(test) static_assert(test, #test)
#else
#define SUMACADZE_ASSERT(test) _Static_assert(test, #test)
#endif

/* The layout that the library has. */
SUMACADZE_ASSERT(sizeof(sumacadze_rules_t) == 16 && offsetof(sumacadze_rules_t, read) == 4);
SUMACADZE_ASSERT(offsetof(sumacadze_rules_t, write) == 8 && offsetof(sumacadze_rules_t, processes) == 12);
SUMACADZE_ASSERT(sizeof(sumacadze_header_t) == 688 && offsetof(sumacadze_header_t, ring) == 16);
SUMACADZE_ASSERT(offsetof(sumacadze_header_t, steps) == 24 && offsetof(sumacadze_header_t, names) == 28);
SUMACADZE_ASSERT(offsetof(sumacadze_roster_t, bytes) == 4 && offsetof(sumacadze_roster_t, lengths) == 516);
SUMACADZE_ASSERT(offsetof(sumacadze_header_t, counts) == 560 && offsetof(sumacadze_header_t, threads) == 624);
SUMACADZE_ASSERT(sizeof(sumacadze_fresh_t) == 692 && offsetof(sumacadze_fresh_t, header) == 4);
SUMACADZE_ASSERT(sizeof(sumacadze_report_t) == 32 && sizeof(sumacadze_reading_t) == 16);
SUMACADZE_ASSERT(sizeof(sumacadze_loads_t) == 728 && offsetof(sumacadze_loads_t, warrior) == 32);
SUMACADZE_ASSERT(offsetof(sumacadze_loads_t, header) == 40);
SUMACADZE_ASSERT(sizeof(sumacadze_contents_t) == 32 && sizeof(sumacadze_line_t) == 56);
SUMACADZE_ASSERT(sizeof(bool) == 1 && sizeof(size_t) == 8);

#endif
