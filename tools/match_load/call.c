// Loads matches with the library, each in one call, and tells what came of it: call < CASES > RESULTS, for compare.py.
// A case is the lengths of core, queue and file, of 64 bits each; the header; and the core, the queue and the file.
// A result is the number, value, warrior, writes and steps, of 64 bits each; the header, the core and the queue left; and
// one byte, 1 where the places and starts made one by one on a copy of the record gave and left the same, else 0.
#include "record.h"
#include <string.h>

static void copy(record *to, const record *from) {
    make(to, from->core_length, from->queue_length);
    memcpy(to->core, from->core, from->core_length * sizeof *from->core);
    memcpy(to->queue, from->queue, from->queue_length * sizeof *from->queue);
    to->header = from->header;
}

static bool same_records(const record *x, const record *y) {
    return !memcmp(x->core, y->core, x->core_length * sizeof *x->core) &&
           !memcmp(x->queue, y->queue, x->queue_length * sizeof *x->queue) &&
           !memcmp(&x->header, &y->header, sizeof x->header);
}

static bool same_loads(const sumacadze_loads_t *x, const sumacadze_loads_t *y) {
    return x->report.number == y->report.number && x->report.value == y->report.value &&
           x->report.writes == y->report.writes && x->report.steps == y->report.steps && x->warrior == y->warrior;
}

static sumacadze_loads_t in_one_call(record *r, const uint8_t *file, size_t length) {
    sumacadze_loads_t loads =
        sumacadze_load_match(r->core, r->core_length, r->queue, r->queue_length, r->header, file, length);
    r->header = loads.header;
    return loads;
}

// Places the warrior of a line and, where that is done, starts it; the writes are those of both.
static sumacadze_report_t place_and_start(record *r, const uint8_t *file, size_t length, size_t warrior) {
    sumacadze_line_t line = sumacadze_read_line(file, length, warrior);
    const uint8_t *name = file + line.name_start, *body = file + line.body_start;
    sumacadze_report_t placed = sumacadze_place(r->core, r->core_length, r->queue, r->queue_length, &r->header, name,
                                                line.name_length, body, line.body_length, line.place);
    if (placed.number)
        return placed;
    uint32_t origin = line.origin == SUMACADZE_NO_ORIGIN ? 0 : line.origin;
    sumacadze_report_t started = sumacadze_start(r->core, r->core_length, r->queue, r->queue_length, &r->header, name,
                                                 line.name_length, (line.place + origin) % r->header.rules.size);
    started.writes += placed.writes;
    return started;
}

// What stands before the warriors: 9 of a run that plays nothing, 13 of reading the file, 1 of an M unlike the machine's.
static sumacadze_report_t before_warriors(record *r, sumacadze_contents_t contents) {
    sumacadze_report_t tested =
        sumacadze_run(r->core, r->core_length, r->queue, r->queue_length, &r->header, true, 0);
    if (tested.number)
        return tested;
    if (contents.number)
        return (sumacadze_report_t){contents.number, contents.position, 0, 0};
    if (contents.size != r->header.rules.size)
        return (sumacadze_report_t){SUMACADZE_INVALID_CORE_SIZE, 0, 0, 0};
    return tested;
}

static sumacadze_loads_t one_by_one(record *r, const uint8_t *file, size_t length) {
    sumacadze_contents_t contents = sumacadze_read(file, length);
    sumacadze_loads_t loads = {.report = before_warriors(r, contents)};
    for (size_t i = 0; i < contents.warriors && !loads.report.number; i++) {
        uint64_t writes = loads.report.writes;
        loads.report = place_and_start(r, file, length, i);
        loads.report.writes += writes;
        if (loads.report.number)
            loads.warrior = i;
    }
    return loads;
}

static void tell(const sumacadze_loads_t *loads, const record *r, bool same) {
    give_number(loads->report.number);
    give_number(loads->report.value);
    give_number(loads->warrior);
    give_number(loads->report.writes);
    give_number(loads->report.steps);
    give_record(r);
    give(&same, sizeof same);
}

static void play_case(const uint64_t lengths[3]) {
    record r, single;
    uint8_t *file = room(lengths[2]);
    take_record(&r, lengths[0], lengths[1]);
    take(file, lengths[2]);
    copy(&single, &r);
    sumacadze_loads_t loads = in_one_call(&r, file, lengths[2]);
    sumacadze_loads_t singles = one_by_one(&single, file, lengths[2]);
    tell(&loads, &r, same_loads(&loads, &singles) && same_records(&r, &single));
    drop(&r);
    drop(&single);
    free(file);
}

int main(void) {
    uint64_t lengths[3];
    while (fread(lengths, sizeof lengths, 1, stdin) == 1)
        play_case(lengths);
    return 0;
}
