// A match of sixteen warriors, and the ways of loading it into a fresh machine.
#include "matches.h"
#include <string.h>

// the parts of a match file, in bytes
enum { HEAD = 4, LINE = 43, NAME_AT = 1, NUMBERS_AT = 33, BODIES = HEAD + LINE * WARRIORS, ONE_BODY = 12 * BODY };

static uint8_t file[BODIES + WARRIORS * ONE_BODY];
static sumacadze_line_t known[WARRIORS];

// all opcodes, modes and modifiers in turn, every second modifier a default; LDP and STP are left out
static line instruction(int i) { return (line){0, i % 17, i % 2 ? 255 : i % 7, i % 8, i / 8 % 8, i - 50, 50 - i}; }

static void put_line(int k) {
    static start made;
    char name[NAME];
    uint8_t *at = file + HEAD + LINE * k;
    uint32_t begin = BODIES + ONE_BODY * k;
    uint16_t numbers[3] = {BODY, 0, M / WARRIORS * k};
    name_of(k, name);
    at[0] = strlen(name);
    memcpy(at + NAME_AT, name, strlen(name));
    memcpy(at + NUMBERS_AT, &begin, sizeof begin);
    memcpy(at + NUMBERS_AT + sizeof begin, numbers, sizeof numbers);
    for (int i = 0; i < BODY; i++)
        put(&made, i, instruction(i + k));
    memcpy(file + begin, made.body, ONE_BODY);
}

void make_match(void) {
    uint16_t size = M;
    file[0] = WARRIORS;
    memcpy(file + 1, &size, sizeof size);
    for (int k = 0; k < WARRIORS; k++)
        put_line(k);
    for (int k = 0; k < WARRIORS; k++)
        known[k] = sumacadze_read_line(file, sizeof file, k);
}

static bool nothing(record *r) { return r->header.rules.size == M; }

static bool one_call(record *r) {
    sumacadze_loads_t loads = sumacadze_load_match(r->core, M, r->queue, SLOTS, r->header, file, sizeof file);
    r->header = loads.header;
    return loads.report.number == SUMACADZE_DONE;
}

static bool place_and_start(record *r, const sumacadze_line_t *l) {
    const uint8_t *name = file + l->name_start, *body = file + l->body_start;
    uint32_t origin = l->origin == SUMACADZE_NO_ORIGIN ? 0 : l->origin;
    sumacadze_header_t *h = &r->header;
    sumacadze_report_t placed =
        sumacadze_place(r->core, M, r->queue, SLOTS, h, name, l->name_length, body, l->body_length, l->place);
    sumacadze_report_t started =
        sumacadze_start(r->core, M, r->queue, SLOTS, h, name, l->name_length, (l->place + origin) % M);
    return placed.number == SUMACADZE_DONE && started.number == SUMACADZE_DONE;
}

static bool known_lines(record *r) {
    bool all = true;
    for (int k = 0; k < WARRIORS; k++)
        all &= place_and_start(r, &known[k]);
    return all;
}

static bool read_lines(record *r) {
    sumacadze_contents_t contents = sumacadze_read(file, sizeof file);
    bool all = contents.number == SUMACADZE_DONE;
    for (size_t k = 0; k < contents.warriors; k++) {
        sumacadze_line_t l = sumacadze_read_line(file, sizeof file, k);
        all &= place_and_start(r, &l);
    }
    return all;
}

const way LOADING[WAYS] = {{"fresh", nothing}, {"one-call", one_call}, {"known-lines", known_lines}, {"read-lines", read_lines}};

bool load_match_by(const way *w, record *r) {
    r->size = M, r->slots = SLOTS;
    r->header = sumacadze_fresh(sumacadze_rules_of_size(M, PROCESSES), r->core, M, r->queue, SLOTS).header;
    return w->load(r);
}
