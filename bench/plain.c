// The same machine written plainly in C. Cells are unpacked into a struct, places are reduced by `%`, and what
// the machine has checked is checked: the front entry and every cell that is read.
#include "plain.h"
#include <string.h>

typedef struct {
    uint32_t opcode, modifier, a_mode, b_mode, number[2];
} cell;

// an operand: where its change is made and what stood there, its read and its write pointer, and the register
typedef struct {
    uint32_t location, read, write, writes;
    uint64_t old;
    cell reg;
} operand;

static const int PAIRS[7] = {1, 1, 1, 1, 2, 2, 2};
static const int A_FIELD[7][2] = {{0}, {1}, {0}, {1}, {0, 1}, {1, 0}, {0, 1}};
static const int B_FIELD[7][2] = {{0}, {1}, {1}, {0}, {0, 1}, {0, 1}, {0, 1}};

static cell unpack(uint64_t w) {
    cell c = {(w >> 41) & 31, (w >> 38) & 7, (w >> 35) & 7, (w >> 32) & 7, {(w >> 16) & 0xffff, w & 0xffff}};
    return c;
}

static uint64_t pack(cell c) {
    return (uint64_t)c.opcode << 41 | (uint64_t)c.modifier << 38 | (uint64_t)c.a_mode << 35 | (uint64_t)c.b_mode << 32 |
           (uint64_t)c.number[0] << 16 | c.number[1];
}

static int sound(uint64_t w, uint32_t size) {
    cell c = unpack(w);
    return w >> 46 == 0 && c.opcode <= 18 && c.modifier <= 6 && c.number[0] < size && c.number[1] < size;
}

static int same(cell x, cell y) {
    return x.opcode == y.opcode && x.modifier == y.modifier && x.a_mode == y.a_mode && x.b_mode == y.b_mode &&
           x.number[0] == y.number[0] && x.number[1] == y.number[1];
}

static uint32_t fold(uint32_t pointer, uint32_t limit, uint32_t size) {
    uint32_t rest = pointer % limit;
    return rest > limit / 2 ? rest + size - limit : rest;
}

// 0 where a cell that it reads is unsound; then nothing is changed
static int evaluate(uint64_t *core, const sumacadze_rules_t *rules, uint32_t pc, uint32_t mode, uint32_t number, operand *o) {
    uint32_t size = rules->size, field = mode % 2;
    uint32_t read = fold(number, rules->read, size), write = fold(number, rules->write, size), from = (pc + read) % size;
    o->location = (pc + write) % size;
    o->old = core[o->location];
    o->writes = mode >= 4;
    if (!sound(core[from], size) || !sound(o->old, size))
        return 0;
    if (mode < 2) {
        o->read = mode == 0 ? pc : from;
        o->write = mode == 0 ? pc : o->location;
        o->reg = unpack(core[o->read]);
        return 1;
    }
    cell at = unpack(o->old);
    if (mode == 4 || mode == 5) {
        at.number[field] = (at.number[field] + size - 1) % size;
        core[o->location] = pack(at);
    }
    o->read = (pc + fold(read + unpack(core[from]).number[field], rules->read, size)) % size;
    o->write = (pc + fold(write + at.number[field], rules->write, size)) % size;
    if (!sound(core[o->read], size) || !sound(core[o->write], size)) {
        core[o->location] = o->old;
        return 0;
    }
    o->reg = unpack(core[o->read]);
    if (mode == 6 || mode == 7) {
        at.number[field] = (at.number[field] + 1) % size;
        core[o->location] = pack(at);
    }
    return 1;
}

static void push(uint64_t *queue, uint32_t slots, sumacadze_header_t *h, uint32_t place, uint32_t thread, uint32_t name) {
    queue[(h->ring.head + h->ring.length) % slots] = (uint64_t)name << 48 | (uint64_t)thread << 16 | place;
    h->ring.length++;
    h->counts[name]++;
}

static uint32_t value(uint32_t opcode, uint32_t size, uint32_t a, uint32_t b) {
    switch (opcode) {
    case 1: return a;
    case 2: return (a + b) % size;
    case 3: return (b + size - a) % size;
    case 4: return a * b % size;
    case 5: return a / b;
    default: return a % b;
    }
}

// one step: 01's order of refusals, then the instruction
static sumacadze_report_t step(uint64_t *core, uint64_t *queue, uint32_t slots, sumacadze_header_t *h) {
    sumacadze_report_t r = {0, 0, 0, 0};
    uint32_t size = h->rules.size;
    if (h->ring.length == 0)
        return r.number = 7, r;
    uint64_t e = queue[h->ring.head];
    uint32_t pc = e & 0xffff, thread = (uint32_t)(e >> 16), name = (e >> 48) & 15;
    if (e >> 52 || pc >= size || name >= h->names.held || h->counts[name] == 0)
        return r.number = 9, r;
    if (h->steps == 0xffffffffu || h->threads[name] == 0xffffffffu)
        return r.number = 8, r;
    if (!sound(core[pc], size))
        return r.number = 9, r;
    cell i = unpack(core[pc]);
    if (i.opcode > 16)
        return r.number = 10, r;
    operand a, b;
    if (!evaluate(core, &h->rules, pc, i.a_mode, i.number[0], &a))
        return r.number = 9, r;
    if (!evaluate(core, &h->rules, pc, i.b_mode, unpack(core[pc]).number[1], &b)) {
        core[a.location] = a.old;
        return r.number = 9, r;
    }
    h->ring.head = (h->ring.head + 1) % slots;
    h->ring.length--;
    h->counts[name]--;
    h->steps++;
    r.steps = 1;
    r.writes = a.writes + b.writes;
    cell live = unpack(core[b.read]), target = unpack(core[b.write]);
    uint32_t next = (pc + 1) % size;
    int pairs = PAIRS[i.modifier], some_zero = 0, some_other = 0, some_left = 0, equal = 1, below = 1, stored = 0;
    for (int k = 0; k < pairs; k++) {
        uint32_t an = a.reg.number[A_FIELD[i.modifier][k]], bn = b.reg.number[B_FIELD[i.modifier][k]];
        uint32_t *to = &target.number[B_FIELD[i.modifier][k]];
        if (bn == 0) some_zero = 1; else some_other = 1;
        if (an != bn) equal = 0;
        if (an >= bn) below = 0;
        if (i.opcode >= 1 && i.opcode <= 6 && !(i.opcode >= 5 && bn == 0)) {
            *to = value(i.opcode, size, an, bn);
            stored = 1;
        }
        if (i.opcode == 10) {
            *to = (bn + size - 1) % size;
            stored = 1;
            if (*to != 0) some_left = 1;
        }
    }
    if (i.opcode == 1 && i.modifier == 6) {
        target.opcode = a.reg.opcode;
        target.modifier = a.reg.modifier;
    }
    if (stored) {
        core[b.write] = pack(target);
        r.writes++;
    }
    switch (i.opcode) {
    case 0:
        if (h->counts[name] == 0)
            r.number = 11, r.value = pc;
        return r;
    case 5:
    case 6:
        if (some_zero) {
            if (h->counts[name] == 0)
                r.number = 12;
            return r;
        }
        break;
    case 7: next = a.read; break;
    case 8: if (some_zero) next = a.read; break;
    case 9: if (some_other) next = a.read; break;
    case 10: if (some_left) next = a.read; break;
    case 11:
    case 12:
    case 13:
        if (i.modifier == 6 && !same(a.reg, live)) equal = 0;
        if (equal == (i.opcode != 13)) next = (pc + 2) % size;
        break;
    case 14: if (below) next = (pc + 2) % size; break;
    }
    push(queue, slots, h, next, thread, name);
    if (i.opcode == 15 && h->counts[name] < h->rules.processes)
        push(queue, slots, h, a.read, h->threads[name]++, name);
    return r;
}

// the names are valid, not empty and unlike the others, and their counts are at most P and sum to the length
static int sound_names(const sumacadze_header_t *h) {
    uint64_t sum = 0;
    for (uint32_t i = 0; i < h->names.held; i++) {
        const uint8_t *name = h->names.bytes + 32 * i;
        if (h->names.lengths[i] < 1 || h->names.lengths[i] > 32)
            return 0;
        for (uint32_t k = 0; k < h->names.lengths[i]; k++)
            if (name[k] < 33 || name[k] > 126)
                return 0;
        for (uint32_t k = 0; k < i; k++)
            if (h->names.lengths[k] == h->names.lengths[i] && !memcmp(h->names.bytes + 32 * k, name, h->names.lengths[i]))
                return 0;
        if (h->counts[i] > h->rules.processes)
            return 0;
        sum += h->counts[i];
    }
    return sum == h->ring.length;
}

static int divides(uint32_t limit, uint32_t size) { return limit && size % limit == 0; }

// what fresh takes
static int sound_rules(size_t m, size_t slots, const sumacadze_rules_t *r) {
    return r->size >= 1 && r->size <= 46341 && r->size == m && slots >= 1 && slots <= 65535 && r->processes >= 1 &&
           r->processes <= 4095 && slots >= 16 * r->processes && divides(r->read, r->size) && divides(r->write, r->size);
}

static int sound_header(size_t m, size_t slots, const sumacadze_header_t *h) {
    return sound_rules(m, slots, &h->rules) && h->ring.length <= slots && h->ring.head < slots && h->names.held <= 16 &&
           sound_names(h);
}

sumacadze_report_t plain_step(uint64_t *core, size_t m, uint64_t *queue, size_t slots, sumacadze_header_t *h) {
    if (!sound_header(m, slots, h))
        return (sumacadze_report_t){9, 0, 0, 0};
    return step(core, queue, slots, h);
}

sumacadze_report_t plain_run(uint64_t *core, size_t m, uint64_t *queue, size_t slots, sumacadze_header_t *h, bool said,
                             uint64_t ceiling) {
    if (!sound_header(m, slots, h))
        return (sumacadze_report_t){9, 0, 0, 0};
    sumacadze_report_t all = {0, 0, 0, 0};
    while (h->steps < (said ? ceiling : 10000) && !all.number) {
        sumacadze_report_t r = step(core, queue, slots, h);
        all.number = r.number;
        all.value = r.value;
        all.writes += r.writes;
        all.steps += r.steps;
    }
    return all;
}

sumacadze_header_t plain_fresh(sumacadze_rules_t rules, uint64_t *core, uint64_t *queue, uint32_t slots) {
    sumacadze_header_t h;
    memset(&h, 0, sizeof h);
    h.rules = rules;
    for (uint32_t i = 0; i < rules.size; i++)
        core[i] = (uint64_t)4 << 38 | (uint64_t)1 << 35 | (uint64_t)1 << 32;
    memset(queue, 0, slots * sizeof *queue);
    return h;
}

void plain_start(uint64_t *queue, uint32_t slots, sumacadze_header_t *h, const char *name, uint32_t place) {
    uint32_t k = h->names.held++;
    h->names.lengths[k] = (uint8_t)strlen(name);
    memcpy(h->names.bytes + 32 * k, name, h->names.lengths[k]);
    push(queue, slots, h, place, h->threads[k]++, k);
}
