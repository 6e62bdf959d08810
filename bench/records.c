// A record in C's memory: made by the library and by the plain C, and compared.
#include "records.h"
#include <stdio.h>
#include <stdlib.h>
#include <string.h>

// the numbers that a call may give, 0 among them
enum { ANSWERS = 15 };

static record ours, plain;
static start begun;

static sumacadze_rules_t rules_of(const start *s) { return (sumacadze_rules_t){s->size, s->read, s->write, s->processes}; }

void library_record(record *r, const start *s) {
    char name[NAME];
    r->size = s->size, r->slots = s->slots;
    r->header = sumacadze_fresh(rules_of(s), r->core, s->size, r->queue, s->slots).header;
    for (uint32_t k = 0; k < s->names; k++) {
        name_of(k, name);
        const uint8_t *bytes = (const uint8_t *)name;
        size_t length = strlen(name), body = k ? 0 : 12 * s->length;
        sumacadze_place(r->core, s->size, r->queue, s->slots, &r->header, bytes, length, s->body, body, 0);
        sumacadze_start(r->core, s->size, r->queue, s->slots, &r->header, bytes, length, k * s->apart % s->size);
    }
}

static uint64_t packed(const uint8_t *p, uint32_t size) {
    int32_t n[2];
    memcpy(n, p + 4, 8);
    uint64_t a = ((int64_t)n[0] % size + size) % size, b = ((int64_t)n[1] % size + size) % size;
    return (uint64_t)p[0] << 41 | (uint64_t)p[1] << 38 | (uint64_t)p[2] << 35 | (uint64_t)p[3] << 32 | a << 16 | b;
}

void plain_record(record *r, const start *s) {
    char name[NAME];
    r->size = s->size, r->slots = s->slots;
    r->header = plain_fresh(rules_of(s), r->core, r->queue, s->slots);
    for (uint32_t i = 0; i < s->length; i++)
        r->core[i] = packed(s->body + 12 * i, s->size);
    for (uint32_t k = 0; k < s->names; k++) {
        name_of(k, name);
        plain_start(r->queue, s->slots, &r->header, name, k * s->apart % s->size);
    }
}

sumacadze_report_t play_run(running *run, record *r, uint64_t steps) {
    return run(r->core, r->size, r->queue, r->slots, &r->header, true, r->header.steps + steps);
}

sumacadze_report_t play_steps(stepping *step, record *r, uint64_t steps) {
    sumacadze_report_t all = {0, 0, 0, 0};
    for (uint64_t i = 0; i < steps && !all.number; i++) {
        sumacadze_report_t one = step(r->core, r->size, r->queue, r->slots, &r->header);
        all.number = one.number, all.value = one.value;
        all.writes += one.writes, all.steps += one.steps;
    }
    return all;
}

bool same_records(const record *x, const record *y) {
    return !memcmp(x->core, y->core, 8 * x->size) && !memcmp(x->queue, y->queue, 8 * x->slots) &&
           !memcmp(&x->header, &y->header, sizeof x->header);
}

static bool same_reports(sumacadze_report_t x, sumacadze_report_t y) {
    return x.number == y.number && x.value == y.value && x.writes == y.writes && x.steps == y.steps;
}

static void copy(record *to, const record *from) {
    to->size = from->size, to->slots = from->slots, to->header = from->header;
    memcpy(to->core, from->core, 8 * from->size);
    memcpy(to->queue, from->queue, 8 * from->slots);
}

// M, or in half of the cases any of its divisors
static uint32_t random_limit(uint32_t size) {
    uint32_t limit = rand() % 2 ? size : 1 + rand() % size;
    while (size % limit)
        limit--;
    return limit;
}

// a small core with limits and a random body, and one to three names, or now and then all
static void random_start(start *s) {
    s->size = 1 + rand() % 20, s->processes = 1 + rand() % 4, s->length = 1 + rand() % s->size;
    s->read = random_limit(s->size), s->write = random_limit(s->size);
    s->slots = SUMACADZE_NAMES * (s->processes + rand() % 2) + rand() % SUMACADZE_NAMES;
    s->names = rand() % 8 ? 1 + rand() % 3 : SUMACADZE_NAMES, s->apart = rand() % s->size;
    for (uint32_t k = 0; k < s->length; k++) {
        line l = {0, rand() % (rand() % 8 ? 17 : 19), rand() % 7, rand() % 8, rand() % 8, rand() % 60 - 30, rand() % 60 - 30};
        put(s, k, l);
    }
}

static uint64_t bit(void) { return (uint64_t)1 << rand() % 64; }

// any that the queue memory has room for, one too large for it, 0, or one of two near the largest that there is
static uint32_t random_processes(uint32_t slots) {
    if (rand() % 8)
        return rand() % (slots / SUMACADZE_NAMES + 2);
    return 4095 + rand() % 2;
}

// as if the first name held so many entries more
static void add(sumacadze_header_t *h, uint32_t entries) { h->counts[0] += entries, h->ring.length += entries; }

// one bit of a cell or of one of the first entries, a count, a counter near its end, a limit, P, a count and the length with it,
// or a byte of the header
static void damage(record *r) {
    sumacadze_header_t *h = &r->header;
    switch (rand() % 12) {
    case 0:
    case 1: r->core[rand() % r->size] ^= bit(); break;
    case 2:
    case 3: r->queue[rand() % 4] ^= bit(); break;
    case 4: h->counts[0]--, h->counts[1]++; break;
    case 5: h->steps = UINT32_MAX - rand() % 30; break;
    case 6: h->threads[rand() % 2] = UINT32_MAX - rand() % 4; break;
    case 7: *(rand() % 2 ? &h->rules.read : &h->rules.write) = rand() % (2 * r->size + 1); break;
    case 8:
    case 9: h->rules.processes = random_processes(r->slots); break;
    case 10: add(h, 1 + rand() % 4); break;
    default: ((uint8_t *)h)[rand() % sizeof *h] ^= 1 << rand() % 8; break;
    }
}

// a record and its copy, half of them damaged
static void random_records(void) {
    random_start(&begun);
    library_record(&ours, &begun);
    plain_record(&plain, &begun);
    if (rand() % 2 && same_records(&ours, &plain)) {
        damage(&ours);
        copy(&plain, &ours);
    }
}

int agree(int seed, int count) {
    static uint64_t answers[ANSWERS], steps;
    srand(seed);
    for (int i = 0; i < count; i++) {
        random_records();
        bool loaded = same_records(&ours, &plain);
        uint64_t some = rand() % 60;
        sumacadze_report_t x = i % 2 ? play_run(sumacadze_run, &ours, some) : play_steps(sumacadze_step, &ours, some);
        sumacadze_report_t y = i % 2 ? play_run(plain_run, &plain, some) : play_steps(plain_step, &plain, some);
        if (!loaded || !same_reports(x, y) || !same_records(&ours, &plain)) {
            printf("record %d differs: size %u\n", i, begun.size);
            return 1;
        }
        answers[x.number]++, steps += x.steps;
    }
    printf("%d random records, %llu steps: the same. Answers:", count, (unsigned long long)steps);
    for (int k = 0; k < ANSWERS; k++)
        if (answers[k])
            printf(" %d: %llu", k, (unsigned long long)answers[k]);
    printf("\n");
    return 0;
}
