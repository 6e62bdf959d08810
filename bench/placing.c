// Times the placing of bodies of 8,000 instructions in a fresh machine of 8,000 cells, over one archive of the library, for placing.py.
//   placing TURNS               for each kind of body: its name and the least of so many turns, in ns for an instruction
//   placing count CALL KIND N   N calls with a body of one kind, by its number, for instruction counts. CALL is body, which places it;
//                               empty, which places an empty one; start; or nothing, the loop alone
// Built with -DONE_CALL it is over an archive whose one call, sumacadze_load, places a body and starts it; then there is no start.
#include "sumacadze.h"
#include <stdio.h>
#include <stdlib.h>
#include <string.h>
#include <time.h>

enum { M = 8000, SLOTS = 2000, PROCESSES = 125, ONE = 12, KINDS = 4 };

// One of MOV alone, as in driver.c; the others of all opcodes and modes: in turn, at random, and at random with a modifier named.
static const char *const KIND[KINDS] = {"mov", "in-turn", "random", "named"};

static const uint8_t NAME[] = {'a'};
static uint64_t core[M], queue[SLOTS];
static uint8_t body[ONE * M];

static uint32_t drawn(void) {
    static uint64_t state = 7;
    state = state * 6364136223846793005u + 1442695040888963407u;
    return state >> 33;
}

// LDP and STP, which have no default without `#`, get one in the A mode
static void make_body(int kind) {
    for (int i = 0; i < M; i++) {
        uint8_t *at = body + ONE * i;
        int32_t numbers[2] = {i - 50, 50 - i};
        at[0] = kind == 0 ? 1 : kind == 1 ? i % 19 : drawn() % 19;
        at[1] = kind == 3 ? drawn() % 7 : 255;
        at[2] = kind == 0 ? 1 : kind == 1 ? i / 19 % 8 : drawn() % 8;
        at[3] = kind == 0 ? 1 : kind == 1 ? i / 152 % 8 : drawn() % 8;
        if (at[0] > 16)
            at[2] = 0;
        memcpy(at + 4, numbers, sizeof numbers);
    }
}

#ifdef ONE_CALL
sumacadze_report_t sumacadze_load(uint64_t *, size_t, uint64_t *, size_t, sumacadze_header_t *, const uint8_t *, size_t,
                                  const uint8_t *, size_t, uint16_t, uint32_t);

static sumacadze_report_t place(sumacadze_header_t *h, size_t length) {
    return sumacadze_load(core, M, queue, SLOTS, h, NAME, sizeof NAME, body, length, 0, 0);
}
#else
static sumacadze_report_t place(sumacadze_header_t *h, size_t length) {
    return sumacadze_place(core, M, queue, SLOTS, h, NAME, sizeof NAME, body, length, 0);
}

static sumacadze_report_t start(sumacadze_header_t *h) { return sumacadze_start(core, M, queue, SLOTS, h, NAME, sizeof NAME, 0); }
#endif

static sumacadze_report_t place_body(sumacadze_header_t *h) { return place(h, sizeof body); }
static sumacadze_report_t place_empty(sumacadze_header_t *h) { return place(h, 0); }
static sumacadze_report_t nothing(sumacadze_header_t *h) { return (sumacadze_report_t){0, 0, h->steps, 0}; }

static const struct {
    const char *name;
    sumacadze_report_t (*make)(sumacadze_header_t *);
} CALLS[] = {
    {"body", place_body},
    {"empty", place_empty},
#ifndef ONE_CALL
    {"start", start},
#endif
    {"nothing", nothing},
};

static void demand(bool held, const char *what) {
    if (!held) {
        fprintf(stderr, "%s\n", what);
        exit(1);
    }
}

// each call has the fresh machine's header
static void count(const sumacadze_header_t *fresh, const char *name, long calls) {
    size_t i = 0;
    while (i < sizeof CALLS / sizeof *CALLS && strcmp(CALLS[i].name, name))
        i++;
    demand(i < sizeof CALLS / sizeof *CALLS, "there is no such call");
    for (; calls > 0; calls--) {
        sumacadze_header_t h = *fresh;
        demand(CALLS[i].make(&h).number == 0, "a call was refused");
    }
}

static double now(void) {
    struct timespec t;
    clock_gettime(CLOCK_PROCESS_CPUTIME_ID, &t);
    return t.tv_sec * 1e9 + t.tv_nsec;
}

static double least_of(const sumacadze_header_t *fresh, int turns) {
    double least = 1e9;
    for (; turns > 0; turns--) {
        sumacadze_header_t h = *fresh;
        double t = now();
        sumacadze_report_t r = place_body(&h);
        t = (now() - t) / M;
        demand(r.number == 0, "the body was refused");
        least = t < least ? t : least;
    }
    return least;
}

int main(int n, char **word) {
    sumacadze_rules_t rules = sumacadze_rules_of_size(M, PROCESSES);
    sumacadze_header_t fresh = sumacadze_fresh(rules, core, M, queue, SLOTS).header;
    if (n == 5) {
        make_body(atoi(word[3]));
        count(&fresh, word[2], atol(word[4]));
        return 0;
    }
    for (int kind = 0; kind < KINDS; kind++) {
        make_body(kind);
        printf("%s %.3f\n", KIND[kind], least_of(&fresh, atoi(word[1])));
    }
    return 0;
}
