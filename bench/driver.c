// Times the library, the plain C and pMARS on the same battles, in one process: CPU time, short turns, one rival after the
// other in each turn, the least of all turns.
//   driver TURNS                the least of so many turns, in ns, for measure.py
//   driver agree SEED COUNT     random records on small cores: the library and the plain C leave the same
//   driver count WHO BATTLE N [READ WRITE]
//                               N steps of one battle by WHO (run, short, which makes runs of 100 steps, plain, pmars, step,
//                               plain-step), with these limits or both M, for instruction counts; by idle, N calls of run that play nothing; by fresh, one-call,
//                               known-lines and read-lines N matches loaded, a fresh machine for each, whatever the battle
//   driver oracle BATTLE N      a battle of N steps as a line for tools/oracle
#include "matches.h"
#include "pmars.h"
#include <stdio.h>
#include <stdlib.h>
#include <string.h>
#include <time.h>

// the steps of a turn, in runs and as single steps, those of a short run, how many lengths of runs there are, and the matches loaded in a turn
enum { TURN = 100000, FEW = 5000, SHORT = 100, LENGTHS = 3, MATCHES = 100, LEAGUES = 3 };

// the limits of a league: how far a process reads and writes
typedef struct {
    uint32_t read, write;
} limits;

static const limits LEAGUE[LEAGUES] = {{M, M}, {2000, 2000}, {4000, 2000}};

static const double NEVER = 1e9;

static record ours, plain;
static start begun;

static double now(void) {
    struct timespec t;
    clock_gettime(CLOCK_PROCESS_CPUTIME_ID, &t);
    return t.tv_sec * 1e9 + t.tv_nsec;
}

static void shorten(double *least, double t) {
    if (t < *least)
        *least = t;
}

static void demand(bool held, const char *what, const char *where) {
    if (held)
        return;
    fprintf(stderr, "%s: %s\n", where, what);
    exit(1);
}

// a turn's runs, each of so many steps more; ns per step
static double run_turn(running *run, record *r, long steps) {
    double t = now();
    for (long left = TURN; left > 0; left -= steps)
        play_run(run, r, steps);
    return (now() - t) / TURN;
}

static double step_turn(stepping *step, record *r) {
    double t = now();
    play_steps(step, r, FEW);
    return (now() - t) / FEW;
}

// a turn's runs, each from the beginning: pMARS sets up, plays one step of each warrior and, in a full run, so many more;
// the time as ns for each of the turn's steps
static double pmars_turn(const battle *b, long steps, bool full) {
    bool all = true;
    double t = now();
    for (long left = TURN; left > 0; left -= steps)
        all &= pmars_play(b->names + (full ? steps : 0));
    t = now() - t;
    demand(all, "pMARS did not play all steps", b->name);
    return t / TURN;
}

// a battle of one name goes the same way in pMARS: each step is at the same place
static void same_way(const battle *b) {
    if (b->names > 1)
        return;
    start_of(&begun, b);
    library_record(&ours, &begun);
    pmars_set(b);
    for (long steps = 1; steps <= FEW; steps++) {
        long next = ours.queue[ours.header.ring.head] & 0xffff;
        demand(pmars_play(steps) && pmars_place() == next, "pMARS goes another way", b->name);
        play_run(sumacadze_run, &ours, 1);
    }
}

// a row of the table of runs: the least of each rival, in ns per step; pMARS' with its setting up, and that alone
typedef struct {
    const battle *b;
    long steps;
    double run, c, full, setting_up;
} run_row;

static void run_row_turn(run_row *row) {
    start_of(&begun, row->b);
    library_record(&ours, &begun);
    plain_record(&plain, &begun);
    pmars_set(row->b);
    shorten(&row->run, run_turn(sumacadze_run, &ours, row->steps));
    shorten(&row->full, pmars_turn(row->b, row->steps, true));
    shorten(&row->setting_up, pmars_turn(row->b, row->steps, false));
    shorten(&row->c, run_turn(plain_run, &plain, row->steps));
    demand(ours.header.steps == TURN && same_records(&ours, &plain), "the two differ, or it ended", row->b->name);
}

static void print_run_row(const run_row *row) {
    printf("run %s %ld %.3f %.3f %.3f %.3f\n", row->b->name, row->steps, row->run, row->c, row->full, row->setting_up);
}

// a row of the table of limits, in one run of a turn's steps: the least of both rivals, in ns per step
typedef struct {
    const battle *b;
    const limits *l;
    double run, c;
} limits_row;

static void start_with(const battle *b, const limits *l) {
    start_of(&begun, b);
    begun.read = l->read, begun.write = l->write;
}

static void limits_row_turn(limits_row *row) {
    start_with(row->b, row->l);
    library_record(&ours, &begun);
    plain_record(&plain, &begun);
    shorten(&row->run, run_turn(sumacadze_run, &ours, TURN));
    shorten(&row->c, run_turn(plain_run, &plain, TURN));
    demand(ours.header.steps == TURN && same_records(&ours, &plain), "the two differ, or it ended", row->b->name);
}

static void print_limits_row(const limits_row *row) {
    printf("limits %s %u/%u %.3f %.3f\n", row->b->name, row->l->read, row->l->write, row->run, row->c);
}

// a row of the table of steps
typedef struct {
    const battle *b;
    double step, c;
} step_row;

static void step_row_turn(step_row *row) {
    start_of(&begun, row->b);
    library_record(&ours, &begun);
    plain_record(&plain, &begun);
    shorten(&row->step, step_turn(sumacadze_step, &ours));
    shorten(&row->c, step_turn(plain_step, &plain));
    demand(ours.header.steps == FEW && same_records(&ours, &plain), "the two differ, or it ended", row->b->name);
}

static void print_step_row(const step_row *row) {
    printf("step %s %d %.3f %.3f\n", row->b->name, row->b->names, row->step, row->c);
}

// a body of M instructions placed, each with a default modifier; ns for each
static double place_turn(void) {
    start_of(&begun, &BATTLES[0]);
    for (uint32_t i = 0; i < M; i++)
        put(&begun, i, (line){0, 1, 255, 1, 1, -7, 9});
    library_record(&ours, &begun);
    sumacadze_header_t *h = &ours.header;
    double t = now();
    sumacadze_report_t r = sumacadze_place(ours.core, M, ours.queue, SLOTS, h, (const uint8_t *)"a", 1, begun.body, 12 * M, 0);
    t = now() - t;
    demand(r.number == 0, "the body was refused", BATTLES[0].name);
    return t / M;
}

// a turn's matches, each loaded one way into a fresh machine; ns for a match
static double match_turn(const way *w, record *r) {
    bool all = true;
    double t = now();
    for (int i = 0; i < MATCHES; i++)
        all &= load_match_by(w, r);
    t = now() - t;
    demand(all, "a warrior was refused", w->name);
    return t / MATCHES;
}

// every way has its part; those that load leave what the last of them leaves
static void match_turns(double least[WAYS]) {
    load_match_by(&LOADING[WAYS - 1], &plain);
    for (int i = 0; i < WAYS; i++) {
        shorten(&least[i], match_turn(&LOADING[i], &ours));
        demand(i == 0 || (ours.header.names.held == WARRIORS && same_records(&ours, &plain)), "it left another record", LOADING[i].name);
    }
}

// all rows, and the time of placing an instruction and of each way of loading a match
static run_row run_rows[FOUR][LENGTHS];
static limits_row limits_rows[FOUR][LEAGUES];
static step_row step_rows[ALL];
static double place_time, match_times[WAYS];

static void set_rows(void) {
    const long lengths[LENGTHS] = {100, 10000, 100000};
    for (int i = 0; i < FOUR; i++)
        for (int k = 0; k < LENGTHS; k++)
            run_rows[i][k] = (run_row){&BATTLES[i], lengths[k], NEVER, NEVER, NEVER, NEVER};
    for (int i = 0; i < FOUR; i++)
        for (int k = 0; k < LEAGUES; k++)
            limits_rows[i][k] = (limits_row){&BATTLES[i], &LEAGUE[k], NEVER, NEVER};
    for (int i = 0; i < ALL; i++)
        step_rows[i] = (step_row){&BATTLES[i], NEVER, NEVER};
    place_time = NEVER;
    for (int i = 0; i < WAYS; i++)
        match_times[i] = NEVER;
}

// every row has a part of each turn, so that a time in which the machine is slower falls on all of them
static void measure_turn(void) {
    for (int i = 0; i < FOUR; i++)
        for (int k = 0; k < LENGTHS; k++)
            run_row_turn(&run_rows[i][k]);
    for (int i = 0; i < FOUR; i++)
        for (int k = 0; k < LEAGUES; k++)
            limits_row_turn(&limits_rows[i][k]);
    for (int i = 0; i < ALL; i++)
        step_row_turn(&step_rows[i]);
    shorten(&place_time, place_turn());
    match_turns(match_times);
}

static void print_rows(void) {
    for (int i = 0; i < FOUR; i++)
        for (int k = 0; k < LENGTHS; k++)
            print_run_row(&run_rows[i][k]);
    for (int i = 0; i < FOUR; i++)
        for (int k = 0; k < LEAGUES; k++)
            print_limits_row(&limits_rows[i][k]);
    for (int i = 0; i < ALL; i++)
        print_step_row(&step_rows[i]);
    printf("place instruction %d %.3f\n", M, place_time);
    for (int i = 0; i < WAYS; i++)
        printf("match %s %d %.3f\n", LOADING[i].name, WARRIORS, match_times[i]);
}

static void rows(int turns) {
    for (int i = 0; i < FOUR; i++)
        same_way(&BATTLES[i]);
    make_match();
    set_rows();
    for (int turn = 0; turn < turns; turn++)
        measure_turn();
    print_rows();
}

static void count_matches(const char *who, long matches) {
    make_match();
    for (int i = 0; i < WAYS; i++)
        for (long left = strcmp(who, LOADING[i].name) ? 0 : matches; left > 0; left--)
            load_match_by(&LOADING[i], &ours);
}

static void count(const char *who, const battle *b, long steps, const limits *l) {
    start_with(b, l);
    library_record(&ours, &begun);
    if (!strcmp(who, "run"))
        play_run(sumacadze_run, &ours, steps);
    else if (!strcmp(who, "short"))
        for (long left = steps; left > 0; left -= SHORT)
            play_run(sumacadze_run, &ours, SHORT);
    else if (!strcmp(who, "plain"))
        play_run(plain_run, &ours, steps);
    else if (!strcmp(who, "step"))
        play_steps(sumacadze_step, &ours, steps);
    else if (!strcmp(who, "plain-step"))
        play_steps(plain_step, &ours, steps);
    else if (!strcmp(who, "pmars"))
        pmars_set(b), pmars_play(steps);
    else if (!strcmp(who, "idle"))
        for (long i = 0; i < steps; i++)
            play_run(sumacadze_run, &ours, 0);
    else
        count_matches(who, steps);
}

int main(int n, char **word) {
    if (n == 4 && !strcmp(word[1], "agree"))
        return agree(atoi(word[2]), atoi(word[3]));
    if ((n == 5 || n == 7) && !strcmp(word[1], "count")) {
        limits l = {n == 7 ? atoi(word[5]) : M, n == 7 ? atoi(word[6]) : M};
        return count(word[2], &BATTLES[atoi(word[3])], atol(word[4]), &l), 0;
    }
    if (n == 4 && !strcmp(word[1], "oracle"))
        return oracle(&BATTLES[atoi(word[2])], word[3]), 0;
    if (n == 2)
        return rows(atoi(word[1])), 0;
    return 2;
}
