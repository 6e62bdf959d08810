// Makes calls of fresh, step and run with the library and tells what came of them: call < CASES > RESULTS, for compare.py.
// A case is the lengths of core and queue, the call (0 fresh, 1 step, 2 run), whether a ceiling is said and the ceiling, of
// 64 bits each; the header, of which fresh takes the rules; and the core and the queue.
// A result is the number, value, writes and steps, of 64 bits each; and the header, the core and the queue left.
#include "record.h"

enum { FRESH, STEP, RUN };

static sumacadze_report_t fresh(record *r) {
    sumacadze_fresh_t made =
        sumacadze_fresh(r->header.rules, r->core, r->core_length, r->queue, r->queue_length);
    r->header = made.header;
    return (sumacadze_report_t){made.number, 0, 0, 0};
}

static sumacadze_report_t called(record *r, uint64_t call, bool said, uint64_t ceiling) {
    switch (call) {
    case FRESH: return fresh(r);
    case STEP: return sumacadze_step(r->core, r->core_length, r->queue, r->queue_length, &r->header);
    case RUN: return sumacadze_run(r->core, r->core_length, r->queue, r->queue_length, &r->header, said, ceiling);
    default: fputs("a case has no such call\n", stderr); exit(1);
    }
}

static void play_case(const uint64_t numbers[5]) {
    record r;
    take_record(&r, numbers[0], numbers[1]);
    sumacadze_report_t report = called(&r, numbers[2], numbers[3], numbers[4]);
    give_number(report.number);
    give_number(report.value);
    give_number(report.writes);
    give_number(report.steps);
    give_record(&r);
    drop(&r);
}

int main(void) {
    uint64_t numbers[5];
    while (fread(numbers, sizeof numbers, 1, stdin) == 1)
        play_case(numbers);
    return 0;
}
