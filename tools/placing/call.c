// Makes lists of place, start and step with the library and tells what each call left: call < CASES > RESULTS, for compare.py.
// A case is the lengths of core and queue and the number of calls, of 64 bits each; the header, the core and the queue; and the
// calls. A call is its kind (0 place, 1 start, 2 step), the place, and the lengths of name and body, of 64 bits each; the name;
// and the body. A result, one for each call, is the number, value, writes and steps, of 64 bits each; and the header, the core
// and the queue left.
#include "record.h"

enum { PLACE, START, STEP };

// A call as it is lent: name and body in memory of exactly their lengths.
typedef struct {
    uint64_t kind, place, name_length, body_length;
    uint8_t *name, *body;
} request;

static void take_request(request *q) {
    uint64_t numbers[4];
    take(numbers, sizeof numbers);
    *q = (request){numbers[0], numbers[1], numbers[2], numbers[3], room(numbers[2]), room(numbers[3])};
    take(q->name, q->name_length);
    take(q->body, q->body_length);
}

static sumacadze_report_t called(record *r, const request *q) {
    uint32_t at = (uint32_t)q->place;
    switch (q->kind) {
    case PLACE:
        return sumacadze_place(r->core, r->core_length, r->queue, r->queue_length, &r->header, q->name, q->name_length,
                               q->body, q->body_length, at);
    case START:
        return sumacadze_start(r->core, r->core_length, r->queue, r->queue_length, &r->header, q->name, q->name_length, at);
    case STEP: return sumacadze_step(r->core, r->core_length, r->queue, r->queue_length, &r->header);
    default: fputs("a case has no such call\n", stderr); exit(1);
    }
}

static void play_call(record *r) {
    request q;
    take_request(&q);
    sumacadze_report_t report = called(r, &q);
    give_number(report.number);
    give_number(report.value);
    give_number(report.writes);
    give_number(report.steps);
    give_record(r);
    free(q.name);
    free(q.body);
}

int main(void) {
    uint64_t numbers[3];
    while (fread(numbers, sizeof numbers, 1, stdin) == 1) {
        record r;
        take_record(&r, numbers[0], numbers[1]);
        for (uint64_t left = numbers[2]; left > 0; left--)
            play_call(&r);
        drop(&r);
    }
    return 0;
}
