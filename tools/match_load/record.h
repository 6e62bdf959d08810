// A record in C's memory, taken from standard input and given to standard output: the header, the core and the queue.
#ifndef RECORD_H
#define RECORD_H

#include "sumacadze.h"
#include <stdio.h>
#include <stdlib.h>

// A machine: its memories, of exactly their lengths, and its header.
typedef struct {
    size_t core_length, queue_length;
    uint64_t *core, *queue;
    sumacadze_header_t header;
} record;

// Memory of so many bytes; of none, too, it is not null.
static inline void *room(size_t bytes) {
    void *memory = malloc(bytes ? bytes : 1);
    if (!memory) {
        fputs("no memory\n", stderr);
        exit(1);
    }
    return memory;
}

static inline void take(void *to, size_t bytes) {
    if (fread(to, 1, bytes, stdin) != bytes) {
        fputs("a case is cut short\n", stderr);
        exit(1);
    }
}

static inline void give(const void *from, size_t bytes) {
    if (fwrite(from, 1, bytes, stdout) != bytes) {
        perror("result");
        exit(1);
    }
}

static inline void give_number(uint64_t number) { give(&number, sizeof number); }

static inline void make(record *r, size_t core_length, size_t queue_length) {
    r->core_length = core_length, r->queue_length = queue_length;
    r->core = room(core_length * sizeof *r->core);
    r->queue = room(queue_length * sizeof *r->queue);
}

static inline void drop(record *r) {
    free(r->core);
    free(r->queue);
}

// A record of these lengths; its header comes first.
static inline void take_record(record *r, size_t core_length, size_t queue_length) {
    make(r, core_length, queue_length);
    take(&r->header, sizeof r->header);
    take(r->core, r->core_length * sizeof *r->core);
    take(r->queue, r->queue_length * sizeof *r->queue);
}

static inline void give_record(const record *r) {
    give(&r->header, sizeof r->header);
    give(r->core, r->core_length * sizeof *r->core);
    give(r->queue, r->queue_length * sizeof *r->queue);
}

#endif
