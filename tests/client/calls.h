/* Calls of the library with lent buffers, each checked whole: what is told, what is written, and what must not change. */
#ifndef CALLS_H
#define CALLS_H

#include <stddef.h>
#include <stdint.h>

enum { BUFFERS = 4, TOLD = 3 };

/* The operations. */
enum which { READ, FIND, VERDICT, LINKS, LISTS, KEEP, OPERATIONS };

/* Cells of a lent table, or those with which the named part of a buffer begins; zeros follow them to its end. */
struct cells {
    const void *first;
    size_t count;
};

/* One call, and what must come of it. Numbers that an operation does not take are left 0. */
struct call {
    const char *what, *job;
    uint64_t number; /* the allowance of a verdict, the recordings of an answer */
    uint64_t chosen, start;
    struct cells triples;   /* the links or lists */
    int spare[BUFFERS];     /* how much longer each buffer is than its named part; -1 is one too short */
    unsigned refusal, line; /* 0 and 0 where nothing is refused */
    unsigned told[TOLD];    /* what the operation tells, in the order of its functions in the header */
    struct cells left[BUFFERS];
    int front; /* the named parts only begin so, and what follows is not compared */
};

/* How many checks went well, and how many did not, of which a line is printed. */
extern unsigned passed, failed;

void check(enum which operation, const struct call *call);

/* Runs the calls of an operation in a thread with just the stack that the header states, its own frames included. */
void in_thread(enum which operation, void (*calls)(enum which));

#endif
