#include <pthread.h>
#include <stdio.h>
#include <stdlib.h>
#include <string.h>

#include "calls.h"
#include "cezhappu.h"

unsigned passed, failed;

/* A buffer that is lent exactly, so that valgrind sees a cell read or written beyond it. */
struct lent {
    void *cells;
    size_t length, cell;
};

static const unsigned char pattern = 0xa5;

static void *allocated(size_t bytes)
{
    void *at = malloc(bytes ? bytes : 1);
    if (!at)
        abort();
    return at;
}

static struct lent filled(size_t length, size_t cell)
{
    struct lent lent = {allocated(length * cell), length, cell};
    memset(lent.cells, pattern, length * cell);
    return lent;
}

static struct lent copied(const void *cells, size_t length, size_t cell)
{
    struct lent lent = {allocated(length * cell), length, cell};
    if (length)
        memcpy(lent.cells, cells, length * cell);
    return lent;
}

/* Whether all bytes from one place to another are the same. */
static int all(const struct lent *lent, size_t from, size_t to, unsigned char byte)
{
    const unsigned char *bytes = lent->cells;
    for (; from < to; from++)
        if (bytes[from] != byte)
            return 0;
    return 1;
}

/* Whether the buffer begins with these cells; then, unless only its front is known, has zeros up to the end of its named part; and holds
   the pattern from there on. */
static int holds(const struct lent *lent, const struct cells *cells, size_t named, int front)
{
    size_t count = cells->count * lent->cell, end = named * lent->cell;
    return (!count || memcmp(lent->cells, cells->first, count) == 0) && (front || all(lent, count, end, 0)) &&
           all(lent, end, lent->length * lent->cell, pattern);
}

/* Each operation: what it tells; for each buffer the size of a cell and its least length, of which a part goes by the call's number; and
   the stack. */
struct operation {
    const char *name;
    unsigned (*told[TOLD])(uint64_t);
    size_t cell[BUFFERS], least[BUFFERS], each[BUFFERS];
    uint64_t (*run)(const struct call *call, const struct lent *job, const struct lent *triples, const struct lent *lent);
    size_t stack;
};

static uint64_t run_read(const struct call *call, const struct lent *job, const struct lent *triples, const struct lent *lent)
{
    (void)call, (void)triples, (void)lent;
    return cezhappu_read(job->cells, job->length);
}

static uint64_t run_find(const struct call *call, const struct lent *job, const struct lent *triples, const struct lent *lent)
{
    (void)call, (void)triples;
    return cezhappu_find(job->cells, job->length, lent[0].cells, lent[0].length, lent[1].cells, lent[1].length, lent[2].cells,
                         lent[2].length);
}

static uint64_t run_verdict(const struct call *call, const struct lent *job, const struct lent *triples, const struct lent *lent)
{
    (void)triples;
    return cezhappu_verdict(job->cells, job->length, call->number, lent[0].cells, lent[0].length, lent[1].cells, lent[1].length,
                            lent[2].cells, lent[2].length, lent[3].cells, lent[3].length);
}

static uint64_t run_links(const struct call *call, const struct lent *job, const struct lent *triples, const struct lent *lent)
{
    return cezhappu_answer_from_links(job->cells, job->length, call->number, call->chosen, triples->cells, triples->length, call->start,
                                      lent[0].cells, lent[0].length, lent[1].cells, lent[1].length);
}

static uint64_t run_lists(const struct call *call, const struct lent *job, const struct lent *triples, const struct lent *lent)
{
    return cezhappu_answer_from_lists(job->cells, job->length, call->number, triples->cells, triples->length, call->start, lent[0].cells,
                                      lent[0].length, lent[1].cells, lent[1].length);
}

static uint64_t run_keep(const struct call *call, const struct lent *job, const struct lent *triples, const struct lent *lent)
{
    (void)call, (void)triples;
    return cezhappu_keep(job->cells, job->length, lent[0].cells, lent[0].length);
}

static const struct operation operations[OPERATIONS] = {
    {"Read", {cezhappu_labels, cezhappu_lists, NULL}, {0}, {0}, {0}, run_read, CEZHAPPU_READ_STACK},
    {"Find", {cezhappu_standings, cezhappu_states, cezhappu_word}, {2, 1, 1, 0},
     {CEZHAPPU_TABLE_LENGTH, CEZHAPPU_FLAGS_LENGTH, CEZHAPPU_WORD_LENGTH, 0}, {0}, run_find, CEZHAPPU_FIND_STACK},
    {"Verdict", {cezhappu_pairs, cezhappu_missed, NULL}, {2, 1, 1, 8}, {CEZHAPPU_TABLE_LENGTH, CEZHAPPU_FLAGS_LENGTH, 0, 0},
     {0, 0, 1, CEZHAPPU_PAIR_WORDS}, run_verdict, CEZHAPPU_VERDICT_STACK},
    {"Answer from links", {cezhappu_ones, NULL, NULL}, {1, 8, 0, 0}, {0}, {1, CEZHAPPU_LINKS_WORDS, 0, 0}, run_links,
     CEZHAPPU_LINKS_STACK},
    {"Answer from lists", {cezhappu_ones, NULL, NULL}, {1, 8, 0, 0}, {0}, {1, CEZHAPPU_LISTS_WORDS, 0, 0}, run_lists,
     CEZHAPPU_LISTS_STACK},
    {"Keep", {cezhappu_kept, NULL, NULL}, {1, 0, 0, 0}, {CEZHAPPU_KEPT_LENGTH, 0, 0, 0}, {0}, run_keep, CEZHAPPU_KEEP_STACK},
};

static size_t named_part(const struct operation *op, const struct call *call, int buffer)
{
    return op->least[buffer] + op->each[buffer] * (size_t)call->number;
}

/* Whether a buffer holds what it must: with a refusal zeros in the named part, or the pattern alone. */
static int left_right(const struct operation *op, const struct call *call, const struct lent *lent, int buffer)
{
    static const struct cells none = {NULL, 0};
    size_t named = named_part(op, call, buffer);
    unsigned r = call->refusal;
    if (!r)
        return holds(lent, &call->left[buffer], named, call->front);
    return holds(lent, &none, r == 9 || r == 10 || r == 12 || r == 13 ? named : 0, 0);
}

static int told_right(const struct operation *op, const struct call *call, uint64_t answer)
{
    int i;
    for (i = 0; i < TOLD && op->told[i]; i++)
        if (op->told[i](answer) != call->told[i])
            return 0;
    return cezhappu_refusal(answer) == call->refusal && cezhappu_line(answer) == call->line;
}

void check(enum which operation, const struct call *call)
{
    const struct operation *op = &operations[operation];
    struct lent job = copied(call->job, strlen(call->job), 1), triples = copied(call->triples.first, call->triples.count, 2);
    struct lent lent[BUFFERS];
    uint64_t answer;
    int i, right;
    for (i = 0; i < BUFFERS; i++)
        lent[i] = filled(op->cell[i] ? named_part(op, call, i) + (size_t)call->spare[i] : 0, op->cell[i]);
    answer = op->run(call, &job, &triples, lent);
    right = told_right(op, call, answer) && memcmp(job.cells, call->job, job.length) == 0 &&
            (!triples.length || memcmp(triples.cells, call->triples.first, triples.length * 2) == 0);
    for (i = 0; i < BUFFERS; i++) {
        right = right && left_right(op, call, &lent[i], i);
        free(lent[i].cells);
    }
    free(job.cells);
    free(triples.cells);
    if (!right)
        printf("%s, %s: refusal %u line %u, %#llx\n", op->name, call->what, cezhappu_refusal(answer), cezhappu_line(answer),
               (unsigned long long)answer);
    passed += (unsigned)right;
    failed += (unsigned)!right;
}

struct run {
    enum which operation;
    void (*calls)(enum which);
};

static void *begin(void *run)
{
    struct run *r = run;
    r->calls(r->operation);
    return NULL;
}

void in_thread(enum which operation, void (*calls)(enum which))
{
    struct run run = {operation, calls};
    pthread_attr_t attributes;
    pthread_t thread;
    if (pthread_attr_init(&attributes) || pthread_attr_setstacksize(&attributes, operations[operation].stack) ||
        pthread_create(&thread, &attributes, begin, &run) || pthread_join(thread, NULL))
        abort();
    pthread_attr_destroy(&attributes);
}
