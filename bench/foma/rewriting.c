#include "rewriting.h"

#include <stdio.h>
#include <stdlib.h>

#include "language.h"

struct networks networks(const struct job *job) {
    return (struct networks){expression(job, job->query), spelling(job)};
}

void discard(struct networks networks) {
    fsm_destroy(networks.query);
    fsm_destroy(networks.spelling);
}

struct fsm *rewriting(const struct job *job, struct networks networks) {
    struct fsm *other = fsm_minus(words('l', job->label_count), fsm_copy(networks.query));
    struct fsm *astray = fsm_upper(fsm_compose(fsm_copy(networks.spelling), other));
    return fsm_minimize(fsm_minus(words('v', job->list_count), astray));
}

struct fsm *missed(struct networks networks, struct fsm *rewriting) {
    struct fsm *yielded = fsm_lower(fsm_compose(rewriting, fsm_copy(networks.spelling)));
    return fsm_minimize(fsm_minus(fsm_copy(networks.query), yielded));
}

/* How a state was first reached: from which one (-1: not yet), and by which label. */
struct link {
    int from, label;
};

static int spell(const struct link *links, int start, int state, int *path) {
    int length = 0;
    for (int at = state; at != start; at = links[at].from) length++;
    for (int at = state, place = length; at != start; at = links[at].from) path[--place] = links[at].label;
    return length;
}

/* The arcs of the rows of one state, by label number in `next`; whether it is final. */
static int arcs(const struct fsm_state *row, const int *labels, int *next) {
    int final = 0, state = row->state_no;
    for (int label = 0; label < MOST_LABELS; label++) next[label] = -1;
    for (; row->state_no == state; row++) {
        final |= row->final_state == 1;
        if (row->target >= 0 && row->in > IDENTITY) next[labels[row->in]] = row->target;
    }
    return final;
}

/* Where the rows of each state begin; the start state in `start`. */
static const struct fsm_state **rows_of(struct fsm *net, int *start) {
    const struct fsm_state **rows = calloc((size_t)net->statecount, sizeof *rows);
    for (const struct fsm_state *row = net->states; row->state_no >= 0; row++) {
        if (!rows[row->state_no]) rows[row->state_no] = row;
        if (row->start_state == 1) *start = row->state_no;
    }
    return rows;
}

/* The label number of each symbol. */
static int *labels_of(struct fsm *net) {
    int most = 0;
    for (struct sigma *symbol = net->sigma; symbol; symbol = symbol->next)
        if (symbol->number > most) most = symbol->number;
    int *labels = calloc((size_t)most + 1, sizeof *labels);
    for (struct sigma *symbol = net->sigma; symbol; symbol = symbol->next)
        if (symbol->number > IDENTITY) labels[symbol->number] = atoi(symbol->symbol + 1);
    return labels;
}

int shortest(struct fsm *net, int *path) {
    int count = net->statecount, start = 0, begin = 0, end = 1, length = -1, next[MOST_LABELS];
    const struct fsm_state **rows = rows_of(net, &start);
    struct link *links = malloc((size_t)count * sizeof *links);
    int *queue = malloc((size_t)count * sizeof *queue), *labels = labels_of(net);
    for (int state = 0; state < count; state++) links[state].from = -1;
    queue[0] = start;
    links[start].from = start;
    while (begin < end && length < 0) {
        int state = queue[begin++];
        if (arcs(rows[state], labels, next)) length = spell(links, start, state, path);
        for (int label = 0; label < MOST_LABELS; label++) {
            if (next[label] < 0 || links[next[label]].from >= 0) continue;
            links[next[label]] = (struct link){state, label};
            queue[end++] = next[label];
        }
    }
    free(rows), free(links), free(queue), free(labels);
    return length;
}

struct fsm *found(const struct job *job) {
    struct fsm_construct_handle *handle = fsm_construct_init("found");
    char name[16];
    for (int state = 0; state < job->states; state++) {
        if (job->accepting[state]) fsm_construct_set_final(handle, state);
        for (int list = 0; list < job->list_count; list++) {
            symbol_name(name, 'v', list);
            fsm_construct_add_arc(handle, state, job->next[state][list], name, name);
        }
    }
    fsm_construct_set_initial(handle, 0);
    return fsm_minimize(fsm_construct_done(handle));
}

struct fsm *pair_network(const struct job *job) {
    struct fsm_construct_handle *handle = fsm_construct_init("pairs");
    char name[16];
    for (const struct arc *arc = job->arcs; arc < job->arcs + job->arc_count; arc++) {
        symbol_name(name, 'l', arc->label);
        fsm_construct_add_arc(handle, arc->from, arc->to, name, name);
        fsm_construct_set_final(handle, arc->from);
        fsm_construct_set_final(handle, arc->to);
    }
    fsm_construct_set_initial(handle, 0);
    return fsm_construct_done(handle);
}

int subsets(struct fsm *net) {
    net = fsm_determinize(net);
    int count = net->statecount;
    fsm_destroy(net);
    return count;
}
