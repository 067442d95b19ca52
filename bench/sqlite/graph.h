/* A graph, an automaton and the marked recordings, as the harness writes them. */
#ifndef GRAPH_H
#define GRAPH_H

enum { MOST_RECORDINGS = 4096, MOST_LINKS = 16384, MOST_MOVES = 8192, MOST_STATES = 256 };

/* From, symbol, to. */
struct triple {
    int from, symbol, to;
};

struct graph {
    int start, link_count, move_count, accepting_count;
    struct triple links[MOST_LINKS], moves[MOST_MOVES];
    int accepting[MOST_STATES];
    char marked[MOST_RECORDINGS];
};

/* 0 where the file cannot be read. */
int read_graph(const char *name, struct graph *graph);

#endif
