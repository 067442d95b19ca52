/* A job, and what was found for it, as the harness writes them. */
#ifndef JOB_H
#define JOB_H

#include <stdio.h>

enum { MOST_LABELS = 32, MOST_LISTS = 16, MOST_STATES = 256, MOST_PATH = 4096, MOST_TEXT = 600 };

struct arc {
    int from, label, to;
};

struct job {
    char labels[MOST_LABELS][20];
    char query[MOST_TEXT];
    char lists[MOST_LISTS][MOST_TEXT];
    int label_count, list_count;
    /* What the proved operations gave. */
    int states;
    int accepting[MOST_STATES];
    int next[MOST_STATES][MOST_LISTS];
    /* -1 where the verdict is complete. */
    int missed_length;
    int missed[MOST_PATH];
    /* 0 where no verdict is asked for. */
    int pairs;
    /* The automaton whose sets of states are the pairs. */
    int arc_count;
    struct arc *arcs;
};

/* Reads the next job of the file; 0 where there is none. */
int read_job(FILE *file, struct job *job);

#endif
