#include "job.h"

#include <stdlib.h>
#include <string.h>

static void bad(const char *line) {
    fprintf(stderr, "foma: a line that is not understood: %s\n", line);
    exit(1);
}

static void read_states(FILE *file, struct job *job) {
    for (int state = 0; state < job->states; state++) {
        if (fscanf(file, "%d", &job->accepting[state]) != 1) bad("a state");
        for (int list = 0; list < job->list_count; list++)
            if (fscanf(file, "%d", &job->next[state][list]) != 1) bad("a next state");
    }
}

static void read_missed(FILE *file, struct job *job) {
    for (int at = 0; at < job->missed_length; at++)
        if (fscanf(file, "%d", &job->missed[at]) != 1) bad("a missed label");
}

static void read_arcs(FILE *file, struct job *job) {
    job->arcs = malloc((size_t)job->arc_count * sizeof *job->arcs);
    for (struct arc *arc = job->arcs; arc < job->arcs + job->arc_count; arc++)
        if (fscanf(file, "%d %d %d", &arc->from, &arc->label, &arc->to) != 3) bad("an arc");
}

/* One line; 0 at the end of the job. */
static int read_line(FILE *file, const char *line, struct job *job) {
    if (strcmp(line, "end") == 0) return 0;
    if (sscanf(line, "label %19s", job->labels[job->label_count]) == 1) {
        job->label_count++;
    } else if (sscanf(line, "list %*s %599s", job->lists[job->list_count]) == 1) {
        job->list_count++;
    } else if (sscanf(line, "states %d", &job->states) == 1) {
        read_states(file, job);
    } else if (sscanf(line, "missed %d", &job->missed_length) == 1) {
        read_missed(file, job);
    } else if (sscanf(line, "pairs %d %d", &job->pairs, &job->arc_count) == 2) {
        read_arcs(file, job);
    } else if (sscanf(line, "query %599s", job->query) != 1 && line[0] != 0) {
        bad(line);
    }
    return 1;
}

int read_job(FILE *file, struct job *job) {
    char line[8192];
    memset(job, 0, sizeof *job);
    job->missed_length = -1;
    while (fgets(line, sizeof line, file)) {
        line[strcspn(line, "\n")] = 0;
        if (!read_line(file, line, job)) return 1;
    }
    return 0;
}
