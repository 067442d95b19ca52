#include "graph.h"

#include <stdio.h>

static void read_line(const char *line, struct graph *graph) {
    struct triple one;
    int number;
    if (sscanf(line, "link %d %d %d", &one.from, &one.symbol, &one.to) == 3) graph->links[graph->link_count++] = one;
    if (sscanf(line, "move %d %d %d", &one.from, &one.symbol, &one.to) == 3) graph->moves[graph->move_count++] = one;
    if (sscanf(line, "accepting %d", &number) == 1) graph->accepting[graph->accepting_count++] = number;
    if (sscanf(line, "marked %d", &number) == 1) graph->marked[number] = 1;
    sscanf(line, "start %d", &graph->start);
}

int read_graph(const char *name, struct graph *graph) {
    char line[1024];
    FILE *file = fopen(name, "r");
    if (!file) return 0;
    while (fgets(line, sizeof line, file)) read_line(line, graph);
    fclose(file);
    return 1;
}
