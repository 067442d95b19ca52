/* The greatest rewriting and the missed paths, by operations on networks. */
#ifndef REWRITING_H
#define REWRITING_H

#include <fomalib.h>

#include "job.h"

/* The query's language, and what each list word spells. */
struct networks {
    struct fsm *query, *spelling;
};

struct networks networks(const struct job *job);
void discard(struct networks networks);

/* All list words that spell query paths alone. */
struct fsm *rewriting(const struct job *job, struct networks networks);

/* All query paths that no word of the rewriting spells; the rewriting is used up. */
struct fsm *missed(struct networks networks, struct fsm *rewriting);

/* The shortest path of a network, first in label order; its length, or -1 where there is none. */
int shortest(struct fsm *net, int *path);

/* The automaton whose sets of states are the pairs, and how many sets foma's subset construction has: the empty set is not among them. */
struct fsm *pair_network(const struct job *job);
int subsets(struct fsm *net);

/* The proved operation's states as a network. */
struct fsm *found(const struct job *job);

#endif
