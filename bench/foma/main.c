/*
 * The greatest rewriting and the shortest missed path by foma's library, for the jobs of a case.
 *
 *     foma-peer CASE FILE SECONDS
 *
 * compares the answers with those in the file, then prints the case, the median time of all its jobs together and the number of runs: as
 * it is; with freed memory kept; and, where verdicts are asked for, with the pairs counted too, which foma does not need for a missed
 * path. With 0 seconds it prints the first line alone, after one run.
 */
#include <stdio.h>
#include <stdlib.h>
#include <string.h>
#include <sys/wait.h>
#include <unistd.h>

#include "../timing.h"
#include "job.h"
#include "rewriting.h"

enum { MOST_JOBS = 64, MOST_RUNS = 101 };

static int path[MOST_PATH];

static void fail(const char *what, const struct job *job) {
    fprintf(stderr, "foma: another %s than the proved operation's, query %s\n", what, job->query);
    exit(1);
}

/* The same rewriting, the same missed path to the label, as many pairs: foma has no empty set, so it may have one less. */
static void compare(const struct job *job) {
    struct networks nets = networks(job);
    struct fsm *words = rewriting(job, nets);
    if (!fsm_equivalent(fsm_copy(words), found(job))) fail("rewriting", job);
    struct fsm *paths = missed(nets, words);
    int length = shortest(paths, path);
    if (job->pairs && length != job->missed_length) fail("length of a missed path", job);
    if (job->pairs && length > 0 && memcmp(path, job->missed, (size_t)length * sizeof *path) != 0) fail("missed path", job);
    int other = job->pairs ? job->pairs - subsets(pair_network(job)) : 0;
    if (other != 0 && other != 1) fail("number of pairs", job);
    fsm_destroy(paths);
    discard(nets);
}

/* What is timed: from the texts of the expressions to the rewriting or the path. */
void measured_foma(const struct job *job) {
    struct networks nets = networks(job);
    struct fsm *net = rewriting(job, nets);
    if (job->pairs) {
        net = missed(nets, net);
        shortest(net, path);
    }
    fsm_destroy(net);
    discard(nets);
}

static double run(const struct job *jobs, int count) {
    struct moment begin = moment();
    for (int number = 0; number < count; number++) measured_foma(&jobs[number]);
    return since(begin);
}

/* The subset construction alone; making its automaton is not timed. */
static double count_pairs(const struct job *jobs, int count) {
    double time = 0;
    for (int number = 0; number < count; number++) {
        struct fsm *net = pair_network(&jobs[number]);
        struct moment begin = moment();
        subsets(net);
        time += since(begin);
    }
    return time;
}

static double median_of(double (*what)(const struct job *, int), const struct job *jobs, int count, double seconds, int *runs) {
    double times[MOST_RUNS], begin = now();
    for (*runs = 0; *runs < 1 || (*runs < MOST_RUNS && now() - begin < seconds); ++*runs) times[*runs] = what(jobs, count);
    return median(times, *runs);
}

/* In a process of its own, so that the allocator is as new for what is timed. */
static void compare_all(const struct job *jobs, int count) {
    int status = 1;
    pid_t child = fork();
    if (child == 0) {
        for (int number = 0; number < count; number++) compare(&jobs[number]);
        exit(0);
    }
    if (child < 0 || waitpid(child, &status, 0) != child || status != 0) exit(1);
}

int main(int count, char **words) {
    static struct job jobs[MOST_JOBS];
    FILE *file = count == 4 ? fopen(words[2], "r") : NULL;
    int number = 0, runs;
    if (!file) return 2;
    while (number < MOST_JOBS && read_job(file, &jobs[number])) number++;
    compare_all(jobs, number);
    double seconds = atof(words[3]), time = median_of(run, jobs, number, seconds, &runs);
    printf("%s\tfoma\t%.9f\t%d\n", words[1], time, runs);
    if (seconds == 0) return 0;
    keep_memory();
    time = median_of(run, jobs, number, seconds, &runs);
    printf("%s\tfoma-kept\t%.9f\t%d\n", words[1], time, runs);
    if (!jobs[0].pairs) return 0;
    time += median_of(count_pairs, jobs, number, seconds, &runs);
    printf("%s\tfoma-pairs\t%.9f\t%d\n", words[1], time, runs);
    return 0;
}
