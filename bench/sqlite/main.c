/*
 * Answers by SQLite: a recursive query over pairs of a recording and a state of the automaton, in memory, with the links and the
 * automaton's moves as tables by their keys.
 *
 *     sqlite-peer CASE FILE SECONDS
 *
 * compares the marked recordings with those in the file, then prints the case, the median time of the query and the number of runs. The
 * query is prepared before. A second line adds the time in which the tables are filled: an operation checks and indexes its table in every
 * call.
 */
#include <sqlite3.h>
#include <stdio.h>
#include <stdlib.h>
#include <string.h>

#include "../timing.h"
#include "graph.h"

enum { MOST_RUNS = 101 };

static struct graph graph;
static char marked[MOST_RECORDINGS];

static const char *tables =
    "CREATE TABLE link (x INTEGER, a INTEGER, y INTEGER, PRIMARY KEY (x, a, y)) WITHOUT ROWID;"
    "CREATE TABLE move (s INTEGER, a INTEGER, t INTEGER, PRIMARY KEY (s, a, t)) WITHOUT ROWID;"
    "CREATE TABLE accepting (s INTEGER PRIMARY KEY);";

/* UNION keeps each pair once. */
static const char *query =
    "WITH RECURSIVE reached (x, s) AS ("
    "  VALUES (?1, 0)"
    "  UNION"
    "  SELECT link.y, move.t FROM reached"
    "  CROSS JOIN move ON move.s = reached.s"
    "  CROSS JOIN link ON link.x = reached.x AND link.a = move.a"
    ") SELECT DISTINCT x FROM reached WHERE s IN (SELECT s FROM accepting)";

static void check(int code, int wanted, sqlite3 *base) {
    if (code == wanted) return;
    fprintf(stderr, "sqlite: %s\n", sqlite3_errmsg(base));
    exit(1);
}

static void run(sqlite3 *base, const char *text) { check(sqlite3_exec(base, text, 0, 0, 0), SQLITE_OK, base); }

static sqlite3_stmt *prepare(sqlite3 *base, const char *text) {
    sqlite3_stmt *statement;
    check(sqlite3_prepare_v2(base, text, -1, &statement, 0), SQLITE_OK, base);
    return statement;
}

static void insert(sqlite3 *base, const char *text, const struct triple *triples, int count) {
    sqlite3_stmt *statement = prepare(base, text);
    for (const struct triple *one = triples; one < triples + count; one++) {
        sqlite3_bind_int(statement, 1, one->from);
        sqlite3_bind_int(statement, 2, one->symbol);
        sqlite3_bind_int(statement, 3, one->to);
        check(sqlite3_step(statement), SQLITE_DONE, base);
        sqlite3_reset(statement);
    }
    sqlite3_finalize(statement);
}

/* Fills the tables, and tells how long it took. */
static double fill(sqlite3 *base) {
    struct moment begin = moment();
    run(base, "BEGIN");
    insert(base, "INSERT INTO link VALUES (?1, ?2, ?3)", graph.links, graph.link_count);
    insert(base, "INSERT INTO move VALUES (?1, ?2, ?3)", graph.moves, graph.move_count);
    sqlite3_stmt *statement = prepare(base, "INSERT INTO accepting VALUES (?1)");
    for (int number = 0; number < graph.accepting_count; number++) {
        sqlite3_bind_int(statement, 1, graph.accepting[number]);
        check(sqlite3_step(statement), SQLITE_DONE, base);
        sqlite3_reset(statement);
    }
    sqlite3_finalize(statement);
    run(base, "COMMIT");
    return since(begin);
}

/* What is timed: the query, from the start to the last marked recording. */
double measured_sqlite(sqlite3 *base, sqlite3_stmt *statement) {
    struct moment begin = moment();
    sqlite3_bind_int(statement, 1, graph.start);
    int code;
    while ((code = sqlite3_step(statement)) == SQLITE_ROW) marked[sqlite3_column_int(statement, 0)] = 1;
    check(code, SQLITE_DONE, base);
    double time = since(begin);
    sqlite3_reset(statement);
    return time;
}

int main(int count, char **words) {
    if (count != 4 || !read_graph(words[2], &graph)) return 2;
    sqlite3 *base;
    check(sqlite3_open(":memory:", &base), SQLITE_OK, base);
    run(base, tables);
    double times[MOST_RUNS], seconds = atof(words[3]), filling = fill(base), begin = now();
    sqlite3_stmt *statement = prepare(base, query);
    int runs = 1;
    times[0] = measured_sqlite(base, statement);
    if (memcmp(marked, graph.marked, sizeof marked) != 0) {
        fprintf(stderr, "sqlite: other marks than the proved operation's at %s\n", words[1]);
        return 1;
    }
    for (; runs < MOST_RUNS && now() - begin < seconds; runs++) times[runs] = measured_sqlite(base, statement);
    double time = median(times, runs);
    printf("%s\tsqlite\t%.9f\t%d\n", words[1], time, runs);
    printf("%s\tsqlite-filled\t%.9f\t%d\n", words[1], time + filling, runs);
    return 0;
}
