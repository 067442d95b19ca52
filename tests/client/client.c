/*
 * Calls the library as the hosting server would: every operation with answers and with each refusal that it has, on buffers that are just
 * long enough, longer and too short, and on the deepest and longest texts; all calls of an operation in a thread with no more stack than
 * the header asks for. Prints 'N passed, 0 failed' where all is as document 01 says.
 */
#include <stdio.h>
#include <string.h>

#include "calls.h"

#define COUNT(array) (sizeof(array) / sizeof *(array))
#define CELLS(array) {array, COUNT(array)}

/* The job of document 01. */
static const char example[] =
    "label episode\nlabel mix\nlabel master\nquery episode.(mix|master)\nlist episodes episode\nlist mixes mix\n";

/* P2, the example of document 001: six states, of which three are left when they are merged. */
static const char p2[] = "label a\nlabel b\nlabel c\nquery a.(b.a|c)*\nlist e1 a\nlist e2 a.c*.b\nlist e3 c\n";

/* Texts that are made when the program begins. */
static char too_long[8194], labels_33[1024], lists_17[1024], bytes_513[1024], deep_17[256], a_64[256];
static char a_63[256], a_21[256], places_1088[512], everywhere[64];

/* A text that Read refuses, and so does every operation whose checks before it pass. */
struct refused {
    const char *what, *job;
    unsigned refusal, line;
};

static const struct refused refused_texts[] = {
    {"8,193 bytes", too_long, 1, 0},
    {"empty text", "", 2, 1},
    {"no query", "label a\n", 2, 2},
    {"no closing byte", "label a\nquery a", 2, 2},
    {"a wrong word", "label a\nquarry a\n", 2, 2},
    {"a repeated name", "label a\nlabel a\nquery a\n", 3, 2},
    {"a bad name", "label A\nquery A\n", 3, 1},
    {"33 labels", labels_33, 4, 33},
    {"17 lists", lists_17, 4, 19},
    {"not in the grammar", "label a\nquery a.\n", 5, 2},
    {"an unknown label", "label a\nquery a\nlist l b\n", 6, 3},
    {"513 bytes of expression", bytes_513, 7, 2},
    {"17 parentheses deep", deep_17, 7, 2},
    {"64 occurrences", a_64, 7, 2},
};

static const uint16_t example_table[] = {
    [0] = 1, [1] = 2, [16] = 2, [17] = 3, [32] = 2, [33] = 2, [48] = 2, [49] = 2,
};
static const uint16_t p2_table[] = {[0] = 1, [2] = 2, [16] = 2, [17] = 2, [18] = 1, [32] = 2, [33] = 2, [34] = 2};
static const uint8_t p2_flags[] = {0, 1, 0}, p2_word[] = {0};
static const uint8_t example_flags[] = {0, 0, 0, 1}, example_word[] = {0, 1}, example_missed[] = {0, 2};
static const uint8_t example_kept[] = "LRW\0\1\2\0\4\10episodes\5mixes\0\0\1\0\2\0\0\2\0\3\0\0\2\0\2\1\0\2\0\2";
static const uint8_t p2_kept[] = "LRW\0\1\3\0\3\2e1\2e2\2e3\0\0\1\0\0\0\2\1\0\2\0\2\0\1\0\0\2\0\2\0\2";
/* One a or more, however it is said. */
static const uint8_t alike_kept[] = "LRW\0\1\1\0\2\1l\0\0\1\1\0\1";

/* P8: N = 3, and links or lists from 0. */
static const uint16_t links[] = {0, 0, 1, 1, 1, 0, 1, 2, 2}, lists[] = {0, 0, 1, 1, 1, 0};
static const uint8_t links_marks[] = {1, 0, 1}, lists_marks[] = {1, 0, 0}, second_marks[] = {0, 1, 0};

/* Tables that are none, for 3 recordings and the labels, or lists, 0 and 1. */
static const uint16_t cut[] = {0, 0, 1, 1}, far_end[] = {0, 0, 3}, far_from[] = {3, 0, 0}, no_label[] = {0, 3, 1};
static const uint16_t falling[] = {1, 0, 0, 0, 0, 1}, twice[] = {0, 0, 1, 0, 0, 1};

/* Tables of the most triples, and one more: 4 from each recording; and the marks where all are reached. */
static uint16_t most_links[3 * 16385];
static uint8_t all_marks[4096];

static const struct call find_calls[] = {
    {.what = "document 01's job", .job = example, .told = {5, 4, 3},
     .left = {CELLS(example_table), CELLS(example_flags), CELLS(example_word)}},
    {.what = "the same, longer buffers", .job = example, .spare = {7, 5, 3}, .told = {5, 4, 3},
     .left = {CELLS(example_table), CELLS(example_flags), CELLS(example_word)}},
    {.what = "P2, merged", .job = p2, .told = {6, 3, 2}, .left = {CELLS(p2_table), CELLS(p2_flags), CELLS(p2_word)}},
    {.what = "P5, no accepted word", .job = "label a\nquery a\nlist l a*\n", .spare = {1, 1, 1}, .told = {3, 1, 0}},
    {.what = "a short table", .job = example, .spare = {-1, 0, 0}, .refusal = 8},
    {.what = "short flags", .job = example, .spare = {0, -1, 0}, .refusal = 8},
    {.what = "a short word", .job = example, .spare = {0, 0, -1}, .refusal = 8},
    {.what = "a short word and a text that is refused", .job = "", .spare = {0, 0, -1}, .refusal = 8},
    {.what = "65 standings", .job = a_63, .spare = {9, 9, 9}, .refusal = 9},
    {.what = "276 states before merging", .job = a_21, .spare = {9, 9, 9}, .refusal = 10},
};

static const struct call verdict_calls[] = {
    {.what = "document 01's job", .job = example, .number = 11, .told = {11, 3},
     .left = {CELLS(example_table), CELLS(example_flags), CELLS(example_missed)}},
    {.what = "the same, the most allowed, longer buffers", .job = example, .number = 4096, .spare = {7, 5, 3, 1}, .told = {11, 3},
     .left = {CELLS(example_table), CELLS(example_flags), CELLS(example_missed)}},
    {.what = "P2, merged", .job = p2, .number = 14, .told = {14, 0}, .left = {CELLS(p2_table), CELLS(p2_flags)}},
    {.what = "P2, 13 pairs allowed", .job = p2, .number = 13, .spare = {9, 9, 9, 9}, .refusal = 13},
    {.what = "no pair allowed", .job = example, .number = 0, .spare = {1, 1, 1, 1}, .refusal = 11},
    {.what = "4,097 pairs allowed", .job = example, .number = 4097, .refusal = 11},
    {.what = "no pair allowed and short buffers", .job = "", .number = 0, .spare = {-1, -1, 1, 1}, .refusal = 11},
    {.what = "a short table", .job = example, .number = 11, .spare = {-1, 0, 0, 0}, .refusal = 8},
    {.what = "short flags", .job = example, .number = 11, .spare = {0, -1, 0, 0}, .refusal = 8},
    {.what = "a short path", .job = example, .number = 11, .spare = {0, 0, -1, 0}, .refusal = 8},
    {.what = "a short workspace", .job = "", .number = 11, .spare = {0, 0, 0, -1}, .refusal = 8},
    {.what = "65 standings", .job = a_63, .number = 5, .spare = {9, 9, 9, 9}, .refusal = 9},
    {.what = "276 states before merging", .job = a_21, .number = 5, .spare = {9, 9, 9, 9}, .refusal = 10},
    {.what = "1,088 places", .job = places_1088, .number = 1, .spare = {9, 9, 9, 9}, .refusal = 12},
    {.what = "10 pairs allowed", .job = example, .number = 10, .spare = {9, 9, 9, 9}, .refusal = 13},
};

static const struct call links_calls[] = {
    {.what = "P8", .job = example, .number = 3, .triples = CELLS(links), .told = {2}, .left = {CELLS(links_marks)}},
    {.what = "P8, the list episodes, longer buffers", .job = example, .number = 3, .chosen = 1, .triples = CELLS(links),
     .spare = {5, 3}, .told = {1}, .left = {CELLS(second_marks)}},
    {.what = "4,096 recordings and 16,384 links", .job = everywhere, .number = 4096, .triples = {most_links, 3 * 16384}, .told = {4096},
     .left = {CELLS(all_marks)}},
    {.what = "no recording", .job = example, .number = 0, .triples = CELLS(links), .spare = {1, 1}, .refusal = 14},
    {.what = "4,097 recordings and short buffers", .job = "", .number = 4097, .spare = {-1, -1}, .refusal = 14},
    {.what = "short marks", .job = example, .number = 3, .triples = CELLS(links), .spare = {-1, 0}, .refusal = 8},
    {.what = "a short workspace", .job = "", .number = 3, .triples = CELLS(links), .spare = {0, -1}, .refusal = 8},
    {.what = "a third list", .job = example, .number = 3, .chosen = 3, .triples = CELLS(cut), .start = 3, .refusal = 17},
    {.what = "four numbers", .job = example, .number = 3, .triples = CELLS(cut), .start = 3, .refusal = 15},
    {.what = "16,385 links", .job = everywhere, .number = 4096, .triples = CELLS(most_links), .refusal = 15},
    {.what = "a link to no recording", .job = example, .number = 3, .triples = CELLS(far_end), .refusal = 15},
    {.what = "a link from no recording", .job = example, .number = 3, .triples = CELLS(far_from), .refusal = 15},
    {.what = "a link of no label", .job = example, .number = 3, .triples = CELLS(no_label), .refusal = 15},
    {.what = "falling links", .job = example, .number = 3, .triples = CELLS(falling), .refusal = 15},
    {.what = "a link twice", .job = a_63, .number = 3, .triples = CELLS(twice), .refusal = 15},
    {.what = "a start that is no recording", .job = a_63, .number = 3, .start = 3, .refusal = 16},
    {.what = "65 standings", .job = a_63, .number = 3, .spare = {9, 9}, .refusal = 9},
};

static const struct call lists_calls[] = {
    {.what = "P8", .job = example, .number = 3, .triples = CELLS(lists), .told = {1}, .left = {CELLS(lists_marks)}},
    {.what = "P8, longer buffers", .job = example, .number = 3, .triples = CELLS(lists), .spare = {5, 3}, .told = {1},
     .left = {CELLS(lists_marks)}},
    {.what = "4,096 recordings and 16,384 pairs", .job = everywhere, .number = 4096, .triples = {most_links, 3 * 16384}, .told = {4096},
     .left = {CELLS(all_marks)}},
    {.what = "no recording", .job = example, .number = 0, .triples = CELLS(lists), .spare = {1, 1}, .refusal = 14},
    {.what = "4,097 recordings and short buffers", .job = "", .number = 4097, .spare = {-1, -1}, .refusal = 14},
    {.what = "short marks", .job = example, .number = 3, .triples = CELLS(lists), .spare = {-1, 0}, .refusal = 8},
    {.what = "a short workspace", .job = "", .number = 3, .triples = CELLS(lists), .spare = {0, -1}, .refusal = 8},
    {.what = "four numbers", .job = example, .number = 3, .triples = CELLS(cut), .start = 3, .refusal = 15},
    {.what = "a pair of no list", .job = example, .number = 3, .triples = CELLS(links), .refusal = 15},
    {.what = "a pair twice", .job = a_63, .number = 3, .triples = CELLS(twice), .refusal = 15},
    {.what = "a start that is no recording", .job = a_63, .number = 3, .start = 3, .refusal = 16},
    {.what = "65 standings", .job = a_63, .number = 3, .spare = {9, 9}, .refusal = 9},
    {.what = "276 states before merging", .job = a_21, .number = 3, .spare = {9, 9}, .refusal = 10},
};

static const struct call read_calls[] = {
    {.what = "document 01's job", .job = example, .told = {3, 2}},
};

static const struct call keep_calls[] = {
    {.what = "document 01's job", .job = example, .told = {43}, .left = {{example_kept, 43}}},
    {.what = "the same, a longer output", .job = example, .spare = {5}, .told = {43}, .left = {{example_kept, 43}}},
    {.what = "P2, merged", .job = p2, .told = {38}, .left = {{p2_kept, 38}}},
    {.what = "a.a*", .job = "label a\nquery a.a*\nlist l a\n", .told = {16}, .left = {{alike_kept, 16}}},
    {.what = "a*.a", .job = "label a\nquery a*.a\nlist l a\n", .told = {16}, .left = {{alike_kept, 16}}},
    {.what = "a|a.a.a*", .job = "label a\nquery a|a.a.a*\nlist l a\n", .told = {16}, .left = {{alike_kept, 16}}},
    {.what = "a short output", .job = "", .spare = {-1}, .refusal = 8},
    {.what = "65 standings", .job = a_63, .spare = {9}, .refusal = 9},
    {.what = "276 states before merging", .job = a_21, .spare = {9}, .refusal = 10},
};

static const struct {
    const struct call *calls;
    size_t count;
} listed[OPERATIONS] = {
    [READ] = CELLS(read_calls),   [FIND] = CELLS(find_calls),   [VERDICT] = CELLS(verdict_calls),
    [LINKS] = CELLS(links_calls), [LISTS] = CELLS(lists_calls), [KEEP] = CELLS(keep_calls),
};

/* Appends a text n times. */
static char *append(char *at, const char *text, unsigned n)
{
    while (n--)
        at += sprintf(at, "%s", text);
    return at;
}

/*
 * A job of one label and no list, with a query of the front n times, a middle, and the back n times: what it is refused with, in line 2
 * by every operation, or without a line by all but Read; or how many standings the query has, one more than the length of the path that
 * is then missed (0: complete), and whether it has the empty path.
 */
struct deep {
    const char *what, *front, *middle, *back;
    unsigned n, refusal, standings, missed, empty;
};

static const struct deep deepest[] = {
    {"16 parentheses", "(", "a", ")", 16, 0, 3, 2, 0},
    {"17 parentheses", "(", "a", ")", 17, 7, 0, 0, 0},
    {"255 parentheses", "(", "a", ")", 255, 7, 0, 0, 0},
    {"255 parentheses around ()", "(", "()", ")", 255, 7, 0, 0, 0},
    {"512 opening parentheses", "(", "", "", 512, 5, 0, 0, 0},
    {"511 opening parentheses and a name", "(", "a", "", 511, 5, 0, 0, 0},
    {"256 opening parentheses and 256 marks", "(", "", "*", 256, 5, 0, 0, 0},
    {"256 opening parentheses and 128 names in sequence", "((", "", "a.", 128, 5, 0, 0, 0},
    {"511 marks", "", "a", "*", 511, 0, 2, 2, 1},
    {"171 empty paths in sequence", "().", "()", "", 170, 0, 2, 0, 1},
    {"171 empty paths in an alternative", "()|", "()", "", 170, 0, 2, 0, 1},
    {"256 names in sequence, 255 marks", "a.", "a", "", 255, 7, 0, 0, 0},
    {"256 names in an alternative", "a|", "a", "", 255, 7, 0, 0, 0},
    {"62 names in sequence", "a.", "a", "", 61, 0, 64, 63, 0},
    {"63 names in sequence", "a.", "a", "", 62, 9, 0, 0, 0},
    {"63 names in an alternative", "a|", "a", "", 62, 0, 3, 2, 0},
    {"nested to the right", "a.(", "a", ")", 127, 7, 0, 0, 0},
    {"nested alternatives", "a|(", "a", ")", 16, 0, 3, 2, 0},
    {"513 bytes", "a", "", "", 513, 7, 0, 0, 0},
};

/* What an operation must make of such a job: there is one state, and where there is one recording without links it reaches itself by the
   empty path alone. */
static void deep_call(enum which operation, const struct deep *d)
{
    char job[2048], *at = append(job, "label a\nquery ", 1);
    uint8_t empty = (uint8_t)d->empty, kept[] = {'L', 'R', 'W', 0, 1, 0, 0, 1, empty};
    struct call call = {.what = d->what, .job = job, .number = operation == VERDICT ? 64 : 1};
    at = append(at, d->front, d->n);
    at = append(at, d->middle, 1);
    at = append(at, d->back, d->n);
    append(at, "\n", 1);
    call.refusal = operation == READ && d->refusal == 9 ? 0 : d->refusal;
    call.line = call.refusal && call.refusal < 8 ? 2 : 0;
    if (!call.refusal) {
        const unsigned told[OPERATIONS][TOLD] = {
            [READ] = {1, 0}, [FIND] = {d->standings, 1, empty}, [VERDICT] = {d->standings, d->missed},
            [LINKS] = {empty}, [LISTS] = {empty}, [KEEP] = {sizeof kept},
        };
        const struct cells flag = {&empty, 1}, file = {kept, sizeof kept};
        memcpy(call.told, told[operation], sizeof call.told);
        if (operation == FIND || operation == VERDICT)
            call.left[1] = flag;
        else
            call.left[0] = operation == KEEP ? file : flag;
    }
    check(operation, &call);
}

/*
 * Many states in terms of 16 lists, 14 of them with 63 names. The query has a beginning, a front n times, an end, and a back m times. What
 * Find tells of it, the states merged.
 */
struct longest {
    const char *what, *begin, *front;
    unsigned n;
    const char *end, *back;
    unsigned m, told[TOLD];
};

static const struct longest longest[] = {
    {"253 states before merging, 16 lists", "a", ".a", 19, "", "", 0, {22, 22, 21}},
    {"227 states before merging, 16 lists", "(a", ".a", 14, ")*", ".a?", 13, {16, 211, 1}},
};

static void make_longest(char *job, const struct longest *l)
{
    char *at = append(job, "label a\nquery ", 1);
    unsigned i;
    at = append(append(at, l->begin, 1), l->front, l->n);
    at = append(append(at, l->end, 1), l->back, l->m);
    at = append(at, "\nlist l a\nlist m a?\n", 1);
    for (i = 0; i < 14; i++) {
        at += sprintf(at, "list n%02u a", i);
        at = append(append(at, ".a", 62), "\n", 1);
    }
}

/* The front of what is kept, and the numbers that are told. */
static void longest_call(enum which operation, const struct longest *l)
{
    char job[4096];
    const unsigned states = l->told[1];
    const uint8_t kept[] = {'L', 'R', 'W', 0, 1, 16, 0, (uint8_t)states, 1, 'l', 1, 'm', 3, 'n', '0', '0'};
    struct call call = {.what = l->what, .job = job, .front = 1};
    make_longest(job, l);
    if (operation == KEEP) {
        call.left[0].first = kept;
        call.left[0].count = sizeof kept;
        call.told[0] = 8 + 2 * 2 + 14 * 4 + states * 33;
        check(KEEP, &call);
    } else if (operation == FIND) {
        memcpy(call.told, l->told, sizeof call.told);
        check(FIND, &call);
    } else if (operation == READ) {
        call.told[0] = 1;
        call.told[1] = 16;
        check(READ, &call);
    }
}

static void all_calls(enum which operation)
{
    size_t i;
    for (i = 0; i < listed[operation].count; i++)
        check(operation, &listed[operation].calls[i]);
    for (i = 0; i < COUNT(refused_texts); i++) {
        const struct refused *r = &refused_texts[i];
        const struct call call = {
            .what = r->what, .job = r->job, .number = 3, .spare = {1, 2, 3, 4}, .refusal = r->refusal, .line = r->line};
        check(operation, &call);
    }
    for (i = 0; i < COUNT(deepest); i++)
        deep_call(operation, &deepest[i]);
    for (i = 0; i < COUNT(longest); i++)
        longest_call(operation, &longest[i]);
}

static void sequence(char *job, unsigned names, const char *lists)
{
    char *at = append(job, "label a\nquery a", 1);
    at = append(at, ".a", names - 1);
    sprintf(at, "\n%s", lists);
}

static void make_texts(void)
{
    char *at, list[128];
    unsigned i;
    memset(too_long, 'a', 8193);
    for (at = labels_33, i = 0; i < 33; i++)
        at += sprintf(at, "label a%u\n", i);
    append(at, "query a0\n", 1);
    at = append(lists_17, "label a\nquery a\n", 1);
    for (i = 0; i < 17; i++)
        at += sprintf(at, "list l%u a\n", i);
    at = append(bytes_513, "label a\nquery a", 1);
    append(append(at, "*", 512), "\n", 1);
    at = append(deep_17, "label a\nquery ", 1);
    append(append(append(append(at, "(", 17), "a", 1), ")", 17), "\n", 1);
    sequence(a_64, 64, "");
    sequence(a_63, 63, "list l a\nlist m a?\n");
    sequence(a_21, 21, "list l a\nlist m a?\n");
    at = append(list, "list l a\nlist m a", 1);
    append(append(at, ".a", 14), "\n", 1);
    sequence(places_1088, 62, list);
    append(everywhere, "label a\nquery a*\nlist l a\n", 1);
}

/* From each recording to the next four, or to the four before the end; the last link is one too many. */
static void make_tables(void)
{
    unsigned from, step, at = 0;
    for (from = 0; from < 4096; from++)
        for (step = 1; step <= 4; step++) {
            most_links[at++] = (uint16_t)from;
            most_links[at++] = 0;
            most_links[at++] = (uint16_t)(from + 4 < 4096 ? from + step : 4091 + step);
        }
    most_links[at++] = 4095;
    most_links[at++] = 1;
    most_links[at++] = 0;
    memset(all_marks, 1, sizeof all_marks);
}

int main(void)
{
    int operation;
    make_texts();
    make_tables();
    for (operation = READ; operation < OPERATIONS; operation++)
        in_thread((enum which)operation, all_calls);
    printf("%u passed, %u failed\n", passed, failed);
    return failed != 0;
}
