#include "language.h"

#include <ctype.h>
#include <stdio.h>
#include <string.h>

static struct fsm *alternative(const struct job *job, const char **text);

void symbol_name(char *name, char kind, int number) { sprintf(name, "%c%d", kind, number); }

static struct fsm *symbol(char kind, int number) {
    char name[16];
    symbol_name(name, kind, number);
    return fsm_symbol(name);
}

static struct fsm *label(const struct job *job, const char **text) {
    size_t length = 0;
    while (isalnum((unsigned char)(*text)[length]) || (*text)[length] == '-') length++;
    int number = 0;
    while (strlen(job->labels[number]) != length || strncmp(job->labels[number], *text, length) != 0) number++;
    *text += length;
    return symbol('l', number);
}

static struct fsm *factor(const struct job *job, const char **text) {
    struct fsm *net;
    if (strncmp(*text, "()", 2) == 0) {
        *text += 2;
        net = fsm_empty_string();
    } else if (**text == '(') {
        ++*text;
        net = alternative(job, text);
        ++*text;
    } else {
        net = label(job, text);
    }
    for (; **text == '*' || **text == '?'; ++*text) net = **text == '*' ? fsm_kleene_star(net) : fsm_optionality(net);
    return net;
}

static struct fsm *sequence(const struct job *job, const char **text) {
    struct fsm *net = factor(job, text);
    while (**text == '.') {
        ++*text;
        net = fsm_concat(net, factor(job, text));
    }
    return net;
}

static struct fsm *alternative(const struct job *job, const char **text) {
    struct fsm *net = sequence(job, text);
    while (**text == '|') {
        ++*text;
        net = fsm_union(net, sequence(job, text));
    }
    return net;
}

struct fsm *expression(const struct job *job, const char *text) { return fsm_minimize(alternative(job, &text)); }

struct fsm *words(char kind, int count) {
    struct fsm *net = fsm_empty_set();
    for (int number = 0; number < count; number++) net = fsm_union(net, symbol(kind, number));
    return fsm_minimize(fsm_kleene_star(net));
}

struct fsm *spelling(const struct job *job) {
    struct fsm *net = fsm_empty_set();
    for (int list = 0; list < job->list_count; list++)
        net = fsm_union(net, fsm_cross_product(symbol('v', list), expression(job, job->lists[list])));
    return fsm_minimize(fsm_kleene_star(net));
}
