/* Expressions and jobs as networks of foma. Labels are the symbols l0, l1, .., lists v0, v1, .. */
#ifndef LANGUAGE_H
#define LANGUAGE_H

#include <fomalib.h>

#include "job.h"

void symbol_name(char *name, char kind, int number);

/* The language of an expression. */
struct fsm *expression(const struct job *job, const char *text);

/* All words of the symbols of a kind. */
struct fsm *words(char kind, int count);

/* Relates each list word to the paths that it spells. */
struct fsm *spelling(const struct job *job);

#endif
