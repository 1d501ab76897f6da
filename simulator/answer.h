/* Lines below a statement: what a call answered, in words. JSON has them as the call's text. Nothing when quiet. */
#ifndef ANSWER_H
#define ANSWER_H

#include "simulator.h"

/* A line is put together by several of these, as by printf, and ended. */
void add_answer(struct simulator *s, const char *format, ...) __attribute__((format(printf, 2, 3)));
void end_answer(struct simulator *s);

/* What is left of a line, or all of it, and its end. */
void print_answer(struct simulator *s, const char *format, ...) __attribute__((format(printf, 2, 3)));

#endif
