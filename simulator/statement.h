/* The statements of a trace. */
#ifndef STATEMENT_H
#define STATEMENT_H

#include "simulator.h"

/* Runs one line. */
void run_line(struct simulator *s, const char *text, size_t len);

#endif
