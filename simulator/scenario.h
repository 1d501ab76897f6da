/* The built-in scenario: the text of scenario.trace. */
#ifndef SCENARIO_H
#define SCENARIO_H

#include <stddef.h>

extern const char scenario[];
extern const size_t scenario_len;

#endif
