/* Refusals: their names, and what they say of a call. */
#ifndef REFUSAL_H
#define REFUSAL_H

#include "simulator.h"

/* The header's name without KEYLOCKER_, in lower case; "done" for 0. */
const char *answer_name(uint32_t answer);

/* The number of a refusal, given as such or by the header's name, with KEYLOCKER_ or without. */
uint32_t take_refusal(struct line *line);

/* The words for it, into the answer. */
void add_refusal(struct simulator *s, enum call call, uint32_t number);

#endif
