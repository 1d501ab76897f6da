/* What is printed with --json: one object a line, for each call, expectation, say and show, and for the summary. TRACES.md has the fields. */
#ifndef JSON_H
#define JSON_H

#include "simulator.h"

/* The last call. */
void json_called(const struct simulator *s);

/* The statement's expectation, and what was found where it is not met. */
void json_met(const struct simulator *s);
void json_unmet(const struct simulator *s, const struct bytes *found);

void json_said(const struct simulator *s, const char *text, size_t len);

/* What the statement shows: bytes, or a register. */
void json_shown_bytes(const struct simulator *s, const char *what, const uint8_t *data, size_t len);
void json_shown_register(const struct simulator *s, const char *what, uint64_t value);

void json_summary(const struct simulator *s, int status, bool interrupted);

#endif
