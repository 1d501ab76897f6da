/* What is printed. Nothing but the statements' text and the machine's answers goes into it, so that it is the same each time. */
#ifndef PRINT_H
#define PRINT_H

#include "simulator.h"

/* The statement's line number and text. Nothing when quiet or as JSON. */
void print_statement(struct simulator *s);

/* The same for a statement that prints text even when quiet, behind it. */
void print_shown_statement(struct simulator *s);

/* The call's result: the name that the bytes are given, or the text where there is none, and the bytes. */
void print_result(struct simulator *s, const char *text, const struct name *name, const uint8_t *data, size_t len);

/* The name that the trace gave the IWKey, "all zero", or its bytes, which take the room. */
enum { IWKEY_TEXT = 128 };
const char *iwkey_text(const struct simulator *s, const uint8_t *iwkey, char room[IWKEY_TEXT]);

/* An expectation that is met, and one that is not with what was found instead. Those met are not printed when quiet. */
void print_met(struct simulator *s);
void print_unmet(struct simulator *s, const char *format, ...) __attribute__((format(printf, 2, 3)));

/* Keeps the last call's answer for expect, and says a refusal in words; whether the call was done. */
bool answered(struct simulator *s, enum call call, uint32_t answer);

/* Behind a statement that made a call, when all of it is said. */
void end_call(struct simulator *s);

/* Counts the last call where it was refused, or left ZF 1, and no expectation spoke of it: before the next one, and at the end. */
void count_unexpected(struct simulator *s);

void say(struct simulator *s);
void print_summary(const struct simulator *s, int status, bool interrupted);

#endif
