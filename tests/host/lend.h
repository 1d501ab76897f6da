/* Bytes that a call is lent: allocations of exactly their length, so that valgrind sees any access behind them. In guarded runs they stand in pages of their
 * own, and nothing around these can be touched: some end where their pages end, some begin where these begin, and some stand 1 to 15 bytes further on. */
#ifndef LEND_H
#define LEND_H

#include <stdbool.h>
#include <stddef.h>
#include <stdint.h>

/* Guarded from here on. False if there are no such pages. */
bool lend_guarded(void);
bool lends_guarded(void);

/* A copy of the bytes, or what NULL leaves to the caller to fill. Reports call it by the name; without one it is an allocation in guarded runs too. */
uint8_t *lend(const char *name, const uint8_t *bytes, size_t length);
/* the same for a number, which C wants aligned: never misaligned */
void *lend_number(const char *name, size_t length);
void take_back(void *lent);

/* From here on it cannot be written; nothing in runs that are not guarded. */
void lend_read_only(const void *lent);

/* Makes a call on what is lent. NULL, or what it touched that it may not, which only guarded runs tell. */
const char *touched_by(void (*make)(void *argument), void *argument);

/* how many there were of each sort, in guarded runs */
void print_lent(void);

#endif
