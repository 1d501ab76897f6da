/* Statements about the keyring. */
#ifndef KEYRING_H
#define KEYRING_H

#include "simulator.h"

/* Behind "keyring". */
void run_keyring(struct simulator *s);

/* The records in use, chain by chain, or that it is refused. */
void show_keyring(struct simulator *s);

#endif
