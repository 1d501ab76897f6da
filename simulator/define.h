/* Statements that give names to bytes. */
#ifndef DEFINE_H
#define DEFINE_H

#include "simulator.h"

/* NAME = BYTES, behind "bytes". */
void run_bytes(struct simulator *s);

/* The same for an IWKey's two parts, behind "iwkey". Other statements tell the IWKey by this name. */
void run_iwkey(struct simulator *s);

#endif
