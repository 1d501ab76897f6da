/* Statements about one logical processor. */
#ifndef PROCESSOR_H
#define PROCESSOR_H

#include "simulator.h"

/* Behind "cpu". */
void run_cpu(struct simulator *s);

#endif
