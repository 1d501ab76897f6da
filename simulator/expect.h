/* What a trace expects of the last call, and of bytes and registers. */
#ifndef EXPECT_H
#define EXPECT_H

#include "simulator.h"

void run_expect(struct simulator *s);

#endif
