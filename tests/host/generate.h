/* Random calls: well-formed ones, spoiled ones, and ones whose answer only the model knows. */
#ifndef GENERATE_H
#define GENERATE_H

#include "trial.h"

void generate(const struct world *world, struct trial *t);

#endif
