/* The model against outside vectors: FIPS 197, RFC 8452, and the handle that Intel's specification prints. */
#ifndef SELFCHECK_H
#define SELFCHECK_H

#include <stdbool.h>

/* says on stderr what fails; the directory is tests/vectors */
bool model_meets_vectors(const char *directory);

#endif
