/* Random keyrings, made, grown and altered, and every call on them by the library and by the model. */
#ifndef KEYRING_H
#define KEYRING_H

#include <stdbool.h>
#include <stdint.h>

/* Says on stdout what differs and where, or what a long run has not seen; false then. */
bool keyring_runs_alike(uint64_t seed, uint64_t keyrings);

#endif
