/* How often what occurred on keyrings; a long run in which something never did has tested less than it claims. */
#ifndef KEYRING_COVERAGE_H
#define KEYRING_COVERAGE_H

#include "keyring_call.h"

/* a call on a keyring that 15 does not name, with arguments of the right lengths */
void cover_ring_call(const struct ring_call *c, const struct picture *before, uint32_t number);

/* a call that was meant to be refused with 15: on a keyring altered in this way, -1 for none */
void cover_ring_refused(const struct ring_call *c, int alteration);

/* an alteration that leaves a keyring */
void cover_ring_altered(int alteration);

void print_ring_coverage(void);
/* says on stdout what did not occur */
bool ring_coverage_is_full(void);

#endif
