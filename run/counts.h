/* How many instructions of each kind were emulated, in a file that all processes of a run map. */
#ifndef COUNTS_H
#define COUNTS_H

#include <stdatomic.h>
#include <stdint.h>

#include "mnemonic.h"

struct counts {
    _Atomic uint64_t done[MNEMONICS];   /* with ZF 0 or 1 */
    _Atomic uint64_t failed[MNEMONICS]; /* with ZF 1 */
    _Atomic uint64_t signals[MNEMONICS]; /* became a signal */
};

#endif
