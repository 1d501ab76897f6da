/* The machine's file, as the front program opens or makes it. */
#ifndef MACHINE_OPEN_H
#define MACHINE_OPEN_H

#include <stdint.h>

#include "machine_file.h"

/* Opens it, or makes it where it is not there: powered on, with the IWKey or a random one where none is given. Exits with a message where it is damaged, or has
 * another IWKey than the one given; nothing is overwritten. What it holds is given, too. */
void machine_open(const char *path, const uint8_t *iwkey, struct machine_file *held);

#endif
