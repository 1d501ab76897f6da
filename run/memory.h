/* The program's memory, read so that no address can make the reader fault. */
#ifndef MEMORY_H
#define MEMORY_H

#include <signal.h>
#include <stddef.h>
#include <stdint.h>

#include "self.h"

/* How many of the bytes from an address on could be read, up to the first that could not. Of a length below a page. */
size_t read_memory(const struct self *self, uint64_t address, uint8_t *to, size_t len);

/* The same, faster, of memory that no other thread unmaps meanwhile: that of an instruction which is being executed. */
size_t read_code(uint64_t address, uint8_t *to, size_t len);

/* The signal, code and address that Linux gives who reads a byte that cannot be read. */
void memory_fault(uint64_t address, siginfo_t *info);

#endif
