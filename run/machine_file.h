/* The file that a machine lives in, mapped by every process that uses it. */
#ifndef MACHINE_FILE_H
#define MACHINE_FILE_H

#include <stddef.h>
#include <stdint.h>

#include "keylocker.h"
#include "lock.h"

#define MACHINE_MAGIC "keylocker-run machine 1\n"

struct machine_file {
    char magic[32]; /* MACHINE_MAGIC and zeros */
    uint8_t check[8];
    uint8_t block[KEYLOCKER_MACHINE_SIZE];
    uint8_t zeros[1024 - 32 - 8 - KEYLOCKER_MACHINE_SIZE];
    struct lock lock; /* around each call on the block; what the file has here is nobody's */
    uint8_t rest[3072 - sizeof(struct lock)];
};

/* Magic and check of the block that is there. */
void machine_file_seal(struct machine_file *file);

/* What is wrong with what a file holds, in words, or nothing. */
const char *machine_file_fault(const struct machine_file *file, size_t len);

#endif
