#include "machine_file.h"

#include <string.h>

_Static_assert(sizeof(struct machine_file) == 4096, "a page");

/* 64 bits of FNV-1a: no change of one byte, and next to no other, leaves it. Against accidents; who can write the file can write this, too. */
static void check_of(const uint8_t *block, uint8_t check[8])
{
    uint64_t hash = 0xcbf29ce484222325;
    for (size_t i = 0; i < KEYLOCKER_MACHINE_SIZE; i++)
        hash = (hash ^ block[i]) * 0x100000001b3;
    for (unsigned i = 0; i < 8; i++)
        check[i] = (uint8_t)(hash >> 8 * i);
}

void machine_file_seal(struct machine_file *file)
{
    memset(file->magic, 0, sizeof file->magic);
    memcpy(file->magic, MACHINE_MAGIC, sizeof MACHINE_MAGIC - 1);
    check_of(file->block, file->check);
}

/* Every call refuses another block. */
static bool block_fits(const uint8_t *block)
{
    uint64_t value;
    return keylocker_read(block, KEYLOCKER_MACHINE_SIZE, 0, 0, KEYLOCKER_COPY_STATUS, &value) != KEYLOCKER_BAD_MACHINE;
}

const char *machine_file_fault(const struct machine_file *file, size_t len)
{
    struct machine_file sealed = *file;
    if (len < sizeof file->magic || memcmp(file->magic, MACHINE_MAGIC, sizeof MACHINE_MAGIC - 1) != 0)
        return "not a machine of keylocker-run, or its beginning is damaged";
    if (len != sizeof *file)
        return "damaged: not 4096 bytes long";
    machine_file_seal(&sealed);
    if (memcmp(&sealed, file, offsetof(struct machine_file, zeros)) != 0)
        return "damaged: its check does not fit the machine in it";
    if (!block_fits(file->block))
        return "damaged: the machine in it is not of the form that the library takes";
    return NULL;
}
