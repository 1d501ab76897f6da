#include "overlap.h"

#include <stdio.h>
#include <string.h>

#include "keylocker.h"
#include "worked.h"

enum { HANDLE_AT = 96, REGION = 256 };

static uint8_t machine[KEYLOCKER_MACHINE_SIZE], cpu[KEYLOCKER_CPU_SIZE];

/* a machine whose IWKey is zero, so that the handle that Intel prints opens on it */
static void power_on(void)
{
    keylocker_power_on(machine, sizeof machine, 1, KEYLOCKER_FEATURE_ALL);
    memset(cpu, 0, sizeof cpu);
    cpu[KEYLOCKER_CPU_CONTROL] = KEYLOCKER_CONTROL_CR4_KL | KEYLOCKER_CONTROL_CR4_OSFXSR;
}

static bool met(bool condition, const char *what)
{
    if (!condition)
        printf("overlapping buffers: %s\n", what);
    return condition;
}

/* The string lies in guest memory, everywhere but in the handle; the random data, too, on both sides of where the string begins. */
static bool step_meets(void)
{
    static const uint8_t string[] = {0xF3, 0x0F, 0x38, 0xDC, 0x00}; /* aesenc128kl xmm0, [rax] */
    bool good = true;
    for (size_t at = 0; at + KEYLOCKER_RANDOM_SIZE <= REGION; at++) {
        uint8_t memory[REGION] = {0};
        if (at + sizeof string > HANDLE_AT && at < HANDLE_AT + sizeof ZERO_HANDLE)
            continue;
        memcpy(memory + HANDLE_AT, ZERO_HANDLE, sizeof ZERO_HANDLE);
        memcpy(memory + at, string, sizeof string);
        power_on();
        keylocker_set_register(cpu, KEYLOCKER_RAX, HANDLE_AT);
        uint32_t answer = keylocker_step(machine, sizeof machine, 0, cpu, sizeof cpu, memory, sizeof memory, memory + (at < 8 ? 0 : at - 8),
                                         KEYLOCKER_RANDOM_SIZE, memory + at, sizeof string);
        good &= answer == KEYLOCKER_DONE && memcmp(cpu, ZERO_ENCRYPTED, sizeof ZERO_ENCRYPTED) == 0 && keylocker_get_rip(cpu) == sizeof string;
    }
    return met(good, "a string in guest memory");
}

/* The counter block is the handle's AAD, of zeros. */
static bool ctr_meets(void)
{
    uint8_t buffer[sizeof ZERO_ENCRYPTED] = {0};
    power_on();
    uint32_t answer =
        keylocker_ctr(machine, sizeof machine, 0, cpu, sizeof cpu, ZERO_HANDLE, sizeof ZERO_HANDLE, ZERO_HANDLE, KEYLOCKER_COUNTER_SIZE, buffer, sizeof buffer);
    return met(answer == KEYLOCKER_DONE && memcmp(buffer, ZERO_ENCRYPTED, sizeof buffer) == 0, "a counter block in a handle");
}

/* The CPU record is of zeros, which the machine block ends with: CR4.KL is off. */
static bool cpuid_meets(void)
{
    uint32_t eax = 1, ebx = 1, ecx = 1, edx = 1;
    power_on();
    uint32_t answer = keylocker_cpuid(machine, sizeof machine, machine + sizeof machine - KEYLOCKER_CPU_SIZE, KEYLOCKER_CPU_SIZE, 0x19, 0, &eax, &ebx, &ecx, &edx);
    return met(answer == KEYLOCKER_DONE && eax == 7 && ebx == 0x14 && ecx == 3 && edx == 0, "a CPU record in a machine block");
}

/* The label of what is added is part of the handle; what is looked up has its label in the keyring. */
static bool keyring_meets(void)
{
    uint8_t keyring[2 * KEYLOCKER_KEYRING_RECORD] = {0}, kind = 0xFF, handle[KEYLOCKER_HANDLE_256_SIZE];
    const uint8_t *label = keyring + KEYLOCKER_KEYRING_RECORD + KEYLOCKER_RECORD_LABEL;
    uint32_t added = keylocker_keyring_add(keyring, sizeof keyring, ZERO_HANDLE + 16, KEYLOCKER_LABEL_SIZE, ZERO_HANDLE, sizeof ZERO_HANDLE);
    uint32_t found = keylocker_keyring_lookup(keyring, sizeof keyring, label, KEYLOCKER_LABEL_SIZE, &kind, handle);
    return met(added == KEYLOCKER_DONE && memcmp(label, ZERO_HANDLE + 16, KEYLOCKER_LABEL_SIZE) == 0, "a label in a handle") &
           met(found == KEYLOCKER_DONE && kind == KEYLOCKER_KIND_128 && memcmp(handle, ZERO_HANDLE, sizeof ZERO_HANDLE) == 0, "a label in a keyring");
}

bool library_meets_overlap(void)
{
    return step_meets() & ctr_meets() & cpuid_meets() & keyring_meets();
}
