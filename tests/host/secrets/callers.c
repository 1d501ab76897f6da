#include "callers.h"

const uint8_t *caller_bottom;
static bool caller_clears;

/* A function with the library's prototype that makes the call and then clears the stack, or does not. */
#define CALLER(name, parameters, arguments)                                    \
    static __attribute__((noinline)) uint32_t host_##name parameters           \
    {                                                                          \
        __asm__ volatile("mov %%rsp, %0" : "=m"(caller_bottom));               \
        uint32_t answer = keylocker_##name arguments;                          \
        if (caller_clears)                                                     \
            keylocker_clear_stack();                                           \
        return answer;                                                         \
    }

#define MACHINE uint8_t *machine, size_t machine_len
#define CPU uint8_t *cpu, size_t cpu_len

CALLER(power_on, (MACHINE, uint8_t count, uint8_t features), (machine, machine_len, count, features))
CALLER(step,
       (MACHINE, uint8_t processor, CPU, const uint8_t *memory, size_t memory_len, const uint8_t *random, size_t random_len, const uint8_t *string,
        size_t string_len),
       (machine, machine_len, processor, cpu, cpu_len, memory, memory_len, random, random_len, string, string_len))
CALLER(ctr,
       (MACHINE, uint8_t processor, CPU, const uint8_t *handle, size_t handle_len, const uint8_t *counter, size_t counter_len, uint8_t *buffer,
        size_t buffer_len),
       (machine, machine_len, processor, cpu, cpu_len, handle, handle_len, counter, counter_len, buffer, buffer_len))
CALLER(cpuid, (const MACHINE, const CPU, uint32_t leaf, uint32_t subleaf, uint32_t *eax, uint32_t *ebx, uint32_t *ecx, uint32_t *edx),
       (machine, machine_len, cpu, cpu_len, leaf, subleaf, eax, ebx, ecx, edx))
CALLER(read, (const MACHINE, uint8_t processor, uint8_t cpl, uint32_t address, uint64_t *value), (machine, machine_len, processor, cpl, address, value))
CALLER(write, (MACHINE, uint8_t processor, uint8_t cpl, uint32_t address, uint64_t value), (machine, machine_len, processor, cpl, address, value))
CALLER(taken, (MACHINE), (machine, machine_len))
CALLER(settle, (MACHINE, uint8_t code), (machine, machine_len, code))
CALLER(sleep, (MACHINE, uint8_t code), (machine, machine_len, code))
CALLER(reset, (MACHINE), (machine, machine_len))
CALLER(keyring_lookup, (const uint8_t *keyring, size_t keyring_len, const uint8_t *label, size_t label_len, uint8_t *kind, uint8_t *handle),
       (keyring, keyring_len, label, label_len, kind, handle))
CALLER(keyring_add, (uint8_t *keyring, size_t keyring_len, const uint8_t *label, size_t label_len, const uint8_t *handle, size_t handle_len),
       (keyring, keyring_len, label, label_len, handle, handle_len))

static const struct entries callers = {host_power_on, host_step,   host_ctr,   host_cpuid, host_read,           host_write,
                                       host_taken,    host_settle, host_sleep, host_reset, host_keyring_lookup, host_keyring_add};

static __attribute__((noinline)) void call_and_clear(const struct kind *kind, struct lent *lent)
{
    make_call(kind, &callers, lent);
    keylocker_clear_stack();
}

/* The call lies below all that the function has itself. A compiler that made a jump of the last statement would give the frame up first. */
static __attribute__((noinline)) void call_and_clear_with_frame(const struct kind *kind, struct lent *lent)
{
    volatile uint8_t own[4096];
    own[0] = own[sizeof own - 1] = 0;
    make_call(kind, &callers, lent);
    keylocker_clear_stack();
}

void call_as_host(const struct kind *kind, enum clearing clearing, struct lent *lent)
{
    caller_clears = clearing == IN_THE_CALLER;
    if (clearing == FURTHER_OUT)
        call_and_clear(kind, lent);
    else if (clearing == WITH_LARGE_FRAME)
        call_and_clear_with_frame(kind, lent);
    else
        make_call(kind, &callers, lent);
}
