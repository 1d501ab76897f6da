#define _DEFAULT_SOURCE /* mmap's MAP_ANONYMOUS */

#include "guard.h"

#include <stdint.h>
#include <sys/mman.h>

#include "../catch.h"

/* The library probes a frame of more than a page once a page, so no access skips this many. */
enum { GUARD = 65536 };

static uint8_t *room;

/* read by the assembly below */
uint8_t *small_stack_top;

/* A function with the library's prototype that moves to the small stack for the call alone: what it needs itself, and what its caller needs, stays on the
 * normal one. An argument on the stack is copied over, because the library looks for it there. */
#define ON_SMALL_STACK(name, arguments)                \
    __typeof__(keylocker_##name) small_##name;         \
    __asm__(".text\n"                                  \
            ".globl small_" #name "\n"                 \
            ".type small_" #name ", @function\n"       \
            "small_" #name ":\n"                       \
            "    push %rbp\n"                          \
            "    mov %rsp, %rbp\n"                     \
            "    mov small_stack_top(%rip), %rsp\n"    \
            arguments                                  \
            "    call keylocker_" #name "\n"           \
            "    mov %rbp, %rsp\n"                     \
            "    pop %rbp\n"                           \
            "    ret\n"                                \
            ".size small_" #name ", . - small_" #name "\n")

/* arguments 7 to 10 */
#define FOUR_ON_STACK          \
    "    pushq 40(%rbp)\n"     \
    "    pushq 32(%rbp)\n"     \
    "    pushq 24(%rbp)\n"     \
    "    pushq 16(%rbp)\n"

/* arguments 7 to 11, and 8 bytes that keep the stack aligned */
#define FIVE_ON_STACK          \
    "    sub $8, %rsp\n"       \
    "    pushq 48(%rbp)\n"     \
    FOUR_ON_STACK

ON_SMALL_STACK(power_on, "");
ON_SMALL_STACK(step, FIVE_ON_STACK);
ON_SMALL_STACK(ctr, FIVE_ON_STACK);
ON_SMALL_STACK(cpuid, FOUR_ON_STACK);
ON_SMALL_STACK(read, "");
ON_SMALL_STACK(write, "");
ON_SMALL_STACK(taken, "");
ON_SMALL_STACK(settle, "");
ON_SMALL_STACK(sleep, "");
ON_SMALL_STACK(reset, "");
ON_SMALL_STACK(keyring_lookup, "");
ON_SMALL_STACK(keyring_add, "");

const struct entries on_normal_stack = {keylocker_power_on, keylocker_step,   keylocker_ctr,   keylocker_cpuid, keylocker_read,          keylocker_write,
                                        keylocker_taken,    keylocker_settle, keylocker_sleep, keylocker_reset, keylocker_keyring_lookup,
                                        keylocker_keyring_add};
const struct entries on_small_stack = {small_power_on, small_step,   small_ctr,   small_cpuid, small_read,           small_write,
                                       small_taken,    small_settle, small_sleep, small_reset, small_keyring_lookup, small_keyring_add};

bool guard_start(void)
{
    uint8_t *all = mmap(NULL, GUARD + STACK_ROOM, PROT_READ | PROT_WRITE, MAP_PRIVATE | MAP_ANONYMOUS, -1, 0);
    if (all == MAP_FAILED || mprotect(all, GUARD, PROT_NONE) != 0)
        return false;
    room = all + GUARD;
    return catch_start(all, GUARD);
}

bool runs_on(size_t bytes, void (*make)(void *argument), void *argument)
{
    small_stack_top = room + bytes;
    return caught(make, argument) == NULL;
}
