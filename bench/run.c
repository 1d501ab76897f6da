// Instructions that trap and are executed by keylocker-run, against the same call of the library, and against the trap alone. To be run by keylocker-run.
#define _GNU_SOURCE // REG_RIP, syscall

#include <signal.h>
#include <stdio.h>
#include <stdlib.h>
#include <string.h>
#include <sys/syscall.h>
#include <ucontext.h>
#include <unistd.h>

#include "keylocker.h"
#include "measure.h"

// ---- the program's instructions; the handle is at RAX, the block in XMM0, the blocks in XMM0 to XMM7

#define BYTES_AESENC128KL 0xF3, 0x0F, 0x38, 0xDC, 0x00
#define BYTES_AESENC256KL 0xF3, 0x0F, 0x38, 0xDE, 0x00
#define BYTES_AESDEC256KL 0xF3, 0x0F, 0x38, 0xDF, 0x00
#define BYTES_AESENCWIDE128KL 0xF3, 0x0F, 0x38, 0xD8, 0x00
#define BYTES_AESENCWIDE256KL 0xF3, 0x0F, 0x38, 0xD8, 0x10
#define BYTES_ENCODEKEY128 0xF3, 0x0F, 0x38, 0xFA, 0xC9 // encodekey128 ecx, ecx
#define BYTES_ENCODEKEY256 0xF3, 0x0F, 0x38, 0xFB, 0xC9

#define TEXT(...) #__VA_ARGS__
#define BYTE_LINE(...) ".byte " TEXT(__VA_ARGS__)
#define CLOBBERED "rcx", "cc", "memory", "xmm0", "xmm1", "xmm2", "xmm3", "xmm4", "xmm5", "xmm6", "xmm7"
#define EXECUTED(name)                                                                    \
    static void execute_##name(const uint8_t *handle)                                     \
    {                                                                                     \
        __asm__ volatile("xor %%ecx, %%ecx\n\t" BYTE_LINE(BYTES_##name) : : "a"(handle) : CLOBBERED); \
    }

EXECUTED(AESENC128KL)
EXECUTED(AESENC256KL)
EXECUTED(AESDEC256KL)
EXECUTED(AESENCWIDE128KL)
EXECUTED(AESENCWIDE256KL)
EXECUTED(ENCODEKEY128)
EXECUTED(ENCODEKEY256)

#define ROW(name, handle_len) {#name, execute_##name, {BYTES_##name}, handle_len}

static const struct instruction {
    const char *name;
    void (*execute)(const uint8_t *handle);
    uint8_t string[5];
    size_t handle_len; // 0 for none
} instructions[] = {
    ROW(AESENC128KL, 48),     ROW(AESENC256KL, 64),  ROW(AESDEC256KL, 64), ROW(AESENCWIDE128KL, 48),
    ROW(AESENCWIDE256KL, 64), ROW(ENCODEKEY128, 0), ROW(ENCODEKEY256, 0),
};

// ---- handles: the program's, and those of a machine of this program's own

static uint8_t machine[KEYLOCKER_MACHINE_SIZE], cpu[KEYLOCKER_CPU_SIZE];
static uint8_t trapped_handle[2][64], own_handle[2][64];

static uint32_t step(const uint8_t *string, const uint8_t *handle, size_t handle_len)
{
    return keylocker_step(machine, sizeof machine, 0, cpu, sizeof cpu, handle, handle_len, NULL, 0, string, 5);
}

static void start(void)
{
    static const uint8_t loadiwkey[] = {0xF3, 0x0F, 0x38, 0xDC, 0xD1}, encodes[2][5] = {{BYTES_ENCODEKEY128}, {BYTES_ENCODEKEY256}};
    keylocker_power_on(machine, sizeof machine, 1, KEYLOCKER_FEATURE_ALL);
    cpu[KEYLOCKER_CPU_CONTROL] = KEYLOCKER_CONTROL_CR4_KL | KEYLOCKER_CONTROL_CR4_OSFXSR;
    fill_random(cpu, 48);
    step(loadiwkey, NULL, 0);
    for (int size = 0; size < 2; size++) {
        step(encodes[size], NULL, 0);
        memcpy(own_handle[size], cpu, sizeof own_handle[size]);
    }
    __asm__ volatile("xor %%ecx, %%ecx\n\t" BYTE_LINE(BYTES_ENCODEKEY128) "\n\tmovups %%xmm0, (%0)\n\tmovups %%xmm1, 16(%0)\n\tmovups %%xmm2, 32(%0)"
                     : : "r"(trapped_handle[0]) : CLOBBERED);
    __asm__ volatile("xor %%ecx, %%ecx\n\t" BYTE_LINE(BYTES_ENCODEKEY256)
                     "\n\tmovups %%xmm0, (%0)\n\tmovups %%xmm1, 16(%0)\n\tmovups %%xmm2, 32(%0)\n\tmovups %%xmm3, 48(%0)"
                     : : "r"(trapped_handle[1]) : CLOBBERED);
}

// ---- the trap alone: a handler in the place of keylocker-run's, by the system call, that steps over the instruction and returns

struct kernel_action {
    void (*handler)(int signal, siginfo_t *info, void *context);
    unsigned long flags;
    void (*restorer)(void);
    uint64_t mask;
};

static void step_over(int signal, siginfo_t *info, void *context)
{
    (void)signal, (void)info;
    ((ucontext_t *)context)->uc_mcontext.gregs[REG_RIP] += 5;
}

static void exchange_handler(const struct kernel_action *action, struct kernel_action *old)
{
    if (syscall(SYS_rt_sigaction, SIGILL, action, old, sizeof action->mask) != 0)
        exit(1);
}

// ---- measuring: the least of several slices, which take turns

enum { TRAP_ALONE, TRAPPED, CALLED, WAYS, SLICES = 25, REPS = 2000 };

static double reps_ns(const struct instruction *i, int way)
{
    int size = i->handle_len == 64;
    double begin = now_ns();
    for (int rep = 0; rep < REPS; rep++)
        if (way != CALLED)
            i->execute(trapped_handle[size]);
        else if (step(i->string, own_handle[size], i->handle_len) != KEYLOCKER_DONE)
            exit(1);
    return (now_ns() - begin) / REPS;
}

static double slice_ns(const struct instruction *i, int way)
{
    struct kernel_action ours, alone;
    exchange_handler(NULL, &ours);
    alone = ours;
    alone.handler = step_over;
    if (way == TRAP_ALONE)
        exchange_handler(&alone, NULL);
    double ns = reps_ns(i, way);
    exchange_handler(&ours, NULL);
    return ns;
}

static void measure(const struct instruction *i, double least[WAYS])
{
    for (int slice = 0; slice < SLICES; slice++)
        for (int way = 0; way < WAYS; way++) {
            double ns = slice_ns(i, way);
            if (slice == 0 || ns < least[way])
                least[way] = ns;
        }
}

int main(void)
{
    start();
    printf("keylocker-run, ns an instruction, the least of %d slices of %d\n%-16s %9s %15s %11s %6s\n", SLICES, REPS, "", "emulated", "library's call",
           "trap alone", "rest");
    for (size_t n = 0; n < sizeof instructions / sizeof *instructions; n++) {
        double least[WAYS];
        measure(&instructions[n], least);
        printf("%-16s %9.0f %15.0f %11.0f %6.0f\n", instructions[n].name, least[TRAPPED], least[CALLED], least[TRAP_ALONE],
               least[TRAPPED] - least[CALLED] - least[TRAP_ALONE]);
    }
    return 0;
}
