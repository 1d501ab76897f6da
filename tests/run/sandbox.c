/* Runs a program where a system call gives another answer than the kernel's.
 *
 *   sandbox cpuid PROGRAM ARG..   to make CPUID fault seems to work
 *   sandbox memory PROGRAM ARG..  process_vm_readv is not permitted, as in some containers */
#include <asm/prctl.h>
#include <errno.h>
#include <linux/filter.h>
#include <linux/seccomp.h>
#include <stddef.h>
#include <stdint.h>
#include <string.h>
#include <sys/prctl.h>
#include <sys/syscall.h>
#include <unistd.h>

#ifndef ARCH_SET_CPUID
#define ARCH_SET_CPUID 0x1012
#endif

/* The call of this number gets the error, 0 for done; where its first argument is to be looked at, only with that. */
static int filter(uint32_t call, int look, uint32_t argument, uint32_t error)
{
    struct sock_filter program[] = {
        BPF_STMT(BPF_LD | BPF_W | BPF_ABS, offsetof(struct seccomp_data, nr)),
        BPF_JUMP(BPF_JMP | BPF_JEQ | BPF_K, call, 0, 3),
        BPF_STMT(BPF_LD | BPF_W | BPF_ABS, look ? offsetof(struct seccomp_data, args[0]) : offsetof(struct seccomp_data, nr)),
        BPF_JUMP(BPF_JMP | BPF_JEQ | BPF_K, look ? argument : call, 0, 1),
        BPF_STMT(BPF_RET | BPF_K, SECCOMP_RET_ERRNO | error),
        BPF_STMT(BPF_RET | BPF_K, SECCOMP_RET_ALLOW),
    };
    struct sock_fprog all = {sizeof program / sizeof *program, program};
    return prctl(PR_SET_NO_NEW_PRIVS, 1, 0, 0, 0) == 0 && prctl(PR_SET_SECCOMP, SECCOMP_MODE_FILTER, &all) == 0;
}

int main(int argc, char **argv)
{
    if (argc < 3)
        return 2;
    if (!(strcmp(argv[1], "cpuid") == 0 ? filter(SYS_arch_prctl, 1, ARCH_SET_CPUID, 0) : filter(SYS_process_vm_readv, 0, 0, EPERM)))
        return 3;
    execv(argv[2], argv + 2);
    return 4;
}
