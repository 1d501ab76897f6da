/* CPUID under keylocker-run, also where the processor cannot make it fault.
 *
 *   cpuid answer LEAF SUBLEAF  prints EAX, EBX, ECX and EDX of a CPUID that faults: a parent that traces it sends the signal, as the kernel would
 *   cpuid host LEAF SUBLEAF    the same of one that does not */
#include <inttypes.h>
#include <signal.h>
#include <stdio.h>
#include <stdlib.h>
#include <string.h>
#include <sys/ptrace.h>
#include <sys/wait.h>
#include <unistd.h>

static void print_cpuid(uint32_t leaf, uint32_t subleaf, int stop)
{
    uint32_t a, b, c, d;
    if (stop)
        __asm__ volatile("int3\n\tcpuid" : "=a"(a), "=b"(b), "=c"(c), "=d"(d) : "0"(leaf), "2"(subleaf));
    else
        __asm__ volatile("cpuid" : "=a"(a), "=b"(b), "=c"(c), "=d"(d) : "0"(leaf), "2"(subleaf));
    printf("%" PRIx32 " %" PRIx32 " %" PRIx32 " %" PRIx32 "\n", a, b, c, d);
    fflush(stdout);
}

/* The child stops before its CPUID, and goes on with #GP. */
static int answer(uint32_t leaf, uint32_t subleaf)
{
    int status;
    siginfo_t fault = {.si_signo = SIGSEGV, .si_code = SI_KERNEL};
    pid_t child = fork();
    if (child == 0) {
        ptrace(PTRACE_TRACEME, 0, 0, 0);
        print_cpuid(leaf, subleaf, 1);
        _exit(0);
    }
    if (waitpid(child, &status, 0) != child || !WIFSTOPPED(status) || WSTOPSIG(status) != SIGTRAP || ptrace(PTRACE_SETSIGINFO, child, 0, &fault) != 0 ||
        ptrace(PTRACE_CONT, child, 0, SIGSEGV) != 0 || waitpid(child, &status, 0) != child)
        return 5;
    if (WIFSTOPPED(status))
        kill(child, SIGKILL);
    return status == 0 ? 0 : 6;
}

int main(int argc, char **argv)
{
    if (argc < 4)
        return 2;
    uint32_t leaf = (uint32_t)strtoul(argv[2], NULL, 16), subleaf = (uint32_t)strtoul(argv[3], NULL, 16);
    if (strcmp(argv[1], "answer") == 0)
        return answer(leaf, subleaf);
    print_cpuid(leaf, subleaf, 0);
    return 0;
}
