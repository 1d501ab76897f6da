/* Executes instruction strings with all registers as given: what a program sees of one instruction, registers or signal.
 *
 * Lines of standard input: the CPU record, the string, an address and bytes to put there first, all in hexadecimal, - for none. Of the record the sixteen XMM and
 * the sixteen general registers and RFLAGS are used, RSP too. Lines of standard output: "done RECORD", or "signal NUMBER CODE ADDRESS RECORD" with the registers
 * that the handler found; RIP is counted from the string's place, CODE. Before them stands the base of FS.
 *
 *   registers [ALTERNATE]  with a stack for signals of so many bytes more than the kernel's least, in place of what the thread has */

#include <asm/prctl.h>
#include <inttypes.h>
#include <setjmp.h>
#include <signal.h>
#include <stdint.h>
#include <stdio.h>
#include <stdlib.h>
#include <string.h>
#include <sys/auxv.h>
#include <sys/mman.h>
#include <sys/syscall.h>
#include <ucontext.h>
#include <unistd.h>

#include "keylocker.h"

/* Where what is to be read lies: two pages, one behind them that is not there, one that cannot be read, and one of a file behind its end. */
#define REGION UINT64_C(0x20000000)
#define NO_ACCESS (REGION + 0x4000)
#define BEHIND_END (REGION + 0x8000)
#define CODE (REGION + 0x10000)
#define GS_BASE UINT64_C(0x1000)

enum { PAGE = 4096 };

/* ---- one string */

static uint8_t *code;

/* read and written by the assembly below, in the order of the CPU record */
uint8_t record[KEYLOCKER_CPU_SIZE] __attribute__((aligned(16)));
uint64_t saved_rsp;
void *entry;

/* Loads all registers, goes to the string, and keeps what it left. Behind the string stands a jump to execute_end. */
void execute_string(void);
void execute_end(void);
__asm__(".text\n"
        ".type execute_string, @function\n"
        "execute_string:\n"
        "    push %rbx\n push %rbp\n push %r12\n push %r13\n push %r14\n push %r15\n"
        "    mov %rsp, saved_rsp(%rip)\n"
        ".irp n, 0, 1, 2, 3, 4, 5, 6, 7, 8, 9, 10, 11, 12, 13, 14, 15\n"
        "    movaps record + 16 * \\n(%rip), %xmm\\n\n"
        ".endr\n"
        "    pushq record + 392(%rip)\n popfq\n"
        "    mov record + 256(%rip), %rax\n mov record + 264(%rip), %rcx\n mov record + 272(%rip), %rdx\n mov record + 280(%rip), %rbx\n"
        "    mov record + 288(%rip), %rsp\n mov record + 296(%rip), %rbp\n mov record + 304(%rip), %rsi\n mov record + 312(%rip), %rdi\n"
        "    mov record + 320(%rip), %r8\n mov record + 328(%rip), %r9\n mov record + 336(%rip), %r10\n mov record + 344(%rip), %r11\n"
        "    mov record + 352(%rip), %r12\n mov record + 360(%rip), %r13\n mov record + 368(%rip), %r14\n mov record + 376(%rip), %r15\n"
        "    jmp *entry(%rip)\n"
        ".globl execute_end\n"
        "execute_end:\n"
        "    mov %rax, record + 256(%rip)\n mov %rcx, record + 264(%rip)\n mov %rdx, record + 272(%rip)\n mov %rbx, record + 280(%rip)\n"
        "    mov %rsp, record + 288(%rip)\n mov %rbp, record + 296(%rip)\n mov %rsi, record + 304(%rip)\n mov %rdi, record + 312(%rip)\n"
        "    mov %r8, record + 320(%rip)\n mov %r9, record + 328(%rip)\n mov %r10, record + 336(%rip)\n mov %r11, record + 344(%rip)\n"
        "    mov %r12, record + 352(%rip)\n mov %r13, record + 360(%rip)\n mov %r14, record + 368(%rip)\n mov %r15, record + 376(%rip)\n"
        "    mov saved_rsp(%rip), %rsp\n"
        "    pushfq\n popq record + 392(%rip)\n cld\n"
        ".irp n, 0, 1, 2, 3, 4, 5, 6, 7, 8, 9, 10, 11, 12, 13, 14, 15\n"
        "    movaps %xmm\\n, record + 16 * \\n(%rip)\n"
        ".endr\n"
        "    pop %r15\n pop %r14\n pop %r13\n pop %r12\n pop %rbp\n pop %rbx\n"
        "    ret\n");

static void put_code(const uint8_t *string, size_t len)
{
    const uint8_t jump[] = {0xFF, 0x25, 0, 0, 0, 0}; // to the address behind it
    void (*end)(void) = execute_end;
    memcpy(code, string, len);
    memcpy(code + len, jump, sizeof jump);
    memcpy(code + len + sizeof jump, &end, sizeof end);
    entry = code;
}

/* ---- signals */

static sigjmp_buf behind;
static volatile sig_atomic_t number, code_of_signal;
static volatile uint64_t address;

static void note(int signal, siginfo_t *info, void *argument)
{
    static const int registers[16] = {REG_RAX, REG_RCX, REG_RDX, REG_RBX, REG_RSP, REG_RBP, REG_RSI, REG_RDI,
                                      REG_R8,  REG_R9,  REG_R10, REG_R11, REG_R12, REG_R13, REG_R14, REG_R15};
    const ucontext_t *context = argument;
    const greg_t *gregs = context->uc_mcontext.gregs;
    number = signal;
    code_of_signal = info->si_code;
    address = (uint64_t)info->si_addr;
    memcpy(record, context->uc_mcontext.fpregs->_xmm, 16 * 16);
    for (unsigned n = 0; n < 16; n++)
        keylocker_set_register(record, n, (uint64_t)gregs[registers[n]]);
    keylocker_set_rflags(record, (uint64_t)gregs[REG_EFL] & ~UINT64_C(0x10000)); // RF
    keylocker_set_rip(record, (uint64_t)gregs[REG_RIP] - (uint64_t)code);
    siglongjmp(behind, 1);
}

static void start_signals(const char *alternate)
{
    static const int signals[] = {SIGILL, SIGSEGV, SIGBUS, SIGTRAP};
    const struct sigaction action = {.sa_sigaction = note, .sa_flags = SA_SIGINFO | SA_ONSTACK};
    for (size_t i = 0; i < sizeof signals / sizeof *signals; i++)
        sigaction(signals[i], &action, NULL);
    if (alternate == NULL)
        return;
    size_t size = getauxval(AT_MINSIGSTKSZ) + (size_t)atol(alternate);
    uint8_t *room = mmap(NULL, size + 2 * PAGE, PROT_READ | PROT_WRITE, MAP_PRIVATE | MAP_ANONYMOUS, -1, 0);
    const stack_t stack = {.ss_sp = room + PAGE, .ss_size = size};
    if (room == MAP_FAILED || mprotect(room, PAGE, PROT_NONE) != 0 || sigaltstack(&stack, NULL) != 0)
        exit(3);
}

/* ---- lines */

static size_t take_bytes(const char *text, uint8_t *to, size_t most)
{
    size_t len = 0;
    unsigned byte;
    for (; len < most && sscanf(text + 2 * len, "%2x", &byte) == 1; len++)
        to[len] = (uint8_t)byte;
    return len;
}

static void execute(const uint8_t *string, size_t len)
{
    put_code(string, len);
    if (sigsetjmp(behind, 1) == 0) {
        execute_string();
        keylocker_set_rip(record, len);
        printf("done ");
    } else {
        printf("signal %d %d %" PRIx64 " ", (int)number, (int)code_of_signal, address);
    }
    for (size_t i = 0; i < sizeof record; i++)
        printf("%02x", record[i]);
    putchar('\n');
}

static void start_region(void)
{
    char name[] = "/tmp/registers-XXXXXX";
    int fd = mkstemp(name);
    if (fd < 0 || unlink(name) != 0 || mmap((void *)REGION, 2 * PAGE, PROT_READ | PROT_WRITE, MAP_PRIVATE | MAP_ANONYMOUS | MAP_FIXED, -1, 0) == MAP_FAILED ||
        mmap((void *)NO_ACCESS, PAGE, PROT_NONE, MAP_PRIVATE | MAP_ANONYMOUS | MAP_FIXED, -1, 0) == MAP_FAILED ||
        mmap((void *)BEHIND_END, PAGE, PROT_READ, MAP_PRIVATE | MAP_FIXED, fd, 0) == MAP_FAILED || syscall(SYS_arch_prctl, ARCH_SET_GS, GS_BASE) != 0)
        exit(3);
    code = mmap((void *)CODE, PAGE, PROT_READ | PROT_WRITE | PROT_EXEC, MAP_PRIVATE | MAP_ANONYMOUS | MAP_FIXED, -1, 0);
    if (code == MAP_FAILED)
        exit(3);
}

int main(int argc, char **argv)
{
    char record_text[1024], string_text[64], bytes_text[256];
    uint8_t string[16], bytes[64];
    uint64_t at;
    start_region();
    start_signals(argc > 1 ? argv[1] : NULL);
    uint64_t fs_base;
    syscall(SYS_arch_prctl, ARCH_GET_FS, &fs_base);
    printf("%" PRIx64 "\n", fs_base);
    fflush(stdout);
    while (scanf("%1023s %63s %" SCNx64 " %255s", record_text, string_text, &at, bytes_text) == 4) {
        take_bytes(record_text, record, sizeof record);
        size_t len = take_bytes(string_text, string, sizeof string), count = take_bytes(bytes_text, bytes, sizeof bytes);
        memcpy((void *)at, bytes, count);
        execute(string, len);
        fflush(stdout);
    }
    return 0;
}
