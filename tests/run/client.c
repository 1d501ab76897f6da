/* A program that uses Key Locker by the compiler's intrinsics, and knows nothing of how the instructions come to be executed. What it gets is compared with AES
 * in portable C (tests/host/aes.c).
 *
 *   client rounds N          all instructions but LOADIWKEY, with operands of all kinds, N times
 *   client threads N ROUNDS  the same in N threads, on the least stack that threads have, with all signals blocked
 *   client fork ROUNDS       the same in two processes, of which one uses a handle of the other
 *   client encode FILE       writes a handle; client use FILE uses it, and exits with 1 where it does not open
 *   client loadiwkey         LOADIWKEY, which a program may not execute
 *   client blocked           the same where SIGSEGV is blocked; client ignored, where it is ignored
 *   client cleared           what the library's stack holds afterwards: one of 16 KiB between pages that cannot be touched
 *   client handlers          its own handlers of signals, and the instructions inside of them
 *   client odd               children that have their parent's memory, C11's threads, and more that few programs do
 *   client closed            when all file descriptors are closed, and nothing but standard output is left
 *   client busy              rounds until it is killed
 *   client execute PROGRAM.. the same environment, another program
 *   client quiet             no such instruction */

#include <errno.h>
#include <immintrin.h>
#include <limits.h>
#include <pthread.h>
#include <sched.h>
#include <setjmp.h>
#include <signal.h>
#include <stdatomic.h>
#include <stdbool.h>
#include <stdint.h>
#include <stdio.h>
#include <stdlib.h>
#include <string.h>
#include <sys/mman.h>
#include <sys/wait.h>
#include <threads.h>
#include <unistd.h>

#include "aes.h"

#define NEED(condition) ((condition) ? (void)0 : failed(#condition, __LINE__))

static _Noreturn void failed(const char *condition, int line)
{
    fprintf(stderr, "client.c:%d: not so: %s\n", line, condition);
    exit(1);
}

/* ---- random bytes */

static __thread uint64_t state = 24;

static void fill(void *to, size_t len)
{
    uint8_t *p = to;
    for (size_t i = 0; i < len; i++) {
        state = state * 6364136223846793005 + 1442695040888963407;
        p[i] = (uint8_t)(state >> 56);
    }
}

/* ---- single and wide forms */

enum { BLOCK = 16, WIDE = 8 };

struct key {
    uint8_t bytes[32], handle[64];
    size_t len;
};

static void encode(struct key *key, size_t len, unsigned restrictions)
{
    __m128i low, high;
    fill(key->bytes, sizeof key->bytes);
    key->len = len;
    memcpy(&low, key->bytes, 16);
    memcpy(&high, key->bytes + 16, 16);
    unsigned told = len == 16 ? _mm_encodekey128_u32(restrictions, low, key->handle) : _mm_encodekey256_u32(restrictions, low, high, key->handle);
    NEED(told == 0); // an IWKey that was not made at random by the processor, and may be backed up
}

static unsigned use(const struct key *key, bool encrypt, const void *handle, __m128i *block)
{
    __m128i in = *block;
    if (key->len == 16)
        return encrypt ? _mm_aesenc128kl_u8(block, in, handle) : _mm_aesdec128kl_u8(block, in, handle);
    return encrypt ? _mm_aesenc256kl_u8(block, in, handle) : _mm_aesdec256kl_u8(block, in, handle);
}

static unsigned use_wide(const struct key *key, bool encrypt, __m128i blocks[WIDE])
{
    __m128i in[WIDE];
    memcpy(in, blocks, sizeof in);
    if (key->len == 16)
        return encrypt ? _mm_aesencwide128kl_u8(blocks, in, key->handle) : _mm_aesdecwide128kl_u8(blocks, in, key->handle);
    return encrypt ? _mm_aesencwide256kl_u8(blocks, in, key->handle) : _mm_aesdecwide256kl_u8(blocks, in, key->handle);
}

/* It keeps the last key schedule, so one thread at a time has it. */
static void portable(const struct key *key, bool encrypt, const void *in, uint8_t out[BLOCK])
{
    static pthread_mutex_t mutex = PTHREAD_MUTEX_INITIALIZER;
    pthread_mutex_lock(&mutex);
    if (encrypt)
        aes_encrypt(key->bytes, key->len, in, out);
    else
        aes_decrypt(key->bytes, key->len, in, out);
    pthread_mutex_unlock(&mutex);
}

static void try_single(const struct key *key, bool encrypt, const void *handle)
{
    __m128i block;
    uint8_t expected[BLOCK];
    fill(&block, sizeof block);
    portable(key, encrypt, &block, expected);
    NEED(use(key, encrypt, handle, &block) == 0);
    NEED(memcmp(&block, expected, BLOCK) == 0);
}

static void try_wide(const struct key *key, bool encrypt)
{
    __m128i blocks[WIDE];
    uint8_t expected[WIDE][BLOCK];
    fill(blocks, sizeof blocks);
    for (int i = 0; i < WIDE; i++)
        portable(key, encrypt, &blocks[i], expected[i]);
    NEED(use_wide(key, encrypt, blocks) == 0);
    NEED(memcmp(blocks, expected, sizeof expected) == 0);
}

/* ---- operands */

static uint8_t in_data[48]; /* of one thread at a time */
static pthread_mutex_t in_data_mutex = PTHREAD_MUTEX_INITIALIZER;
static __thread uint8_t of_thread[48];

/* One that the compiler would not choose; block in XMM9. */
#define USE_AT(operand, ...)                                                                                         \
    __asm__ volatile("movdqu %1, %%xmm9\n\taesenc128kl " operand ", %%xmm9\n\tmovdqu %%xmm9, %1\n\tsetz %0"          \
                     : "=r"(zf), "+m"(block)                                                                         \
                     : __VA_ARGS__                                                                                   \
                     : "xmm9", "cc", "memory")

#define TRY_AT(operand, ...)                                              \
    do {                                                                  \
        uint8_t zf, expected[BLOCK];                                      \
        __m128i block;                                                    \
        fill(&block, sizeof block);                                       \
        portable(key, true, &block, expected);                            \
        USE_AT(operand, __VA_ARGS__);                                     \
        NEED(zf == 0 && memcmp(&block, expected, BLOCK) == 0);            \
    } while (0)

static void try_operands(const struct key *key)
{
    uint8_t on_stack[48], *low = mmap(NULL, 4096, PROT_READ | PROT_WRITE, MAP_PRIVATE | MAP_ANONYMOUS | MAP_32BIT, -1, 0);
    register const uint8_t *r12 __asm__("r12") = key->handle - 24;
    register uint64_t r13 __asm__("r13") = 3;
    NEED(low != MAP_FAILED);
    memcpy(low + 4096 - 48, key->handle, 48); // up to the page's end
    memcpy(of_thread, key->handle, 48);
    memcpy(on_stack, key->handle, 48);
    try_single(key, true, on_stack);
    try_single(key, true, of_thread);
    pthread_mutex_lock(&in_data_mutex);
    memcpy(in_data, key->handle, 48);
    TRY_AT("in_data(%%rip)", "m"(in_data));
    pthread_mutex_unlock(&in_data_mutex);
    TRY_AT("%2", "m"(on_stack));
    TRY_AT("(%2,%3,8)", "r"(r12), "r"(r13));
    TRY_AT("-16(%2,%3,1)", "r"(key->handle), "r"((uint64_t)16));
    TRY_AT("(%k2)", "r"((uint64_t)low + 4096 - 48));
    TRY_AT("%%fs:(%2)", "r"((uint64_t)of_thread - (uint64_t)__builtin_thread_pointer()));
    munmap(low, 4096);
}

/* ---- handles that must not open */

static void try_wrong(const struct key *key, unsigned restrictions)
{
    __m128i block;
    struct key wrong = *key;
    fill(&block, sizeof block);
    wrong.handle[state % (32 + key->len)] ^= 0x10;
    NEED(use(&wrong, true, wrong.handle, &block) == 1);
    wrong = *key;
    wrong.len = 48 - key->len;
    NEED(use(&wrong, true, wrong.handle, &block) == 1);
    struct key forbidden;
    encode(&forbidden, key->len, restrictions);
    NEED(use(&forbidden, true, forbidden.handle, &block) == ((restrictions & 3) != 0)); // at CPL 3, and not for encryption
    NEED(use(&forbidden, false, forbidden.handle, &block) == ((restrictions & 5) != 0));
}

static void round_of_all(unsigned n)
{
    struct key keys[2];
    for (int size = 0; size < 2; size++) {
        encode(&keys[size], size == 0 ? 16 : 32, 0);
        for (int encrypt = 0; encrypt < 2; encrypt++) {
            try_single(&keys[size], encrypt, keys[size].handle);
            try_wide(&keys[size], encrypt);
        }
        try_wrong(&keys[size], n % 8);
    }
    try_operands(&keys[0]);
}

static int rounds(unsigned count)
{
    for (unsigned n = 0; n < count; n++)
        round_of_all(n);
    return 0;
}

/* ---- threads */

static unsigned rounds_of_thread;
static atomic_uint ended;

static void *of_one_thread(void *seed)
{
    sigset_t all;
    state = (uint64_t)seed;
    sigfillset(&all);
    NEED(pthread_sigmask(SIG_BLOCK, &all, NULL) == 0);
    rounds(rounds_of_thread);
    atomic_fetch_add(&ended, 1);
    return seed;
}

static int threads(unsigned count)
{
    pthread_t made[count];
    pthread_attr_t attributes;
    pthread_attr_init(&attributes);
    pthread_attr_setstacksize(&attributes, PTHREAD_STACK_MIN);
    for (uint64_t i = 0; i < count; i++)
        NEED(pthread_create(&made[i], &attributes, of_one_thread, (void *)(i + 1)) == 0);
    for (uint64_t i = 0; i < count; i++) {
        void *result;
        NEED(pthread_join(made[i], &result) == 0 && result == (void *)(i + 1));
    }
    return atomic_load(&ended) == count ? 0 : 1;
}

/* ---- processes */

static int in_two_processes(unsigned count)
{
    struct key key;
    int status;
    encode(&key, 32, 0);
    pid_t child = fork();
    NEED(child >= 0);
    state += (uint64_t)child;
    for (unsigned n = 0; n < count; n++) {
        try_single(&key, n % 2, key.handle);
        round_of_all(n);
    }
    if (child == 0)
        _exit(0);
    NEED(waitpid(child, &status, 0) == child);
    return status;
}

static int encode_to(const char *path)
{
    struct key key;
    FILE *file = fopen(path, "wb");
    encode(&key, 32, 0);
    return file != NULL && fwrite(&key, sizeof key, 1, file) == 1 && fclose(file) == 0 ? 0 : 2;
}

static int use_from(const char *path)
{
    struct key key;
    __m128i block;
    FILE *file = fopen(path, "rb");
    NEED(file != NULL && fread(&key, sizeof key, 1, file) == 1);
    fill(&block, sizeof block);
    if (use(&key, true, key.handle, &block) != 0)
        return 1;
    try_single(&key, true, key.handle);
    return 0;
}

/* ---- signals */

static sigjmp_buf behind;
static volatile sig_atomic_t last;

static void leave(int signal)
{
    last = signal;
    siglongjmp(behind, 1);
}

static void skip_ud2(int signal, siginfo_t *info, void *argument)
{
    ucontext_t *context = argument;
    last = signal;
    NEED((greg_t)info->si_addr == context->uc_mcontext.gregs[REG_RIP]);
    context->uc_mcontext.gregs[REG_RIP] += 2;
    round_of_all(1); // in the handler of the very signal
}

static uint8_t *lazy;
static const struct key *lazy_key;

/* A program that maps its pages when they are first read. */
static void map_lazily(int signal, siginfo_t *info, void *context)
{
    (void)context;
    last = signal;
    NEED(info->si_code == SEGV_ACCERR && info->si_addr == lazy);
    NEED(mprotect(lazy, 4096, PROT_READ | PROT_WRITE) == 0);
    memcpy(lazy, lazy_key->handle, 48);
}

static void round_in_handler(int signal)
{
    last = signal;
    round_of_all(2);
}

typedef void handler_fn(int signal);

static void set(int signal, handler_fn *handler, int flags)
{
    struct sigaction action = {.sa_handler = handler, .sa_flags = flags}, read;
    sigfillset(&action.sa_mask);
    NEED(sigaction(signal, &action, NULL) == 0 && sigaction(signal, NULL, &read) == 0);
    NEED(read.sa_handler == handler && (read.sa_flags & ~0x04000000) == flags);
}

static int handlers(void)
{
    struct key key;
    encode(&key, 16, 0);
    for (int i = 0; i < 3; i++) { // left by a jump, again and again
        set(SIGILL, leave, 0);
        set(SIGSEGV, leave, SA_ONSTACK);
        last = 0;
        if (sigsetjmp(behind, 1) == 0)
            __asm__ volatile("ud2");
        NEED(last == SIGILL);
        round_of_all(0);
        if (sigsetjmp(behind, 1) == 0)
            _mm_loadiwkey(0, _mm_setzero_si128(), _mm_setzero_si128(), _mm_setzero_si128());
        NEED(last == SIGSEGV);
        if (sigsetjmp(behind, 1) == 0)
            try_single(&key, true, (const void *)8);
        NEED(last == SIGSEGV);
        NEED(signal(SIGILL, SIG_DFL) == leave && signal(SIGILL, leave) == SIG_DFL);
    }
    set(SIGILL, (handler_fn *)(void *)skip_ud2, SA_SIGINFO);
    last = 0;
    __asm__ volatile("ud2");
    NEED(last == SIGILL);
    set(SIGSEGV, (handler_fn *)(void *)map_lazily, SA_SIGINFO);
    lazy = mmap(NULL, 4096, PROT_NONE, MAP_PRIVATE | MAP_ANONYMOUS, -1, 0);
    lazy_key = &key;
    try_single(&key, true, lazy);
    NEED(last == SIGSEGV);
    set(SIGUSR1, round_in_handler, 0); // with all signals blocked
    NEED(raise(SIGUSR1) == 0 && last == SIGUSR1);
    NEED(signal(SIGILL, SIG_DFL) == (handler_fn *)(void *)skip_ud2);
    puts("all");
    fflush(stdout);
    __asm__ volatile("ud2"); // and now it ends
    return 0;
}

static _Noreturn void load(void)
{
    _mm_loadiwkey(0, _mm_setzero_si128(), _mm_setzero_si128(), _mm_setzero_si128());
    exit(2);
}

static void load_blocked(void)
{
    sigset_t all;
    sigfillset(&all);
    NEED(sigprocmask(SIG_BLOCK, &all, NULL) == 0);
    load();
}

static int cleared(void)
{
    uint8_t *begin, *end, *guard_end = NULL;
    char line[512], mode[8];
    int found = 0;
    FILE *maps = fopen("/proc/self/maps", "r");
    rounds(1);
    while (maps != NULL && fgets(line, sizeof line, maps) != NULL && sscanf(line, "%p-%p %7s", (void **)&begin, (void **)&end, mode) == 3) {
        bool is_stack = begin == guard_end && end - begin == 16384 && strcmp(mode, "rw-p") == 0;
        for (size_t i = 0; is_stack && i < 16384; i++)
            NEED(begin[i] == 0);
        found += is_stack;
        guard_end = strcmp(mode, "---p") == 0 ? end : NULL;
    }
    return found == 1 ? 0 : 3;
}

/* ---- what few programs do */

static int in_child(void *argument)
{
    round_of_all(4);
    return (int)(intptr_t)argument;
}

__attribute__((noinline)) static pid_t vforked(void)
{
    pid_t child = vfork();
    if (child == 0) {
        round_of_all(3);
        _exit(7);
    }
    return child;
}

static void odd_processes(void)
{
    int status;
    for (int i = 0; i < 3; i++) {
        pid_t child = vforked();
        NEED(waitpid(child, &status, 0) == child && WIFEXITED(status) && WEXITSTATUS(status) == 7);
        round_of_all(3);
    }
    static uint8_t stack[65536] __attribute__((aligned(16)));
    struct key key;
    encode(&key, 16, 0);
    pid_t child = clone(in_child, stack + sizeof stack, CLONE_VM | SIGCHLD, (void *)5); // at the same time, with this one's variables
    for (int i = 0; i < 200; i++) {
        __m128i block = _mm_setzero_si128();
        NEED(use(&key, true, key.handle, &block) == 0);
    }
    NEED(waitpid(child, &status, 0) == child && WIFEXITED(status) && WEXITSTATUS(status) == 5);
}

static void odd_memory(void)
{
    struct key key;
    __m128i block = _mm_setzero_si128();
    encode(&key, 32, 0);
    uint8_t *page = mmap(NULL, 4096, PROT_READ | PROT_WRITE, MAP_PRIVATE | MAP_ANONYMOUS, -1, 0);
    NEED(page != MAP_FAILED);
    memcpy(page + 1, key.handle, 64);
    NEED(mprotect(page, 4096, PROT_WRITE) == 0); // which the processor lets be read
    __asm__ volatile("pushfq\n\torq $0x40000, (%%rsp)\n\tpopfq" : : : "cc", "memory"); // alignment is checked
    unsigned zf = use(&key, true, page + 1, &block);
    __asm__ volatile("pushfq\n\tandq $~0x40000, (%%rsp)\n\tpopfq" : : : "cc", "memory");
    NEED(zf == 0);
}

static void odd_signals(void)
{
    NEED(sigset(SIGILL, leave) == SIG_DFL && sighold(SIGILL) == 0);
    round_of_all(5);
    last = 0;
    if (sigsetjmp(behind, 1) == 0)
        __asm__ volatile("ud2");
    NEED(last == SIGILL && sigignore(SIGILL) == 0);
    round_of_all(5);
    NEED(raise(SIGILL) == 0 && signal(SIGILL, SIG_DFL) == SIG_IGN);
}

static int odd(void)
{
    thrd_t thread;
    int result;
    odd_processes();
    odd_memory();
    odd_signals();
    NEED(thrd_create(&thread, in_child, (void *)6) == thrd_success && thrd_join(thread, &result) == thrd_success && result == 6);
    return 0;
}

static int closed(void)
{
    for (int fd = 3; fd < 1024; fd++)
        close(fd);
    return rounds(3);
}

/* ---- the start */

/* Constructors may use the instructions, too. */
__attribute__((constructor)) static void early(int argc, char **argv)
{
    aes_start();
    if (argc > 1 && strcmp(argv[1], "quiet") != 0 && strcmp(argv[1], "execute") != 0)
        round_of_all(0);
}

int main(int argc, char **argv)
{
    const char *what = argc > 1 ? argv[1] : "";
    unsigned count = argc > 2 ? (unsigned)atoi(argv[2]) : 0;
    if (strcmp(what, "rounds") == 0)
        return rounds(count);
    if (strcmp(what, "threads") == 0 && argc > 3) {
        rounds_of_thread = (unsigned)atoi(argv[3]);
        return threads(count);
    }
    if (strcmp(what, "fork") == 0)
        return in_two_processes(count);
    if (strcmp(what, "encode") == 0)
        return encode_to(argv[2]);
    if (strcmp(what, "use") == 0)
        return use_from(argv[2]);
    if (strcmp(what, "ignored") == 0)
        NEED(signal(SIGSEGV, SIG_IGN) == SIG_DFL);
    if (strcmp(what, "loadiwkey") == 0 || strcmp(what, "ignored") == 0)
        load();
    if (strcmp(what, "blocked") == 0)
        load_blocked();
    if (strcmp(what, "cleared") == 0)
        return cleared();
    if (strcmp(what, "handlers") == 0)
        return handlers();
    if (strcmp(what, "odd") == 0)
        return odd();
    if (strcmp(what, "closed") == 0)
        return closed();
    while (strcmp(what, "busy") == 0)
        round_of_all(0);
    if (strcmp(what, "execute") == 0)
        execv(argv[2], argv + 2);
    return strcmp(what, "quiet") == 0 ? 0 : 2;
}
