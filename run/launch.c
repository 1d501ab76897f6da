#include "launch.h"

#include <elf.h>
#include <errno.h>
#include <fcntl.h>
#include <signal.h>
#include <stdbool.h>
#include <stdio.h>
#include <stdlib.h>
#include <string.h>
#include <sys/resource.h>
#include <sys/stat.h>
#include <sys/wait.h>
#include <unistd.h>

#include "fail.h"
#include "options.h"

/* ---- the file */

/* As execvp finds it; none where only that knows. */
static char *find(const char *name)
{
    const char *path = getenv("PATH"), *end;
    char *file = NULL;
    if (strchr(name, '/') != NULL)
        return strdup(name);
    if (path == NULL)
        return NULL;
    for (;; path = end + 1) {
        end = strchrnul(path, ':');
        if (asprintf(&file, "%.*s%s%s", (int)(end - path), path, end == path ? "" : "/", name) < 0)
            fail(EXIT_OURS, "out of memory");
        if (access(file, X_OK) == 0 || *end == '\0')
            return file;
        free(file);
    }
}

/* Whether an ELF file names a dynamic linker, which is what loads the object. */
static bool dynamic(int fd, const Elf64_Ehdr *header)
{
    for (unsigned i = 0; i < header->e_phnum; i++) {
        Elf64_Phdr part;
        if (pread(fd, &part, sizeof part, (off_t)(header->e_phoff + (uint64_t)i * header->e_phentsize)) != sizeof part)
            break;
        if (part.p_type == PT_INTERP)
            return true;
    }
    return false;
}

/* What keeps the object out of a program, or nothing. Scripts and other files are left to exec. */
static const char *obstacle(int fd)
{
    Elf64_Ehdr header;
    struct stat status;
    if (fstat(fd, &status) == 0 && status.st_mode & (S_ISUID | S_ISGID) && geteuid() != 0)
        return "it is set-user-ID or set-group-ID, so the dynamic linker takes no object from outside";
    if (pread(fd, &header, sizeof header, 0) != sizeof header || memcmp(header.e_ident, ELFMAG, SELFMAG) != 0)
        return NULL;
    if (header.e_ident[EI_CLASS] != ELFCLASS64 || header.e_machine != EM_X86_64)
        return "it is not a program for x86-64";
    return dynamic(fd, &header) ? NULL : "it is linked statically, so no object can be loaded into it";
}

void look_at_program(const char *name)
{
    char *file = find(name);
    if (file == NULL)
        return;
    if (access(file, F_OK) < 0)
        fail(EXIT_NOT_FOUND, "%s: %s", name, strerror(errno));
    int fd = open(file, O_RDONLY | O_CLOEXEC);
    const char *why = fd < 0 ? NULL : obstacle(fd); // one that may be executed and not read is left to exec
    if (why != NULL)
        fail(EXIT_CANNOT_RUN, "%s: %s", name, why);
    if (fd >= 0)
        close(fd);
    free(file);
}

/* ---- the process */

void become(char **program)
{
    execvp(program[0], program);
    int error = errno;
    fail(error == ENOENT ? EXIT_NOT_FOUND : EXIT_CANNOT_RUN, "%s: %s", program[0], strerror(error));
}

static volatile pid_t child;

/* What is sent to keylocker-run is meant for the program. What the terminal sends, the program has got itself. */
static void forward(int signal, siginfo_t *info, void *context)
{
    bool terminals = signal == SIGINT || signal == SIGQUIT || signal == SIGHUP || signal == SIGWINCH || signal == SIGCONT;
    (void)context;
    if (child > 0 && !(terminals && info->si_code > 0))
        kill(child, signal);
}

/* All that can be caught, also those that were ignored or blocked, but for those about this process alone. */
static bool forwarded(int signal)
{
    static const int not[] = {SIGKILL, SIGSTOP, SIGCHLD, SIGTSTP, SIGTTIN, SIGTTOU, SIGILL, SIGTRAP, SIGBUS, SIGFPE, SIGSEGV};
    for (size_t i = 0; i < sizeof not / sizeof *not; i++)
        if (signal == not[i])
            return false;
    return true;
}

static struct sigaction found[NSIG];

static void forward_signals(void)
{
    const struct sigaction wait_for_children = {.sa_handler = SIG_DFL};
    const struct sigaction action = {.sa_sigaction = forward, .sa_flags = SA_SIGINFO | SA_RESTART};
    for (int signal = 1; signal < NSIG; signal++)
        if (signal == SIGCHLD)
            sigaction(signal, &wait_for_children, &found[signal]); // who started this may ignore its children
        else if (forwarded(signal))
            sigaction(signal, &action, &found[signal]);
}

/* For the program, as keylocker-run found them. */
static void restore_signals(void)
{
    for (int signal = 1; signal < NSIG; signal++)
        if (signal == SIGCHLD || forwarded(signal))
            sigaction(signal, &found[signal], NULL);
}

int run_program(char **program)
{
    sigset_t all, none, mask;
    int status;
    sigfillset(&all);
    sigemptyset(&none);
    sigprocmask(SIG_SETMASK, &all, &mask); // until it is known whom to forward to
    forward_signals();
    child = fork();
    if (child < 0)
        fail(EXIT_OURS, "no process can be made: %s", strerror(errno));
    if (child == 0) {
        restore_signals();
        sigprocmask(SIG_SETMASK, &mask, NULL);
        become(program);
    }
    sigprocmask(SIG_SETMASK, &none, NULL);
    while (waitpid(child, &status, 0) < 0 && errno == EINTR)
        continue;
    child = 0;
    return status;
}

void end_as(int status)
{
    if (!WIFSIGNALED(status))
        exit(WEXITSTATUS(status));
    const struct rlimit none = {0, 0};
    setrlimit(RLIMIT_CORE, &none); // the program has left a core file, or not
    signal(WTERMSIG(status), SIG_DFL);
    raise(WTERMSIG(status));
    exit(128 + WTERMSIG(status));
}
