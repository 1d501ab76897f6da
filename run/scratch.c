#include "scratch.h"

#include <errno.h>
#include <poll.h>
#include <signal.h>
#include <stdio.h>
#include <stdlib.h>
#include <string.h>
#include <sys/syscall.h>
#include <sys/wait.h>
#include <unistd.h>

#include "fail.h"
#include "options.h"

enum { FILES_MOST = 4 };

static char *folder, *files[FILES_MOST];
static size_t count;

void scratch_remove(void)
{
    if (folder == NULL)
        return;
    while (count > 0)
        unlink(files[--count]);
    rmdir(folder);
    folder = NULL;
}

/* In memory if possible: keys are to be put there. */
static void make_folder(void)
{
    const char *given = getenv("TMPDIR"), *places[] = {"/dev/shm", given == NULL ? "/tmp" : given, "/tmp"};
    for (size_t i = 0; i < sizeof places / sizeof *places; i++) {
        if (asprintf(&folder, "%s/keylocker-run-XXXXXX", places[i]) < 0)
            fail(EXIT_OURS, "out of memory");
        if (mkdtemp(folder) != NULL) {
            atexit(scratch_remove);
            return;
        }
        free(folder);
        folder = NULL;
    }
    fail(EXIT_OURS, "no folder can be made in /dev/shm or /tmp: %s", strerror(errno));
}

char *scratch_file(const char *name)
{
    if (folder == NULL)
        make_folder();
    if (count == FILES_MOST || asprintf(&files[count], "%s/%s", folder, name) < 0)
        fail(EXIT_OURS, "out of memory");
    return files[count++];
}

/* ---- afterwards */

/* Until a process has ended. */
static void wait_for(pid_t process)
{
    struct pollfd end = {.fd = (int)syscall(SYS_pidfd_open, process, 0), .events = POLLIN};
    if (end.fd < 0) // before Linux 5.3
        while (kill(process, 0) == 0 || errno == EPERM)
            usleep(100000);
    else
        while (poll(&end, 1, -1) < 0 && errno == EINTR)
            continue;
}

/* It has nothing of the program's: neither descriptors, which others may wait for the end of, nor terminal, folder and signals. */
static _Noreturn void remove_behind(pid_t process)
{
    sigset_t all;
    sigfillset(&all);
    sigprocmask(SIG_SETMASK, &all, NULL);
    setsid();
    if (chdir("/") < 0)
        _exit(1);
    syscall(SYS_close_range, 0, ~0U, 0);
    for (int fd = 0; fd < 1024; fd++) // before Linux 5.9
        close(fd);
    wait_for(process);
    scratch_remove();
    _exit(0);
}

/* A child's child, which is nobody's to wait for. */
void scratch_outlive(void)
{
    pid_t process = getpid(), child = folder == NULL ? -1 : fork();
    if (child == 0) {
        if (fork() == 0)
            remove_behind(process);
        _exit(0);
    }
    while (child > 0 && waitpid(child, NULL, 0) < 0 && errno == EINTR)
        continue;
}
