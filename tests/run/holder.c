/* The lock of a machine file (run/lock.h), held by processes that die or stop in it.
 *
 *   holder dies         one that dies frees it, for one that comes later and for ones that wait; threads and processes exclude each other
 *   holder stops FILE   takes the lock of the file and stops */

#include <linux/futex.h>
#include <pthread.h>
#include <signal.h>
#include <stdio.h>
#include <stdlib.h>
#include <string.h>
#include <sys/mman.h>
#include <sys/wait.h>
#include <unistd.h>

#include "machine_file.h"
#include "map.h"

#define NEED(condition) ((condition) ? (void)0 : failed(#condition, __LINE__))

static _Noreturn void failed(const char *condition, int line)
{
    fprintf(stderr, "holder.c:%d: not so: %s\n", line, condition);
    exit(1);
}

static bool take(struct lock *lock, struct holding *holding)
{
    struct self self = self_now();
    return lock_take(lock, &self, holding);
}

static void die(void)
{
    kill(getpid(), SIGKILL);
}

/* Takes the lock, and dies so many microseconds later. */
static pid_t holder(struct lock *lock, useconds_t later)
{
    int ready[2];
    char byte = 0;
    NEED(pipe(ready) == 0);
    pid_t child = fork();
    if (child == 0) {
        struct holding holding;
        NEED(take(lock, &holding) && write(ready[1], &byte, 1) == 1);
        usleep(later);
        die();
    }
    NEED(read(ready[0], &byte, 1) == 1);
    close(ready[0]);
    close(ready[1]);
    return child;
}

static void wait_for(pid_t child)
{
    int status;
    NEED(waitpid(child, &status, 0) == child && WIFSIGNALED(status) && WTERMSIG(status) == SIGKILL);
}

static void dies_before(struct lock *lock)
{
    struct holding holding;
    wait_for(holder(lock, 0));
    NEED(lock->word == FUTEX_OWNER_DIED); // it held it, and the kernel has freed it: nobody has to lose patience first
    NEED(take(lock, &holding));
    lock_free(lock, &holding);
    NEED(lock->word == 0);
    lock->word = 0x3FFFFFF0; // of an earlier boot: no thread has this number
    NEED(take(lock, &holding));
    lock_free(lock, &holding);
}

/* All three get it, one after the other, long before they would lose patience. */
static void dies_meanwhile(struct lock *lock)
{
    enum { WAITING = 3 };
    pid_t child = holder(lock, 50000), waiting[WAITING];
    for (int i = 0; i < WAITING; i++)
        if ((waiting[i] = fork()) == 0) {
            struct holding holding;
            bool taken = take(lock, &holding);
            if (taken)
                lock_free(lock, &holding);
            _exit(taken ? 0 : 1);
        }
    wait_for(child);
    for (int i = 0; i < WAITING; i++) {
        int status;
        NEED(waitpid(waiting[i], &status, 0) == waiting[i] && status == 0);
    }
}

/* ---- what it is for */

enum { ADDITIONS = 50000 };

struct shared {
    struct lock lock;
    volatile unsigned sum;
};

static void *add(void *argument)
{
    struct shared *s = argument;
    for (int i = 0; i < ADDITIONS; i++) {
        struct holding holding;
        NEED(take(&s->lock, &holding));
        s->sum++;
        lock_free(&s->lock, &holding);
    }
    return NULL;
}

static void exclude(struct shared *s)
{
    int status;
    pthread_t thread;
    pid_t child = fork();
    NEED(pthread_create(&thread, NULL, add, s) == 0);
    add(s);
    pthread_join(thread, NULL);
    if (child == 0)
        _exit(0);
    NEED(waitpid(child, &status, 0) == child && status == 0);
    NEED(s->sum == 4 * ADDITIONS);
}

int main(int argc, char **argv)
{
    if (argc == 3 && strcmp(argv[1], "stops") == 0) {
        int error;
        struct holding holding;
        struct machine_file *file = map_file(argv[2], sizeof *file, &error);
        struct self self = self_now();
        NEED(file != NULL && lock_take(&file->lock, &self, &holding));
        raise(SIGSTOP);
        lock_free(&file->lock, &holding);
        return 0;
    }
    struct shared *s = mmap(NULL, sizeof *s, PROT_READ | PROT_WRITE, MAP_SHARED | MAP_ANONYMOUS, -1, 0);
    NEED(s != MAP_FAILED);
    for (int i = 0; i < 3; i++) {
        dies_before(&s->lock);
        dies_meanwhile(&s->lock);
    }
    exclude(s);
    return 0;
}
