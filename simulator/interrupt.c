#define _POSIX_C_SOURCE 200809L // sigaction, sigsetjmp

#include "interrupt.h"

#include <setjmp.h>
#include <signal.h>
#include <unistd.h>

static volatile sig_atomic_t came, reading;
static sigjmp_buf before_read;

/* Out of a read, which would go on waiting: a terminal throws what was typed away at Ctrl-C, so that even one for which there was input may wait. */
static void on_interrupt(int number)
{
    (void)number;
    came = 1;
    if (reading)
        siglongjmp(before_read, 1);
}

/* Restarting, so that no write is cut short: printed lines stay whole. Where the caller ignores Ctrl-C (nohup), it stays ignored. */
void interrupt_start(void)
{
    struct sigaction old, action = {.sa_handler = on_interrupt, .sa_flags = (int)(SA_RESTART | SA_RESETHAND)};
    if (sigaction(SIGINT, NULL, &old) == 0 && old.sa_handler != SIG_IGN)
        sigaction(SIGINT, &action, NULL);
}

bool interrupted(void)
{
    return came;
}

ssize_t read_interruptible(int fd, char *buffer, size_t size)
{
    if (sigsetjmp(before_read, 1) != 0) {
        reading = 0;
        return -1;
    }
    reading = 1;
    ssize_t got = came ? -1 : read(fd, buffer, size); // one that comes from here on leaves by the jump
    reading = 0;
    return got;
}
