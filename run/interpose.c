/* Functions of the C library by which a program sets actions and masks of signals. Those that are owned (actions.h) keep our action, and are never blocked. */

#include "interpose.h"

#include <dlfcn.h>
#include <stddef.h>

#include "actions.h"

const struct interposed *real(void)
{
    static struct interposed found;
    if (found.pthread_create == NULL) { // the last of them
#define LOOK_UP(name) found.name = (__typeof__(name) *)dlsym(RTLD_NEXT, #name);
        INTERPOSED(LOOK_UP)
#undef LOOK_UP
    }
    return &found;
}

/* ---- actions */

EXPORTED int sigaction(int signal, const struct sigaction *action, struct sigaction *old)
{
    struct sigaction masked;
    if (actions_owned(signal)) {
        actions_exchange(signal, action, old);
        return 0;
    }
    if (action != NULL) {
        masked = *action;
        put_bits(&masked.sa_mask, actions_mask(bits_of(&action->sa_mask)));
    }
    return real()->sigaction(signal, action == NULL ? NULL : &masked, old);
}

static sighandler_t exchange_handler(int signal, sighandler_t handler, int flags)
{
    struct sigaction action = {.sa_handler = handler, .sa_flags = flags}, old;
    actions_exchange(signal, &action, &old);
    return old.sa_handler;
}

EXPORTED sighandler_t signal(int signal_number, sighandler_t handler)
{
    return actions_owned(signal_number) ? exchange_handler(signal_number, handler, SA_RESTART) : real()->signal(signal_number, handler);
}

EXPORTED sighandler_t __sysv_signal(int signal, sighandler_t handler)
{
    return actions_owned(signal) ? exchange_handler(signal, handler, SA_RESETHAND | SA_NODEFER) : real()->__sysv_signal(signal, handler);
}

/* Those of System V; one that is owned is never held. */
EXPORTED sighandler_t sigset(int signal, sighandler_t handler)
{
    return !actions_owned(signal) ? real()->sigset(signal, handler) : handler == SIG_HOLD ? SIG_HOLD : exchange_handler(signal, handler, 0);
}

EXPORTED int sigignore(int signal)
{
    return !actions_owned(signal) ? real()->sigignore(signal) : (exchange_handler(signal, SIG_IGN, 0), 0);
}

EXPORTED int sighold(int signal)
{
    return actions_owned(signal) ? 0 : real()->sighold(signal);
}

/* Other names of the same. */
EXPORTED sighandler_t bsd_signal(int signal_number, sighandler_t handler)
{
    return signal(signal_number, handler);
}

EXPORTED sighandler_t ssignal(int signal_number, sighandler_t handler)
{
    return signal(signal_number, handler);
}

EXPORTED sighandler_t sysv_signal(int signal, sighandler_t handler)
{
    return __sysv_signal(signal, handler);
}

/* ---- masks */

static const sigset_t *without_owned(const sigset_t *set, sigset_t *room)
{
    if (set == NULL)
        return NULL;
    *room = *set;
    put_bits(room, actions_mask(bits_of(set)));
    return room;
}

EXPORTED int pthread_sigmask(int how, const sigset_t *set, sigset_t *old)
{
    sigset_t room;
    return real()->pthread_sigmask(how, how == SIG_UNBLOCK ? set : without_owned(set, &room), old);
}

EXPORTED int sigprocmask(int how, const sigset_t *set, sigset_t *old)
{
    sigset_t room;
    return real()->sigprocmask(how, how == SIG_UNBLOCK ? set : without_owned(set, &room), old);
}

EXPORTED int sigsuspend(const sigset_t *set)
{
    sigset_t room;
    return real()->sigsuspend(without_owned(set, &room));
}

EXPORTED int pselect(int count, fd_set *readable, fd_set *writable, fd_set *others, const struct timespec *timeout, const sigset_t *set)
{
    sigset_t room;
    return real()->pselect(count, readable, writable, others, timeout, without_owned(set, &room));
}

EXPORTED int ppoll(struct pollfd *fds, nfds_t count, const struct timespec *timeout, const sigset_t *set)
{
    sigset_t room;
    return real()->ppoll(fds, count, timeout, without_owned(set, &room));
}

EXPORTED int epoll_pwait(int fd, struct epoll_event *events, int most, int timeout, const sigset_t *set)
{
    sigset_t room;
    return real()->epoll_pwait(fd, events, most, timeout, without_owned(set, &room));
}

EXPORTED int __ppoll_chk(struct pollfd *fds, nfds_t count, const struct timespec *timeout, const sigset_t *set, size_t room_of_fds)
{
    sigset_t room;
    return real()->__ppoll_chk(fds, count, timeout, without_owned(set, &room), room_of_fds);
}

EXPORTED int epoll_pwait2(int fd, struct epoll_event *events, int most, const struct timespec *timeout, const sigset_t *set)
{
    sigset_t room;
    return real()->epoll_pwait2(fd, events, most, timeout, without_owned(set, &room));
}
