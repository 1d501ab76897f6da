/* Functions of the C library that the object stands in front of. */
#ifndef INTERPOSE_H
#define INTERPOSE_H

#include <poll.h>
#include <pthread.h>
#include <signal.h>
#include <sys/epoll.h>
#include <sys/select.h>
#include <threads.h>

/* What ppoll is under _FORTIFY_SOURCE; and one that headers may lack. */
int __ppoll_chk(struct pollfd *fds, nfds_t count, const struct timespec *timeout, const sigset_t *set, size_t room);
int epoll_pwait2(int fd, struct epoll_event *events, int most, const struct timespec *timeout, const sigset_t *set);

#define EXPORTED __attribute__((visibility("default")))

#define INTERPOSED(F)                                                                                                         \
    F(sigaction) F(signal) F(__sysv_signal) F(sigset) F(sigignore) F(sighold) F(pthread_sigmask) F(sigprocmask) F(sigsuspend) \
    F(pselect) F(ppoll) F(__ppoll_chk) F(epoll_pwait) F(epoll_pwait2) F(thrd_create) F(pthread_create)

/* The C library's own. */
struct interposed {
#define DECLARED(name) __typeof__(name) *name;
    INTERPOSED(DECLARED)
#undef DECLARED
};

/* Looked up at the start: what a handler of the program's calls may not wait for the dynamic linker. */
const struct interposed *real(void);

#endif
