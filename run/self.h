/* This process and this thread, for handlers. */
#ifndef SELF_H
#define SELF_H

struct self {
    long process, thread;
    struct robust_list_head *robust; /* the C library's list of the locks that this thread holds, or none */
};

/* The kernel is asked for the thread each time, and for the rest where that is another: behind a fork, and in a child that has its parent's memory. */
struct self self_now(void);

#endif
