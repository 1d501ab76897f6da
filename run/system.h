/* System calls that touch neither errno nor any lock, for signal handlers. They give the kernel's answer: a negative number is an error's. */
#ifndef SYSTEM_H
#define SYSTEM_H

#include <stdint.h>
#include <sys/syscall.h>

static inline long system_call(long number, long a, long b, long c, long d, long e, long f)
{
    long answer;
    register long r10 __asm__("r10") = d;
    register long r8 __asm__("r8") = e;
    register long r9 __asm__("r9") = f;
    __asm__ volatile("syscall" : "=a"(answer) : "0"(number), "D"(a), "S"(b), "d"(c), "r"(r10), "r"(r8), "r"(r9) : "rcx", "r11", "memory");
    return answer;
}

#define SYSTEM_CALL_6(number, a, b, c, d, e, f, ...) system_call(number, (long)(a), (long)(b), (long)(c), (long)(d), (long)(e), (long)(f))
#define SYSTEM(...) SYSTEM_CALL_6(__VA_ARGS__, 0, 0, 0, 0, 0, 0, 0)

#endif
