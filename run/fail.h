/* What ends keylocker-run before the program is run. */
#ifndef FAIL_H
#define FAIL_H

/* Says it on standard error, and exits with the status. */
_Noreturn void fail(int status, const char *format, ...) __attribute__((format(printf, 2, 3)));

#endif
