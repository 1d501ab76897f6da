#include "memory.h"

#include <errno.h>
#include <stdbool.h>
#include <string.h>
#include <sys/mman.h>
#include <sys/uio.h>

#include "system.h"

enum { PAGE = 4096 };

#ifndef MADV_POPULATE_READ
#define MADV_POPULATE_READ 22
#endif

static uint64_t page_of(uint64_t address)
{
    return address & ~(uint64_t)(PAGE - 1);
}

/* ---- reading */

/* How many of the bytes lie on the first page. */
static size_t on_first_page(uint64_t address, size_t len)
{
    size_t rest = PAGE - (size_t)(address - page_of(address));
    return len < rest ? len : rest;
}

/* The kernel copies a signal set from there before it finds that it does not know what to do with it. */
static bool readable(uint64_t address)
{
    return SYSTEM(SYS_rt_sigprocmask, -1, address & ~UINT64_C(7), 0, 8) == -EINVAL;
}

size_t read_code(uint64_t address, uint8_t *to, size_t len)
{
    size_t first = on_first_page(address, len);
    if (!readable(address))
        return 0;
    if (first < len && !readable(address + first))
        len = first;
    memcpy(to, (const void *)address, len);
    return len;
}

size_t read_memory(const struct self *self, uint64_t address, uint8_t *to, size_t len)
{
    size_t first = on_first_page(address, len);
    const struct iovec local = {to, len};
    /* in parts, one to a page: of a part all bytes are read or none */
    const struct iovec remote[] = {{(void *)address, first}, {(void *)(address + first), len - first}};
    long count = SYSTEM(SYS_process_vm_readv, self->process, &local, 1, remote, first < len ? 2 : 1, 0);
    /* a sandbox may do without; and what may only be written the processor reads all the same */
    return count == (long)len ? len : read_code(address, to, len);
}

/* ---- faults */

void memory_fault(uint64_t address, siginfo_t *info)
{
    unsigned char resident;
    long mapped = SYSTEM(SYS_mincore, page_of(address), PAGE, &resident);
    /* mapped, but not filled: a file's page behind its end */
    bool behind_end = mapped == 0 && SYSTEM(SYS_madvise, page_of(address), PAGE, MADV_POPULATE_READ) == -EFAULT;
    memset(info, 0, sizeof *info);
    info->si_signo = behind_end ? SIGBUS : SIGSEGV;
    info->si_code = behind_end ? BUS_ADRERR : mapped == 0 ? SEGV_ACCERR : SEGV_MAPERR;
    info->si_addr = (void *)address;
}
