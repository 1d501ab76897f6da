#include "output.h"

#include <errno.h>
#include <stdio.h>
#include <string.h>

bool output_flushed(void)
{
    errno = 0;
    if (fflush(stdout) == 0 && !ferror(stdout))
        return true;
    fprintf(stderr, "keylocker-simulator: standard output: %s\n", errno != 0 ? strerror(errno) : "what was printed did not all go out");
    return false;
}
