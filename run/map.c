#include "map.h"

#include <errno.h>
#include <fcntl.h>
#include <sys/mman.h>
#include <sys/stat.h>

#include "system.h"

void path_copy(char to[PATH_ROOM], const char *path)
{
    size_t len = 0;
    while (path[len] != '\0' && len < PATH_ROOM)
        len++;
    for (size_t i = 0; len < PATH_ROOM && i <= len; i++)
        to[i] = path[i];
}

static long map_descriptor(long fd, size_t size)
{
    struct stat status;
    long found = SYSTEM(SYS_fstat, fd, &status);
    if (found < 0)
        return found;
    if ((size_t)status.st_size < size)
        return -EINVAL;
    return SYSTEM(SYS_mmap, 0, size, PROT_READ | PROT_WRITE, MAP_SHARED, fd, 0);
}

void *map_file(const char *path, size_t size, int *error)
{
    long fd = SYSTEM(SYS_open, path, O_RDWR | O_CLOEXEC), mapped = fd;
    if (fd >= 0) {
        mapped = map_descriptor(fd, size);
        SYSTEM(SYS_close, fd);
    }
    if (mapped < 0 && mapped >= -4095) {
        *error = (int)-mapped;
        return NULL;
    }
    SYSTEM(SYS_madvise, mapped, size, MADV_DONTDUMP);
    return (void *)mapped;
}
