/* Files and paths, by system calls and memory alone. */
#ifndef MAP_H
#define MAP_H

#include <stddef.h>

enum { PATH_ROOM = 4096 };

/* A copy of a path, or an empty one where it is too long: programs that rename themselves write over their environment. */
void path_copy(char to[PATH_ROOM], const char *path);

/* Maps that many bytes of a file, shared, and left out of core files. None where that cannot be done, with the error's number, or where it has fewer. */
void *map_file(const char *path, size_t size, int *error);

#endif
