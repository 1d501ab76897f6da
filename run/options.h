/* The front program's arguments. */
#ifndef OPTIONS_H
#define OPTIONS_H

#include <stdbool.h>

/* As env and timeout have them: a failure of keylocker-run itself, a program that cannot be run, one that is not found. */
enum { EXIT_OURS = 125, EXIT_CANNOT_RUN = 126, EXIT_NOT_FOUND = 127 };

struct options {
    const char *machine, *iwkey, *trace; /* files, or none */
    bool count, host_cpuid;
    char **program; /* with its arguments */
};

/* Takes the arguments, or prints what was asked for instead, and exits. */
void take_options(int argc, char **argv, struct options *options);

#endif
