/* What the front program tells the object, by the environment. Paths are absolute. */
#ifndef ENVIRONMENT_H
#define ENVIRONMENT_H

#define ENVIRONMENT_MACHINE "KEYLOCKER_RUN_MACHINE" /* the machine's file */
#define ENVIRONMENT_COUNTS "KEYLOCKER_RUN_COUNTS"   /* a file for counts, or not there */
#define ENVIRONMENT_TRACE "KEYLOCKER_RUN_TRACE"     /* the trace, or not there */
#define ENVIRONMENT_CPUID "KEYLOCKER_RUN_CPUID"     /* there where CPUID is not to be made to fault, whatever it is */

#endif
