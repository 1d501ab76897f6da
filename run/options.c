#include "options.h"

#include <getopt.h>
#include <stdio.h>
#include <stdlib.h>

#include "cpuid_fault.h"
#include "keylocker.h"

static const char help[] =
    "usage: keylocker-run [--machine FILE] [--iwkey FILE] [--trace FILE] [--count] [--host-cpuid] PROGRAM [ARG..]\n"
    "\n"
    "Runs PROGRAM, unmodified, with Intel Key Locker on a processor that lacks it: each such instruction traps, is executed by the proved\n"
    "library on an emulated machine, and the program goes on. For x86-64 Linux and programs that are linked dynamically with the GNU C library;\n"
    "programs that PROGRAM starts are run so, too, unless they are linked statically or get another environment.\n"
    "\n"
    "  -m, --machine FILE  keep the machine in FILE, so that later runs can use its handles, and others at the same time. A file that is not\n"
    "                      there is made, with a random IWKey. Without this option the machine is gone when PROGRAM ends, also for what it has\n"
    "                      left running\n"
    "  -k, --iwkey FILE    give a new machine the IWKey in FILE: 48 bytes, integrity key and then encryption key, or their 96 hexadecimal\n"
    "                      digits. A machine that is there already has to have just that one\n"
    "  -t, --trace FILE    write each emulated instruction to FILE, as a line that keylocker-simulator replays. It holds the IWKey and the keys\n"
    "                      that were encoded: treat it as you treat them\n"
    "  -c, --count         print how many instructions of each kind were emulated, on standard error, when PROGRAM has ended; it then runs as a\n"
    "                      child of keylocker-run, in whose place it runs otherwise\n"
    "      --host-cpuid    leave CPUID as it is\n"
    "      --version\n"
    "  -h, --help\n"
    "\n"
    "PROGRAM runs at CPL 3: LOADIWKEY is #GP there. A refused instruction becomes the signal that Linux sends, SIGILL for #UD, SIGSEGV for\n"
    "#GP and #PF, SIGBUS for #SS; handlers that PROGRAM has for them are its own. SIGILL cannot be blocked. In gdb,\n"
    "\"handle SIGILL nostop noprint pass\" lets instructions be emulated.\n"
    "\n"
    "Where the processor can make CPUID fault, PROGRAM sees one that has Key Locker: leaf 7 and leaf 0x19 tell so. Elsewhere, and with\n"
    "--host-cpuid, it sees its host's CPUID, and has to be told to use the instructions.\n"
    "\n"
    "Exit status: that of PROGRAM, or the signal that ended it; 125 if keylocker-run itself fails, 126 if PROGRAM cannot be run, 127 if it is not\n"
    "found.\n";

static _Noreturn void print_help(void)
{
    fputs(help, stdout);
    printf("\nHere: %s.\n", cpuid_can_fault() ? "CPUID is answered with Key Locker" : "this processor cannot make CPUID fault, so programs see its own");
    exit(fflush(stdout) == 0 ? 0 : EXIT_OURS);
}

static _Noreturn void print_version(void)
{
    puts("keylocker-run " KEYLOCKER_VERSION);
    exit(fflush(stdout) == 0 ? 0 : EXIT_OURS);
}

static _Noreturn void bad_usage(void)
{
    fputs("keylocker-run --help has the usage\n", stderr);
    exit(EXIT_OURS);
}

void take_options(int argc, char **argv, struct options *options)
{
    enum { VERSION = 256, HOST_CPUID };
    static const struct option known[] = {
        {"machine", required_argument, NULL, 'm'}, {"iwkey", required_argument, NULL, 'k'}, {"trace", required_argument, NULL, 't'},
        {"count", no_argument, NULL, 'c'},         {"version", no_argument, NULL, VERSION}, {"help", no_argument, NULL, 'h'},
        {"host-cpuid", no_argument, NULL, HOST_CPUID}, {NULL, 0, NULL, 0},
    };
    int option;
    *options = (struct options){0};
    while ((option = getopt_long(argc, argv, "+m:k:t:ch", known, NULL)) != -1)
        switch (option) {
        case 'm': options->machine = optarg; break;
        case 'k': options->iwkey = optarg; break;
        case 't': options->trace = optarg; break;
        case 'c': options->count = true; break;
        case HOST_CPUID: options->host_cpuid = true; break;
        case VERSION: print_version();
        case 'h': print_help();
        default: bad_usage();
        }
    options->program = argv + optind;
    if (options->program[0] == NULL) {
        fputs("keylocker-run: no PROGRAM is given\n", stderr);
        bad_usage();
    }
}
