/* Runs a program with an object loaded in front of its libraries, which executes the Key Locker instructions that it traps at. */

#include <errno.h>
#include <fcntl.h>
#include <limits.h>
#include <stdio.h>
#include <stdlib.h>
#include <string.h>
#include <sys/stat.h>
#include <unistd.h>

#include "counts.h"
#include "environment.h"
#include "fail.h"
#include "iwkey.h"
#include "launch.h"
#include "machine_open.h"
#include "map.h"
#include "options.h"
#include "scratch.h"
#include "text.h"

/* ---- files */

static void set_path(const char *name, const char *path)
{
    char *absolute = realpath(path, NULL);
    if (absolute == NULL || setenv(name, absolute, 1) < 0)
        fail(EXIT_OURS, "%s: %s", path, strerror(errno));
    free(absolute);
}

static void open_machine(const struct options *options, struct machine_file *held)
{
    uint8_t iwkey[IWKEY_BYTES];
    const char *path = options->machine == NULL ? scratch_file("machine") : options->machine;
    if (options->iwkey != NULL)
        iwkey_read(options->iwkey, iwkey);
    machine_open(path, options->iwkey == NULL ? NULL : iwkey, held);
    explicit_bzero(iwkey, sizeof iwkey);
    set_path(ENVIRONMENT_MACHINE, path);
}

/* The program's words, in one line. */
static void put_words(FILE *file, char **words)
{
    for (; *words != NULL; words++) {
        fputc(' ', file);
        for (const char *c = *words; *c != '\0'; c++)
            fputc((unsigned char)*c < ' ' ? '?' : *c, file);
    }
}

/* The machine as it is now, with the zeros at its end counted. */
static void put_machine(FILE *file, const uint8_t block[KEYLOCKER_MACHINE_SIZE])
{
    char digits[2 * KEYLOCKER_MACHINE_SIZE + 1];
    struct text t;
    size_t len = KEYLOCKER_MACHINE_SIZE;
    while (len > 0 && block[len - 1] == 0)
        len--;
    text_start(&t, digits, sizeof digits);
    text_add_bytes(&t, block, len);
    fprintf(file, "machine = %s", digits);
    if (len < KEYLOCKER_MACHINE_SIZE)
        fprintf(file, " 00*%zu", KEYLOCKER_MACHINE_SIZE - len);
    fputc('\n', file);
    explicit_bzero(digits, sizeof digits);
}

/* Whether it is a machine's, or the file of the IWKey that was given. */
static bool holds_keys(int fd, const char *iwkey)
{
    char magic[sizeof MACHINE_MAGIC - 1];
    struct stat file, other;
    if (iwkey != NULL && fstat(fd, &file) == 0 && stat(iwkey, &other) == 0 && file.st_dev == other.st_dev && file.st_ino == other.st_ino)
        return true;
    return pread(fd, magic, sizeof magic, 0) == sizeof magic && memcmp(magic, MACHINE_MAGIC, sizeof magic) == 0;
}

/* An empty file of the owner's alone; what was there before is gone. Devices stay as they are, and all processes have to find it by its name. */
static FILE *new_trace(const char *path, const char *iwkey)
{
    struct stat status;
    int fd = open(path, O_RDWR | O_CREAT | O_CLOEXEC | O_NONBLOCK, 0600);
    if (fd >= 0 && fstat(fd, &status) == 0 && !S_ISREG(status.st_mode))
        fail(EXIT_OURS, "%s: a trace has to be a file", path);
    if (fd >= 0 && holds_keys(fd, iwkey))
        fail(EXIT_OURS, "%s: a trace there would overwrite keys. It is left as it is", path);
    FILE *file = fd < 0 || fchmod(fd, 0600) < 0 || ftruncate(fd, 0) < 0 ? NULL : fdopen(fd, "w");
    if (file == NULL)
        fail(EXIT_OURS, "%s: %s", path, strerror(errno));
    return file;
}

static void start_trace(const struct options *options, const struct machine_file *held)
{
    const char *path = options->trace;
    FILE *file = new_trace(path, options->iwkey);
    fputs("# keylocker-run " KEYLOCKER_VERSION ":", file);
    put_words(file, options->program);
    fputs("\n# This trace holds the IWKey, and the keys that were encoded.\n", file);
    put_machine(file, held->block);
    if (fclose(file) != 0)
        fail(EXIT_OURS, "%s: %s", path, strerror(errno));
    fprintf(stderr, "keylocker-run: the trace in %s holds the IWKey and the keys that are encoded\n", path);
    set_path(ENVIRONMENT_TRACE, path);
}

/* ---- counts */

static struct counts *start_counts(void)
{
    const char *path = scratch_file("counts");
    int fd = open(path, O_RDWR | O_CREAT | O_EXCL | O_CLOEXEC, 0600);
    int error = fd < 0 || ftruncate(fd, sizeof(struct counts)) < 0 ? errno : 0;
    struct counts *counts = error != 0 ? NULL : map_file(path, sizeof *counts, &error);
    if (counts == NULL)
        fail(EXIT_OURS, "%s: %s", path, strerror(error));
    close(fd);
    set_path(ENVIRONMENT_COUNTS, path);
    return counts;
}

static void print_counts(const struct counts *c)
{
    uint64_t all = 0;
    for (size_t i = 0; i < MNEMONICS; i++)
        all += c->done[i];
    fprintf(stderr, "keylocker-run: %llu instructions emulated\n", (unsigned long long)all);
    for (size_t i = 0; i < MNEMONICS; i++) {
        if (c->done[i] == 0 && c->signals[i] == 0)
            continue;
        fprintf(stderr, "keylocker-run:   %-15s %llu", mnemonics[i].name, (unsigned long long)c->done[i]);
        if (c->failed[i] > 0)
            fprintf(stderr, ", of which %llu left ZF 1", (unsigned long long)c->failed[i]);
        if (c->signals[i] > 0)
            fprintf(stderr, "; %llu more became a signal", (unsigned long long)c->signals[i]);
        fputc('\n', stderr);
    }
}

/* ---- the object */

/* Beside this program, in the folder that it was built or installed in. */
static char *find_object(void)
{
    char own[PATH_MAX], *object;
    ssize_t len = readlink("/proc/self/exe", own, sizeof own);
    if (len < 0 || len == sizeof own)
        fail(EXIT_OURS, "/proc/self/exe: %s", strerror(len < 0 ? errno : ENAMETOOLONG));
    if (asprintf(&object, "%.*s.so", (int)len, own) < 0)
        fail(EXIT_OURS, "out of memory");
    if (access(object, R_OK) < 0)
        fail(EXIT_OURS, "%s, which belongs beside it: %s", object, strerror(errno));
    return object;
}

/* In front of what the environment has already. */
static void preload(void)
{
    const char *others = getenv("LD_PRELOAD");
    char *object = find_object(), *all;
    if (strpbrk(object, " :") != NULL)
        fail(EXIT_OURS, "%s: the dynamic linker takes no blank and no colon in this path", object);
    if (others != NULL && strncmp(others, object, strlen(object)) == 0)
        return; // a run inside of another
    if (asprintf(&all, "%s%s%s", object, others == NULL ? "" : ":", others == NULL ? "" : others) < 0 || setenv("LD_PRELOAD", all, 1) < 0)
        fail(EXIT_OURS, "out of memory");
    free(all);
    free(object);
}

/* Where standard input, output or error is closed, a file of ours would take its place, and be written messages to. The program finds it closed again. */
static void take_descriptors(void)
{
    int fd;
    do
        fd = open("/dev/null", O_RDWR | O_CLOEXEC);
    while (fd >= 0 && fd <= STDERR_FILENO);
    close(fd);
}

/* Where this is itself run by keylocker-run. */
static void leave_outer_run(void)
{
    unsetenv(ENVIRONMENT_COUNTS);
    unsetenv(ENVIRONMENT_TRACE);
    unsetenv(ENVIRONMENT_CPUID);
}

int main(int argc, char **argv)
{
    struct options options;
    struct machine_file held;
    struct counts *counts = NULL;
    take_descriptors();
    take_options(argc, argv, &options);
    leave_outer_run();
    look_at_program(options.program[0]);
    open_machine(&options, &held);
    if (options.trace != NULL)
        start_trace(&options, &held);
    explicit_bzero(&held, sizeof held);
    if (options.count)
        counts = start_counts();
    if (options.host_cpuid)
        setenv(ENVIRONMENT_CPUID, "host", 1);
    preload();
    scratch_outlive();
    if (counts == NULL)
        become(options.program);
    int status = run_program(options.program);
    print_counts(counts);
    scratch_remove(); // a signal that ends this leaves it no time
    end_as(status);
}
