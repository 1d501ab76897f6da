/* Replays a trace of calls on the emulated machine; simulator/TRACES.md has the language. */
#define _POSIX_C_SOURCE 200809L // open, fstat

#include <errno.h>
#include <fcntl.h>
#include <setjmp.h>
#include <stdio.h>
#include <string.h>
#include <sys/stat.h>
#include <unistd.h>

#include "interrupt.h"
#include "output.h"
#include "print.h"
#include "progress.h"
#include "reader.h"
#include "scenario.h"
#include "statement.h"

static const char help[] =
    "usage: keylocker-simulator [--quiet] [--strict] [--json] [TRACE]\n"
    "       keylocker-simulator --print-scenario\n"
    "\n"
    "Replays the calls in the file TRACE (- is standard input) on an emulated Key Locker machine, and prints each with its answer.\n"
    "Without TRACE it replays a built-in scenario, which --print-scenario prints as a trace. Lines are answered one by one, as they come.\n"
    "\n"
    "  -q, --quiet        print only what say and show print, expectations that are not met, and the summary\n"
    "  -s, --strict       exit with status 1 also where a call was refused, or left ZF 1, and no expectation behind it names that\n"
    "  -j, --json         print one JSON object a line, for each call, expectation, say and show, and for the summary\n"
    "      --print-scenario\n"
    "      --version\n"
    "  -h, --help\n"
    "\n"
    "Statements (keylocker-traces(5) has them all, and so has TRACES.md): power-on COUNT, cpu N loadiwkey KEY, cpu N encodekey128 KEY -> NAME,\n"
    "cpu N aesenc128kl HANDLE BLOCK -> NAME, cpu N ctr HANDLE COUNTER BYTES -> NAME, cpu N step STRING,\n"
    "cpu N cpuid LEAF SUBLEAF, cpu N read REGISTER, cpu N write REGISTER VALUE,\n"
    "taken, settle good|bad, sleep old|new|junk, reset,\n"
    "keyring records N, keyring add LABEL HANDLE, keyring lookup LABEL -> NAME,\n"
    "expect done | refused NUMBER | refused NAME | zf BIT | value NUMBER | kind NUMBER | eax NUMBER | BYTES = BYTES.\n"
    "\n"
    "Exit status: 0 if all went well, 1 if an expectation of the trace was not met or by --strict, 2 for a bad trace, bad usage or output that\n"
    "is lost, 130 behind Ctrl-C.\n";

enum { FINE = 0, UNMET = 1, BAD = 2, INTERRUPTED = 130 };

/* ---- a trace */

static uint64_t size_of(int fd)
{
    struct stat st;
    return fstat(fd, &st) == 0 && S_ISREG(st.st_mode) ? (uint64_t)st.st_size : 0;
}

/* One that is bad ends the run, but for a person at a terminal, who can write it again. */
static void run_or_go_on(struct simulator *s, const char *text, size_t len, bool at_terminal)
{
    jmp_buf behind;
    if (at_terminal && setjmp(behind) != 0) {
        s->counts.bad++;
        return;
    }
    s->line.behind = at_terminal ? &behind : NULL;
    run_line(s, text, len);
}

/* All lines, until one is bad or Ctrl-C comes. */
static void run_lines(struct simulator *s, struct reader *reader)
{
    const char *text;
    size_t len;
    bool at_terminal = reader->fd >= 0 && isatty(reader->fd);
    enum reading reading = READING_INTERRUPTED;
    while (!interrupted() && (reading = reader_next(reader, &text, &len)) == READING_LINE) {
        run_or_go_on(s, text, len, at_terminal);
        progress_line(s->line.number, reader->consumed);
    }
    s->line.behind = NULL;
    s->line.number += reading == READING_TOO_LONG || reading == READING_ERROR;
    if (reading == READING_TOO_LONG)
        bad_line(&s->line, "expected a line of at most %zu bytes", LINE_LIMIT);
    if (reading == READING_ERROR)
        bad_line(&s->line, "cannot be read: %s", strerror(errno));
}

static bool went_well(const struct simulator *s)
{
    return s->counts.unmet == 0 && !(s->options.strict && s->counts.unexpected > 0);
}

/* What made the status, on standard error. */
static void say_first(const struct simulator *s)
{
    const struct counts *c = &s->counts;
    if (c->unmet > 0)
        fprintf(stderr, "%s:%zu: not met, the first of %zu expectations\n", s->line.file, c->first_unmet, c->unmet);
    if (s->options.strict && c->unexpected > 0)
        fprintf(stderr, "%s:%zu: refused or ZF 1, and no expectation names it, the first of %zu calls\n", s->line.file, c->first_unexpected, c->unexpected);
}

static int finish(struct simulator *s)
{
    count_unexpected(s);
    bool cut_short = interrupted(); // once: it may still come
    int status = cut_short ? INTERRUPTED : s->counts.bad > 0 ? BAD : went_well(s) ? FINE : UNMET;
    progress_erase();
    print_summary(s, status, cut_short);
    if (!output_flushed())
        return BAD;
    say_first(s);
    return status;
}

/* A descriptor, or -1 where it cannot be opened, which is said. */
static int open_trace(const char *file)
{
    if (strcmp(file, "-") == 0)
        return STDIN_FILENO;
    int fd = open(file, O_RDONLY | O_CLOEXEC);
    if (fd < 0)
        fprintf(stderr, "keylocker-simulator: %s: %s\n", file, strerror(errno));
    return fd;
}

static int replay(const char *file, const struct options *options)
{
    struct simulator s;
    struct reader reader;
    int fd = file == NULL ? -1 : open_trace(file);
    if (file != NULL && fd < 0)
        return BAD;
    if (file == NULL)
        reader_open_text(&reader, scenario, scenario_len);
    else
        reader_open_file(&reader, fd);
    simulator_init(&s, file == NULL ? "built-in scenario" : strcmp(file, "-") == 0 ? "standard input" : file, options);
    progress_start(fd < 0 ? 0 : size_of(fd), !options->quiet);
    interrupt_start();
    run_lines(&s, &reader);
    int status = finish(&s);
    simulator_free(&s);
    reader_close(&reader);
    if (fd > STDIN_FILENO)
        close(fd);
    return status;
}

/* ---- arguments */

static int print(const char *text, size_t len)
{
    fwrite(text, 1, len, stdout);
    return output_flushed() ? FINE : BAD;
}

static int bad_usage(const char *what, const char *argument)
{
    fprintf(stderr, "keylocker-simulator: %s: '%s'; keylocker-simulator --help has the usage\n", what, argument);
    return BAD;
}

static bool is_option(const char *argument, const char *letter, const char *word)
{
    return strcmp(argument, letter) == 0 || strcmp(argument, word) == 0;
}

static bool take_option(const char *argument, struct options *options)
{
    if (is_option(argument, "-q", "--quiet"))
        options->quiet = true;
    else if (is_option(argument, "-s", "--strict"))
        options->strict = true;
    else if (is_option(argument, "-j", "--json"))
        options->json = true;
    else
        return false;
    return true;
}

int main(int argc, char **argv)
{
    static const char version[] = "keylocker-simulator " KEYLOCKER_VERSION "\n";
    struct options options = {0};
    const char *file = NULL;     /* none for the scenario */
    bool names_only = false; /* after -- */
    for (int i = 1; i < argc; i++) {
        const char *a = argv[i];
        if (names_only || a[0] != '-' || strcmp(a, "-") == 0) {
            if (file != NULL)
                return bad_usage("one trace at a time", a);
            file = a;
        } else if (strcmp(a, "--") == 0) {
            names_only = true;
        } else if (is_option(a, "-h", "--help")) {
            return print(help, sizeof help - 1);
        } else if (strcmp(a, "--version") == 0) {
            return print(version, sizeof version - 1);
        } else if (strcmp(a, "--print-scenario") == 0) {
            return print(scenario, scenario_len);
        } else if (!take_option(a, &options)) {
            return bad_usage("unknown option", a);
        }
    }
    return replay(file, &options);
}
