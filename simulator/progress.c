#define _DEFAULT_SOURCE // clock_gettime, isatty, struct winsize

#include "progress.h"

#include <stdio.h>
#include <sys/ioctl.h>
#include <time.h>
#include <unistd.h>

/* There is one terminal. */
static struct {
    bool on, visible;
    uint64_t total;
    double start, next;
} progress;

static double seconds(void)
{
    struct timespec t;
    clock_gettime(CLOCK_MONOTONIC, &t);
    return (double)t.tv_sec + (double)t.tv_nsec * 1e-9;
}

void progress_start(uint64_t total, bool printing)
{
    progress.on = isatty(STDERR_FILENO) && !(printing && isatty(STDOUT_FILENO));
    progress.visible = false;
    progress.total = total;
    if (progress.on) {
        progress.start = seconds();
        progress.next = progress.start + 0.5; // shorter traces show none
    }
}

/* As many characters as fit: a text that goes on in a second row could not be taken away. */
static int width(void)
{
    struct winsize size;
    return ioctl(STDERR_FILENO, TIOCGWINSZ, &size) == 0 && size.ws_col > 0 ? size.ws_col - 1 : 79;
}

static void show(size_t number, uint64_t consumed, double now)
{
    char text[128];
    int len = snprintf(text, sizeof text, "line %zu", number);
    if (progress.total > 0)
        len += snprintf(text + len, sizeof text - (size_t)len, ", %.0f %%", 100.0 * (double)consumed / (double)progress.total);
    snprintf(text + len, sizeof text - (size_t)len, ", %.0f lines/s", (double)number / (now - progress.start));
    fprintf(stderr, "\r%.*s\033[K", width(), text);
    fflush(stderr);
    progress.visible = true;
}

void progress_line(size_t number, uint64_t consumed)
{
    if (!progress.on || number % 128 != 0)
        return;
    double now = seconds();
    if (now < progress.next)
        return;
    progress.next = now + 0.2;
    show(number, consumed, now);
}

void progress_erase(void)
{
    if (progress.visible)
        fputs("\r\033[K", stderr);
    progress.visible = false;
}
