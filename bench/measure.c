#define _POSIX_C_SOURCE 199309L // clock_gettime

#include "measure.h"

#include <math.h>
#include <stdio.h>
#include <time.h>

const char *const core_names[CORES] = {[PROVED] = "proved", [BYTES] = "byte-wise", [TTABLES] = "T-table"};

// splitmix64
void fill_random(uint8_t *p, size_t len)
{
    static uint64_t state = 197;
    for (size_t i = 0; i < len; i++) {
        uint64_t z = state += 0x9e3779b97f4a7c15;
        z = (z ^ z >> 30) * 0xbf58476d1ce4e5b9;
        z = (z ^ z >> 27) * 0x94d049bb133111eb;
        p[i] = (uint8_t)(z >> 56);
    }
}

double now_ns(void)
{
    struct timespec t;
    clock_gettime(CLOCK_MONOTONIC, &t);
    return (double)t.tv_sec * 1e9 + (double)t.tv_nsec;
}

// A run of a core is SLICES slices, between which the other cores take their turn, so that noise hits
// all alike.
enum { RUNS = 15, SLICES = 10 };
static const double min_slice_ns = 3e5;

// The number of calls that makes a slice long enough for the clock.
static size_t enough_reps(int core, const struct row *row, slice_fn *slice_ns)
{
    size_t reps = 1;
    while (slice_ns(core, row, reps) < min_slice_ns)
        reps *= 2;
    return reps;
}

static int cores_of(const struct row *row) { return row->alone ? PROVED + 1 : row->plain ? PLAIN + 1 : CORES; }

static void prepare(struct row *row, slice_fn *slice_ns)
{
    for (int i = 0; i < cores_of(row); i++) {
        row->reps[i] = enough_reps(i, row, slice_ns);
        row->ns[i] = HUGE_VAL;
    }
}

// One run of each core. The least of all runs counts.
static void measure(struct row *row, slice_fn *slice_ns)
{
    double total[CORES] = {0};
    for (int slice = 0; slice < SLICES; slice++)
        for (int i = 0; i < cores_of(row); i++)
            total[i] += slice_ns(i, row, row->reps[i]);
    for (int i = 0; i < cores_of(row); i++) {
        size_t units = SLICES * row->reps[i] * (row->blocks ? row->blocks : 1);
        double ns = total[i] / (double)units;
        if (ns < row->ns[i])
            row->ns[i] = ns;
    }
}

// A run of all rows at a time, so that the runs of each row spread over the whole measurement and a
// busy second of the machine spoils none of them.
void measure_all(struct row *rows, size_t count, slice_fn *slice_ns)
{
    for (size_t i = 0; i < count; i++)
        prepare(&rows[i], slice_ns);
    for (int run = 0; run < RUNS; run++)
        for (size_t i = 0; i < count; i++)
            measure(&rows[i], slice_ns);
}

static double ratio(const struct row *row, int to) { return row->ns[PROVED] / row->ns[to]; }

void print_head(const char *unit)
{
    printf("%-31s", unit);
    for (int i = 0; i < CORES; i++)
        printf("%11s", core_names[i]);
    printf("%13s%13s\n", "to byte-wise", "to T-table");
}

void print_figures(const struct row *row)
{
    for (int i = 0; i < CORES; i++)
        printf("%11.1f", row->ns[i]);
    printf("%13.2f%13.2f\n", ratio(row, BYTES), ratio(row, TTABLES));
}

const struct row *print_bar(const struct bar *bar, const struct row *rows, size_t count, const char *kept,
                            const char *missed)
{
    const struct row *worst = NULL;
    for (size_t i = 0; i < count; i++)
        if (rows[i].blocks == bar->blocks && (!worst || ratio(&rows[i], bar->to) > ratio(worst, bar->to)))
            worst = &rows[i];
    double is = ratio(worst, bar->to);
    printf("%-6s  %-12s  at most %.2f x %-9s  worst %.3f, ", is <= bar->most ? kept : missed, bar->what, bar->most,
           bar->baseline ? bar->baseline : core_names[bar->to], is);
    return worst;
}
