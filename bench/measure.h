// What the measuring programs have in common: random bytes, the clock, and the measurement of the
// proved library and its baselines in turn.
#ifndef MEASURE_H
#define MEASURE_H

#include <stdbool.h>
#include <stddef.h>
#include <stdint.h>

enum { PROVED, BYTES, TTABLES, CORES };
enum { PLAIN = BYTES }; // of a program that has one baseline only
extern const char *const core_names[CORES];

// Random bytes from a fixed seed, so that a failure comes again.
void fill_random(uint8_t *p, size_t len);

double now_ns(void);

// What is measured, and its figures: ns per block, or per call where blocks is 0.
struct row {
    uint8_t size;
    int op; // of the program's own enum
    size_t blocks;
    bool alone;    // no core does the like
    bool plain;    // there is one baseline, PLAIN
    uint8_t count; // of processors, where the program has any
    size_t bytes;      // of the buffer of a counter call
    bool without_wide; // on a machine without the wide feature
    size_t reps[CORES];
    double ns[CORES];
};

// The time of reps calls of a core.
typedef double slice_fn(int core, const struct row *row, size_t reps);

void measure_all(struct row *rows, size_t count, slice_fn *slice_ns);

void print_head(const char *unit);
void print_figures(const struct row *row);

struct bar {
    const char *what;
    size_t blocks; // of the rows that it holds for
    int to;
    double most;
    const char *baseline; // its name, where it is none of core_names
};

// Prints a bar without the end of its line, where the name of its worst row belongs, which is returned.
const struct row *print_bar(const struct bar *bar, const struct row *rows, size_t count, const char *kept,
                            const char *missed);

#endif
