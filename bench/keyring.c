// Measures the keyring's calls against the same in plain C (keyring_plain.c), after checking that both do the same.
// Every call tests the whole keyring before it searches, so most of its time goes there and by the number of records.
#include "keylocker.h"
#include "keyring_plain.h"
#include "measure.h"

#include <stdbool.h>
#include <stdio.h>
#include <stdlib.h>
#include <string.h>

enum {
    RECORD = KEYLOCKER_KEYRING_RECORD,
    MOST = KEYLOCKER_KEYRING_LIMIT / RECORD - 1, // labels
    FEW = 15,
};

struct core {
    __typeof__(keylocker_keyring_lookup) *lookup;
    __typeof__(keylocker_keyring_add) *add;
};

static const struct core cores[] = {
    [PROVED] = {keylocker_keyring_lookup, keylocker_keyring_add},
    [PLAIN] = {plain_keyring_lookup, plain_keyring_add},
};

static void require(bool holds, const char *what)
{
    if (holds)
        return;
    fprintf(stderr, "bench: %s\n", what);
    exit(1);
}

// ---- keyrings

// How labels are spread: by random bytes on one chain or on all sixteen; on one chain, and alike but for their end.
enum { ONE_CHAIN, ALL_CHAINS, ALIKE, LAYOUTS };

static uint8_t labels[LAYOUTS][MOST + 1][KEYLOCKER_LABEL_SIZE]; // the last one is in no keyring
static uint8_t handles[2][KEYLOCKER_HANDLE_256_SIZE];
static uint8_t keyring[KEYLOCKER_KEYRING_LIMIT];
static size_t keyring_len;

static size_t handle_len(size_t i) { return i % 2 ? KEYLOCKER_HANDLE_256_SIZE : KEYLOCKER_HANDLE_128_SIZE; }

static void make_labels(void)
{
    fill_random((uint8_t *)labels, sizeof labels);
    fill_random((uint8_t *)handles, sizeof handles);
    for (size_t i = 0; i <= MOST; i++) {
        labels[ONE_CHAIN][i][0] &= 0xf0;
        labels[ALL_CHAINS][i][0] = (uint8_t)((labels[ALL_CHAINS][i][0] & 0xf0) | i % KEYLOCKER_KEYRING_HEADS);
        memset(labels[ALIKE][i], 'a', KEYLOCKER_LABEL_SIZE - 2);
        labels[ALIKE][i][KEYLOCKER_LABEL_SIZE - 2] = (uint8_t)(i >> 8);
        labels[ALIKE][i][KEYLOCKER_LABEL_SIZE - 1] = (uint8_t)i;
    }
}

// A keyring of this many records and one more, with this many of the labels; the first one comes last in its chain.
static void make_keyring(int layout, size_t records, size_t count)
{
    keyring_len = RECORD * (records + 1);
    memset(keyring, 0, sizeof keyring);
    for (size_t i = 0; i < count; i++)
        require(plain_keyring_add(keyring, keyring_len, labels[layout][i], KEYLOCKER_LABEL_SIZE, handles[i % 2],
                                  handle_len(i)) == KEYLOCKER_DONE,
                "a keyring cannot be filled");
}

// ---- the check

static void check_label(const uint8_t *label)
{
    uint8_t kind[2] = {9, 9}, found[2][KEYLOCKER_HANDLE_256_SIZE] = {{0}};
    uint32_t answer[2];
    for (int i = PROVED; i <= PLAIN; i++)
        answer[i] = cores[i].lookup(keyring, keyring_len, label, KEYLOCKER_LABEL_SIZE, &kind[i], found[i]);
    require(answer[0] == answer[1] && kind[0] == kind[1] && memcmp(found[0], found[1], sizeof found[0]) == 0,
            "library and plain C differ in a lookup");
}

static void check_add(const uint8_t *label, size_t i)
{
    static uint8_t after[KEYLOCKER_KEYRING_LIMIT];
    memcpy(after, keyring, keyring_len);
    uint32_t answer = cores[PROVED].add(after, keyring_len, label, KEYLOCKER_LABEL_SIZE, handles[i % 2], handle_len(i));
    require(answer == cores[PLAIN].add(keyring, keyring_len, label, KEYLOCKER_LABEL_SIZE, handles[i % 2], handle_len(i)) &&
                memcmp(after, keyring, keyring_len) == 0,
            "library and plain C differ in an add");
}

// Filled to the end, with one label too many, every second label replaced, every label looked up, and then a chain
// that comes back.
static void check_all(void)
{
    for (int layout = 0; layout < LAYOUTS; layout++)
        for (size_t records = FEW; records <= MOST; records += MOST - FEW) {
            make_keyring(layout, records, 0);
            for (size_t i = 0; i <= records; i++)
                check_add(labels[layout][i], i);
            for (size_t i = 0; i < records; i += 2)
                check_add(labels[layout][i], i + 1);
            for (size_t i = 0; i <= records; i++)
                check_label(labels[layout][i]);
            memcpy(keyring + RECORD, "\1\0", 2);
            check_label(labels[layout][0]);
            check_add(labels[layout][0], 0);
        }
    puts("The library's keyring and plain C agree on full keyrings of 15 and of 818 labels.\n");
}

// ---- the measurement

enum op { LOOKUP_FIRST, LOOKUP_LAST, LOOKUP_NONE, REPLACE_LAST, ADD, LOOKUP_FEW, OPS };

static uint32_t repeat_lookup(const struct core *core, const uint8_t *label, size_t reps)
{
    uint32_t answers = 0;
    uint8_t kind, handle[KEYLOCKER_HANDLE_256_SIZE];
    for (size_t i = 0; i < reps; i++)
        answers |= core->lookup(keyring, keyring_len, label, KEYLOCKER_LABEL_SIZE, &kind, handle);
    return answers;
}

// To take an add back its head is enough, for both sides alike: two bytes written, beside thousands that a call reads.
static uint32_t repeat_add(const struct core *core, const uint8_t *label, bool taken_back, size_t reps)
{
    uint32_t answers = 0;
    uint8_t *at = keyring + 2 * (label[0] % KEYLOCKER_KEYRING_HEADS), head[2] = {at[0], at[1]};
    for (size_t i = 0; i < reps; i++) {
        answers |= core->add(keyring, keyring_len, label, KEYLOCKER_LABEL_SIZE, handles[i % 2], handle_len(i));
        if (taken_back)
            memcpy(at, head, sizeof head);
    }
    return answers;
}

// The first label of a chain is the last one added, and the other way round.
static const uint8_t *label_of(const struct row *row)
{
    int layout = row->size;
    return labels[layout][row->op == LOOKUP_FIRST ? MOST - 1 : row->op == LOOKUP_NONE || row->op == ADD ? MOST : 0];
}

static double slice_ns(int core, const struct row *row, size_t reps)
{
    size_t records = row->op == LOOKUP_FEW ? FEW : MOST;
    uint32_t meant = row->op == LOOKUP_NONE ? KEYLOCKER_NO_LABEL : KEYLOCKER_DONE, got;
    make_keyring(row->size, records, records - (row->op == ADD));
    double start = now_ns();
    if (row->op == REPLACE_LAST || row->op == ADD)
        got = repeat_add(&cores[core], label_of(row), row->op == ADD, reps);
    else
        got = repeat_lookup(&cores[core], label_of(row), reps);
    double end = now_ns();
    require(got == meant, "a measured call had another answer than is measured");
    return end - start;
}

// ---- the figures

static const char *const names[OPS] = {
    [LOOKUP_FIRST] = "lookup, first",   [LOOKUP_LAST] = "lookup, last",
    [LOOKUP_NONE] = "lookup, no label", [REPLACE_LAST] = "replace, last",
    [ADD] = "add, one record free",     [LOOKUP_FEW] = "lookup, last of 15 labels",
};
static const char *const layouts[LAYOUTS] = {
    [ONE_CHAIN] = "one chain", [ALL_CHAINS] = "16 chains", [ALIKE] = "one chain, alike"};

// A missed bar is printed and is no failure, as in keylocker.c.
static const struct bar bar = {"every row", 0, PLAIN, 1.30, "plain C"};
static const struct bar goal = {"every row", 0, PLAIN, 1.00, "plain C"};

static void print_worst(const struct row *row)
{
    printf("%s, %s\n", names[row->op], layouts[row->size]);
}

static void print_row(const struct row *row)
{
    printf("%-28s%-20s%11.1f%11.1f%13.2f\n", names[row->op], layouts[row->size], row->ns[PROVED], row->ns[PLAIN],
           row->ns[PROVED] / row->ns[PLAIN]);
}

int main(void)
{
    struct row rows[] = {
        {.op = LOOKUP_FIRST, .size = ONE_CHAIN, .plain = true},  {.op = LOOKUP_LAST, .size = ONE_CHAIN, .plain = true},
        {.op = LOOKUP_LAST, .size = ALIKE, .plain = true},       {.op = LOOKUP_NONE, .size = ONE_CHAIN, .plain = true},
        {.op = LOOKUP_FIRST, .size = ALL_CHAINS, .plain = true}, {.op = LOOKUP_LAST, .size = ALL_CHAINS, .plain = true},
        {.op = REPLACE_LAST, .size = ONE_CHAIN, .plain = true},  {.op = REPLACE_LAST, .size = ALL_CHAINS, .plain = true},
        {.op = ADD, .size = ONE_CHAIN, .plain = true},           {.op = ADD, .size = ALL_CHAINS, .plain = true},
        {.op = LOOKUP_FEW, .size = ONE_CHAIN, .plain = true},    {.op = LOOKUP_FEW, .size = ALL_CHAINS, .plain = true},
    };
    size_t count = sizeof rows / sizeof *rows;

    make_labels();
    check_all();
    measure_all(rows, count, slice_ns);
    printf("%-48s%11s%11s%13s\n", "ns per call, of 818 labels", "proved", "plain C", "to plain C");
    for (size_t i = 0; i < count; i++)
        print_row(&rows[i]);
    puts("");
    print_worst(print_bar(&bar, rows, count, "pass", "MISSED"));
    print_worst(print_bar(&goal, rows, count, "goal met", "goal not met"));
    return 0;
}
