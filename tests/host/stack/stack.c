/* What stack each kind of call needs, and whether KEYLOCKER_STACK_SIZE is that: every kind runs on a stack of that size with the same results, and some
 * kind would not on one much smaller. */
#include <stdio.h>
#include <string.h>

#include "kinds.h"

/* how much more than the deepest call needs the header may ask for */
enum { MOST_SLACK = 1024 };

_Static_assert(KEYLOCKER_STACK_SIZE % STACK_STEP == 0 && KEYLOCKER_STACK_SIZE <= STACK_ROOM, "a size that can be tried");

struct attempt {
    const struct kind *kind;
    const struct lent *before;
    struct lent after;
};

static void make(void *argument)
{
    struct attempt *attempt = argument;
    attempt->after = *attempt->before;
    make_call(attempt->kind, &on_small_stack, &attempt->after);
}

/* by halves, where the call runs on all of the room and not on nothing */
static size_t least_stack(struct attempt *attempt)
{
    size_t fails = 0, runs = STACK_ROOM;
    while (runs - fails > STACK_STEP) {
        size_t middle = (fails + runs) / 2 / STACK_STEP * STACK_STEP;
        if (runs_on(middle, make, attempt))
            runs = middle;
        else
            fails = middle;
    }
    return runs;
}

static bool same(const struct lent *a, const struct lent *b)
{
    return a->answer == b->answer && a->value == b->value && memcmp(a->leaf, b->leaf, sizeof a->leaf) == 0 &&
           memcmp(a->machine, b->machine, sizeof a->machine) == 0 && memcmp(a->cpu, b->cpu, sizeof a->cpu) == 0 &&
           memcmp(a->memory, b->memory, sizeof a->memory) == 0 &&
           memcmp(a->random, b->random, sizeof a->random) == 0 && memcmp(a->string, b->string, sizeof a->string) == 0 &&
           memcmp(a->keyring, b->keyring, sizeof a->keyring) == 0 && memcmp(a->label, b->label, sizeof a->label) == 0 &&
           a->found_kind == b->found_kind && memcmp(a->found, b->found, sizeof a->found) == 0 &&
           memcmp(a->counter, b->counter, sizeof a->counter) == 0 && memcmp(a->buffer, b->buffer, sizeof a->buffer) == 0;
}

/* NULL and what the call needs, or what is wrong. The call on the normal stack is the first, so that a dynamic linker has bound what the library calls. */
static const char *measure(const struct kind *kind, size_t *needs)
{
    struct lent before, normal;
    struct attempt attempt = {.kind = kind, .before = &before};
    if (!prepare(kind, &before))
        return "cannot be prepared";
    normal = before;
    make_call(kind, &on_normal_stack, &normal);
    const char *differs = not_as_meant(kind, &before, &normal);
    if (differs)
        return differs;
    if (runs_on(0, make, &attempt))
        return "runs without any stack: the guard does not hold";
    if (!runs_on(STACK_ROOM, make, &attempt))
        return "does not run on the largest stack";
    *needs = least_stack(&attempt);
    if (!runs_on(*needs, make, &attempt) || !same(&attempt.after, &normal))
        return "other results on the least stack";
    if (!runs_on(KEYLOCKER_STACK_SIZE, make, &attempt))
        return "does not run on KEYLOCKER_STACK_SIZE bytes";
    return same(&attempt.after, &normal) ? NULL : "other results on KEYLOCKER_STACK_SIZE bytes";
}

/* What the deepest kind needs; good becomes false where one is wrong. */
static size_t measure_all(bool *good)
{
    size_t most = 0;
    for (size_t i = 0; i < kind_count; i++) {
        size_t needs = 0;
        const char *wrong = measure(&kinds[i], &needs);
        printf("%-42s%6zu%s%s\n", kinds[i].name, needs, wrong ? "  FAILED: " : "", wrong ? wrong : "");
        if (wrong)
            *good = false;
        if (needs > most)
            most = needs;
    }
    return most;
}

int main(void)
{
    bool good = true;
    if (!guard_start()) {
        perror("a stack with a guard");
        return 2;
    }
    puts("stack bytes that a call needs");
    size_t most = measure_all(&good);
    bool slack = KEYLOCKER_STACK_SIZE > most + MOST_SLACK;
    printf("\n%s  the deepest call needs %zu bytes of stack, keylocker.h asks for %d%s\n", good && !slack ? "pass" : "FAILED", most, KEYLOCKER_STACK_SIZE,
           slack ? ", which is needlessly much" : "");
    return good && !slack ? 0 : 1;
}
