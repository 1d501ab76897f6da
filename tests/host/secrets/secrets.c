/* Which keys a call leaves on the stack below its caller, and whether keylocker_clear_stack leaves any: each kind of call on a stack of its own, zero before
 * and searched afterwards. With --table it prints how many copies there are where nothing is cleared.
 *
 * A call is made in a process of its own, where nothing but what prepares it was called before: what a dynamic linker binds at the first call, saving
 * registers with keys in them on the stack, it then binds there. */
#define _DEFAULT_SOURCE /* mmap's MAP_ANONYMOUS */

#include <stdio.h>
#include <string.h>
#include <sys/mman.h>
#include <sys/wait.h>
#include <ucontext.h>
#include <unistd.h>

#include "../aes.h"
#include "callers.h"

enum { PART = 16, PARTS_MOST = 64, STACK_BYTES = 65536 };

/* Keys are searched for in parts of 16 bytes. Those of a key schedule are the round keys behind the key itself. */
enum group { INTEGRITY, ENCRYPTION, ENCRYPTION_SCHEDULE, LOADED, KEY, KEY_SCHEDULE, GROUPS };

static struct part {
    enum group group;
    uint64_t halves[2];
} parts[PARTS_MOST];
static size_t part_count;

/* What a call was found to leave: copies of parts, halves of parts, those of the copies included, and how far below its caller's frame the deepest lies. */
static struct found {
    const char *wrong; /* or NULL */
    unsigned copies[GROUPS], all_copies, halves;
    ptrdiff_t deepest;
} *found; /* the parent's too */

static uint8_t stack[STACK_BYTES];
static struct lent before, after;

/* ---- what is searched for ---- */

static void add_part(enum group group, const uint8_t bytes[PART])
{
    struct part *part = &parts[part_count++];
    part->group = group;
    memcpy(part->halves, bytes, PART);
}

static void add_key(enum group group, enum group schedule, const uint8_t *key, size_t length)
{
    uint8_t words[AES_WORDS_MOST][4];
    unsigned rounds = aes_expand_key(key, length, words);
    for (unsigned i = 0; i <= rounds; i++)
        add_part(i < length / PART ? group : schedule, words[4 * i]);
}

/* The IWKey that the storage, too, holds; the one that the call loads, or the registers that it would be made of; the key that it encodes or opens. */
static void choose_parts(const struct kind *kind)
{
    const uint8_t *held = before.machine + KEYLOCKER_MACHINE_STORE + KEYLOCKER_SLOT_IWKEY, *key;
    const uint8_t *loaded = kind->writes ? processor_iwkey(&after) : before.cpu + KEYLOCKER_CPU_XMM;
    size_t length = key_of(kind, &before, &key);
    part_count = 0;
    add_part(INTEGRITY, held + KEYLOCKER_IWKEY_INTEGRITY);
    add_key(ENCRYPTION, ENCRYPTION_SCHEDULE, held + KEYLOCKER_IWKEY_ENCRYPTION, 32);
    for (int i = 0; is_loadiwkey(kind) && i < 3; i++)
        add_part(LOADED, loaded + PART * i);
    if (length)
        add_key(KEY, KEY_SCHEDULE, key, length);
}

/* ---- the search ---- */

static void look_at(size_t at)
{
    uint64_t here[2];
    memcpy(here, stack + at, PART);
    for (size_t i = 0; here[0] && i < part_count; i++) {
        const struct part *part = &parts[i];
        bool first = here[0] == part->halves[0], copy = first && here[1] == part->halves[1];
        if (!first && here[0] != part->halves[1])
            continue;
        found->halves++;
        found->copies[part->group] += copy;
        found->all_copies += copy;
        if (caller_bottom - (stack + at) > found->deepest)
            found->deepest = caller_bottom - (stack + at);
    }
}

static void search(void)
{
    for (size_t at = 0; at + PART <= sizeof stack; at++)
        look_at(at);
}

/* ---- the call ---- */

static const struct kind *kind_to_call;
static enum clearing clearing_to_do;

static void on_own_stack(void)
{
    call_as_host(kind_to_call, clearing_to_do, &after);
}

static void call_and_search(void)
{
    static ucontext_t here, there;
    after = before;
    found->wrong = "no stack of its own";
    if (getcontext(&there) != 0)
        return;
    there.uc_stack.ss_sp = stack;
    there.uc_stack.ss_size = sizeof stack;
    there.uc_link = &here;
    makecontext(&there, on_own_stack, 0);
    if (swapcontext(&here, &there) != 0)
        return;
    choose_parts(kind_to_call);
    search();
    found->wrong = not_as_meant(kind_to_call, &before, &after);
}

/* what the child found is in *found */
static void call_in_child(const struct kind *kind, enum clearing clearing)
{
    int status;
    *found = (struct found){.wrong = "the call did not come back"};
    kind_to_call = kind;
    clearing_to_do = clearing;
    pid_t child = fork();
    if (child == 0) {
        call_and_search();
        _exit(0);
    }
    if (child < 0 || waitpid(child, &status, 0) != child || status != 0)
        found->wrong = "the call did not come back";
}

/* ---- what has to be found ---- */

static bool is_refused_step(const struct kind *kind) { return kind->call == STEP && kind->answer; }

/* NULL, or what is wrong where nothing is cleared: a search that finds too little would find nothing either where all is cleared */
static const char *left_too_little(const struct kind *kind)
{
    const uint8_t *key;
    bool executed = (kind->call == STEP || kind->call == CTR) && !kind->answer && !is_idle(kind, &before);
    if (executed && (!found->copies[INTEGRITY] || !found->copies[ENCRYPTION]))
        return "no copy of an IWKey is found, and the search should";
    if (executed && !kind->fails && key_of(kind, &before, &key) && !found->copies[KEY])
        return "no copy of the key is found, and the search should";
    return found->deepest > KEYLOCKER_STACK_SIZE ? "a copy lies deeper than KEYLOCKER_STACK_SIZE" : NULL;
}

static void print_row(const struct kind *kind)
{
    printf("%-46s", kind->name);
    for (int group = 0; group < GROUPS; group++)
        printf("%12u", found->copies[group]);
    printf("%10td\n", found->deepest);
}

/* false where something is wrong, which it says */
static bool meets(const struct kind *kind, bool table, bool *refused_leaves)
{
    static const char *const places[CLEARINGS] = {"not cleared", "cleared in the caller", "cleared further out", "cleared behind a large frame"};
    bool good = prepare(kind, &before);
    if (!good)
        printf("FAILED  %s: cannot be prepared\n", kind->name);
    for (enum clearing clearing = 0; good && clearing < CLEARINGS; clearing++) {
        call_in_child(kind, clearing);
        const char *wrong = found->wrong;
        if (!wrong)
            wrong = clearing == NOT_AT_ALL ? left_too_little(kind) : found->halves ? "halves of keys are left" : NULL;
        if (clearing == NOT_AT_ALL && table)
            print_row(kind);
        if (clearing == NOT_AT_ALL && is_refused_step(kind) && found->all_copies)
            *refused_leaves = true;
        if (wrong)
            printf("FAILED  %s, %s: %s (%u halves, down to %td bytes below the caller's frame)\n", kind->name, places[clearing], wrong, found->halves,
                   found->deepest);
        good &= !wrong;
        fflush(stdout);
    }
    return good;
}

int main(int argc, char **argv)
{
    bool table = argc == 2 && strcmp(argv[1], "--table") == 0, refused_leaves = false;
    size_t good = 0;
    found = mmap(NULL, sizeof *found, PROT_READ | PROT_WRITE, MAP_SHARED | MAP_ANONYMOUS, -1, 0);
    if (found == MAP_FAILED) {
        perror("memory that a child shares");
        return 2;
    }
    aes_start();
    if (table)
        printf("copies of keys that a call leaves on the stack\n%-46s%12s%12s%12s%12s%12s%12s%10s\n", "", "integrity", "encryption", "round keys", "loaded",
               "its key", "round keys", "deepest");
    fflush(stdout);
    for (size_t i = 0; i < kind_count; i++)
        good += meets(&kinds[i], table, &refused_leaves);
    bool all = good == kind_count && refused_leaves;
    printf("%s  %s: of %zu kinds of calls %zu leave no key where keylocker_clear_stack is called%s\n", all ? "pass" : "FAILED", argv[0], kind_count, good,
           refused_leaves ? "" : ", and no refused step leaves one where it is not, so that nothing is searched for");
    return all ? 0 : 1;
}
