/* Drives the library and the model with the same random calls, on several machines side by side, and stops at the first difference. */
#include <errno.h>
#include <inttypes.h>
#include <stdio.h>
#include <stdlib.h>
#include <string.h>
#include <time.h>

#include "aes.h"
#include "chance.h"
#include "compare.h"
#include "coverage.h"
#include "ctr_laws.h"
#include "ctr_worked.h"
#include "faults.h"
#include "generate.h"
#include "idle.h"
#include "keyring.h"
#include "lend.h"
#include "lengths.h"
#include "overlap.h"
#include "prefixes.h"
#include "probe.h"
#include "selfcheck.h"
#include "taken.h"

/* a shorter run may miss rare events */
enum { CALLS_FOR_COVERAGE = 200000 };

static struct world world;
static struct trial trial;

struct options {
    uint64_t seed, calls, keyrings;
    bool guarded;
    const char *vectors;
};

/* an encode's handle joins the known ones, and takes the place of another where there are enough */
static void remember_handle(const struct trial *t, const struct run *library, const struct instruction *instruction)
{
    const struct machine *m = (const struct machine *)t->machine.bytes;
    struct known_handle *known = &world.known[world.known_count < KNOWN_HANDLES ? world.known_count++ : below(KNOWN_HANDLES)];
    known->length = handle_length(instruction->form);
    memcpy(known->bytes, library->call.cpu.bytes, known->length);
    known->iwkey = m->processors[t->call.processor].iwkey;
}

/* CPUID is no call of demand 3's lists */
static bool is_listed(const struct trial *t)
{
    return t->call.kind != CPUID;
}

/* Of a use, or of a counter call, whose handle an encode of the list gave; an encode is remembered for them. */
static const char *outcome_differs(struct history *history, const struct trial *t, const struct run *library, const struct instruction *instruction)
{
    const struct cpu *after = (const struct cpu *)library->call.cpu.bytes;
    const char *differs = NULL;
    struct judged judged = {0};
    if (t->call.kind == STEP && is_encode(instruction->form))
        history_encoded(history, &t->call, instruction, after);
    if (t->call.kind == STEP && is_use(instruction->form))
        differs = history_use_differs(history, &t->call, instruction, after, &judged);
    if (t->call.kind == CTR)
        differs = history_ctr_differs(history, &t->call, &library->call, &judged);
    if (judged.encode)
        cover_judged(history, t, &judged);
    return differs;
}

/* Demand 3, for a machine of which all calls since its power-on are known. Names are call numbers, so the history may count no other calls. */
static const char *history_differs(struct emulated *emulated, const struct trial *t, const struct run *library, struct instruction *instruction)
{
    struct history *history = &emulated->history;
    bool left_out = (FAULT(HISTORY_TAKEN) && t->call.kind == TAKEN) || (FAULT(HISTORY_IDLE) && is_idle(&t->call)) ||
                    (FAULT(HISTORY_CTR) && t->call.kind == CTR);
    bool fed = FAULT(HISTORY_CPUID) || (is_listed(t) && !left_out);
    if (fed && history_call(history, &t->call, instruction) != library->number)
        return "history machine: which calls a refusal stops";
    if (history->calls != emulated->calls)
        return "history machine: how many calls the list has";
    cover_listed(t, library);
    const char *differs = history_keys_differ(history, (const struct machine *)library->machine.bytes);
    return differs || library->number ? differs : outcome_differs(history, t, library, instruction);
}

/* the library's record is the machine's from here on */
static const char *carry(const struct trial *t, const struct run *library)
{
    struct emulated *emulated = &world.machines[t->machine_number];
    struct instruction instruction;
    bool power_on = t->call.kind == POWER_ON;
    if (power_on && library->number)
        return NULL;
    memcpy(&emulated->machine, library->machine.bytes, sizeof emulated->machine);
    if (power_on)
        history_power_on(&emulated->history, t->call.count, t->call.features);
    emulated->only_calls = (emulated->only_calls && !t->made) || power_on;
    emulated->calls = power_on ? 0 : emulated->calls + is_listed(t);
    return emulated->only_calls && !power_on ? history_differs(emulated, t, library, &instruction) : NULL;
}

static const char *one_call(struct run *library, struct run *model)
{
    struct instruction instruction;
    generate(&world, &trial);
    run_library(&trial, library);
    run_model(&trial, model);
    const char *differs = difference(&trial, library, model);
    if (!differs)
        cover_call(&trial, library);
    if (!differs)
        differs = probe_differs(&trial, library);
    if (!differs && trial.call.kind == CTR)
        differs = ctr_law_differs(&trial, library);
    if (!differs && trial.carried)
        differs = carry(&trial, library);
    if (!differs && !library->number && trial.call.kind == STEP && !decode(trial.call.string, &instruction) && is_encode(instruction.form))
        remember_handle(&trial, library, &instruction);
    return differs;
}

static int run(const struct options *options)
{
    for (uint64_t call = 1; call <= options->calls; call++) {
        struct run library, model;
        const char *differs = one_call(&library, &model);
        if (differs) {
            printf("difference at call %" PRIu64 ": %s\n", call, differs);
            report(&trial, &library, &model);
            printf("again: build/test_host --seed %" PRIu64 " --calls %" PRIu64 "%s\n", options->seed, call, options->guarded ? " --guarded" : "");
        }
        run_free(&library);
        run_free(&model);
        if (differs)
            return 1;
    }
    print_coverage();
    printf("\n%" PRIu64 " calls, no difference\n", options->calls);
    return options->calls >= CALLS_FOR_COVERAGE && !coverage_is_full() ? 1 : 0;
}

static int list_faults(void)
{
    for (int fault = 1; fault < FAULT_END; fault++)
        printf("%d %s %s\n", fault, fault_name(fault), fault_text(fault));
    return 0;
}

static uint64_t parse_number(const char *text)
{
    char *end;
    errno = 0;
    uint64_t value = strtoull(text, &end, 0);
    if (errno || *end || end == text) {
        fprintf(stderr, "not a number: %s\n", text);
        exit(2);
    }
    return value;
}

static void parse(int argc, char **argv, struct options *options)
{
    for (int i = 1; i < argc; i++) {
        if (strcmp(argv[i], "--guarded") == 0)
            options->guarded = true;
        else if (i + 1 < argc && strcmp(argv[i], "--seed") == 0)
            options->seed = strcmp(argv[++i], "random") == 0 ? (uint64_t)time(NULL) : parse_number(argv[i]);
        else if (i + 1 < argc && strcmp(argv[i], "--calls") == 0)
            options->calls = parse_number(argv[++i]);
        else if (i + 1 < argc && strcmp(argv[i], "--keyrings") == 0)
            options->keyrings = parse_number(argv[++i]);
        else if (i + 1 < argc && strcmp(argv[i], "--vectors") == 0)
            options->vectors = argv[++i];
        else {
            fprintf(stderr, "usage: %s [--guarded] [--seed N | --seed random] [--calls N] [--keyrings N] [--vectors DIRECTORY] | --faults\n", argv[0]);
            exit(2);
        }
    }
}

int main(int argc, char **argv)
{
    struct options options = {.seed = 1, .calls = 500000, .keyrings = UINT64_MAX, .vectors = "tests/vectors"};
    if (argc == 2 && strcmp(argv[1], "--faults") == 0)
        return list_faults();
    parse(argc, argv, &options);
    if (options.keyrings == UINT64_MAX)
        options.keyrings = options.calls / 5 * 2;
    printf("seed %" PRIu64 "\n", options.seed);
    fflush(stdout);
    if (options.guarded && !lend_guarded()) {
        perror("pages between guards");
        return 2;
    }
    aes_start();
    /* a planted fault has to be found by the random calls */
    if (!planted_fault() && (!model_meets_vectors(options.vectors) || !library_meets_lengths() || !library_meets_prefixes() || !library_meets_taken() ||
                             !library_meets_idle() || !library_meets_ctr() || !library_meets_overlap()))
        return 2;
    trial.memory_room = calloc(1, MEMORY_ROOM);
    trial.data_room = calloc(1, DATA_ROOM);
    if (!trial.memory_room || !trial.data_room)
        return 2;
    chance_seed(options.seed);
    int status = run(&options);
    if (status == 0 && options.keyrings && !keyring_runs_alike(options.seed, options.keyrings))
        status = 1;
    print_lent();
    for (int i = 0; i < MACHINES; i++)
        history_free(&world.machines[i].history);
    free(trial.memory_room);
    free(trial.data_room);
    return status;
}
