#include "history.h"

#include <stdlib.h>
#include <string.h>

#include "aes.h"
#include "ctr.h"
#include "faults.h"
#include "machine.h"
#include "refusals.h"

static void *grown(void *array, size_t *room, size_t count, size_t size)
{
    if (count < *room)
        return array;
    *room = *room ? 2 * *room : 64;
    array = realloc(array, *room * size);
    if (!array)
        abort();
    return array;
}

static void all_as_at_first(struct history *history)
{
    memset(history->processors, 0, sizeof history->processors);
    history->backup = history->store = NO_NAME;
    history->pending = false;
}

void history_free(struct history *history)
{
    free(history->named);
    free(history->encodes);
    free(history->tags);
    *history = (struct history){0};
}

void history_power_on(struct history *history, uint8_t count, uint8_t features)
{
    history_free(history);
    history->count = count;
    history->features = features;
    all_as_at_first(history);
}

/* of name 0 all zero; names are kept in rising order */
static struct iwkey key_of(const struct history *history, uint64_t name)
{
    size_t low = 0, high = history->named_count;
    if (name == 0)
        return (struct iwkey){0};
    while (high - low > 1) {
        size_t middle = low + (high - low) / 2;
        if (history->named[middle].name <= name)
            low = middle;
        else
            high = middle;
    }
    return history->named[low].iwkey;
}

static bool no_backup_of(const struct history *history, uint64_t name)
{
    return key_of(history, name).no_backup && !FAULT(HISTORY_COPY_NO_BACKUP);
}

static void load(struct history *history, const struct call *call, const struct instruction *instruction)
{
    static uint8_t none[RANDOM_SIZE];
    struct cpu cpu;
    memcpy(&cpu, call->cpu.bytes, sizeof cpu);
    if (not_ready(&cpu, call->random) && !FAULT(HISTORY_NOT_READY))
        return;
    history->named = grown(history->named, &history->named_room, history->named_count, sizeof *history->named);
    history->named[history->named_count].name = history->calls;
    history->named[history->named_count].iwkey = loaded_iwkey(&cpu, instruction, call->random.length ? call->random.bytes : none);
    history->named_count++;
    history->processors[call->processor] = history->calls;
}

static void write_register(struct history *history, const struct call *call)
{
    uint64_t *name = &history->processors[call->processor];
    if (!(call->value & 1))
        return;
    if (call->address == COPY_OUT && !history->pending && !no_backup_of(history, *name)) {
        history->backup = *name;
        history->pending = true;
    }
    if (call->address == COPY_IN && history->backup != NO_NAME)
        *name = history->backup;
}

static void settle(struct history *history, uint8_t code)
{
    if (!history->pending)
        return;
    if (code == 0)
        history->store = history->backup;
    else if (!FAULT(HISTORY_BAD_SETTLE))
        history->store = NO_NAME;
    history->pending = false;
}

static void sleep_and_wake(struct history *history, uint8_t code)
{
    if (!FAULT(HISTORY_SLEEP_KEEPS_NAMES))
        memset(history->processors, 0, sizeof history->processors);
    if (code == 1 && history->pending)
        history->store = history->backup;
    if (code == 2)
        history->store = NO_NAME;
    history->backup = history->store;
    history->pending = false;
    history->last_sleep = history->calls;
}

uint32_t history_call(struct history *history, const struct call *call, struct instruction *instruction)
{
    uint32_t refusal = call_refusal(history->count, history->features, call, instruction);
    history->calls++;
    if (refusal)
        return refusal;
    if (call->kind == STEP && (instruction->form == LOADIWKEY || (FAULT(HISTORY_IDLE_LOADS) && instruction->form == IDLE)))
        load(history, call, instruction);
    if (call->kind == WRITE)
        write_register(history, call);
    if (call->kind == SETTLE)
        settle(history, call->code);
    if (call->kind == SLEEP)
        sleep_and_wake(history, call->code);
    if (FAULT(HISTORY_TAKEN_STORES) && call->kind == TAKEN && history->pending)
        history->store = history->backup;
    if (FAULT(HISTORY_TAKEN_SETTLES) && call->kind == TAKEN)
        history->pending = false;
    if (call->kind == RESET) {
        all_as_at_first(history);
        history->last_sleep = history->calls;
    }
    return DONE;
}

void history_encoded(struct history *history, const struct call *call, const struct instruction *instruction, const struct cpu *after)
{
    struct cpu cpu;
    size_t room = history->encode_room;
    memcpy(&cpu, call->cpu.bytes, sizeof cpu);
    history->encodes = grown(history->encodes, &history->encode_room, history->encode_count, sizeof *history->encodes);
    history->tags = grown(history->tags, &room, history->encode_count, sizeof *history->tags);
    struct encode *encode = &history->encodes[history->encode_count];
    memset(encode, 0, sizeof *encode);
    encode->name = history->processors[call->processor];
    encode->call = history->calls;
    encode->processor = call->processor;
    encode->source = cpu.registers[instruction->rm][0];
    encode->key_length = key_length(instruction->form);
    memcpy(encode->key, cpu.xmm, encode->key_length);
    memcpy(encode->handle, after->xmm, HANDLE_HEAD + encode->key_length);
    history->tags[history->encode_count++] = load64(encode->handle + AAD_SIZE);
}

static bool platform_key_differs(const struct history *history, uint64_t name, const struct platform_key *key)
{
    struct platform_key wanted = {0};
    if (name != NO_NAME)
        wanted = (struct platform_key){1, key_of(history, name)};
    return memcmp(&wanted, key, sizeof wanted) != 0;
}

const char *history_keys_differ(const struct history *history, const struct machine *machine)
{
    for (int i = 0; i < history->count; i++) {
        struct iwkey wanted = key_of(history, history->processors[i]);
        if (memcmp(&wanted, &machine->processors[i].iwkey, sizeof wanted) != 0)
            return "a processor's IWKey is not the key of its name";
    }
    if (platform_key_differs(history, history->backup, &machine->backup))
        return "the backup is not the key of its name";
    if (platform_key_differs(history, history->store, &machine->store))
        return "the store is not the key of its name";
    return history->pending != machine->pending ? "pending is not alike" : NULL;
}

/* an encode under the same name whose handle agrees with the bytes read, as far as the shorter goes */
static const struct encode *find_encode(const struct history *history, uint64_t name, const uint8_t *read, size_t length)
{
    uint64_t tag = load64(read + AAD_SIZE);
    for (size_t i = 0; i < history->encode_count; i++) {
        const struct encode *encode = &history->encodes[i];
        if (history->tags[i] != tag || encode->name != name)
            continue;
        size_t given = HANDLE_HEAD + encode->key_length;
        if (memcmp(read, encode->handle, given < length ? given : length) == 0)
            return encode;
    }
    return NULL;
}

static struct judged judge(const struct encode *encode, enum form form, uint8_t cpl)
{
    struct judged judged = {.encode = encode};
    judged.size = encode->key_length == key_length(form) || (FAULT(HISTORY_SIZE) && key_length(form) == 16);
    judged.privilege = !(encode->source & 1) || cpl == 0 || FAULT(HISTORY_PRIVILEGE);
    judged.direction = !(encode->source & (is_decryption(form) ? 4 : 2));
    return judged;
}

static bool is_allowed(const struct judged *judged)
{
    return judged->size && judged->privilege && judged->direction;
}

const char *history_use_differs(const struct history *history, const struct call *call, const struct instruction *instruction,
                                const struct cpu *after, struct judged *judged)
{
    struct cpu cpu;
    enum form form = instruction->form;
    memcpy(&cpu, call->cpu.bytes, sizeof cpu);
    const uint8_t *read = call->memory.bytes + effective_address(instruction, &cpu);
    const struct encode *encode = find_encode(history, history->processors[call->processor], read, handle_length(form));
    *judged = (struct judged){0};
    if (!encode)
        return NULL;
    *judged = judge(encode, form, cpu.cpl);
    bool allowed = is_allowed(judged);
    if (allowed == ((load64(after->rflags) & ZF) != 0))
        return allowed ? "ZF is 1 though size, privilege and direction allow the use" : "ZF is 0 though the use is forbidden";
    for (unsigned i = 0; allowed && i < 16; i++)
        if (is_wide(form) ? i < 8 : i == instruction->reg)
            (is_decryption(form) ? aes_decrypt : aes_encrypt)(encode->key, encode->key_length, cpu.xmm[i], cpu.xmm[i]);
    if (memcmp(cpu.xmm, after->xmm, sizeof cpu.xmm) != 0)
        return allowed ? "a block is not what AES makes of it under the encoded key" : "a block changed though the use is forbidden";
    return NULL;
}

/* of a key that the encode was given; the handle itself is not opened here */
const char *history_ctr_differs(const struct history *history, const struct call *call, const struct call *after, struct judged *judged)
{
    struct cpu cpu;
    static uint8_t room[BUFFER_LIMIT];
    struct buffer data = {room, call->data.length};
    const struct encode *encode = find_encode(history, history->processors[call->processor], call->handle.bytes, call->handle.length);
    *judged = (struct judged){0};
    if (!encode)
        return NULL;
    memcpy(&cpu, after->cpu.bytes, sizeof cpu);
    *judged = judge(encode, ctr_form(call) + FAULT(HISTORY_CTR_DECRYPTS), cpu.cpl);
    bool allowed = is_allowed(judged);
    if (allowed == ((load64(cpu.rflags) & ZF) != 0))
        return allowed ? "ZF is 1 though size, privilege and direction allow the counter call" : "ZF is 0 though the counter call is forbidden";
    memcpy(room, call->data.bytes, data.length);
    if (allowed && !FAULT(HISTORY_CTR_KEEPS))
        ctr_xor(encode->key, encode->key_length, call->counter.bytes, data);
    if (data.length && memcmp(room, after->data.bytes, data.length) != 0)
        return allowed ? "the data is not what counter mode makes of it under the encoded key" : "the data changed though the counter call is forbidden";
    return NULL;
}
