#include "ctr_laws.h"

#include <string.h>

#include "chance.h"
#include "coverage.h"
#include "ctr.h"
#include "faults.h"
#include "keylocker.h"
#include "refusals.h"

/* longer data has its laws tested now and then, and the single form never */
enum { SHORT_DATA = 2048 };

static uint8_t room[DATA_ROOM];

static bool is_opened(const struct run *run)
{
    return !run->number && !(load64(((const struct cpu *)run->call.cpu.bytes)->rflags) & ZF);
}

/* the trial's call on copies, with another counter block and other data; says whether the handle opened */
static bool again(const struct trial *t, const uint8_t *counter, struct buffer data)
{
    struct machine m;
    struct cpu cpu;
    memcpy(&m, t->machine.bytes, sizeof m);
    memcpy(&cpu, t->call.cpu.bytes, sizeof cpu);
    uint32_t number = keylocker_ctr((uint8_t *)&m, sizeof m, t->call.processor, (uint8_t *)&cpu, sizeof cpu, t->call.handle.bytes, t->call.handle.length,
                                    counter, COUNTER_SIZE, data.bytes, data.length);
    return number == DONE && !(load64(cpu.rflags) & ZF);
}

static struct buffer copied(struct buffer data)
{
    if (data.length)
        memcpy(room, data.bytes, data.length);
    return (struct buffer){room, data.length};
}

/* The wide bit changes neither the number nor what is left. */
static const char *wide_differs(const struct trial *t, const struct run *library)
{
    static struct trial turned;
    struct run other;
    turned = *t;
    turned.machine.bytes = turned.machine_room;
    trial_machine(&turned)->features ^= F_WIDE;
    run_library(&turned, &other);
    if (FAULT(LAW_WIDE) && is_opened(&other) && other.call.data.length >= 128)
        other.call.data.bytes[127] ^= 1;
    bool alike = other.number == library->number && same(other.call.cpu, library->call.cpu) && same(other.call.data, library->call.data);
    run_free(&other);
    if (other.touched)
        return other.touched;
    return alike ? NULL : "the wide bit changes a counter call";
}

/* AESENC128KL or AESENC256KL of a counter block in XMM0, with the handle at address 0 */
static bool encrypted_singly(const struct trial *t, uint64_t i, uint8_t block[16])
{
    const uint8_t string[] = {0xF3, 0x0F, 0x38, t->call.handle.length == HANDLE_MOST ? 0xDE : 0xDC, 0x04, 0x25, 0, 0, 0, 0};
    struct machine m;
    struct cpu cpu;
    memcpy(&m, t->machine.bytes, sizeof m);
    memcpy(&cpu, t->call.cpu.bytes, sizeof cpu);
    counter_block(t->call.counter.bytes, FAULT(LAW_SINGLY) && i == 8 ? 0 : i, cpu.xmm[0]);
    uint32_t number = keylocker_step((uint8_t *)&m, sizeof m, t->call.processor, (uint8_t *)&cpu, sizeof cpu, t->call.handle.bytes, t->call.handle.length,
                                     NULL, 0, string, sizeof string);
    memcpy(block, cpu.xmm[0], 16);
    return number == DONE && !(load64(cpu.rflags) & ZF);
}

static const char *singly_differs(const struct trial *t, const struct run *library)
{
    for (size_t at = 0; at < t->call.data.length; at += 16) {
        uint8_t stream[16];
        if (!encrypted_singly(t, at / 16, stream))
            return "the single form does not open what a counter call did";
        for (size_t i = at; i < at + 16 && i < t->call.data.length; i++)
            if (library->call.data.bytes[i] != (t->call.data.bytes[i] ^ stream[i - at]))
                return "a counter call is not the single form throughout";
    }
    return NULL;
}

static const char *twice_differs(const struct trial *t, const struct run *library)
{
    struct buffer data = copied(library->call.data);
    if (FAULT(LAW_TWICE) && data.length)
        data.bytes[data.length - 1] ^= 1;
    return again(t, t->call.counter.bytes, data) && same(data, t->call.data) ? NULL : "a counter call twice does not give the data back";
}

/* cut behind some whole blocks, of which the counter of the second part is told */
static const char *parts_differ(const struct trial *t, const struct run *library)
{
    struct buffer data = copied(t->call.data);
    size_t blocks = below(data.length / 16 + 1), first = 16 * blocks;
    uint8_t counter[COUNTER_SIZE];
    counter_block(t->call.counter.bytes, blocks + (FAULT(LAW_IN_PARTS) && blocks), counter);
    bool opened = again(t, t->call.counter.bytes, (struct buffer){room, first}) && again(t, counter, (struct buffer){room + first, data.length - first});
    return opened && same(data, library->call.data) ? NULL : "a counter call in two parts is not the whole one";
}

static enum ctr_law some_law(const struct trial *t, const struct run *library)
{
    bool wide = t->machine.length > offsetof(struct machine, features) && t->machine.bytes[offsetof(struct machine, features)] & F_WIDE;
    enum ctr_law law = (enum ctr_law)below(LAW_COUNT + 1);
    if (!is_opened(library) || law >= LAW_COUNT || law <= LAW_WITH_WIDE || (law == LAW_SINGLY && t->call.data.length > SHORT_DATA))
        return wide ? LAW_WITHOUT_WIDE : LAW_WITH_WIDE;
    return law;
}

const char *ctr_law_differs(const struct trial *t, const struct run *library)
{
    enum ctr_law law = some_law(t, library);
    if (is_opened(library))
        cover_law(law, t->call.handle.length == HANDLE_MOST);
    switch (law) {
    case LAW_SINGLY:
        return singly_differs(t, library);
    case LAW_TWICE:
        return twice_differs(t, library);
    case LAW_IN_PARTS:
        return parts_differ(t, library);
    default:
        return wide_differs(t, library);
    }
}
