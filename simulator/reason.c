#include "reason.h"

#include "execute.h"
#include "mnemonic.h"
#include "answer.h"

/* The AAD, 343965-001US A.3.1: restrictions are bits 2:0, the key type bits 27:24; the others are reserved. */
enum { AAD_SIZE = 16, RESTRICTION_BITS = 7, TYPE_BYTE = 3, TYPE = 15 };

static bool reserved_set(const uint8_t *aad)
{
    unsigned set = (aad[0] & ~RESTRICTION_BITS) | aad[1] | aad[2] | (aad[TYPE_BYTE] & ~TYPE);
    for (int i = TYPE_BYTE + 1; i < AAD_SIZE; i++)
        set |= aad[i];
    return set != 0;
}

void add_reason(struct simulator *s, const uint8_t *handle, size_t key_size, bool encrypts)
{
    unsigned type = handle[TYPE_BYTE] & TYPE, wanted = key_size == 32, cpl = cpl_of(s);
    bool cpl_against = handle[0] & KEYLOCKER_RESTRICT_CPL0_ONLY && cpl > 0;
    bool direction_against = handle[0] & (encrypts ? KEYLOCKER_RESTRICT_NO_ENCRYPT : KEYLOCKER_RESTRICT_NO_DECRYPT);
    bool reserved = reserved_set(handle);
    add_answer(s, "the handle does not open");
    if (reserved)
        add_answer(s, ", reserved bits of its AAD are set");
    if (type != wanted)
        add_answer(s, ", its key type is %u and not %u (AES-%zu)", type, wanted, 8 * key_size);
    if (cpl_against)
        add_answer(s, ", it is for CPL 0 and CPL is %u", cpl);
    if (direction_against)
        add_answer(s, ", it may not %scrypt", encrypts ? "en" : "de");
    if (!reserved && type == wanted && !cpl_against && !direction_against)
        add_answer(s, ", its tag does not match (this processor has another IWKey, or the handle was altered)");
}

void add_use_reason(struct simulator *s)
{
    const struct mnemonic *m = s->last.mnemonic;
    add_reason(s, s->memory + s->last.handle, m->key_size, m->encrypts);
}
