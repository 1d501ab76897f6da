#include "mnemonic.h"

#include "keylocker.h"

const struct mnemonic mnemonics[MNEMONICS] = {
    {"aesenc128kl", CALL_USE, 0xDC, -1, true, 16, false, true},
    {"aesdec128kl", CALL_USE, 0xDD, -1, true, 16, false, false},
    {"aesenc256kl", CALL_USE, 0xDE, -1, true, 32, false, true},
    {"aesdec256kl", CALL_USE, 0xDF, -1, true, 32, false, false},
    {"aesencwide128kl", CALL_USE, 0xD8, 0, true, 16, true, true},
    {"aesdecwide128kl", CALL_USE, 0xD8, 1, true, 16, true, false},
    {"aesencwide256kl", CALL_USE, 0xD8, 2, true, 32, true, true},
    {"aesdecwide256kl", CALL_USE, 0xD8, 3, true, 32, true, false},
    {"encodekey128", CALL_ENCODE, 0xFA, -1, false, 16, false, false},
    {"encodekey256", CALL_ENCODE, 0xFB, -1, false, 32, false, false},
    {"loadiwkey", CALL_LOAD, 0xDC, -1, false, 0, false, false},
};

const struct restriction restrictions[RESTRICTIONS] = {
    {"cpl0-only", KEYLOCKER_RESTRICT_CPL0_ONLY},
    {"no-encrypt", KEYLOCKER_RESTRICT_NO_ENCRYPT},
    {"no-decrypt", KEYLOCKER_RESTRICT_NO_DECRYPT},
};

const struct mnemonic *mnemonic_of(uint8_t opcode, unsigned reg, bool memory)
{
    for (size_t i = 0; i < MNEMONICS; i++)
        if (mnemonics[i].opcode == opcode && mnemonics[i].memory == memory && (mnemonics[i].reg < 0 || (unsigned)mnemonics[i].reg == reg))
            return &mnemonics[i];
    return NULL;
}
