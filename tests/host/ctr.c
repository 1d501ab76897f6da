#include "ctr.h"

#include <string.h>

#include "aes.h"
#include "faults.h"

/* the byte from which on, downwards, a fault counts no more; without one all 16 count */
static int last_counting(void)
{
    return FAULT(CTR_CARRY_12) ? 12 : FAULT(CTR_CARRY_8) ? 8 : FAULT(CTR_CARRY_1) ? 1 : 0;
}

void counter_block(const uint8_t counter[COUNTER_SIZE], uint64_t i, uint8_t block[16])
{
    uint64_t carry = i + FAULT(CTR_FROM_1);
    memcpy(block, counter, COUNTER_SIZE);
    for (int n = 15; n >= last_counting(); n--) {
        int at = FAULT(CTR_LITTLE_ENDIAN) ? 15 - n : n;
        carry += counter[at];
        block[at] = (uint8_t)carry;
        carry >>= 8;
    }
    if (FAULT(CTR_STOPS_AT_END) && carry)
        memset(block, 0xFF, 16);
}

/* Which of a block's keystream bytes is XORed with its byte number at: that of the same number, in a short end too. */
static size_t keystream_byte(size_t at, size_t some)
{
    return FAULT(CTR_LAST_BYTES) ? 16 - some + at : at;
}

static bool left_out(size_t block, size_t some, size_t length)
{
    return (FAULT(CTR_SEVEN_OF_EIGHT) && block % 8 == 7) || (FAULT(CTR_NO_SHORT_END) && some < 16) ||
           (FAULT(CTR_LAST_OF_LONGEST) && 16 * block + 16 == BUFFER_LIMIT && length == BUFFER_LIMIT);
}

void ctr_xor(const uint8_t *key, size_t key_length, const uint8_t counter[COUNTER_SIZE], struct buffer data)
{
    for (size_t block = 0; 16 * block < data.length; block++) {
        uint8_t stream[16], *bytes = data.bytes + 16 * block;
        size_t some = data.length - 16 * block < 16 ? data.length - 16 * block : 16;
        if (left_out(block, some, data.length))
            continue;
        counter_block(counter, FAULT(CTR_PAIRS_ALIKE) ? block / 2 * 2 : block, stream);
        if (FAULT(CTR_DECRYPTS))
            aes_decrypt(key, key_length, stream, stream);
        else if (!FAULT(CTR_NOT_ENCRYPTED))
            aes_encrypt(key, key_length, stream, stream);
        for (size_t i = 0; i < some; i++)
            bytes[i] = (FAULT(CTR_STREAM_ALONE) ? 0 : bytes[i]) ^ stream[keystream_byte(i, some)];
    }
}
