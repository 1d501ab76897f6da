/* The functions that keylocker.h has for hosts, against the places and numbers that it names. Prints what is wrong, and the text of each answer. */
#include <keylocker.h>
#include <stdio.h>

static int wrong;

static void need(int condition, const char *what)
{
    if (!condition)
        printf("wrong: %s\n", what);
    wrong |= !condition;
}

/* A record in which every byte is another than its neighbours. */
static void fill(uint8_t *cpu)
{
    for (size_t i = 0; i < KEYLOCKER_CPU_SIZE; i++)
        cpu[i] = (uint8_t)(7 * i + 3);
}

static uint64_t number_at(size_t at)
{
    uint8_t cpu[KEYLOCKER_CPU_SIZE];
    uint64_t value = 0;
    fill(cpu);
    for (size_t i = 8; i-- > 0;)
        value = value << 8 | cpu[at + i];
    return value;
}

/* The setter wrote the 8 bytes at the place, low byte first, and none beside them. */
static int wrote(const uint8_t *cpu, size_t at, size_t len, const uint8_t *value)
{
    uint8_t before[KEYLOCKER_CPU_SIZE];
    fill(before);
    memcpy(before + at, value, len);
    return memcmp(cpu, before, sizeof before) == 0;
}

static void numbers(void)
{
    static const uint8_t bytes[8] = {0xF1, 0xE2, 0xD3, 0xC4, 0xB5, 0xA6, 0x97, 0x88};
    static const uint64_t value = 0x8897A6B5C4D3E2F1;
    uint8_t cpu[KEYLOCKER_CPU_SIZE];
    for (unsigned n = 0; n < 32; n++) {
        size_t at = KEYLOCKER_CPU_REGISTERS + 8 * (n % 16);
        fill(cpu);
        need(keylocker_get_register(cpu, n) == number_at(at), "a register that is read");
        keylocker_set_register(cpu, n, value);
        need(wrote(cpu, at, 8, bytes), "a register that is written");
    }
    fill(cpu);
    need(keylocker_get_rip(cpu) == number_at(KEYLOCKER_CPU_RIP) && keylocker_get_rflags(cpu) == number_at(KEYLOCKER_CPU_RFLAGS), "RIP or RFLAGS read");
    keylocker_set_rip(cpu, value);
    need(wrote(cpu, KEYLOCKER_CPU_RIP, 8, bytes), "RIP written");
    fill(cpu);
    keylocker_set_rflags(cpu, value);
    need(wrote(cpu, KEYLOCKER_CPU_RFLAGS, 8, bytes), "RFLAGS written");
    for (unsigned bit = 0; bit < 64; bit++) {
        keylocker_set_rflags(cpu, (uint64_t)1 << bit);
        need(keylocker_get_zf(cpu) == (bit == 6), "ZF");
    }
}

static void blocks(void)
{
    uint8_t cpu[KEYLOCKER_CPU_SIZE], block[16], before[KEYLOCKER_CPU_SIZE];
    fill(before);
    for (unsigned n = 0; n < 32; n++) {
        size_t at = KEYLOCKER_CPU_XMM + 16 * (n % 16);
        fill(cpu);
        keylocker_get_xmm(cpu, n, block);
        need(memcmp(block, before + at, 16) == 0, "an XMM register that is read");
        for (int i = 0; i < 16; i++)
            block[i] ^= 0xFF;
        keylocker_set_xmm(cpu, n, block);
        need(wrote(cpu, at, 16, block), "an XMM register that is written");
    }
}

static void version(void)
{
    char text[32];
    snprintf(text, sizeof text, "%d.%d.%d", KEYLOCKER_VERSION_MAJOR, KEYLOCKER_VERSION_MINOR, KEYLOCKER_VERSION_PATCH);
    need(strcmp(text, KEYLOCKER_VERSION) == 0, "version");
}

int main(void)
{
    numbers();
    blocks();
    version();
    for (uint32_t number = 0; number < 20; number++)
        printf("%s\n", keylocker_answer_text(number));
    return wrong;
}
