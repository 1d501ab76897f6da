/* A guest with more memory than the library takes: its handle lies above 4 GiB. The host copies the handle and rewrites the operand. */
#include <keylocker.h>
#include <stdio.h>
#include <string.h>

static uint8_t machine[KEYLOCKER_MACHINE_SIZE], cpu[KEYLOCKER_CPU_SIZE];

/* One page of the guest, at this address; its other pages are left out here. */
static const uint64_t page_address = 0x123456000;
static uint8_t page[4096];

/* The guest's bytes from an address on, or none where they are not all there. */
static const uint8_t *guest(uint64_t address, size_t len)
{
    uint64_t at = address - page_address;
    return at < sizeof page && len <= sizeof page - at ? page + at : NULL;
}

/* keylocker.h explains it. */
static uint32_t use_copy(uint8_t *machine, uint8_t processor, uint8_t *cpu, const uint8_t *handle, size_t handle_len, uint8_t opcode,
                         uint8_t reg, size_t guest_string_len)
{
    const uint8_t rex = reg < 8 ? 0x40 : 0x44, modrm = (uint8_t)((reg & 7) << 3 | 4);
    const uint8_t string[] = {0xF3, rex, 0x0F, 0x38, opcode, modrm, 0x25, 0, 0, 0, 0};
    const uint64_t rip = keylocker_get_rip(cpu);
    uint32_t answer = keylocker_step(machine, KEYLOCKER_MACHINE_SIZE, processor, cpu, KEYLOCKER_CPU_SIZE, handle, handle_len, NULL, 0, string,
                                     sizeof string);
    if (answer == KEYLOCKER_DONE)
        keylocker_set_rip(cpu, rip + guest_string_len);
    return answer;
}

/* A use with a 48-byte handle at a guest address. Where it is not there no bytes are lent, so that #UD and #NM still come before #PF. */
static uint32_t use_at(uint64_t address, uint8_t opcode, uint8_t reg, size_t guest_string_len)
{
    const uint8_t *found = guest(address, KEYLOCKER_HANDLE_128_SIZE);
    uint8_t handle[KEYLOCKER_HANDLE_128_SIZE];
    if (found != NULL)
        memcpy(handle, found, sizeof handle);
    return use_copy(machine, 0, cpu, handle, found == NULL ? 0 : sizeof handle, opcode, reg, guest_string_len);
}

/* One instruction of registers alone; whether it was done and left ZF 0. */
static int step(const uint8_t *string, size_t len)
{
    return keylocker_step(machine, sizeof machine, 0, cpu, sizeof cpu, NULL, 0, NULL, 0, string, len) == KEYLOCKER_DONE && !keylocker_get_zf(cpu);
}

int main(void)
{
    static const uint8_t loadiwkey[] = {0xF3, 0x0F, 0x38, 0xDC, 0xD1};             /* loadiwkey xmm2, xmm1 */
    static const uint8_t encodekey128[] = {0xF3, 0x0F, 0x38, 0xFA, 0xC1};          /* encodekey128 eax, ecx */
    static const uint8_t aesenc128kl[] = {0xF3, 0x44, 0x0F, 0x38, 0xDC, 0x4B, 40}; /* aesenc128kl xmm9, [rbx+40] */
    uint8_t block[16];

    keylocker_power_on(machine, sizeof machine, 1, KEYLOCKER_FEATURE_ALL);
    cpu[KEYLOCKER_CPU_CONTROL] = KEYLOCKER_CONTROL_CR4_KL | KEYLOCKER_CONTROL_CR4_OSFXSR;
    memset(cpu + KEYLOCKER_CPU_XMM, 0x5A, 3 * 16);
    if (!step(loadiwkey, sizeof loadiwkey))
        return 1;
    for (int i = 0; i < 16; i++)
        block[i] = (uint8_t)i;
    keylocker_set_xmm(cpu, 0, block);
    if (!step(encodekey128, sizeof encodekey128))
        return 1;
    memcpy(page + 100, cpu + KEYLOCKER_CPU_XMM, KEYLOCKER_HANDLE_128_SIZE); /* the guest stores its handle */

    for (int i = 0; i < 16; i++)
        block[i] = (uint8_t)(0x11 * i);
    keylocker_set_xmm(cpu, 9, block);
    keylocker_set_register(cpu, KEYLOCKER_RBX, page_address + 60);

    /* The guest executes aesenc128kl, the first time by a wrong address: the host's own page fault. */
    uint64_t rip = keylocker_get_rip(cpu), address = keylocker_get_register(cpu, KEYLOCKER_RBX) + aesenc128kl[6];
    if (use_at(address + 4096, aesenc128kl[4], 9, sizeof aesenc128kl) != KEYLOCKER_PF)
        return 1;
    uint32_t answer = use_at(address, aesenc128kl[4], 9, sizeof aesenc128kl);
    if (answer != KEYLOCKER_DONE || keylocker_get_zf(cpu)) {
        printf("%s\n", keylocker_answer_text(answer));
        return 1;
    }
    keylocker_clear_stack(); /* the opened key among the rest */
    keylocker_get_xmm(cpu, 9, block);
    for (int i = 0; i < 16; i++)
        printf("%02x", block[i]);
    printf(", RIP %u bytes on\n", (unsigned)(keylocker_get_rip(cpu) - rip)); /* FIPS 197, C.1: 69c4e0d86a7b0430d8cdb78070b4c55a */
    return 0;
}
