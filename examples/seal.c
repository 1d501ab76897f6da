/* Seals one block: loads an IWKey, encodes a key under it, keeps the handle by a label, and uses it. */
#include <keylocker.h>
#include <stdio.h>
#include <string.h>

static uint8_t machine[KEYLOCKER_MACHINE_SIZE], cpu[KEYLOCKER_CPU_SIZE], memory[KEYLOCKER_HANDLE_256_SIZE];
static uint8_t keyring[8 * KEYLOCKER_KEYRING_RECORD]; /* of zeros it is empty, with room for seven labels */

/* One instruction on processor 0; whether it was done and left ZF 0. */
static int step(const uint8_t *string, size_t len)
{
    uint32_t answer = keylocker_step(machine, sizeof machine, 0, cpu, sizeof cpu, memory, sizeof memory, NULL, 0, string, len);
    return answer == KEYLOCKER_DONE && !keylocker_get_zf(cpu);
}

int main(void)
{
    static const uint8_t loadiwkey[] = {0xF3, 0x0F, 0x38, 0xDC, 0xD1};    /* loadiwkey xmm2, xmm1 */
    static const uint8_t encodekey128[] = {0xF3, 0x0F, 0x38, 0xFA, 0xC1}; /* encodekey128 eax, ecx */
    static const uint8_t aesenc128kl[] = {0xF3, 0x0F, 0x38, 0xDC, 0x00};  /* aesenc128kl xmm0, [rax] */
    static const uint8_t label[KEYLOCKER_LABEL_SIZE] = "image key";
    uint8_t *xmm0 = cpu + KEYLOCKER_CPU_XMM, kind;

    keylocker_power_on(machine, sizeof machine, 1, KEYLOCKER_FEATURE_ALL);
    cpu[KEYLOCKER_CPU_CONTROL] = KEYLOCKER_CONTROL_CR4_KL | KEYLOCKER_CONTROL_CR4_OSFXSR;

    memset(xmm0, 0x5A, 3 * 16); /* the IWKey: integrity key in XMM0, encryption key in XMM1 and XMM2; EAX is 0 */
    if (!step(loadiwkey, sizeof loadiwkey))
        return 1;

    for (int i = 0; i < 16; i++)
        xmm0[i] = (uint8_t)i; /* the key; ECX is 0, no restrictions */
    if (!step(encodekey128, sizeof encodekey128))
        return 1;
    /* the handle is all that is needed from here on */
    if (keylocker_keyring_add(keyring, sizeof keyring, label, sizeof label, xmm0, KEYLOCKER_HANDLE_128_SIZE) != KEYLOCKER_DONE)
        return 1;

    if (keylocker_keyring_lookup(keyring, sizeof keyring, label, sizeof label, &kind, memory) != KEYLOCKER_DONE)
        return 1;

    for (int i = 0; i < 16; i++)
        xmm0[i] = (uint8_t)(0x11 * i); /* the block; RAX is 0, the handle's address */
    if (!step(aesenc128kl, sizeof aesenc128kl))
        return 1;
    for (int i = 0; i < 16; i++)
        printf("%02x", xmm0[i]);
    printf("\n"); /* FIPS 197, C.1: 69c4e0d86a7b0430d8cdb78070b4c55a */
    return 0;
}
