// Measures whole calls of the library for C against what their cryptography alone takes in the two cores of
// keywrap_baseline.h and aes_baseline.h, after checking that all compute the same. The cores decode, check and
// copy nothing, so a ratio holds all of a call against a part of it. A missed bar is printed and is no failure
// of the program, since a busy machine can be the reason; a wrong result is one.
#include "aes_baseline.h"
#include "keylocker.h"
#include "keywrap_baseline.h"
#include "measure.h"

#include <stdbool.h>
#include <stdio.h>
#include <stdlib.h>
#include <string.h>

enum { WIDE_BLOCKS = 8, HANDLES = 64, PROCESSORS = 16 };

// ---- what is called

// ENCRYPT_32 is ENCRYPT with the address-size prefix, 67; IDLE an empty string; CTR a counter call.
enum op {
    ENCODE, ENCRYPT, DECRYPT, ENCRYPT_WIDE, DECRYPT_WIDE, LOAD, WRITE, READ, CPUID, BAD_STRING, ILLEGAL, ENCRYPT_32,
    TAKEN, IDLE, CTR, OPS
};

static size_t blocks_of(int op) { return op == ENCRYPT_WIDE || op == DECRYPT_WIDE ? WIDE_BLOCKS : 1; }
static bool is_decryption(int op) { return op == DECRYPT || op == DECRYPT_WIDE; }
static bool is_use(int op) { return ENCRYPT <= op && op <= DECRYPT_WIDE; }

// Opcode and ModRM behind F3 0F 38, by size. Uses take XMM0 and [RAX]; encodes ECX, EAX; the load XMM1, XMM2.
static const uint8_t strings[OPS][2][2] = {
    [ENCODE] = {{0xfa, 0xc8}, {0xfb, 0xc8}},       [ENCRYPT] = {{0xdc, 0x00}, {0xde, 0x00}},
    [DECRYPT] = {{0xdd, 0x00}, {0xdf, 0x00}},      [ENCRYPT_WIDE] = {{0xd8, 0x00}, {0xd8, 0x10}},
    [DECRYPT_WIDE] = {{0xd8, 0x08}, {0xd8, 0x18}}, [LOAD] = {{0xdc, 0xca}, {0xdc, 0xca}},
    [BAD_STRING] = {{0xd8, 0x20}, {0xd8, 0x20}},   [ILLEGAL] = {{0xdc, 0x00}, {0xde, 0x00}},
    [ENCRYPT_32] = {{0xdc, 0x00}, {0xde, 0x00}},
};

static uint8_t machine[KEYLOCKER_MACHINE_SIZE];
static uint8_t cpu[KEYLOCKER_CPU_SIZE];
static uint8_t memory[HANDLES * HANDLE_BYTES]; // a handle every 64 bytes, of the size that is measured
static uint8_t keys[HANDLES][KEY_BYTES];       // what the handles hold
static uint8_t random_data[KEYLOCKER_RANDOM_SIZE];
static uint8_t buffer[KEYLOCKER_BUFFER_LIMIT], counter[KEYLOCKER_COUNTER_SIZE]; // of counter calls
static uint8_t integrity[16], encryption[32]; // the IWKey of every processor
static const uint8_t aad[2][16] = {{0}, {[3] = 1}};

static void put64(uint8_t *p, uint64_t x)
{
    for (int i = 0; i < 8; i++)
        p[i] = (uint8_t)(x >> 8 * i);
}

static uint8_t *reg(int n) { return cpu + KEYLOCKER_CPU_REGISTERS + 8 * n; }

// RAX for a use of a handle; 67 drops its upper half.
static void point_at(int op, size_t handle)
{
    put64(reg(0), HANDLE_BYTES * handle + (op == ENCRYPT_32 ? 0x89abcdef00000000 : 0));
}

static void require(bool holds, const char *what)
{
    if (holds)
        return;
    fprintf(stderr, "bench: %s\n", what);
    exit(1);
}

static uint32_t step(int op, uint8_t size, uint8_t processor)
{
    uint8_t string[6] = {0x67, 0xf3, 0x0f, 0x38, strings[op][size][0], strings[op][size][1]};
    size_t first = op == IDLE ? sizeof string : op == ENCRYPT_32 ? 0 : 1;
    return keylocker_step(machine, sizeof machine, processor, cpu, sizeof cpu, memory, sizeof memory, random_data,
                          sizeof random_data, string + first, sizeof string - first);
}

static size_t handle_len(uint8_t size) { return size ? KEYLOCKER_HANDLE_256_SIZE : KEYLOCKER_HANDLE_128_SIZE; }

static uint32_t ctr(uint8_t size, uint8_t processor, size_t handle, size_t len)
{
    return keylocker_ctr(machine, sizeof machine, processor, cpu, sizeof cpu, memory + HANDLE_BYTES * handle,
                         handle_len(size), counter, sizeof counter, buffer, len);
}

static void turn_wide_off(void) { machine[KEYLOCKER_MACHINE_FEATURES] &= (uint8_t)~KEYLOCKER_FEATURE_WIDE; }

// A machine with its IWKey on every processor.
static void power_on(uint8_t count)
{
    uint32_t answer = keylocker_power_on(machine, sizeof machine, count, KEYLOCKER_FEATURE_ALL);
    for (uint8_t i = 0; i < count; i++) {
        memset(cpu, 0, sizeof cpu);
        cpu[KEYLOCKER_CPU_CONTROL] = KEYLOCKER_CONTROL_CR4_KL | KEYLOCKER_CONTROL_CR4_OSFXSR;
        memcpy(cpu, integrity, 16);
        memcpy(cpu + 16, encryption + 16, 16); // SRC1 is the high half
        memcpy(cpu + 32, encryption, 16);
        answer |= step(LOAD, 0, i);
    }
    require(answer == KEYLOCKER_DONE, "power-on or a load was refused");
}

static void make_handles(uint8_t size)
{
    for (int i = 0; i < HANDLES; i++)
        bytes_wrap(size, integrity, encryption, aad[size], keys[i], memory + HANDLE_BYTES * i);
}

// ---- the cryptography of an instruction

struct core {
    wrap_fn *wrap;
    unwrap_fn *unwrap;
    void (*key_expansion)(uint8_t size, const uint8_t key[32], uint32_t w[60]);
    void (*inv_key_expansion)(uint8_t size, uint32_t w[60]); // or none
    void (*encrypt)(uint8_t size, const uint32_t w[60], uint8_t *data, size_t len);
    void (*decrypt)(uint8_t size, const uint32_t w[60], uint8_t *data, size_t len);
    void (*ctr)(uint8_t size, const uint32_t w[60], const uint8_t counter[16], uint8_t *data, size_t len);
};

static const struct core cores[CORES] = {
    [BYTES] = {bytes_wrap, bytes_unwrap, bytes_key_expansion_grouped, NULL, bytes_encrypt_blocks,
               bytes_decrypt_blocks, bytes_ctr},
    [TTABLES] = {ttables_wrap, ttables_unwrap, ttables_key_expansion, ttables_inv_key_expansion,
                 ttables_encrypt_blocks, ttables_decrypt_blocks, ttables_ctr},
};

static void core_use(const struct core *core, int op, uint8_t size, const uint8_t handle[64], uint8_t *data)
{
    uint8_t key[KEY_BYTES];
    uint32_t w[MAX_WORDS];
    if (!core->unwrap(size, integrity, encryption, handle, key))
        return;
    core->key_expansion(size, key, w);
    if (!is_decryption(op)) {
        core->encrypt(size, w, data, blocks_of(op) * BLOCK_BYTES);
        return;
    }
    if (core->inv_key_expansion)
        core->inv_key_expansion(size, w);
    core->decrypt(size, w, data, blocks_of(op) * BLOCK_BYTES);
}

static void core_ctr(const struct core *core, uint8_t size, const uint8_t handle[64], uint8_t *data, size_t len)
{
    uint8_t key[KEY_BYTES];
    uint32_t w[MAX_WORDS];
    if (!core->unwrap(size, integrity, encryption, handle, key))
        return;
    core->key_expansion(size, key, w);
    core->ctr(size, w, counter, data, len);
}

// ---- the check

static void check_use(int op, uint8_t size, int handle)
{
    uint8_t data[WIDE_BLOCKS * BLOCK_BYTES], expected[sizeof data];
    size_t len = blocks_of(op) * BLOCK_BYTES;
    fill_random(data, sizeof data);
    memcpy(cpu, data, sizeof data);
    point_at(op, (size_t)handle);
    require(step(op, size, 0) == KEYLOCKER_DONE, "a use was refused");
    for (int i = BYTES; i < CORES; i++) {
        memcpy(expected, data, sizeof data);
        core_use(&cores[i], op, size, memory + HANDLE_BYTES * handle, expected);
        require(memcmp(expected, data, len) != 0, "a core's use left the blocks");
        require(memcmp(cpu, expected, sizeof data) == 0, "library and core differ in a use");
    }
}

static void check_encode(uint8_t size, int key)
{
    uint8_t handle[HANDLE_BYTES];
    size_t len = handle_len(size);
    memcpy(cpu, keys[key], KEY_BYTES);
    put64(reg(0), 0);
    require(step(ENCODE, size, 0) == KEYLOCKER_DONE, "an encode was refused");
    for (int i = BYTES; i < CORES; i++) {
        cores[i].wrap(size, integrity, encryption, aad[size], keys[key], handle);
        require(memcmp(cpu, handle, len) == 0, "library and core differ in an encode");
    }
}

// The counter wraps on the way.
static void check_ctr(uint8_t size, size_t handle, size_t len)
{
    static uint8_t data[KEYLOCKER_BUFFER_LIMIT], expected[sizeof data];
    fill_random(data, len);
    memset(counter, 0xff, sizeof counter);
    memcpy(buffer, data, len);
    require(ctr(size, 0, handle, len) == KEYLOCKER_DONE, "a counter call was refused");
    for (int i = BYTES; i < CORES; i++) {
        memcpy(expected, data, len);
        core_ctr(&cores[i], size, memory + HANDLE_BYTES * handle, expected, len);
        require(len < 16 || memcmp(expected, data, len) != 0, "a core's counter mode left the data");
        require(memcmp(buffer, expected, len) == 0, "library and core differ in a counter call");
    }
}

static void check_ctrs(uint8_t size)
{
    for (size_t len = 0; len < 300; len++)
        check_ctr(size, len % HANDLES, len);
    check_ctr(size, 0, KEYLOCKER_BUFFER_LIMIT);
}

static void check_all(void)
{
    for (uint8_t size = 0; size < 2; size++) {
        make_handles(size);
        for (int i = 0; i < HANDLES; i++) {
            check_encode(size, i);
            for (int op = ENCRYPT; op <= DECRYPT_WIDE; op++)
                check_use(op, size, i);
            check_use(ENCRYPT_32, size, i);
        }
        check_ctrs(size);
        turn_wide_off();
        check_ctrs(size);
        power_on(PROCESSORS);
    }
    puts("The library's ten forms of encode and use, uses behind 67, and counter calls, agree with both cores' "
         "cryptography on random keys and blocks.\n");
}

// ---- the measurement

// The next key to encode, or handle to use: on the same bits every time a processor would learn what branches do.
static void next_operand(int op, size_t i)
{
    if (op == ENCODE)
        memcpy(cpu, keys[i % HANDLES], KEY_BYTES);
    else
        point_at(op, i % HANDLES);
}

static uint8_t processor_of(const struct row *row, size_t i) { return row->count == 1 ? 0 : (uint8_t)(i % 2); }

// Each use goes on the blocks that the last one left.
static uint32_t repeat_steps(const struct row *row, size_t reps)
{
    uint32_t answers = 0;
    put64(reg(0), 0);
    for (size_t i = 0; i < reps; i++) {
        if (row->op == ENCODE || is_use(row->op) || row->op == ILLEGAL || row->op == ENCRYPT_32)
            next_operand(row->op, i);
        answers |= step(row->op, row->size, processor_of(row, i));
    }
    return answers;
}

static uint32_t repeat_registers(const struct row *row, size_t reps)
{
    uint32_t answers = 0;
    uint64_t value = 0;
    for (size_t i = 0; i < reps; i++)
        answers |= row->op == READ ? keylocker_read(machine, sizeof machine, processor_of(row, i), 0,
                                                    KEYLOCKER_COPY_STATUS, &value)
                                   : keylocker_write(machine, sizeof machine, processor_of(row, i), 0,
                                                     KEYLOCKER_COPY_PLATFORM_TO_LOCAL, 1);
    return answers;
}

static uint32_t repeat_cpuid(size_t reps)
{
    uint32_t answers = 0, eax, ebx, ecx, edx;
    for (size_t i = 0; i < reps; i++)
        answers |= keylocker_cpuid(machine, sizeof machine, cpu, sizeof cpu, 0x19, 0, &eax, &ebx, &ecx, &edx);
    return answers;
}

static uint32_t repeat_taken(size_t reps)
{
    uint32_t answers = 0;
    for (size_t i = 0; i < reps; i++)
        answers |= keylocker_taken(machine, sizeof machine);
    return answers;
}

static uint32_t repeat_ctr(const struct row *row, size_t reps)
{
    uint32_t answers = 0;
    for (size_t i = 0; i < reps; i++)
        answers |= ctr(row->size, processor_of(row, i), i % HANDLES, row->bytes);
    return answers;
}

static void repeat_core(const struct core *core, const struct row *row, size_t reps)
{
    static uint8_t data[WIDE_BLOCKS * BLOCK_BYTES];
    uint8_t handle[HANDLE_BYTES];
    for (size_t i = 0; i < reps; i++) {
        if (row->op == ENCODE)
            core->wrap(row->size, integrity, encryption, aad[row->size], keys[i % HANDLES], handle);
        else if (row->op == CTR)
            core_ctr(core, row->size, memory + HANDLE_BYTES * (i % HANDLES), buffer, row->bytes);
        else
            core_use(core, row->op, row->size, memory + HANDLE_BYTES * (i % HANDLES), data);
    }
}

// What a row needs, outside the time that is taken.
static void prepare_machine(const struct row *row)
{
    power_on(row->count ? row->count : PROCESSORS);
    make_handles(row->size);
    if (row->op == ILLEGAL) // a reserved bit
        for (int i = 0; i < HANDLES; i++)
            memory[HANDLE_BYTES * i + 4] = 1;
    if (row->op == WRITE || row->op == TAKEN)
        require(keylocker_write(machine, sizeof machine, 0, 0, KEYLOCKER_COPY_LOCAL_TO_PLATFORM, 1) == KEYLOCKER_DONE,
                "no backup");
    if (row->without_wide)
        turn_wide_off();
    fill_random(cpu, 256);
}

static double slice_ns(int core, const struct row *row, size_t reps)
{
    uint32_t answers = row->op == BAD_STRING ? KEYLOCKER_BAD_BYTE : KEYLOCKER_DONE, got = answers;
    prepare_machine(row);
    double start = now_ns();
    if (core != PROVED)
        repeat_core(&cores[core], row, reps);
    else if (row->op == WRITE || row->op == READ)
        got = repeat_registers(row, reps);
    else if (row->op == CPUID)
        got = repeat_cpuid(reps);
    else if (row->op == TAKEN)
        got = repeat_taken(reps);
    else if (row->op == CTR)
        got = repeat_ctr(row, reps);
    else
        got = repeat_steps(row, reps);
    double end = now_ns();
    require(got == answers, "a measured call had another answer than is measured");
    return end - start;
}

// ---- the figures

static const char *label_of(const struct row *row)
{
    static char label[64];
    static const char *const names[OPS] = {
        [ENCODE] = "ENCODEKEY%d",          [ENCRYPT] = "AESENC%dKL",
        [DECRYPT] = "AESDEC%dKL",          [ENCRYPT_WIDE] = "AESENCWIDE%dKL",
        [DECRYPT_WIDE] = "AESDECWIDE%dKL", [LOAD] = "LOADIWKEY",
        [WRITE] = "write 0xD92",           [READ] = "read 0x990",
        [CPUID] = "CPUID leaf 0x19",       [BAD_STRING] = "a string refused",
        [ILLEGAL] = "AESENC%dKL, illegal handle",
        [ENCRYPT_32] = "AESENC%dKL behind 67", [TAKEN] = "taken",
        [IDLE] = "an idle step",           [CTR] = "CTR-%d",
    };
    char form[64], bytes[32] = "";
    if (row->op == CTR)
        snprintf(bytes, sizeof bytes, ", %zu bytes%s", row->bytes, row->without_wide ? ", not wide" : "");
    snprintf(form, sizeof form, "%s%s%s", names[row->op], bytes, row->count == 1 ? ", 1 processor" : "");
    snprintf(label, sizeof label, form, key_bits(row->size));
    return label;
}

static const struct bar bar = {"encode, use", 0, BYTES, 0.62, NULL};
static const struct bar goal = {"encode, use", 0, TTABLES, 1.00, NULL};

// All of a use but its cryptography is what one takes whose handle is illegal: it is read, and not unwrapped.
static void print_rest(const struct row *illegal, const struct row *use)
{
    double most = 0.30 * use->ns[PROVED] < 400 ? 0.30 * use->ns[PROVED] : 400;
    double is = illegal->ns[PROVED];
    printf("%-6s  not cryptography  at most %.0f ns, the less of 400 ns and 30%% of an AESENC128KL: %.0f ns, %.0f%%\n",
           is <= most ? "pass" : "MISSED", most, is, 100 * is / use->ns[PROVED]);
}

// ---- counter calls, by rising length; behind those of one block the single form, which does the same to a block

#define CTR_ROWS(length)                                           \
    {.op = CTR, .size = 0, .bytes = length},                       \
    {.op = CTR, .size = 1, .bytes = length},                       \
    {.op = CTR, .size = 0, .bytes = length, .without_wide = true}, \
    {.op = CTR, .size = 1, .bytes = length, .without_wide = true}

// where those of a length begin
enum {
    PER_LENGTH = 4,
    OF_16 = PER_LENGTH,
    SINGLE = OF_16 + PER_LENGTH,
    OF_128 = SINGLE + 2,
    OF_1024 = OF_128 + PER_LENGTH,
    OF_65536 = OF_1024 + PER_LENGTH,
    CTR_ROWS_ALL = OF_65536 + PER_LENGTH
};

static struct row ctr_rows[] = {
    CTR_ROWS(0),   CTR_ROWS(16),   {.op = ENCRYPT, .size = 0}, {.op = ENCRYPT, .size = 1},
    CTR_ROWS(128), CTR_ROWS(1024), CTR_ROWS(65536),
};
_Static_assert(sizeof ctr_rows / sizeof *ctr_rows == CTR_ROWS_ALL, "a row for each of the numbers above");

static const struct bar ctr_wide = {"65536, wide", 0, TTABLES, 0.90, NULL};
static const struct bar ctr_single = {"65536, not", 0, TTABLES, 0.95, NULL};
static const struct bar ctr_short = {"1024 bytes", 0, TTABLES, 1.30, NULL};

// One block by a counter call takes no longer than by the single form, which has a string to decode.
static void print_one_block(void)
{
    const struct row *worst = &ctr_rows[OF_16];
    double most = 0;
    for (size_t i = OF_16; i < OF_16 + PER_LENGTH; i++) {
        double is = ctr_rows[i].ns[PROVED] / ctr_rows[SINGLE + ctr_rows[i].size].ns[PROVED];
        if (is > most)
            most = is, worst = &ctr_rows[i];
    }
    printf("%-6s  %-12s  at most 1.00 x AESENC..KL  worst %.3f, %s\n", most <= 1 ? "pass" : "MISSED", "16 bytes",
           most, label_of(worst));
}

static void print_ctr(void)
{
    puts("");
    print_head("ns per counter call");
    for (size_t i = 0; i < CTR_ROWS_ALL; i++) {
        printf("%-31s", label_of(&ctr_rows[i]));
        print_figures(&ctr_rows[i]);
    }
    puts("");
    puts(label_of(print_bar(&ctr_wide, &ctr_rows[OF_65536], 2, "pass", "MISSED")));
    puts(label_of(print_bar(&ctr_single, &ctr_rows[OF_65536 + 2], 2, "pass", "MISSED")));
    puts(label_of(print_bar(&ctr_short, &ctr_rows[OF_1024], PER_LENGTH, "pass", "MISSED")));
    print_one_block();
}

int main(void)
{
    struct row rows[] = {
        {.op = ENCODE, .size = 0},       {.op = ENCODE, .size = 1},       {.op = ENCRYPT, .size = 0},
        {.op = ENCRYPT, .size = 1},      {.op = DECRYPT, .size = 0},      {.op = DECRYPT, .size = 1},
        {.op = ENCRYPT_WIDE, .size = 0}, {.op = ENCRYPT_WIDE, .size = 1}, {.op = DECRYPT_WIDE, .size = 0},
        {.op = DECRYPT_WIDE, .size = 1},
    };
    struct row others[] = {
        {.op = ILLEGAL, .alone = true},    {.op = ILLEGAL, .alone = true, .count = 1},
        {.op = LOAD, .alone = true},       {.op = WRITE, .alone = true},
        {.op = READ, .alone = true},       {.op = CPUID, .alone = true},
        {.op = BAD_STRING, .alone = true}, {.op = BAD_STRING, .alone = true, .count = 1},
        {.op = ENCRYPT_32, .alone = true}, {.op = TAKEN, .alone = true},
        {.op = IDLE, .alone = true},       {.op = IDLE, .alone = true, .count = 1},
    };
    size_t count = sizeof rows / sizeof *rows, other = sizeof others / sizeof *others;

    sbox_init();
    ttables_init();
    fill_random(integrity, sizeof integrity);
    fill_random(encryption, sizeof encryption);
    fill_random((uint8_t *)keys, sizeof keys);
    fill_random(random_data, sizeof random_data);
    power_on(PROCESSORS);
    check_all();
    measure_all(rows, count, slice_ns);
    measure_all(others, other, slice_ns);
    measure_all(ctr_rows, CTR_ROWS_ALL, slice_ns);
    print_head("ns per call, of 16 processors");
    for (size_t i = 0; i < count; i++) {
        printf("%-31s", label_of(&rows[i]));
        print_figures(&rows[i]);
    }
    for (size_t i = 0; i < other; i++) {
        printf("%-42s%.1f\n", label_of(&others[i]), others[i].ns[PROVED]);
    }
    puts("");
    puts(label_of(print_bar(&bar, rows, count, "pass", "MISSED")));
    puts(label_of(print_bar(&goal, rows, count, "goal met", "goal not met")));
    print_rest(&others[0], &rows[2]);
    print_ctr();
    return 0;
}
