/*
 * What the verifier knows of registers: short codes that work on a few of them and use them as
 * addresses, with windows that begin near the code or end at the end of memory.
 */
#include <stdio.h>

#include "agree.h"
#include "random.h"

enum { MOST_CODE = 32 };

/* A register: R0 to R2. */
static uint32_t some_register(void)
{
    return random_below(3);
}

static uint32_t some_immediate(void)
{
    static const uint8_t telling[] = { 0, 1, 2, 3, 4, 127, 128, 252, 254, 255 };
    return once_in(3) ? random_below(256) : telling[random_below(10)];
}

static uint16_t telling_instruction(void)
{
    static const uint8_t operations[] = { 0, 1, 2, 4 }; /* AND, EOR, ASR, NEG */
    uint32_t rd = some_register(), rs = some_register();
    uint32_t any = once_in(4) ? 15 : rs; /* R15, or one of the few */
    switch (random_below(12)) {
    case 0 ... 2:
        return (uint16_t)(0x2000 | rd << 8 | some_immediate());
    case 3 ... 4:
        return (uint16_t)(0x4000 | operations[random_below(4)] << 6 | rs << 3 | rd);
    case 5 ... 7:
        return (uint16_t)(0x4400 | any << 3 | rd);
    case 8:
        return (uint16_t)(0x4600 | any << 3 | rd);
    case 9:
        return (uint16_t)(0xa000 | rd << 8 | some_immediate());
    case 10:
        return (uint16_t)(0xd000 | random_below(MOST_CODE));
    default:
        return (uint16_t)(0x6000 | random_below(4) << 11 | random_below(32) << 6 | rs << 3 | rd);
    }
}

/* n instructions; some are rows of ADD Rd, Rd, by which values get large. */
static void write_code(uint16_t *code, uint32_t n)
{
    for (uint32_t i = 0; i < n; i++) {
        code[i] = telling_instruction();
        if (once_in(6)) {
            uint32_t rd = some_register();
            for (uint32_t k = 1 + random_below(8); k != 0 && i + 1 < n; k--)
                code[++i] = (uint16_t)(0x4400 | rd << 3 | rd);
        }
    }
}

/* Codes that are fit by bounds which random code hardly meets. */
static const uint16_t edges[][MOST_CODE] = {
    {
        0x21ff, 0x4008,                                                 /* R0 AND 255 */
        0x4409, 0x4409, 0x4409, 0x4409, 0x4409, 0x4409, 0x4409, 0x4409, /* R1 becomes 65,280 */
        0x4408, 0x7001, /* R0 + R1, up to 65,535; STRB R1, [R0] */
    },
    {
        0x2140, 0x4409, 0x4409, 0x4409, 0x4409, 0x4409, 0x4409, 0x4409, 0x4409, /* R1: 16,384 */
        0x4008, 0x4048, 0x4088, /* AND, EOR, ASR R0, R1: up to 32,767 */
        0x22ff, 0x4410, 0x7001, /* R0 + 255; STRB R1, [R0] */
    },
};

/* Has every peer the library's verdict on that code and window? Answers whether it is fit. */
static bool compare_verdict(const uint16_t *code, uint32_t length, uint32_t w, uint32_t l, long n)
{
    uint8_t file[PAW_BLOCK_BYTES];
    paw_pack(code, length, (uint16_t)w, (uint16_t)l, file, sizeof file);
    uint64_t answer = paw_verify(file, sizeof file);
    for (size_t i = 1; i < MAKERS; i++)
        if (makers[i].verify(file, sizeof file) != answer)
            fail("facts", makers[i].name, n);
    return paw_answer_number(answer) == PAW_OK;
}

void compare_facts(long cases)
{
    long fit = 0;
    for (uint32_t k = 0; k < sizeof edges / sizeof edges[0]; k++)
        fit += compare_verdict(edges[k], MOST_CODE, 64, PAW_MEMORY_BYTES - 64, -1);
    for (long n = 0; n < cases; n++) {
        uint16_t code[MOST_CODE] = { 0 };
        uint32_t length = 2 + random_below(MOST_CODE - 1);
        write_code(code, length - 1);
        uint32_t w = (2 * length + 3) / 4 * 4 + 4 * random_below(once_in(2) ? 4 : 100);
        uint32_t l = once_in(2) ? PAW_MEMORY_BYTES - w : 4 * (1 + random_below(100));
        fit += compare_verdict(code, length, w, l, n);
    }
    printf("%ld codes that build addresses agree; %ld are fit\n", cases, fit);
}
