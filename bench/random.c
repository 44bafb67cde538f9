#include "random.h"

static uint64_t state = 1;

void seed_random(uint64_t seed)
{
    state = seed;
}

/* xorshift64* */
uint32_t random_word(void)
{
    state ^= state >> 12;
    state ^= state << 25;
    state ^= state >> 27;
    return (uint32_t)(state * 0x2545F4914F6CDD1D >> 32);
}

uint32_t random_below(uint32_t n)
{
    return (uint32_t)((uint64_t)random_word() * n >> 32);
}

uint16_t random_instruction(uint32_t any_in)
{
    if (any_in != 0 && once_in(any_in))
        return (uint16_t)random_word();
    uint32_t x = random_word();
    switch (random_below(16)) {
    case 0 ... 2: /* MOV Rd, #imm */
        return (uint16_t)(0x2000 | (x & 0x7ff));
    case 3: /* CMP Rd, #imm */
        return (uint16_t)(0x2800 | (x & 0x7ff));
    case 4 ... 6: /* AND to CMP */
        return (uint16_t)(0x4000 | (x >> 8) % 6 << 6 | (x & 63));
    case 7 ... 8: /* ADD */
        return (uint16_t)(0x4400 | (x & 255));
    case 9: /* CMP with a high register, MOV */
        return (uint16_t)((x & 0xc0) ? 0x4500 | (x & 255) : 0x4600 | (x >> 8 & 255));
    case 10 ... 12: /* STR to LDRB */
        return (uint16_t)(0x6000 | (x & 0x1fff));
    case 13: /* ADD Rd, PC */
        return (uint16_t)(0xa000 | (x & 0x7ff));
    default: /* branch */
        return (uint16_t)(0xd000 | (x >> 8) % 14 << 8 | (x & 255));
    }
}

uint16_t random_halt(void)
{
    return (uint16_t)random_below(256);
}

bool writes_pc(uint16_t h)
{
    return (h >> 8 == 0x44 || h >> 8 == 0x46) && (h & 0x87) == 0x87;
}

enum { BRANCH = 0xd000 }; /* BEQ, as yet to itself */

/* An instruction that asks for nothing: no load, store, branch or write to R15. */
static uint16_t random_plain(void)
{
    for (;;) {
        uint16_t h = random_instruction(0);
        if (h >> 13 != 3 && h >> 12 != 13 && !writes_pc(h))
            return h;
    }
}

/* R0 becomes an address of the window's first 256 bytes; some accesses by it follow. */
static uint32_t write_accesses(uint16_t *code, uint32_t window_start)
{
    uint32_t i = 0;
    code[i++] = 0x21fc; /* MOV R1, #252 */
    code[i++] = 0x4008; /* AND R0, R1 */
    code[i++] = (uint16_t)(0x2200 | window_start >> 8); /* MOV R2, #imm */
    for (int k = 0; k < 8; k++)
        code[i++] = 0x4412; /* ADD R2, R2 */
    code[i++] = 0x4410;     /* ADD R0, R2 */
    for (uint32_t k = 1 + random_below(6); k != 0; k--) {
        uint32_t rd = 3 + random_below(5);
        code[i++] = (uint16_t)(0x6000 | random_below(4) << 11 | random_below(32) << 6 | rd);
    }
    return i;
}

/* Sends the branch at i to a place within reach; places[k] is the first at or after i. */
static uint16_t branch_to_place(uint32_t i, const uint32_t *places, uint32_t count, uint32_t k)
{
    enum { REACH = 100 };
    uint32_t first = k, last = k;
    while (first > 0 && i - places[first - 1] <= REACH)
        first--;
    while (last + 1 < count && places[last + 1] - i <= REACH)
        last++;
    uint32_t target = places[first + random_below(last - first + 1)];
    return (uint16_t)(BRANCH | random_below(14) << 8 | ((target - i) & 255));
}

void random_fit(uint16_t *code, uint32_t n, uint32_t window_start)
{
    enum { ACCESSES = 20 }; /* more than write_accesses writes */
    static uint32_t places[PAW_MAX_CODE];
    uint32_t count = 0;
    for (uint32_t i = 0; i + 1 < n;) {
        uint32_t choice = random_below(16);
        places[count++] = i;
        if (choice < 3)
            code[i++] = BRANCH;
        else if (choice < 5 && n - 1 - i > ACCESSES)
            i += write_accesses(code + i, window_start);
        else
            code[i++] = random_plain();
    }
    places[count++] = n - 1;
    code[n - 1] = 0;
    for (uint32_t i = 0, k = 0; i + 1 < n; i++) {
        while (places[k] < i)
            k++;
        if (code[i] == BRANCH)
            code[i] = branch_to_place(i, places, count, k);
    }
}

struct paw_machine random_machine(void)
{
    static const uint16_t starts[] = { 0, 0, 0, 2, 0xfffe, 0xffff, 1, 0x8000 };
    struct paw_machine m;
    for (int r = 0; r < 15; r++) {
        uint32_t x = random_word();
        m.regs[r] = (uint16_t)(once_in(4) ? x & 0x3c : x);
    }
    m.regs[15] = (uint16_t)(once_in(4) ? random_word() : starts[random_below(8)]);
    uint32_t flags = random_word();
    m.n = flags & 1;
    m.z = flags >> 1 & 1;
    m.c = flags >> 2 & 1;
    m.v = flags >> 3 & 1;
    m.note = (uint8_t)(flags >> 8);
    return m;
}
