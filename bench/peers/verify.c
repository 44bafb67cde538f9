/*
 * Checks 2 to 14 of a file. The code is taken out of its blocks first, so that both passes over it
 * go through one row of halfwords: one marks the branch targets, the other carries the facts.
 */
#include "facts.h"
#include "image.h"

enum { MARK_WORDS = (PAW_MAX_CODE + 63) / 64 };

static bool is_branch(uint32_t h)
{
    return h - 0xd000 < 0xe00;
}

static void mark_targets(const uint16_t *code, unsigned count, uint64_t *marks)
{
    for (unsigned i = 0; i < count; i++)
        if (UNLIKELY(is_branch(code[i]))) {
            uint32_t target = (i + (uint32_t)(int8_t)code[i]) & 0x7fff;
            if (target < count)
                marks[target / 64] |= (uint64_t)1 << target % 64;
        }
}

static void forget(fact *facts)
{
    for (unsigned r = 0; r < 15; r++)
        facts[r] = UNKNOWN;
}

static bool in_window(fact base, uint32_t offset, uint32_t size, uint32_t w, uint32_t end)
{
    return low_of(base) + offset >= w && high_of(base) + offset + size <= end;
}

static uint64_t verify_code(const uint16_t *code, unsigned count, uint32_t w, uint32_t l)
{
    uint64_t marks[MARK_WORDS] = { 0 };
    mark_targets(code, count, marks);
    fact facts[16];
    forget(facts);
    for (unsigned i = 0; i < count; i++) {
        uint32_t h = code[i], address = 2 * i;
        if (marks[i / 64] >> i % 64 & 1)
            forget(facts);
        switch (h >> 8) {
        case 0x00: /* HALT with any note, which alone may be the last */
            continue;
        case 0x20 ... 0x27: /* MOV Rd, #imm */
            facts[IMM8_RD] = known(IMM8);
            break;
        case 0x28 ... 0x2f: /* CMP Rd, #imm */
            break;
        case 0x40: /* AND, EOR, ASR, TST */
            switch (h >> 6 & 3) {
            case 0:
                facts[RD] = and_fact(facts[RD], facts[RS]);
                break;
            case 1:
                facts[RD] = eor_fact(facts[RD], facts[RS]);
                break;
            case 2:
                facts[RD] = asr_fact(facts[RD]);
                break;
            }
            break;
        case 0x41: /* NEG, CMP */
            if (h & 0x80)
                return refusal(PAW_UNDEFINED, address);
            if ((h & 0x40) == 0)
                facts[RD] = fact_of(0, 65535, zeros_of(facts[RS]));
            break;
        case 0x44: /* ADD */
            if (ANY_RD == 15)
                return refusal(PAW_WRITES_PC, address);
            facts[15] = known(address);
            facts[ANY_RD] = add_fact(facts[ANY_RD], facts[ANY_RS]);
            break;
        case 0x45: /* CMP with a high register */
            if ((h & 0xc0) == 0)
                return refusal(PAW_UNDEFINED, address);
            break;
        case 0x46: /* MOV */
            if (ANY_RD == 15)
                return refusal(PAW_WRITES_PC, address);
            facts[15] = known(address);
            facts[ANY_RD] = facts[ANY_RS];
            break;
        case 0x60 ... 0x6f: /* STR, LDR */
            if (!in_window(facts[RS], IMM5_TIMES_4, 2, w, w + l))
                return refusal(PAW_OUT_OF_WINDOW, address);
            if (zeros_of(facts[RS]) < 2)
                return refusal(PAW_MISALIGNED, address);
            if (h & 0x800)
                facts[RD] = UNKNOWN;
            break;
        case 0x70 ... 0x7f: /* STRB, LDRB */
            if (!in_window(facts[RS], IMM5, 1, w, w + l))
                return refusal(PAW_OUT_OF_WINDOW, address);
            if (h & 0x800)
                facts[RD] = fact_of(0, 255, 0);
            break;
        case 0xa0 ... 0xa7: /* ADD Rd, PC */
            facts[IMM8_RD] = known(((address & 0xfffc) + 4 * IMM8) & 0xffff);
            break;
        case 0xd0 ... 0xdd: /* branch */
            if (((address + 2 * (uint32_t)(int8_t)h) & 0xffff) >= 2 * count)
                return refusal(PAW_BRANCH_TARGET, address);
            break;
        default:
            return refusal(PAW_UNDEFINED, address);
        }
        if (UNLIKELY(i + 1 == count))
            return refusal(PAW_LAST_NOT_HALT, address);
    }
    return PAW_OK;
}

uint64_t PEER(verify)(const uint8_t *file, size_t len)
{
    uint64_t answer = PEER(check)(file, len);
    if (paw_answer_number(answer) != PAW_OK)
        return answer;
    uint16_t code[PAW_MAX_CODE];
    unsigned c = paw_answer_code_bytes(answer);
    copy_code(file, (uint8_t *)code, c);
    uint64_t refused = verify_code(code, c / 2, paw_answer_window_start(answer),
                                   paw_answer_window_bytes(answer));
    return refused != PAW_OK ? refused : answer;
}
