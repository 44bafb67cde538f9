/*
 * Code as a text. A first pass puts the questions and marks where branches go, a second writes the
 * lines beside the output, which gets them when their length is known. What the lines of a form
 * have in common is stored in one piece, often past the end of the line; the next line goes over
 * that.
 */
#include <stdlib.h>

#include "digits.h"
#include "image.h"

enum {
    MARK_WORDS = (PAW_MAX_CODE + 63) / 64,
    SPARE = 32,    /* more than a store goes past the end of a line */
    FEW_CODE = 64, /* halfwords whose listing needs no heap */
};

enum form { UNDEFINED, HALT, IMMEDIATE, LOW_PAIR, ANY_PAIR, TRANSFER, ADD_PC, BRANCH };

/* Forms of lines by the upper ten bits of a halfword. */
static const uint8_t forms[1024] = {
    [0x000 ... 0x003] = HALT,     [0x080 ... 0x0bf] = IMMEDIATE, [0x100 ... 0x105] = LOW_PAIR,
    [0x110 ... 0x113] = ANY_PAIR, [0x115 ... 0x11b] = ANY_PAIR,  [0x180 ... 0x1ff] = TRANSFER,
    [0x280 ... 0x29f] = ADD_PC,   [0x340 ... 0x377] = BRANCH,
};

static inline uint32_t target_of(uint32_t i, uint32_t h)
{
    return (i + (uint32_t)(int8_t)h) & 0x7fff;
}

static inline bool is_marked(const uint64_t *marks, uint32_t i)
{
    return marks[i / 64] >> i % 64 & 1;
}

/* Marks the targets of all branches. Answers PAW_OK, or the first halfword's refusal. */
static uint64_t mark_targets(const uint16_t *code, uint32_t count, uint64_t *marks)
{
    for (uint32_t i = 0; i < count; i++) {
        enum form form = forms[code[i] >> 6];
        if (UNLIKELY(form == UNDEFINED))
            return refusal(PAW_UNDEFINED, 2 * i);
        if (form == BRANCH) {
            uint32_t target = target_of(i, code[i]);
            if (UNLIKELY(target >= count))
                return refusal(PAW_BRANCH_TARGET, 2 * i);
            marks[target / 64] |= (uint64_t)1 << target % 64;
        }
    }
    return PAW_OK;
}

/* Lines --------------------------------------------------------------------------------------- */

/* What a line starts with; registers are put over the zeros. */
#define START(out, row) memcpy(out, row, sizeof row)

static inline uint8_t *end_line(uint8_t *out)
{
    *out = '\n';
    return out + 1;
}

static inline uint8_t *put_label(uint8_t *out, uint32_t i)
{
    *out = 'a';
    out = put_number(out + 1, 2 * i);
    memcpy(out, ":\n", 2);
    return out + 2;
}

static inline uint8_t *put_halt(uint8_t *out, uint32_t h)
{
    START(out, "HALT #");
    return end_line(put_small(out + 6, h));
}

static inline uint8_t *put_immediate(uint8_t *out, uint32_t h)
{
    static const char starts[2][16] = { "MOV R0, #", "CMP R0, #" };
    START(out, starts[h >> 11 & 1]);
    out[5] = (uint8_t)('0' + IMM8_RD);
    return end_line(put_small(out + 9, IMM8));
}

static inline uint8_t *put_low_pair(uint8_t *out, uint32_t h)
{
    static const char starts[6][16] = { "AND R0, R0\n", "EOR R0, R0\n", "ASR R0, R0\n",
                                        "TST R0, R0\n", "NEG R0, R0\n", "CMP R0, R0\n" };
    START(out, starts[h >> 6 & 7]);
    out[5] = (uint8_t)('0' + RD);
    out[9] = (uint8_t)('0' + RS);
    return out + 11;
}

static inline uint8_t *put_any_pair(uint8_t *out, uint32_t h)
{
    static const char starts[3][8] = { "ADD R", "CMP R", "MOV R" };
    START(out, starts[h >> 8 & 3]);
    out = put_small(out + 5, ANY_RD);
    START(out, ", R");
    return end_line(put_small(out + 3, ANY_RS));
}

static inline uint8_t *put_transfer(uint8_t *out, uint32_t h)
{
    static const char starts[4][16] = { "STR R0, [R0, #", "LDR R0, [R0, #", "STRB R0, [R0, #",
                                        "LDRB R0, [R0, #" };
    uint32_t byte = h >> 12 & 1;
    START(out, starts[h >> 11 & 3]);
    out += byte; /* one letter more */
    out[5] = (uint8_t)('0' + RD);
    out[10] = (uint8_t)('0' + RS);
    out = put_small(out + 14, byte ? IMM5 : IMM5_TIMES_4);
    memcpy(out, "]\n", 2);
    return out + 2;
}

static inline uint8_t *put_add_pc(uint8_t *out, uint32_t h)
{
    START(out, "ADD R0, PC, #");
    out[5] = (uint8_t)('0' + IMM8_RD);
    return end_line(put_number(out + 13, 4 * IMM8));
}

static inline uint8_t *put_branch(uint8_t *out, uint32_t i, uint32_t h)
{
    static const char starts[14][8] = { "BEQ a", "BNE a", "BCS a", "BCC a", "BMI a",
                                        "BPL a", "BVS a", "BVC a", "BHI a", "BLS a",
                                        "BGE a", "BLT a", "BGT a", "BLE a" };
    START(out, starts[h >> 8 & 15]);
    return end_line(put_number(out + 5, 2 * target_of(i, h)));
}

/* The line of instruction i. Answers its end. */
static inline uint8_t *put_instruction(uint8_t *out, uint32_t i, uint32_t h)
{
    switch ((enum form)forms[h >> 6]) {
    case HALT:
        return put_halt(out, h);
    case IMMEDIATE:
        return put_immediate(out, h);
    case LOW_PAIR:
        return put_low_pair(out, h);
    case ANY_PAIR:
        return put_any_pair(out, h);
    case TRANSFER:
        return put_transfer(out, h);
    case ADD_PC:
        return put_add_pc(out, h);
    case BRANCH:
        return put_branch(out, i, h);
    default:
        __builtin_unreachable();
    }
}

/* Writes all lines, and a little past them. Answers their length. */
static size_t put_lines(uint8_t *lines, const uint16_t *code, uint32_t count, const uint64_t *marks)
{
    uint8_t *out = lines;
    for (uint32_t i = 0; i < count; i++) {
        if (is_marked(marks, i))
            out = put_label(out, i);
        out = put_instruction(out, i, code[i]);
    }
    return (size_t)(out - lines);
}

uint64_t PEER(list)(const uint16_t *code, size_t code_len, uint8_t *text, size_t text_len)
{
    if (code_len < 1 || code_len > PAW_MAX_CODE)
        return PAW_CODE_LENGTH;
    uint32_t count = (uint32_t)code_len;
    uint64_t marks[MARK_WORDS];
    memset(marks, 0, (count + 63) / 64 * sizeof *marks);
    uint64_t refused = mark_targets(code, count, marks);
    if (refused != PAW_OK)
        return refused;
    uint8_t few_lines[FEW_CODE * PAW_LISTING_PER_HALFWORD + SPARE];
    uint8_t *lines = count <= FEW_CODE ? few_lines : malloc(paw_listing_room(count) + SPARE);
    if (lines == NULL)
        abort();
    size_t length = put_lines(lines, code, count, marks);
    if (length <= text_len)
        memcpy(text, lines, length);
    if (lines != few_lines)
        free(lines);
    return length <= text_len ? (uint64_t)length << 16 : PAW_OUTPUT_LENGTH;
}
