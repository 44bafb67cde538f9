/* The format of an image, and its answers, for the peers that read or write one. */
#ifndef IMAGE_H
#define IMAGE_H

#include "peer.h"

enum {
    MARK = 0xD0C1,
    HEADER_BYTES = 12,
    CODE_BYTES = 2 * PAW_BLOCK_CODE, /* room for code in a block */
    SUM_AT = PAW_BLOCK_BYTES - 2,
};

static inline uint64_t refusal(unsigned number, unsigned place)
{
    return number | (uint64_t)place << 16;
}

static inline uint64_t layout(unsigned c, unsigned w, unsigned l)
{
    return (uint64_t)c << 16 | (uint64_t)w << 32 | (uint64_t)l << 48;
}

static inline bool is_window(size_t c, unsigned w, unsigned l)
{
    return ((w | l) & 3) == 0 && l >= 4 && w >= c && w + l <= PAW_MEMORY_BYTES;
}

/* The sum of all halfwords of a block. */
static inline uint16_t block_sum(const uint8_t *block)
{
    uint16_t sum = 0;
    for (size_t i = 0; i < PAW_BLOCK_BYTES / 2; i++)
        sum += get16(block + 2 * i);
    return sum;
}

/* Takes the c bytes of code of an accepted file out of its blocks. */
static inline void copy_code(const uint8_t *file, uint8_t *code, size_t c)
{
    for (; c > CODE_BYTES; c -= CODE_BYTES, file += PAW_BLOCK_BYTES, code += CODE_BYTES)
        memcpy(code, file + HEADER_BYTES, CODE_BYTES);
    memcpy(code, file + HEADER_BYTES, c);
}

#endif
