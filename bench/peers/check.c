/* Checks 2 to 8 of a file. */
#include "image.h"

static bool all_zero(const uint8_t *bytes, size_t n)
{
    return n == 0 || (bytes[0] == 0 && memcmp(bytes, bytes + 1, n - 1) == 0);
}

/* Is the count of code halfwords right, and is the room behind them 0? */
static bool is_used(const uint8_t *block, unsigned used, bool last)
{
    if (used == PAW_BLOCK_CODE)
        return true;
    return last && used >= 1 && used < PAW_BLOCK_CODE &&
           all_zero(block + HEADER_BYTES + 2 * used, CODE_BYTES - 2 * used);
}

uint64_t PEER(check)(const uint8_t *file, size_t len)
{
    if (len % PAW_BLOCK_BYTES != 0 || len < PAW_BLOCK_BYTES ||
        len > PAW_BLOCK_BYTES * PAW_MAX_BLOCKS)
        return refusal(PAW_FILE_LENGTH, 0);
    unsigned blocks = (unsigned)(len / PAW_BLOCK_BYTES);
    unsigned used = 0;
    for (unsigned k = 0; k < blocks; k++) {
        const uint8_t *block = file + (size_t)PAW_BLOCK_BYTES * k;
        if (get16(block) != MARK)
            return refusal(PAW_BLOCK_MARK, k);
        if (block_sum(block) != 0)
            return refusal(PAW_BLOCK_SUM, k);
        if (get16(block + 2) != k || get16(block + 10) != blocks)
            return refusal(PAW_BLOCK_NUMBER, k);
        used = get16(block + 4);
        if (!is_used(block, used, k + 1 == blocks))
            return refusal(PAW_BLOCK_USE, k);
        if (memcmp(block + 6, file + 6, 4) != 0)
            return refusal(PAW_BLOCK_WINDOW, k);
    }
    unsigned c = CODE_BYTES * (blocks - 1) + 2 * used;
    unsigned w = get16(file + 6), l = get16(file + 8);
    return is_window(c, w, l) ? layout(c, w, l) : refusal(PAW_WINDOW, 0);
}
