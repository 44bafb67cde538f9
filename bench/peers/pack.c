/* Code and window written as an image. */
#include "image.h"

uint32_t PEER(pack)(const uint16_t *code, size_t code_len, uint16_t w, uint16_t l, uint8_t *out,
                    size_t out_len)
{
    if (code_len < 1 || code_len > PAW_MAX_CODE)
        return PAW_CODE_LENGTH;
    if (!is_window(2 * code_len, w, l))
        return PAW_WINDOW;
    size_t blocks = (code_len + PAW_BLOCK_CODE - 1) / PAW_BLOCK_CODE;
    if (out_len != blocks * PAW_BLOCK_BYTES)
        return PAW_OUTPUT_LENGTH;
    for (size_t k = 0; k < blocks; k++, out += PAW_BLOCK_BYTES) {
        size_t used = code_len < PAW_BLOCK_CODE ? code_len : PAW_BLOCK_CODE;
        const uint16_t header[] = { MARK, (uint16_t)k, (uint16_t)used, w, l, (uint16_t)blocks };
        memcpy(out, header, HEADER_BYTES);
        memcpy(out + HEADER_BYTES, code, 2 * used);
        memset(out + HEADER_BYTES + 2 * used, 0, CODE_BYTES - 2 * used);
        put16(out + SUM_AT, 0);
        put16(out + SUM_AT, (uint16_t)-block_sum(out));
        code += used;
        code_len -= used;
    }
    return PAW_OK;
}
