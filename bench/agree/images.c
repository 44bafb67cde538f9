/* Images of fit and other code, whole and damaged. */
#include <stdio.h>
#include <stdlib.h>
#include <string.h>

#include "agree.h"
#include "random.h"

enum {
    FILE_ROOM = (PAW_MAX_BLOCKS + 2) * PAW_BLOCK_BYTES,
    LOADED_IN = 4, /* of so many images one is loaded */
};

static uint16_t code[PAW_MAX_CODE + 1];
static uint8_t file[FILE_ROOM];

static void put_halfword(uint8_t *block, uint32_t index, uint32_t value)
{
    uint16_t h = (uint16_t)value;
    memcpy(block + 2 * index, &h, sizeof h);
}

/* Makes the sum of a block 0 again. */
static void mend(uint8_t *block)
{
    uint16_t sum = 0;
    for (uint32_t i = 0; i < PAW_BLOCK_BYTES / 2 - 1; i++) {
        uint16_t h;
        memcpy(&h, block + 2 * i, sizeof h);
        sum = (uint16_t)(sum + h);
    }
    put_halfword(block, PAW_BLOCK_BYTES / 2 - 1, -(uint32_t)sum);
}

/* Damages the file in one way; answers its length afterwards. */
static size_t damage(size_t len)
{
    static const uint16_t used[] = { 0, 1, 248, 249, 250, 65535 };
    static const uint16_t ends[] = { 0, 2, 4, 65532, 65535, 30000 };
    uint32_t blocks = (uint32_t)len / PAW_BLOCK_BYTES;
    uint8_t *block = file + random_below(blocks) * PAW_BLOCK_BYTES;
    uint32_t way = random_below(14);
    switch (way) {
    case 0: /* a bit, and the sum is wrong */
        file[random_below((uint32_t)len)] ^= (uint8_t)(1 << random_below(8));
        return len;
    case 1: /* blocks or bytes too few or too many */
        return random_below((uint32_t)len + 600);
    case 2:
        return len - PAW_BLOCK_BYTES;
    case 3: /* the header of one block */
        put_halfword(block, 0, random_word());
        break;
    case 4:
        put_halfword(block, 1, random_below(3));
        break;
    case 5:
        put_halfword(block, 2, used[random_below(6)]);
        break;
    case 6:
        put_halfword(block, 3 + random_below(2), random_word());
        break;
    case 7:
        put_halfword(block, 5, random_below(66));
        break;
    case 8 ... 9: { /* the window in all blocks */
        uint16_t end = ends[random_below(6)];
        for (uint32_t k = 0; k < blocks; k++)
            put_halfword(file + k * PAW_BLOCK_BYTES, way == 8 ? 3 : 4, end);
        break;
    }
    default: /* code, or what is behind it */
        put_halfword(block, 6 + random_below(PAW_BLOCK_CODE), random_word());
        break;
    }
    for (uint32_t k = 0; k < blocks; k++)
        mend(file + k * PAW_BLOCK_BYTES);
    return len;
}

/* Code that is fit for the window, or nearly so; answers its length. */
static uint32_t write_code(bool large, uint32_t *w, uint32_t *l)
{
    static const uint32_t sizes[] = { 1, 2, 3, 8, 30, 249, 250, 498, 499, 1000, 4000, 15936 };
    uint32_t n = sizes[random_below(large ? 12 : 9)];
    if (once_in(2))
        n = 1 + random_below(n);
    *w = window_behind(n) + 256 * random_below(64);
    *l = once_in(4) ? 256 + 4 * random_below(40) : 512 + 4 * random_below(1000); /* tight or wide */
    if (once_in(8)) { /* a window that may be no good */
        *w = 256 * random_below(200);
        *l = 4 * random_below(4096);
    } else if (once_in(8)) { /* one up to the end of memory */
        *w = PAW_MEMORY_BYTES - 256 * (1 + random_below(3));
        *l = PAW_MEMORY_BYTES - *w;
    }
    random_fit(code, n, *w);
    code[n - 1] = random_halt();
    if (once_in(3))
        for (uint32_t changes = 1 + random_below(3); changes != 0; changes--)
            code[random_below(n)] = once_in(4) ? random_halt() : random_instruction(3);
    uint16_t mask = (uint16_t)(0x21fc + (once_in(8) ? random_below(4) : 0));
    for (uint32_t i = 0; i < n; i++) /* a base that 4 may not divide */
        if (code[i] == 0x21fc)
            code[i] = mask;
    return n;
}

/* Packs by all makers; answers the bytes of the file that comes of it, 0 if it was refused. */
static size_t compare_pack(uint32_t n, uint32_t w, uint32_t l, long number)
{
    static uint8_t packed[MAKERS][FILE_ROOM];
    size_t code_len = once_in(100) ? random_below(2) * (PAW_MAX_CODE + 1) : n;
    size_t out_len = once_in(50) ? random_below(2000) : paw_image_bytes(n);
    uint32_t answer = PAW_OK;
    for (size_t i = 0; i < MAKERS; i++) {
        memset(packed[i], 0xaa, out_len + 1);
        uint32_t own =
            makers[i].pack(code, code_len, (uint16_t)w, (uint16_t)l, packed[i], out_len);
        if (i == LIBRARY)
            answer = own;
        else if (own != answer || memcmp(packed[i], packed[LIBRARY], out_len + 1) != 0)
            fail("pack", makers[i].name, number);
    }
    if (answer != PAW_OK)
        return 0;
    memcpy(file, packed[LIBRARY], out_len);
    return out_len;
}

static void compare_load(size_t len, long number)
{
    size_t memory_len = once_in(20) ? PAW_MEMORY_BYTES - 1 : PAW_MEMORY_BYTES;
    uint32_t filling = random_word();
    uint64_t answer = 0;
    for (size_t i = 0; i < MAKERS; i++) {
        memset(memories[i], (int)(filling & 255), PAW_MEMORY_BYTES);
        uint64_t own = makers[i].load(file, len, memories[i], memory_len);
        if (i == LIBRARY)
            answer = own;
        else if (own != answer || !same_memory(i))
            fail("load", makers[i].name, number);
    }
}

void compare_images(long cases)
{
    long counts[PAW_STOP_MISALIGNED] = { 0 };
    for (long n = 0; n < cases; n++) {
        uint32_t w, l;
        uint32_t length = write_code(n % 16 == 0, &w, &l);
        size_t len = compare_pack(length, w, l, n);
        if (len == 0)
            len = random_below(FILE_ROOM); /* what the last case left */
        else if (once_in(3))
            len = damage(len);
        uint64_t checked = paw_check(file, len);
        uint64_t verified = paw_verify(file, len);
        counts[paw_answer_number(verified)]++;
        for (size_t i = 1; i < MAKERS; i++) {
            if (makers[i].check(file, len) != checked)
                fail("check", makers[i].name, n);
            if (makers[i].verify(file, len) != verified)
                fail("verify", makers[i].name, n);
        }
        if (n % LOADED_IN == 0)
            compare_load(len, n);
    }
    printf("%ld images, %ld of them loaded, agree; verdicts:", cases, cases / LOADED_IN);
    print_numbers(counts, PAW_STOP_MISALIGNED);
}

/* Has every peer the library's verdict on n halfwords? Answers whether they are fit. */
static bool compare_short(const uint16_t *halfwords, uint32_t n, const char *what)
{
    paw_pack(halfwords, n, 256, 256, file, PAW_BLOCK_BYTES);
    uint64_t answer = paw_verify(file, PAW_BLOCK_BYTES);
    for (size_t i = 1; i < MAKERS; i++)
        if (makers[i].verify(file, PAW_BLOCK_BYTES) != answer)
            fail(what, makers[i].name, halfwords[0]);
    return paw_answer_number(answer) == PAW_OK;
}

/* Every halfword by itself, before a HALT with note 0, and before one with any note. */
void compare_short_codes(void)
{
    unsigned single = 0, pairs = 0, noted = 0;
    for (uint32_t h = 0; h < 65536; h++) {
        const uint16_t pair[2] = { (uint16_t)h, 0 }, with_note[2] = { (uint16_t)h, random_halt() };
        single += compare_short(pair, 1, "code of one");
        pairs += compare_short(pair, 2, "code of two");
        noted += compare_short(with_note, 2, "code of two with a note");
    }
    if (single != 256 || pairs != 7484 || noted != pairs) {
        printf("%u, %u and %u short codes are fit, not 256, 7484 and 7484\n", single, pairs, noted);
        exit(1);
    }
    printf("every code of one instruction agrees; %u are fit\n", single);
    printf("every code of two, the second HALT, agrees; %u are fit, %u with notes\n", pairs, noted);
}
