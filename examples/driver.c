/*
 * The loop of a bus driver, for a bus that delivers a block's last halfword first. Each halfword
 * goes to its place and into the sum as it comes, so a block with a wrong sum is known when its
 * first halfword, the last to come, is there. At the root of the repository:
 *
 *     cc -std=c11 -Iinclude examples/driver.c target/staticlib/libpaw.a -o driver
 *     ./driver samples/fit-two-blocks.img
 *
 * Where the library is installed:
 *
 *     cc -std=c11 driver.c $(pkg-config --cflags --libs paw) -o driver
 *
 * An image file plays the bus. Exit status: 0 if what came in passes paw_check, 1 if a block has a
 * wrong sum or paw_check refuses, 2 if there are not 1 to 64 whole blocks to take in.
 */
#include <stdio.h>

#include "paw.h"

/* The bus: a block, and how many of its halfwords are still to come. */
struct bus {
    const uint8_t *block;
    size_t left;
};

static uint16_t next_halfword(struct bus *bus)
{
    bus->left--;
    const uint8_t *at = bus->block + 2 * bus->left;
    return (uint16_t)(at[0] | at[1] << 8);
}

/* Takes a block from the bus, from its last halfword to its first, and answers its sum. */
static uint16_t receive_block(struct bus *bus, uint8_t block[PAW_BLOCK_BYTES])
{
    uint16_t sum = 0;
    for (size_t n = PAW_BLOCK_HALFWORDS; n-- > 0;) {
        uint16_t halfword = next_halfword(bus);
        block[2 * n] = (uint8_t)halfword;
        block[2 * n + 1] = (uint8_t)(halfword >> 8);
        sum = paw_add_to_sum(sum, halfword);
    }
    return sum;
}

/* Takes in an image block by block, up to one whose sum is not 0, and answers whether all came. */
static bool receive_image(const uint8_t *sent, size_t len, uint8_t *image)
{
    for (size_t start = 0; start < len; start += PAW_BLOCK_BYTES) {
        struct bus bus = {sent + start, PAW_BLOCK_HALFWORDS};
        uint16_t sum = receive_block(&bus, image + start);
        printf("block %u: sum %u\n", (unsigned)(start / PAW_BLOCK_BYTES), (unsigned)sum);
        if (sum != 0)
            return false; /* a driver would ask for this block again */
    }
    return true;
}

/* Reads up to `size` bytes of a file, and answers how many: none if it can't be read. */
static size_t read_file(const char *name, uint8_t *bytes, size_t size)
{
    FILE *file = fopen(name, "rb");
    if (file == NULL)
        return 0;
    size_t len = fread(bytes, 1, size, file);
    fclose(file);
    return len;
}

int main(int argc, char **argv)
{
    if (argc != 2) {
        fprintf(stderr, "usage: driver IMAGE\n");
        return 2;
    }
    static uint8_t image[PAW_MAX_BLOCKS * PAW_BLOCK_BYTES];
    static uint8_t sent[sizeof image + 1]; /* too long a file fills it, and is no whole blocks */
    size_t len = read_file(argv[1], sent, sizeof sent);
    if (len == 0 || len % PAW_BLOCK_BYTES != 0) {
        fprintf(stderr, "driver: %s: %s\n", argv[1], paw_text(PAW_FILE_LENGTH));
        return 2;
    }
    uint32_t number = PAW_BLOCK_SUM; /* the driver's own no, before any check of the whole image */
    if (receive_image(sent, len, image))
        number = paw_answer_number(paw_check(image, len));
    printf("%s\n", paw_text(number));
    return number == PAW_OK ? 0 : 1;
}
