/*
 * From a written program to one that is loaded: a text is assembled, packed with a window, verified
 * and put into memory. At the root of the repository:
 *
 *     cc -std=c11 -Iinclude examples/assemble.c target/staticlib/libpaw.a -o assemble
 *     printf 'MOV R0, #7\nHALT #1\n' > seven.txt
 *     ./assemble seven.txt
 *
 * Where the library is installed:
 *
 *     cc -std=c11 assemble.c $(pkg-config --cflags --libs paw) -o assemble
 *
 * It prints where the program was loaded, and the program as the library lists it, with labels by
 * address. Of one that is refused it says at which line of the text, or at which address, and why.
 * Exit status: 0 loaded, 1 refused, 2 if there is no text to read.
 */
#include <stdio.h>
#include <string.h>

#include "paw.h"

/* The window that this board gives to every program. */
enum { WINDOW_START = 512, WINDOW_BYTES = 256 };

static uint8_t text[1000000]; /* a text may have any length; this board takes no longer ones */
static uint16_t code[PAW_MAX_CODE];
static uint8_t image[PAW_MAX_BLOCKS * PAW_BLOCK_BYTES];
static uint8_t memory[PAW_MEMORY_BYTES];
static uint8_t listing[PAW_MAX_LISTING];

/* Reads the text. Answers its length, or more than there is room for if it can't be had whole. */
static size_t read_text(const char *name)
{
    FILE *file = fopen(name, "rb");
    if (file == NULL)
        return sizeof text + 1;
    size_t len = fread(text, 1, sizeof text, file);
    bool whole = fgetc(file) == EOF && !ferror(file);
    fclose(file);
    return whole ? len : sizeof text + 1;
}

/* Prints a line of the text that is there, counted from 1. */
static void print_line(uint64_t line, size_t len)
{
    const uint8_t *start = text, *end = text + len;
    for (; line > 1; line--)
        start = (const uint8_t *)memchr(start, '\n', (size_t)(end - start)) + 1;
    for (; start < end && *start != '\n'; start++)
        putchar(*start);
    putchar('\n');
}

/* Says why paw_assemble refused the text, and shows the line, if it is one line's doing. */
static void print_refusal(uint64_t answer, size_t len)
{
    uint64_t line = paw_assembled_line(answer);
    if (line == 0) {
        printf("%s\n", paw_assembled_reason(answer));
    } else {
        printf("line %llu: %s\n", (unsigned long long)line, paw_assembled_reason(answer));
        print_line(line, len);
    }
}

/* Packs, verifies and loads the code, and answers whether nothing was refused. */
static bool load(size_t code_len)
{
    size_t bytes = paw_image_bytes(code_len);
    uint32_t number = paw_pack(code, code_len, WINDOW_START, WINDOW_BYTES, image, bytes);
    if (number != PAW_OK) {
        printf("%s\n", paw_text(number));
        return false;
    }
    uint64_t answer = paw_load(image, bytes, memory, sizeof memory); /* verifies it first */
    number = paw_answer_number(answer);
    if (number != PAW_OK) {
        printf("address %u: %s\n", (unsigned)paw_answer_place(answer), paw_text(number));
        return false;
    }
    printf("loaded: %u bytes of code, and a window of %u from %u on\n",
           (unsigned)paw_answer_code_bytes(answer), (unsigned)paw_answer_window_bytes(answer),
           (unsigned)paw_answer_window_start(answer));
    return true;
}

/* Prints code that was verified, which is never refused by the lister. */
static void print_listing(size_t code_len)
{
    uint64_t answer = paw_list(code, code_len, listing, sizeof listing);
    fwrite(listing, 1, paw_listed_bytes(answer), stdout);
}

int main(int argc, char **argv)
{
    if (argc != 2) {
        fprintf(stderr, "usage: assemble TEXT\n");
        return 2;
    }
    size_t len = read_text(argv[1]);
    if (len > sizeof text) {
        fprintf(stderr, "assemble: %s: no file, or too long a text\n", argv[1]);
        return 2;
    }
    uint64_t answer = paw_assemble(text, len, code, PAW_MAX_CODE);
    if (paw_assembled_number(answer) != PAW_OK) {
        print_refusal(answer, len);
        return 1;
    }
    if (!load(paw_assembled_halfwords(answer)))
        return 1;
    print_listing(paw_assembled_halfwords(answer));
    return 0;
}
