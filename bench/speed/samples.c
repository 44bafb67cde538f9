#include "samples.h"

#include <stdio.h>
#include <stdlib.h>
#include <string.h>

#include "random.h"

/* Packs the code, behind which the window begins. It must be fit. */
static void finish(struct image *image, uint32_t n)
{
    image->n = n;
    image->w = (uint16_t)window_behind(n);
    image->l = 1024;
    image->len = paw_image_bytes(n);
    paw_pack(image->code, n, image->w, image->l, image->file, image->len);
    if (paw_answer_number(paw_verify(image->file, image->len)) != PAW_OK) {
        fprintf(stderr, "an image that is to be timed is not fit\n");
        exit(1);
    }
}

static void write_random(struct image *image, uint32_t n)
{
    random_fit(image->code, n, window_behind(n));
    finish(image, n);
}

const struct image *random_image(void)
{
    static struct image image;
    if (image.n == 0) {
        seed_random(88172645463325252);
        write_random(&image, PAW_MAX_CODE);
    }
    return &image;
}

const struct image *branching_image(void)
{
    static struct image image;
    if (image.n == 0) {
        seed_random(88172645463325253);
        for (uint32_t i = 0; i < PAW_MAX_CODE; i++)
            image.code[i] = (uint16_t)(0xd001 | random_below(14) << 8); /* to the next one */
        image.code[PAW_MAX_CODE - 1] = 0;
        finish(&image, PAW_MAX_CODE);
    }
    return &image;
}

const struct image *small_images(void)
{
    static struct image images[SMALL_IMAGES];
    if (images[0].n == 0) {
        seed_random(88172645463325254);
        for (uint32_t k = 0; k < SMALL_IMAGES; k++)
            write_random(&images[k], 1 + k % 40);
    }
    return images;
}

/* What a text is put together in: at most 19 bytes an instruction, and 8 a label. */
static uint8_t listing[PAW_MAX_LISTING], labelled[PAW_MAX_LISTING + 8 * PAW_MAX_CODE];

static void *copy_of(const void *bytes, size_t len)
{
    void *copy = malloc(len);
    if (copy == NULL)
        exit(1);
    return memcpy(copy, bytes, len);
}

/* Lists a random code of n instructions; answers the listing's length. */
static size_t list_random(uint16_t *code, uint32_t n)
{
    random_fit(code, n, window_behind(n));
    uint64_t answer = paw_list(code, n, listing, sizeof listing);
    if (paw_listed_number(answer) != PAW_OK) {
        fprintf(stderr, "a code that is to be timed is not listed\n");
        exit(1);
    }
    return paw_listed_bytes(answer);
}

static struct source source_of(const uint16_t *code, uint32_t n, const uint8_t *text, size_t len)
{
    return (struct source){ copy_of(code, sizeof *code * n), n, copy_of(text, len), len };
}

static uint32_t lines_of(const uint8_t *text, size_t len)
{
    uint32_t lines = 0;
    for (size_t i = 0; i < len; i++)
        lines += text[i] == '\n';
    return lines;
}

static const uint8_t *next_line(const uint8_t *line)
{
    while (*line != '\n')
        line++;
    return line + 1;
}

/* Copies the listing of n instructions, with a label before each. Answers its length. */
static size_t label_all(uint32_t n)
{
    const uint8_t *line = listing;
    uint8_t *out = labelled;
    for (uint32_t i = 0; i < n; i++) {
        const uint8_t *next = next_line(line);
        if (next[-2] == ':') /* the label is there, and its instruction below it */
            next = next_line(next);
        else
            out += sprintf((char *)out, "a%u:\n", 2 * i);
        memcpy(out, line, (size_t)(next - line));
        out += next - line;
        line = next;
    }
    return (size_t)(out - labelled);
}

const struct source *largest_source(void)
{
    static struct source source;
    if (source.n == 0) {
        static uint16_t code[PAW_MAX_CODE];
        seed_random(88172645463325255);
        list_random(code, PAW_MAX_CODE);
        source = source_of(code, PAW_MAX_CODE, labelled, label_all(PAW_MAX_CODE));
    }
    return &source;
}

/* A random code whose listing has 40 lines, or that has 40 halfwords, whatever its lines. */
static struct source small_source(bool lines)
{
    uint16_t code[40];
    for (;;) {
        uint32_t n = lines ? 25 + random_below(15) : 40;
        size_t len = list_random(code, n);
        if (!lines || lines_of(listing, len) == 40)
            return source_of(code, n, listing, len);
    }
}

const struct source *sources_of_40_lines(void)
{
    static struct source sources[SMALL_SOURCES];
    if (sources[0].n == 0) {
        seed_random(88172645463325256);
        for (uint32_t k = 0; k < SMALL_SOURCES; k++)
            sources[k] = small_source(true);
    }
    return sources;
}

const struct source *sources_of_40_halfwords(void)
{
    static struct source sources[SMALL_SOURCES];
    if (sources[0].n == 0) {
        seed_random(88172645463325257);
        for (uint32_t k = 0; k < SMALL_SOURCES; k++)
            sources[k] = small_source(false);
    }
    return sources;
}

/* A label of eight letters, another one for each number. */
static char *put_label(char *out, uint32_t number)
{
    for (int i = 0; i < 8; i++, number /= 26)
        *out++ = (char)('a' + number % 26);
    return out + sprintf(out, ":\n");
}

const struct source *crowded_source(void)
{
    enum { LABELS = 32600, LABEL_BYTES = 10 }; /* a few more than the library's table holds */
    static const uint16_t halt[] = { 0 };
    static char text[LABELS * LABEL_BYTES + 9];
    static struct source source;
    if (source.n == 0) {
        char *out = text;
        for (uint32_t k = 0; k < LABELS; k++)
            out = put_label(out, k);
        out += sprintf(out, "HALT #0\n");
        source = (struct source){ halt, 1, (const uint8_t *)text, (size_t)(out - text) };
    }
    return &source;
}

const struct source *outgrown_source(void)
{
    enum { BRANCHES = 129, BRANCH_BYTES = 6 }; /* one more than the library keeps notes of at first */
    static const uint16_t halt[] = { 0 };
    static char text[3 + BRANCHES * BRANCH_BYTES + 1];
    static struct source source;
    if (source.n == 0) {
        char *out = text + sprintf(text, "a:\n");
        for (uint32_t k = 0; k < BRANCHES; k++)
            out += sprintf(out, "BEQ a\n");
        source = (struct source){ halt, 1, (const uint8_t *)text, (size_t)(out - text) };
    }
    return &source;
}
