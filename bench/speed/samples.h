/* The images and texts that are timed. */
#ifndef SAMPLES_H
#define SAMPLES_H

#include "paw.h"

struct image {
    uint16_t code[PAW_MAX_CODE];
    uint32_t n;
    uint16_t w, l;
    uint8_t file[PAW_MAX_BLOCKS * PAW_BLOCK_BYTES];
    size_t len;
};

enum { SMALL_IMAGES = 64 };

const struct image *random_image(void);    /* 64 blocks of random fit code */
const struct image *branching_image(void); /* 64 blocks of nothing but branches */
const struct image *small_images(void);    /* SMALL_IMAGES of one block, of 1 to 40 halfwords */

/* A code of random fit instructions and a text of it. */
struct source {
    const uint16_t *code;
    uint32_t n;
    const uint8_t *text;
    size_t len;
};

enum { SMALL_SOURCES = 64 };

const struct source *largest_source(void);          /* 15,936 instructions, a label before each */
const struct source *sources_of_40_lines(void);     /* SMALL_SOURCES listings, labels counted */
const struct source *sources_of_40_halfwords(void); /* SMALL_SOURCES codes and their listings */
const struct source *crowded_source(void);          /* HALT #0 below 32,600 labels; not timed */
const struct source *outgrown_source(void);         /* 129 short lines in 777 bytes; not timed */

#endif
