/* What is measured, a pass at a time, and printed as rows of the table when all passes are done. */
#ifndef SPEED_H
#define SPEED_H

#include <stdint.h>

/* How much is done in a pass. */
struct effort {
    uint32_t run_slices; /* of a million steps, for each program */
    uint32_t run_rounds;
    uint32_t step_rounds;
    uint32_t image_rounds; /* of images and of texts */
};

void measure_programs(const struct effort *effort);
void measure_images(const struct effort *effort);
void measure_texts(const struct effort *effort);

void print_programs(void);
void print_images(void);
void print_texts(void);

/* How deep calls go on the stack, as a table of its own. */
void print_stacks(void);

#endif
