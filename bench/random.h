/* Random numbers, instructions, programs and machines: the same sequence from the same seed. */
#ifndef RANDOM_H
#define RANDOM_H

#include "paw.h"

void seed_random(uint64_t seed); /* not 0 */

uint32_t random_word(void);

/* From 0 to n - 1. */
uint32_t random_below(uint32_t n);

/* True once in n times. */
static inline bool once_in(uint32_t n)
{
    return random_below(n) == 0;
}

/* An instruction; but once in `any_in` times a halfword that may be none (never if that is 0). */
uint16_t random_instruction(uint32_t any_in);

/* HALT with any note. */
uint16_t random_halt(void);

/* Does the halfword write R15? */
bool writes_pc(uint16_t h);

/*
 * A fit program of n instructions, the last HALT: arithmetic, loads and stores whose base is built
 * just before them, and branches, a sixth of all, to places from which nothing need be known. The
 * window start is a multiple of 256, and the window has at least 512 bytes.
 */
void random_fit(uint16_t *code, uint32_t n, uint32_t window_start);

/* The first multiple of 256 that lies behind n instructions. */
static inline uint32_t window_behind(uint32_t n)
{
    return (2 * n + 255) / 256 * 256;
}

/* Registers of all sizes, any flags and note, and a PC that is often one of the special ones. */
struct paw_machine random_machine(void);

#endif
