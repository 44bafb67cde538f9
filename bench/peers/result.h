/*
 * What a run keeps of the last result, in place of N and Z, and of the last access, and what it
 * answers. N is set from 0x8000 on, Z where the low 16 bits are 0; 0x10000, which is no result, says
 * that both are set.
 */
#ifndef RESULT_H
#define RESULT_H

#include "peer.h"

#define RESULT_N(nz) ((nz) >= 0x8000)
#define RESULT_Z(nz) ((uint16_t)(nz) == 0)

static inline uint32_t result_of(bool n, bool z)
{
    return n ? (z ? 0x10000 : 0x8000) : (z ? 0 : 1);
}

/*
 * The last load or store of a run: what it touched, as in the answer, and how many steps were left,
 * its own among them. Other instructions write nothing here, so it is the last step's if that is one
 * more than is left at the end.
 */
struct last_access {
    uint32_t touched, left;
};

/* The answer of a run that ends with so many steps left. */
static inline uint64_t run_answer(uint32_t number, uint32_t budget, uint32_t left,
                                  const struct last_access *last)
{
    uint32_t touched = last->left == left + 1 ? last->touched : 0;
    return (uint64_t)(budget - left) << 32 | touched | number;
}

#endif
