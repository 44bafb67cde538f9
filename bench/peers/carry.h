/*
 * Carry and overflow, worked out only where they are asked for: what is kept is the last sum, with
 * its operands. A difference is the sum of a, the complement of b, and 1.
 */
#ifndef CARRY_H
#define CARRY_H

#include "peer.h"

struct carry {
    uint32_t a, b;
    uint32_t sum; /* bit 16 is C */
};

static inline struct carry carry_of(bool c, bool v)
{
    uint32_t sign = (uint32_t)v << 15; /* both operands unlike the sum, or all alike */
    return (struct carry){ sign, sign, (uint32_t)c << 16 };
}

static inline bool carried(const struct carry *f)
{
    return f->sum >> 16 & 1;
}

static inline bool overflowed(const struct carry *f)
{
    return ((f->a ^ f->sum) & (f->b ^ f->sum)) >> 15 & 1;
}

static inline uint32_t add(struct carry *f, uint32_t a, uint32_t b)
{
    *f = (struct carry){ a, b, a + b };
    return (uint16_t)f->sum;
}

static inline uint32_t subtract(struct carry *f, uint32_t a, uint32_t b)
{
    *f = (struct carry){ a, ~b, a + 0x10000 - b };
    return (uint16_t)f->sum;
}

/* ASR by the low byte of k. C is the last bit to leave, or stays if k is 0; V stays. */
static inline uint32_t shift(struct carry *f, uint32_t a, uint32_t k)
{
    int32_t wide = (int16_t)a;
    k &= 255;
    if (k == 0)
        return a;
    k = k < 16 ? k : 16;
    f->sum = (f->sum & 0xffff) | ((uint32_t)(wide >> (k - 1)) & 1) << 16;
    return (uint16_t)(wide >> k);
}

#endif
