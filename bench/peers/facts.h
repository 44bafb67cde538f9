/*
 * What the verifier knows of a register, in one word: its lowest value in bits 0 to 15, its highest
 * in 16 to 31, and from 32 on how many low bits are known to be 0.
 */
#ifndef FACTS_H
#define FACTS_H

#include "peer.h"

typedef uint64_t fact;

#define UNKNOWN fact_of(0, 65535, 0)

static inline fact fact_of(uint32_t low, uint32_t high, uint32_t zeros)
{
    return low | (uint64_t)high << 16 | (uint64_t)zeros << 32;
}

static inline uint32_t low_of(fact f)
{
    return (uint32_t)f & 0xffff;
}

static inline uint32_t high_of(fact f)
{
    return (uint32_t)f >> 16;
}

static inline uint32_t zeros_of(fact f)
{
    return (uint32_t)(f >> 32);
}

static inline uint32_t smaller(uint32_t a, uint32_t b)
{
    return a < b ? a : b;
}

static inline uint32_t larger(uint32_t a, uint32_t b)
{
    return a > b ? a : b;
}

static inline fact known(uint32_t value)
{
    return fact_of(value, value, (uint32_t)__builtin_ctz(value | 0x10000));
}

static inline fact up_to(uint32_t high, uint32_t zeros)
{
    return fact_of(0, high, high == 0 ? 16 : zeros);
}

static inline fact and_fact(fact d, fact s)
{
    return up_to(smaller(high_of(d), high_of(s)), larger(zeros_of(d), zeros_of(s)));
}

static inline fact eor_fact(fact d, fact s)
{
    uint32_t high = larger(high_of(d), high_of(s));
    if (high != 0)
        high = 0xffffffff >> __builtin_clz(high); /* all bits up to its highest */
    return up_to(high, smaller(zeros_of(d), zeros_of(s)));
}

static inline fact asr_fact(fact d)
{
    return up_to(high_of(d) <= 32767 ? high_of(d) : 65535, 0);
}

static inline fact add_fact(fact d, fact s)
{
    uint32_t low = low_of(d) + low_of(s), high = high_of(d) + high_of(s);
    if (high > 65535)
        low = 0, high = 65535;
    return low == high ? known(low) : fact_of(low, high, smaller(zeros_of(d), zeros_of(s)));
}

#endif
