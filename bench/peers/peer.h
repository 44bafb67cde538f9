/*
 * What all peers share. A peer does the work of a function of libpaw.a in C, with no proof: what a
 * good engineer might write instead. Each is compiled by every compiler that is there, and PEER
 * gives its function a name for each: switch_run_gcc, switch_run_clang.
 *
 * They need gcc's extensions, which clang has as well (ranges in cases and in initialisers), and a
 * host that has the low byte first.
 */
#ifndef PEER_H
#define PEER_H

#include <string.h>

#include "paw.h"
#include "peers.h"

#if __BYTE_ORDER__ != __ORDER_LITTLE_ENDIAN__
#error "the peers read halfwords as the host does, low byte first"
#endif

#define PEER(name) PEER_OF(name, PEER_COMPILER)
#define PEER_OF(name, compiler) PEER_JOIN(name, compiler)
#define PEER_JOIN(name, compiler) name##_##compiler

#define UNLIKELY(x) __builtin_expect(!!(x), 0)

/* What an answer says of data, above the number of the ending. */
static inline uint32_t touched_as(enum paw_touch touch, uint32_t address)
{
    return (uint32_t)touch << 8 | address << 16;
}

static inline uint16_t get16(const uint8_t *bytes)
{
    uint16_t x;
    memcpy(&x, bytes, sizeof x);
    return x;
}

static inline void put16(uint8_t *bytes, uint16_t x)
{
    memcpy(bytes, &x, sizeof x);
}

/* The fields of the halfword h. A high register's field has four bits, the others three. */
#define RD (h & 7)
#define RS (h >> 3 & 7)
#define HIGH_RD ((h & 7) | 8)
#define ANY_RD ((h & 7) | (h >> 4 & 8))
#define ANY_RS (h >> 3 & 15)
#define IMM8_RD (h >> 8 & 7)
#define IMM8 (h & 255)
#define IMM5 (h >> 6 & 31)
#define IMM5_TIMES_4 (h >> 4 & 124)

#endif
