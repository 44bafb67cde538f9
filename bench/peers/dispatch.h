/*
 * The head of a switch over kinds, in the form that each compiler makes one jump table of: clang
 * of all ten bits, gcc (which makes a tree of comparisons of those) of a kind's number, found in a
 * table of 1,024 bytes.
 */
#ifndef DISPATCH_H
#define DISPATCH_H

#include "kinds.h"

#ifdef __clang__

#define RANGE(name, first, last) enum { name##_FIRST = first, name##_LAST = last };
KINDS(RANGE)
#undef RANGE
#define DISPATCH(h) ((uint16_t)(h) >> 6)
#define IS(name) case name##_FIRST ... name##_LAST
#define HOLE(first, last) case first ... last:
#define IS_UNDEFINED HOLES(HOLE)

#else

#define NUMBER(name, first, last) KIND_##name,
enum { KIND_UNDEFINED, KINDS(NUMBER) };
#undef NUMBER
#define ENTRY(name, first, last) [first ... last] = KIND_##name,
static const uint8_t kind_numbers[1024] = { KINDS(ENTRY) };
#undef ENTRY
#define DISPATCH(h) (kind_numbers[(h) >> 6])
#define IS(name) case KIND_##name
#define IS_UNDEFINED case KIND_UNDEFINED:

#endif

#endif
