/*
 * What the lines of a text are made of. Each function takes what it names off the text and answers
 * whether it stood there; a byte or a digit that did not is still the next one. The text ends in a
 * line feed, and nothing is taken behind one but by the next line: so none of them has to look for
 * the end of the text.
 */
#ifndef SOURCE_H
#define SOURCE_H

#include "peer.h"

typedef const uint8_t *text;

static inline bool take(text *at, char byte)
{
    if (**at != (uint8_t)byte)
        return false;
    ++*at;
    return true;
}

static inline bool take_two(text *at, char first, char second)
{
    return take(at, first) && take(at, second);
}

static inline bool take_end(text *at)
{
    return take(at, '\n');
}

static inline bool take_comma(text *at)
{
    return take_two(at, ',', ' ');
}

/* A digit up to `most`. */
static inline bool take_digit(text *at, uint32_t most, uint32_t *digit)
{
    *digit = (uint32_t)**at - '0';
    if (*digit > most)
        return false;
    ++*at;
    return true;
}

/* R0 to R7. */
static inline bool take_low(text *at, uint32_t *r)
{
    return take(at, 'R') && take_digit(at, 7, r);
}

/* R0 to R15. */
static inline bool take_any(text *at, uint32_t *r)
{
    uint32_t second;
    if (!take(at, 'R') || !take_digit(at, 9, r))
        return false;
    if (*r == 1 && take_digit(at, 5, &second))
        *r = 10 + second;
    return true;
}

/* # and a number, of which no more is told than that it is 9,999 or above. */
static inline bool take_number(text *at, uint32_t *n)
{
    enum { MOST = 9999 };
    uint32_t digit;
    if (!take(at, '#') || !take_digit(at, 9, n))
        return false;
    if (*n == 0)
        return true; /* no digit may follow, and what must follow is none */
    while (take_digit(at, 9, &digit)) {
        *n = 10 * *n + digit;
        *n = *n < MOST ? *n : MOST;
    }
    return true;
}

/* The name of a label as a word: a small letter, then up to seven of these or digits. */
static inline bool take_name(text *at, uint64_t *name)
{
    static const bool in_names[256] = { ['a' ... 'z'] = true, ['0' ... '9'] = true };
    text start = *at, s = start;
    if (!in_names[*s] || *s <= '9')
        return false;
    *name = 0;
    do
        *name = *name << 8 | *s++;
    while (in_names[*s] && s != start + 8);
    *at = s;
    return true;
}

/* The two letters of a condition. */
static inline bool take_condition(text *at, uint32_t *condition)
{
#define LETTERS(first, second) [first - 'A'][second - 'A']
    static const uint8_t conditions[26][26] = { /* 1 more than their numbers; 0 is none */
        LETTERS('E', 'Q') = 1 + PAW_EQ, LETTERS('N', 'E') = 1 + PAW_NE,
        LETTERS('C', 'S') = 1 + PAW_CS, LETTERS('C', 'C') = 1 + PAW_CC,
        LETTERS('M', 'I') = 1 + PAW_MI, LETTERS('P', 'L') = 1 + PAW_PL,
        LETTERS('V', 'S') = 1 + PAW_VS, LETTERS('V', 'C') = 1 + PAW_VC,
        LETTERS('H', 'I') = 1 + PAW_HI, LETTERS('L', 'S') = 1 + PAW_LS,
        LETTERS('G', 'E') = 1 + PAW_GE, LETTERS('L', 'T') = 1 + PAW_LT,
        LETTERS('G', 'T') = 1 + PAW_GT, LETTERS('L', 'E') = 1 + PAW_LE,
    };
#undef LETTERS
    uint32_t first = (uint32_t)**at - 'A';
    if (first >= 26)
        return false;
    uint32_t second = (uint32_t)(*at)[1] - 'A';
    if (second >= 26 || conditions[first][second] == 0)
        return false;
    *condition = conditions[first][second] - 1u;
    *at += 2;
    return true;
}

#endif
