/*
 * Numbers in decimal, by a table of three digits. A number is written by stores of four bytes, some
 * of which may go past its end.
 */
#ifndef DIGITS_H
#define DIGITS_H

#include "peer.h"

#define TEN(tens)                                                                                 \
    tens "0", tens "1", tens "2", tens "3", tens "4", tens "5", tens "6", tens "7", tens "8",     \
        tens "9"
#define HUNDRED(hundreds)                                                                         \
    TEN(hundreds "0"), TEN(hundreds "1"), TEN(hundreds "2"), TEN(hundreds "3"),                   \
        TEN(hundreds "4"), TEN(hundreds "5"), TEN(hundreds "6"), TEN(hundreds "7"),               \
        TEN(hundreds "8"), TEN(hundreds "9")

/* 000 to 999, and an empty one: a store from the end of the last reads into it. */
static const char three_digits[1001][4] = {
    HUNDRED("0"), HUNDRED("1"), HUNDRED("2"), HUNDRED("3"), HUNDRED("4"),
    HUNDRED("5"), HUNDRED("6"), HUNDRED("7"), HUNDRED("8"), HUNDRED("9"),
};

#undef TEN
#undef HUNDRED

/* A number below 1,000. */
static inline uint8_t *put_small(uint8_t *out, uint32_t n)
{
    uint32_t zeros = (n < 100) + (n < 10);
    memcpy(out, (const char *)three_digits + 4 * n + zeros, 4);
    return out + 3 - zeros;
}

/* A number below 1,000,000. */
static inline uint8_t *put_number(uint8_t *out, uint32_t n)
{
    if (n < 1000)
        return put_small(out, n);
    out = put_small(out, n / 1000);
    memcpy(out, three_digits[n % 1000], 4);
    return out + 3;
}

#endif
