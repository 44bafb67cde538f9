/*
 * Random texts. One is written by the rules, but for a fault in so many of its pieces; then it may
 * be damaged with no regard to them.
 */
#ifndef SOURCES_H
#define SOURCES_H

#include "paw.h"

enum { TEXT_ROOM = 3 << 20 };

/* The text that was written last. */
extern uint8_t text[TEXT_ROOM];
extern size_t text_len;

/* What labels are called: a and an address, some letters and digits, or eight of them. */
enum style { BY_ADDRESS, SHORT, LONG, STYLES };

struct plan {
    uint32_t instructions;
    uint32_t labels; /* at even distances */
    uint32_t faults_in; /* of so many pieces one is wrong; 0 where none is */
    enum style style;
};

void write_text(const struct plan *plan);

/* Writes one label more, by its number; a fault makes it another one's name, or none. */
void put_label(uint32_t number);

/* Damages the text in one way: bytes and lines are changed, left out, doubled or put elsewhere. */
void damage_text(void);

#endif
