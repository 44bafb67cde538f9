/* The programs that are timed: fit ones, as a dock might run them, that never end. */
#ifndef PROGRAMS_H
#define PROGRAMS_H

#include "paw.h"

enum { PROGRAM_ROOM = 64, PROGRAM_COUNT = 12 };

/* The window of every program. */
enum { WINDOW_START = 256, WINDOW_BYTES = 1024 };

struct program {
    const char *name;
    uint16_t code[PROGRAM_ROOM];
    uint32_t n;
};

/* Writes a program; `index` is below PROGRAM_COUNT. */
void write_program(struct program *program, size_t index);

/* Puts it into a memory by the library. False if the verifier refuses it, with a word on stderr. */
bool load_program(const struct program *program, uint8_t *memory);

#endif
