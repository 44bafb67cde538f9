/* Comparisons of every peer with the library. Each ends the program where one differs. */
#ifndef AGREE_H
#define AGREE_H

#include "peers/peers.h"

void compare_runs(long cases);
void compare_halfwords(void);
void compare_notes(void);
void compare_programs(void);
void compare_steps(long cases);
void compare_images(long cases);
void compare_short_codes(void);
void compare_facts(long cases);
void compare_texts(long cases);
void compare_many_labels(void);
void compare_listings(long cases);
void compare_listed_halfwords(void);

/* A memory for each engine; makers that do not run use the first ones. */
extern uint8_t memories[ENGINES][PAW_MEMORY_BYTES];

/* Has the engine's memory become what the library's has? */
bool same_memory(size_t engine);

/* Says what differs, by whom and at which case, and ends. */
_Noreturn void fail(const char *what, const char *who, long number);

/* How often each number was an answer, at the end of a line. */
void print_numbers(const long *counts, size_t numbers);

#endif
