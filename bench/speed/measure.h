/* Time, taken so that a busy neighbour or a changing clock harms all engines alike. */
#ifndef MEASURE_H
#define MEASURE_H

#include <stddef.h>
#include <stdint.h>

enum { MOST_SLICES = 64 };

/* The same work for each of several engines. */
struct contest {
    size_t engines;
    uint32_t slices; /* at most MOST_SLICES */
    uint32_t rounds;
    void (*start)(size_t engine); /* before each round, not timed; may be null */
    void (*work)(size_t engine);  /* one slice */
};

/*
 * The seconds of each engine. They take turns in slices, and of every slice the shortest time of
 * all rounds counts.
 */
void measure(const struct contest *contest, double *seconds);

/*
 * The seconds that each maker takes for a piece of short work. `work` does it *repeats times, which
 * is chosen here so that the time of the clock itself is lost in a slice.
 */
void measure_short(void (*work)(size_t maker), uint32_t *repeats, uint32_t rounds, double *seconds);

double now(void);

/* The shortest of the times from `first` up to and without `end`. */
double shortest(const double *seconds, size_t first, size_t end);

#endif
