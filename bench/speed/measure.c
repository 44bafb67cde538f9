#include "measure.h"

#include <math.h>
#include <time.h>

#include "peers/peers.h"

double now(void)
{
    struct timespec t;
    clock_gettime(CLOCK_MONOTONIC, &t);
    return (double)t.tv_sec + 1e-9 * (double)t.tv_nsec;
}

double shortest(const double *seconds, size_t first, size_t end)
{
    double least = INFINITY;
    for (size_t i = first; i < end; i++)
        least = fmin(least, seconds[i]);
    return least;
}

void measure(const struct contest *contest, double *seconds)
{
    double best[ENGINES][MOST_SLICES];
    for (size_t e = 0; e < contest->engines; e++)
        for (uint32_t k = 0; k < contest->slices; k++)
            best[e][k] = INFINITY;
    for (uint32_t round = 0; round < contest->rounds; round++) {
        for (size_t e = 0; contest->start != NULL && e < contest->engines; e++)
            contest->start(e);
        for (uint32_t k = 0; k < contest->slices; k++)
            for (size_t e = 0; e < contest->engines; e++) {
                double begin = now();
                contest->work(e);
                best[e][k] = fmin(best[e][k], now() - begin);
            }
    }
    for (size_t e = 0; e < contest->engines; e++) {
        seconds[e] = 0;
        for (uint32_t k = 0; k < contest->slices; k++)
            seconds[e] += best[e][k];
    }
}

/* How often the work must be done so that a slice is long enough. */
static uint32_t repeats_needed(void (*work)(size_t), uint32_t *repeats)
{
    const double slice = 50e-6;
    uint32_t needed = 0;
    *repeats = 1;
    for (double begin = now(); now() - begin < slice; needed++)
        work(LIBRARY);
    return needed;
}

void measure_short(void (*work)(size_t), uint32_t *repeats, uint32_t rounds, double *seconds)
{
    *repeats = repeats_needed(work, repeats);
    const struct contest contest = { MAKERS, 1, rounds, NULL, work };
    measure(&contest, seconds);
    for (size_t i = 0; i < MAKERS; i++)
        seconds[i] /= *repeats; /* which differ from pass to pass */
}
