#include "table.h"

#include <math.h>
#include <stdio.h>
#include <stdlib.h>

#include "measure.h"
#include "peers/peers.h"

void add_pass(struct series *series, const double *seconds, size_t engines)
{
    size_t pass = series->passes++;
    if (pass >= MOST_PASSES)
        abort();
    series->columns = engines > MAKERS ? COLUMNS : 1;
    series->library[pass] = seconds[LIBRARY];
    series->peer[SWITCH][pass] = shortest(seconds, GCC, MAKERS);
    series->peer[FASTEST][pass] = shortest(seconds, GCC, engines);
}

/* The ratio of the passes from `first` up to and without `end`, combined over the series. */
static double ratio(const struct series *series, size_t count, enum combination how, size_t column,
                    size_t first, size_t end)
{
    double logs = 0, worst = 0;
    for (size_t i = 0; i < count; i++) {
        double x = shortest(series[i].library, first, end) /
                   shortest(series[i].peer[column], first, end);
        logs += log(x);
        worst = fmax(worst, x);
    }
    return how == MEAN ? exp(logs / (double)count) : worst;
}

void print_head(void)
{
    printf("| the library's time over that of | `switch` | the fastest in C |\n|---|---|---|\n");
}

void print_row(const char *name, const struct series *series, size_t count, enum combination how)
{
    size_t passes = series->passes;
    printf("| %s |", name);
    for (size_t column = 0; column < COLUMNS; column++) {
        if (column < series->columns) {
            double all = ratio(series, count, how, column, 0, passes), least = all, largest = all;
            for (size_t pass = 0; pass < passes; pass++) {
                double x = ratio(series, count, how, column, pass, pass + 1);
                least = fmin(least, x);
                largest = fmax(largest, x);
            }
            printf(" %.2f (%.2f to %.2f)", all, least, largest);
        }
        printf(" |");
    }
    printf("\n");
}
