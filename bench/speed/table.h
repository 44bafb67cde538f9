/*
 * The rows of the table: the ratio of the library's time to that of the better `switch` and to that
 * of the fastest engine. A ratio is that of the shortest times of all passes; behind it stand the
 * smallest and the largest that single passes gave.
 */
#ifndef TABLE_H
#define TABLE_H

#include <stddef.h>

enum { MOST_PASSES = 9 };
enum { SWITCH, FASTEST, COLUMNS };

/* The times of one piece of work in all passes, in seconds. */
struct series {
    size_t passes;
    double library[MOST_PASSES];
    double peer[COLUMNS][MOST_PASSES];
    size_t columns; /* 1 where there is nothing but a switch */
};

/* Adds a pass: seconds by engine, or by maker where the peers have no more. */
void add_pass(struct series *series, const double *seconds, size_t engines);

enum combination { MEAN, WORST };

void print_head(void);

/* A row in Markdown, of one series or of several: their geometric mean, or the worst of them. */
void print_row(const char *name, const struct series *series, size_t count, enum combination how);

#endif
