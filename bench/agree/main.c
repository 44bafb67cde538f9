/*
 * Holds every peer to libpaw.a on the same work: answers, registers, flags, notes, all of memory,
 * codes and texts must be the same. The work is random, from a fixed seed. With a number, that many
 * times as much.
 */
#include <stdio.h>
#include <stdlib.h>
#include <string.h>

#include "agree.h"
#include "random.h"

enum {
    RUNS = 200000,
    STEPS = 600000,
    IMAGES = 80000,
    FACTS = 1000000,
    TEXTS = 100000,
    LISTINGS = 20000,
};

uint8_t memories[ENGINES][PAW_MEMORY_BYTES];

bool same_memory(size_t engine)
{
    return memcmp(memories[engine], memories[LIBRARY], PAW_MEMORY_BYTES) == 0;
}

void fail(const char *what, const char *who, long number)
{
    printf("%s: %s differs from the library at case %ld\n", what, who, number);
    exit(1);
}

void print_numbers(const long *counts, size_t numbers)
{
    for (size_t i = 0; i < numbers; i++)
        if (counts[i] != 0)
            printf(" %zu: %ld", i, counts[i]);
    printf("\n");
}

int main(int argc, char **argv)
{
    long times = argc > 1 ? atol(argv[1]) : 1;
    seed_random(0x9E3779B97F4A7C15);
    compare_runs(times * RUNS);
    compare_halfwords();
    compare_notes();
    compare_programs();
    compare_steps(times * STEPS);
    compare_images(times * IMAGES);
    compare_short_codes();
    compare_facts(times * FACTS);
    compare_texts(times * TEXTS);
    compare_many_labels();
    compare_listings(times * LISTINGS);
    compare_listed_halfwords();
    printf("peers by gcc%s: all as the library\n", WITH_CLANG ? " and clang" : "");
    return 0;
}
