/* Measures the library and its peers and prints the tables. `bench/run` calls it, and says how. */
#include <stdbool.h>
#include <stdio.h>
#include <string.h>

#include "speed.h"
#include "table.h"

int main(int argc, char **argv)
{
    bool quick = argc > 1 && strcmp(argv[1], "--quick") == 0;
    const struct effort effort =
        quick ? (struct effort){ 4, 4, 5, 100 } : (struct effort){ 12, 8, 20, 500 };
    int passes = quick ? 3 : MOST_PASSES;
    for (int pass = 1; pass <= passes; pass++) {
        fprintf(stderr, "pass %d of %d\n", pass, passes);
        measure_programs(&effort);
        measure_images(&effort);
        measure_texts(&effort);
    }
    print_head();
    print_programs();
    print_images();
    print_texts();
    printf("\n");
    print_stacks();
    return 0;
}
