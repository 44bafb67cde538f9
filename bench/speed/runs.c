/* Runs and single steps of the programs. */
#include <stdio.h>
#include <stdlib.h>
#include <string.h>

#include "machine.h"
#include "measure.h"
#include "peers/peers.h"
#include "programs.h"
#include "speed.h"
#include "table.h"

enum { RUN_STEPS = 1000000, STEP_CALLS = 100000, STEP_SLICES = 2 };

static struct program program;
static struct paw_machine machines[ENGINES];
static uint8_t memories[ENGINES][PAW_MEMORY_BYTES] __attribute__((aligned(4096)));

static void start(size_t engine)
{
    memset(&machines[engine], 0, sizeof machines[engine]);
    memset(memories[engine], 0, PAW_MEMORY_BYTES);
    if (!load_program(&program, memories[engine]))
        exit(1);
}

static void must(bool holds, const char *what)
{
    if (!holds) {
        fprintf(stderr, "%s: %s\n", program.name, what);
        exit(1);
    }
}

static void run(size_t engine)
{
    uint64_t answer =
        engines[engine].run(&machines[engine], memories[engine], PAW_MEMORY_BYTES, RUN_STEPS);
    must(paw_run_number(answer) == PAW_SPENT, "the run ended");
    must(paw_run_steps(answer) == RUN_STEPS, "the run was cut short");
}

static void make_steps(size_t engine, step_function *call)
{
    uint32_t answers = 0;
    for (uint32_t k = 0; k < STEP_CALLS; k++)
        answers |= call(&machines[engine], memories[engine], PAW_MEMORY_BYTES);
    must(paw_step_number(answers) == PAW_COMPLETED, "a step ended the program");
}

static void step(size_t engine)
{
    make_steps(engine, makers[engine].step);
}

static void step_by_value(size_t engine)
{
    make_steps(engine, makers[engine].step_by_value);
}

static struct series runs[PROGRAM_COUNT], steps[PROGRAM_COUNT], steps_by_value[PROGRAM_COUNT];

static void add_contest(struct series *series, const struct contest *contest)
{
    double seconds[ENGINES];
    measure(contest, seconds);
    for (size_t e = 1; e < contest->engines; e++)
        must(same_machine(&machines[e], &machines[LIBRARY]) &&
                 memcmp(memories[e], memories[LIBRARY], PAW_MEMORY_BYTES) == 0,
             "engines differ");
    add_pass(series, seconds, contest->engines);
}

void measure_programs(const struct effort *effort)
{
    const struct contest all = { ENGINES, effort->run_slices, effort->run_rounds, start, run };
    const struct contest single = { MAKERS, STEP_SLICES, effort->step_rounds, start, step };
    const struct contest by_value = { MAKERS, STEP_SLICES, effort->step_rounds, start,
                                      step_by_value };
    for (size_t p = 0; p < PROGRAM_COUNT; p++) {
        write_program(&program, p);
        add_contest(&runs[p], &all);
        add_contest(&steps[p], &single);
        add_contest(&steps_by_value[p], &by_value);
    }
}

void print_programs(void)
{
    for (size_t p = 0; p < PROGRAM_COUNT; p++) {
        char name[80];
        write_program(&program, p);
        snprintf(name, sizeof name, "run, %s", program.name);
        print_row(name, &runs[p], 1, MEAN);
    }
    print_row("run, geometric mean of all", runs, PROGRAM_COUNT, MEAN);
    print_row("run, worst", runs, PROGRAM_COUNT, WORST);
    print_row("one step, geometric mean of all programs", steps, PROGRAM_COUNT, MEAN);
    print_row("one step, worst", steps, PROGRAM_COUNT, WORST);
    print_row("one step, mean, beside C by value", steps_by_value, PROGRAM_COUNT, MEAN);
}
