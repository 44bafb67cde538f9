/* Runs and steps of random code, of every halfword and note, and of the programs that are timed. */
#include <stdio.h>
#include <stdlib.h>
#include <string.h>

#include "agree.h"
#include "machine.h"
#include "programs.h"
#include "random.h"

enum { TOUCHES = PAW_WROTE_HALFWORD + 1 };

/* The same halfword in every memory. */
static void put_everywhere(uint16_t address, uint16_t h)
{
    for (size_t i = 0; i < ENGINES; i++)
        memcpy(memories[i] + address, &h, sizeof h);
}

/*
 * The same random code in every memory. What ends a run early, misaligned accesses and writes to
 * R15, is left in only once in `keep` times.
 */
static void fill_memories(uint32_t any_in, uint32_t keep)
{
    for (uint32_t address = 0; address < PAW_MEMORY_BYTES; address += 2) {
        uint16_t h = once_in(200) ? random_halt() : random_instruction(any_in);
        if (!once_in(keep)) {
            if (h >> 12 == 6)
                h |= 0x1000; /* of a byte instead */
            if (writes_pc(h))
                h &= 0xff7f; /* R7 instead */
        }
        put_everywhere((uint16_t)address, h);
    }
}

/* A run by all engines from the same start. Answers the library's answer. */
static uint64_t compare_run(const struct paw_machine *start, size_t len, uint32_t budget,
                            const char *what, long number)
{
    struct paw_machine want = *start;
    uint64_t answer = paw_run(&want, memories[LIBRARY], len, budget);
    for (size_t i = 1; i < ENGINES; i++) {
        struct paw_machine m = *start;
        if (engines[i].run(&m, memories[i], len, budget) != answer || !same_machine(&m, &want) ||
            !same_memory(i))
            fail(what, engines[i].name, number);
    }
    return answer;
}

/* A step by all makers, each in both forms, from the same start. Answers the library's answer. */
static uint32_t compare_step(const struct paw_machine *start, size_t len, const char *what,
                             long number)
{
    struct paw_machine want = *start;
    uint32_t answer = paw_step(&want, memories[LIBRARY], len);
    for (size_t i = 1; i < ENGINES; i++) { /* a memory each: steps, then those by value */
        const struct maker *maker = &makers[i < MAKERS ? i : i - MAKERS + 1];
        step_function *step = i < MAKERS ? maker->step : maker->step_by_value;
        struct paw_machine m = *start;
        if (step(&m, memories[i], len) != answer || !same_machine(&m, &want) || !same_memory(i))
            fail(what, maker->name, number);
    }
    return answer;
}

void compare_runs(long cases)
{
    long counts[PAW_HALT + 1] = { 0 }, touches[TOUCHES] = { 0 };
    for (long n = 0; n < cases; n++) {
        if (n % 64 == 0) /* in between, runs go on in what the last one left */
            fill_memories(once_in(4) ? 1 + random_below(60) : 0, once_in(4) ? 1 : 40);
        struct paw_machine start = random_machine();
        uint32_t budget = random_below(once_in(8) ? 4 : 600);
        size_t len = once_in(500) ? PAW_MEMORY_BYTES - 1 : PAW_MEMORY_BYTES;
        uint64_t answer = compare_run(&start, len, budget, "run", n);
        counts[paw_run_number(answer)]++;
        touches[paw_touched(answer)]++;
    }
    printf("%ld runs agree; endings:", cases);
    print_numbers(counts, PAW_HALT + 1);
    printf("and what they touched last:");
    print_numbers(touches, TOUCHES);
}

void compare_halfwords(void)
{
    fill_memories(0, 1);
    for (uint32_t h = 0; h < 65536; h++) {
        struct paw_machine start = random_machine();
        start.regs[15] &= 0xfffe;
        put_everywhere(start.regs[15], (uint16_t)h);
        compare_run(&start, PAW_MEMORY_BYTES, 1 + random_below(3), "halfword", h);
        put_everywhere(start.regs[15], (uint16_t)h); /* which the run may have overwritten */
        compare_step(&start, PAW_MEMORY_BYTES, "step of a halfword", h);
    }
    printf("a run from every halfword and its step agree\n");
}

/*
 * Every note, and as many halfwords behind them, one step ahead of the start: by budgets that end
 * before it, right before it, at it, and by a memory that is refused.
 */
void compare_notes(void)
{
    enum { ADDRESS = 4096, MOST_BUDGET = 3 };
    long halts = 0;
    for (uint32_t h = 0; h < 512; h++)
        for (uint32_t budget = 0; budget <= MOST_BUDGET; budget++) {
            struct paw_machine start = random_machine();
            start.regs[15] = ADDRESS;
            put_everywhere(ADDRESS, 0x2001); /* MOV R0, #1 */
            put_everywhere(ADDRESS + 2, (uint16_t)h);
            compare_run(&start, PAW_MEMORY_BYTES - 1, budget, "note, refused", h);
            uint64_t answer = compare_run(&start, PAW_MEMORY_BYTES, budget, "note", h);
            halts += paw_run_number(answer) == PAW_HALT;
        }
    printf("runs around every note agree; %ld of them halt\n", halts);
}

void compare_programs(void)
{
    for (size_t p = 0; p < PROGRAM_COUNT; p++) {
        struct program program;
        write_program(&program, p);
        for (size_t i = 0; i < ENGINES; i++) {
            memset(memories[i], 0, PAW_MEMORY_BYTES);
            if (!load_program(&program, memories[i]))
                exit(1);
        }
        struct paw_machine start = { 0 };
        uint64_t answer = compare_run(&start, PAW_MEMORY_BYTES, 1000000, program.name, 0);
        if (paw_run_number(answer) != PAW_SPENT) {
            printf("%s: ends, and is to run for ever\n", program.name);
            exit(1);
        }
    }
    printf("%d programs are fit, and a million steps of each agree\n", PROGRAM_COUNT);
}

void compare_steps(long cases)
{
    long counts[PAW_HALT + 1] = { 0 }, touches[TOUCHES] = { 0 };
    for (long n = 0; n < cases; n++) {
        if (n % 4096 == 0)
            fill_memories(10, 1);
        struct paw_machine start = random_machine();
        if (!once_in(8)) /* elsewhere than at the few places where machines start */
            start.regs[15] = (uint16_t)(random_word() & 0xfffe);
        if (once_in(4))
            put_everywhere(start.regs[15] & 0xfffe, (uint16_t)random_word());
        size_t len = once_in(500) ? PAW_MEMORY_BYTES + 1 : PAW_MEMORY_BYTES;
        uint32_t answer = compare_step(&start, len, "step", n);
        counts[paw_step_number(answer)]++;
        touches[paw_touched(answer)]++;
    }
    printf("%ld steps agree; endings:", cases);
    print_numbers(counts, PAW_HALT + 1);
    printf("and what they touched:");
    print_numbers(touches, TOUCHES);
}
