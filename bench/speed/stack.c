/*
 * The stack of a call: it is made on a stack of its own that was painted before, and the deepest
 * byte whose paint is gone counts. Two colours, so that no byte hides by being of one of them.
 */
#include <stdio.h>
#include <stdlib.h>
#include <string.h>
#include <ucontext.h>

#include "peers/peers.h"
#include "samples.h"
#include "speed.h"

enum { LARGE = 1 << 22, SMALL = 1 << 18 }; /* what is painted for texts, and for all else */

static uint8_t stack[LARGE] __attribute__((aligned(64)));
static size_t painted = SMALL; /* of the end, where calls begin */
static uint8_t memory[PAW_MEMORY_BYTES];

static void (*work)(size_t); /* what the call below does, and for whom */
static size_t worker;
static volatile uint64_t answer;

static void on_own_stack(void)
{
    work(worker);
}

/* Bytes of the painted stack that are touched by a call. */
static size_t touched(uint8_t colour)
{
    ucontext_t here, there;
    uint8_t *paint = stack + sizeof stack - painted;
    memset(paint, colour, painted);
    if (getcontext(&there) != 0)
        exit(1);
    there.uc_stack.ss_sp = stack;
    there.uc_stack.ss_size = sizeof stack;
    there.uc_link = &here;
    makecontext(&there, on_own_stack, 0);
    if (swapcontext(&here, &there) != 0)
        exit(1);
    size_t left = 0;
    while (left < painted && paint[left] == colour)
        left++;
    if (left == 0) {
        fprintf(stderr, "a call takes more stack than is painted\n");
        exit(1);
    }
    return painted - left;
}

static size_t depth(void (*call)(size_t), size_t maker)
{
    work = call;
    worker = maker;
    size_t dark = touched(0x5a), light = touched(0xa5);
    return dark > light ? dark : light;
}

static void nothing(size_t maker)
{
    answer = maker;
}

static size_t bytes_of(void (*call)(size_t), size_t maker)
{
    return depth(call, maker) - depth(nothing, maker);
}

static void verify(size_t maker)
{
    const struct image *image = random_image();
    answer = makers[maker].verify(image->file, image->len);
}

static void load(size_t maker)
{
    const struct image *image = random_image();
    answer = makers[maker].load(image->file, image->len, memory, sizeof memory);
}

static const struct source *source;

static void assemble(size_t maker)
{
    static uint16_t code[PAW_MAX_CODE];
    answer = makers[maker].assemble(source->text, source->len, code, PAW_MAX_CODE);
}

static void list(size_t maker)
{
    static uint8_t text[PAW_MAX_LISTING];
    answer = makers[maker].list(source->code, source->n, text, sizeof text);
}

/* What only the library is asked for: the same image, or one halfword. */

static struct paw_machine machine;
static uint16_t halfword;
static uint32_t word;

static void check(size_t maker)
{
    const struct image *image = random_image();
    answer = makers[maker].check(image->file, image->len);
}

static void block(size_t maker)
{
    const struct image *image = random_image();
    answer = paw_block(image->file, image->len, maker);
}

static void pack(size_t maker)
{
    static uint8_t out[PAW_MAX_BLOCKS * PAW_BLOCK_BYTES];
    const struct image *image = random_image();
    size_t n = image->n - 1; /* so that there is an unused halfword to write as well */
    answer = makers[maker].pack(image->code, n, image->w, image->l, out, image->len);
}

static void add_to_sum(size_t maker)
{
    answer = paw_add_to_sum(halfword, (uint16_t)maker);
}

static void run(size_t maker)
{
    answer = engines[maker].run(&machine, memory, sizeof memory, 2);
}

static void step(size_t maker)
{
    answer = makers[maker].step(&machine, memory, sizeof memory);
}

static void decode(size_t maker)
{
    answer = paw_decode(halfword) + maker;
}

static void encode(size_t maker)
{
    answer = paw_encode(word) + maker;
}

static void manual_date(size_t maker)
{
    answer = paw_manual_date(maker);
}

static void version(size_t maker)
{
    answer = paw_version() + maker;
}

static void print_row(const char *name, void (*call)(size_t))
{
    printf("| %s |", name);
    for (size_t i = 0; i < MAKERS; i++)
        printf(" %zu |", bytes_of(call, i));
    printf("\n");
}

/* The machine and the memory for a step of the halfword. */
static void set_up(uint32_t h)
{
    halfword = (uint16_t)h;
    word = paw_decode(halfword);
    machine = (struct paw_machine){ .regs = { [1] = 3, [2] = 0x8004 } };
    memcpy(memory, &halfword, sizeof halfword);
}

/* The most that a call takes, of halfwords that differ in their upper ten bits: all kinds. */
static size_t deepest_of_halfwords(void (*call)(size_t))
{
    size_t most = 0;
    for (uint32_t upper = 0; upper < 1024; upper++) {
        set_up(upper << 6 | 0x0a); /* of R1 and R2 */
        size_t bytes = bytes_of(call, LIBRARY);
        most = bytes > most ? bytes : most;
    }
    return most;
}

/* The same of so many texts and codes. */
static size_t deepest_of(const struct source *sources, size_t count, void (*call)(size_t))
{
    size_t most = 0;
    for (source = sources; source < sources + count; source++) {
        size_t bytes = bytes_of(call, LIBRARY);
        most = bytes > most ? bytes : most;
    }
    return most;
}

#define REFUSED(text, halfword)                                                                   \
    {                                                                                             \
        (const uint16_t[]){ halfword }, 1, (const uint8_t *)text, sizeof text - 1                 \
    }

static const struct source refused[] = {
    REFUSED("", 0x0100),
    REFUSED("HALT", 0x1000),
    REFUSED("a:\na:\nHALT #0\n", 0xd001),
    REFUSED("BEQ a\n", 0xd0ff),
    REFUSED("HALT #99999999999999999999\n", 0xffff),
};

/*
 * The same of long, short and refused texts and codes, of a great many labels, and of a text that the
 * library reads again with more room.
 */
static size_t deepest_of_sources(void (*call)(size_t))
{
    painted = LARGE;
    size_t most[] = {
        deepest_of(largest_source(), 1, call),
        deepest_of(sources_of_40_lines(), 1, call),
        deepest_of(crowded_source(), 1, call),
        deepest_of(outgrown_source(), 1, call),
        deepest_of(refused, sizeof refused / sizeof refused[0], call),
    };
    painted = SMALL;
    for (size_t i = 1; i < sizeof most / sizeof most[0]; i++)
        most[0] = most[i] > most[0] ? most[i] : most[0];
    return most[0];
}

/* Every function of the library. */
static void print_functions(void)
{
    static const struct {
        const char *name;
        void (*call)(size_t);
        size_t (*deepest)(void (*call)(size_t));
    } functions[] = {
        { "paw_assemble", assemble, deepest_of_sources },
        { "paw_list", list, deepest_of_sources },
        { "paw_load", load, deepest_of_halfwords },
        { "paw_verify", verify, deepest_of_halfwords },
        { "paw_check", check, deepest_of_halfwords },
        { "paw_block", block, deepest_of_halfwords },
        { "paw_pack", pack, deepest_of_halfwords },
        { "paw_add_to_sum", add_to_sum, deepest_of_halfwords },
        { "paw_run", run, deepest_of_halfwords },
        { "paw_step", step, deepest_of_halfwords },
        { "paw_encode", encode, deepest_of_halfwords },
        { "paw_decode", decode, deepest_of_halfwords },
        { "paw_manual_date", manual_date, deepest_of_halfwords },
        { "paw_version", version, deepest_of_halfwords },
    };
    printf("| function | bytes of stack |\n|---|---|\n");
    for (size_t i = 0; i < sizeof functions / sizeof functions[0]; i++)
        printf("| `%s` | %zu |\n", functions[i].name, functions[i].deepest(functions[i].call));
}

void print_stacks(void)
{
    random_image(); /* is made now, not on the painted stack */
    source = largest_source();
    printf("| bytes of stack |");
    for (size_t i = 0; i < MAKERS; i++)
        printf(" %s |", i == LIBRARY ? "the library" : makers[i].name);
    printf("\n|---|");
    for (size_t i = 0; i < MAKERS; i++)
        printf("---|");
    printf("\n");
    print_row("verify, 64 blocks", verify);
    print_row("load, 64 blocks", load);
    painted = LARGE;
    print_row("assemble, 15936 instructions and labels", assemble);
    print_row("list, 15936 halfwords", list);
    source = sources_of_40_lines();
    print_row("assemble, 40 lines", assemble);
    painted = SMALL;
    printf("\n");
    print_functions();
}
