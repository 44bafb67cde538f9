/*
 * The verifier forgets every register where a branch lands, so a base address is built anew there
 * (`home`, `pointer`). There is no shift to the left, no difference and no OR: sums, NEG and EOR
 * stand for them, and MOV #0 with BEQ for a jump.
 */
#include "programs.h"

#include <stdio.h>

#include "assembler.h"

/* Parts of programs ------------------------------------------------------------------------ */

/* A register becomes the window's start, 256. */
static void home(uint32_t rd)
{
    set(rd, 128), add(rd, rd);
}

/* R1 becomes 256 + (R3 & mask), and R2 256. */
static void pointer(uint32_t mask)
{
    set(R1, mask), and(R1, R3), home(R2), add(R1, R2);
}

static void add_imm(uint32_t rd, uint32_t imm)
{
    set(R6, imm), add(rd, R6);
}

static void asr_imm(uint32_t rd, uint32_t imm)
{
    set(R6, imm), asr(rd, R6);
}

static void and_imm(uint32_t rd, uint32_t imm)
{
    set(R6, imm), and(rd, R6);
}

/* Goes back until R3 is 256. */
static void until_256(uint32_t place)
{
    home(R6), cmp(R3, R6), back(NE, place);
}

/* R0 becomes 5 R0 + 77, which takes all values in turn: what sensors and riders do. */
static void noise(void)
{
    mov(R6, R0), add(R6, R6), add(R6, R6), add(R0, R6), add_imm(R0, 77);
}

/* The programs ----------------------------------------------------------------------------- */

/* One of each operation on registers. */
static void arithmetic(void)
{
    set(R0, 1), set(R1, 77), set(R2, 3);
    uint32_t start = here();
    add(R0, R1), eor(R3, R0), mov(R4, R3), and(R4, R0), neg(R5, R4), asr(R5, R2), add(R6, R5);
    cmp(R6, R0), tst(R6, R3), add(R8, R6), add(R3, R8);
    again(start);
}

/* Loads and stores of both sizes, all over the window. */
static void transfers(void)
{
    add_imm(R0, 4), set(R1, 252), and(R1, R0), home(R2), add(R1, R2);
    ldr(R3, R1, 0), str(R3, R1, 20), ldrb(R4, R1, 31), add(R4, R0), strb(R4, R1, 2);
    ldr(R5, R1, 31), add(R5, R4), str(R5, R1, 1), ldrb(R4, R1, 5), strb(R4, R1, 9);
    again(0);
}

/* Branches by all flags, taken and not. */
static void branches(void)
{
    set(R1, 201), add(R0, R1);
    uint32_t skip = ahead(MI);
    add(R3, R0);
    land(skip);
    cmp(R0, R4);
    skip = ahead(HI);
    eor(R4, R0), add(R4, R3);
    land(skip);
    skip = ahead(VS);
    neg(R5, R0);
    land(skip);
    tst(R4, R5);
    skip = ahead(NE);
    add(R4, R1), cmp_imm(R3, 100);
    land(skip);
    skip = ahead(GT);
    eor(R3, R5);
    land(skip);
    cmp_imm(R4, 0);
    skip = ahead(MI);
    add(R5, R4);
    land(skip);
    again(0);
}

/* Fills 256 bytes with a pattern and copies them 256 bytes further. */
static void fill_and_copy(void)
{
    set(R3, 0);
    uint32_t fill = here();
    pointer(252), str(R5, R1, 0), add(R5, R3), add_imm(R3, 4);
    until_256(fill);
    set(R3, 0);
    uint32_t copy = here();
    pointer(252), ldr(R4, R1, 0), add(R1, R2), str(R4, R1, 0), add_imm(R3, 4);
    until_256(copy);
    again(0);
}

/* Fletcher's two sums over 256 bytes, one of which they change. */
static void checksum(void)
{
    set(R3, 0), set(R4, 0), set(R5, 0);
    uint32_t next = here();
    pointer(255), ldrb(R6, R1, 0), add(R4, R6), add(R5, R4), add_imm(R3, 1);
    until_256(next);
    mov(R3, R5), pointer(255), strb(R4, R1, 0);
    again(0);
}

/*
 * The level of a lock's sensor, which bounces where it changes, is believed when it has been the
 * same six times. Bytes of the window: the level last seen, for how long, the level believed.
 */
static void debounce(void)
{
    noise(), mov(R5, R0), asr_imm(R5, 12), and_imm(R5, 15); /* jitter, 0 to 15 */
    add(R5, R8), and_imm(R5, 64), add_imm(R8, 1);           /* the level, by the time in R8 */
    home(R1), ldrb(R3, R1, 0), ldrb(R4, R1, 1), strb(R5, R1, 0), add_imm(R4, 1);
    cmp(R5, R3);
    uint32_t same = ahead(EQ);
    set(R4, 0);
    land(same);
    home(R1), strb(R4, R1, 1), cmp_imm(R4, 6);
    uint32_t early = ahead(CC);
    strb(R5, R1, 2);
    land(early);
    again(0);
}

/*
 * A ring of 64 hire events from 512 on: the time, the bicycle, and 1 for out or 255 for back. R10
 * counts the bicycles that are out, of which there are never less than none.
 */
static void hire_log(void)
{
    noise(), add_imm(R3, 4), add_imm(R9, 1);
    pointer(252), add(R1, R2), mov(R4, R9), str(R4, R1, 0), strb(R0, R1, 2);
    set(R5, 1), cmp_imm(R0, 0);
    uint32_t rides = ahead(PL);
    neg(R5, R5);
    land(rides);
    pointer(252), add(R1, R2), strb(R5, R1, 3);
    add(R10, R5);
    uint32_t some = ahead(PL);
    set(R5, 0), mov(R10, R5);
    land(some);
    again(0);
}

/* The oldest of 64 times, whose entry then gets a new time. */
static void oldest_entry(void)
{
    set(R3, 0), set(R4, 1), neg(R4, R4); /* none is older than 65,535 */
    uint32_t next = here();
    pointer(252), ldr(R5, R1, 0), cmp(R5, R4);
    uint32_t younger = ahead(CS);
    mov(R4, R5), mov(R8, R3);
    land(younger);
    add_imm(R3, 4);
    until_256(next);
    noise(), mov(R3, R8), pointer(252), str(R0, R1, 0);
    again(0);
}

/* The check byte of a tag's eight bytes, as 1-Wire tags have it: a CRC by 0x8C, bit by bit. */
static void tag_crc(void)
{
    set(R3, 0), set(R4, 0);
    uint32_t byte = here();
    pointer(7), ldrb(R5, R1, 0), eor(R4, R5), set(R5, 8);
    uint32_t bit = here();
    asr_imm(R4, 1);
    uint32_t clear = ahead(CC);
    set(R6, 0x8c), eor(R4, R6);
    land(clear);
    set(R6, 1), neg(R6, R6), add(R5, R6), back(NE, bit);
    add_imm(R3, 1), cmp_imm(R3, 8), back(NE, byte);
    noise(), mov(R3, R4), pointer(7), strb(R0, R1, 0); /* another tag */
    again(0);
}

/* The first of 64 tags of two bytes, from 512 on, that is the wanted one at 256; R8 says which. */
static void tag_search(void)
{
    set(R3, 0);
    uint32_t next = here();
    pointer(252), add(R1, R2);
    ldrb(R4, R2, 0), ldrb(R5, R1, 0), cmp(R4, R5);
    uint32_t first_differs = ahead(NE);
    ldrb(R4, R2, 1), ldrb(R5, R1, 1), cmp(R4, R5);
    uint32_t second_differs = ahead(NE);
    mov(R8, R3), set(R6, 1);
    uint32_t found = ahead(NE);
    land(first_differs), land(second_differs);
    add_imm(R3, 4);
    until_256(next);
    land(found);
    noise(), mov(R5, R0), asr_imm(R5, 8), mov(R3, R5), and_imm(R5, 7);
    mov(R4, R0), asr_imm(R4, 5), and_imm(R4, 7);
    pointer(252), strb(R4, R2, 0), strb(R5, R2, 1); /* another is wanted */
    add(R1, R2), strb(R5, R1, 0), strb(R4, R1, 1);  /* and the table changes */
    again(0);
}

/*
 * A battery's hundredths of a volt, 12 1/4 times what its converter reads, averaged over about
 * eight readings; low below 700, and no longer low above 760. The window: the average, a byte for
 * low.
 */
static void battery(void)
{
    noise(), mov(R5, R0), asr_imm(R5, 8), and_imm(R5, 127);
    mov(R4, R5), add(R4, R4), add(R4, R5), add(R4, R4), add(R4, R4), asr_imm(R5, 2), add(R4, R5);
    home(R1), ldr(R3, R1, 0), neg(R5, R3), add(R4, R5), asr_imm(R4, 3), add(R3, R4);
    str(R3, R1, 0);
    set(R6, 175), add(R6, R6), add(R6, R6), cmp(R3, R6);
    uint32_t enough = ahead(GE);
    set(R5, 1), strb(R5, R1, 4);
    land(enough);
    set(R6, 190), add(R6, R6), add(R6, R6), cmp(R3, R6);
    uint32_t not_full = ahead(LE);
    home(R1), set(R5, 0), strb(R5, R1, 4);
    land(not_full);
    again(0);
}

/* A clock in decimal digits, two a byte: seconds, minutes, hours; their ends lie 4 bytes on. */
static void clock_tick(void)
{
    home(R1), set(R4, 0x60), strb(R4, R1, 4), strb(R4, R1, 5), set(R4, 0x24), strb(R4, R1, 6);
    uint32_t second = here();
    set(R3, 0);
    uint32_t part = here();
    pointer(3), ldrb(R4, R1, 0), ldrb(R5, R1, 4), add_imm(R4, 1);
    mov(R7, R4), and_imm(R7, 15), cmp_imm(R7, 10);
    uint32_t digit = ahead(NE);
    add_imm(R4, 6);
    land(digit);
    cmp(R4, R5);
    uint32_t before_end = ahead(NE);
    set(R4, 0);
    land(before_end);
    pointer(3), strb(R4, R1, 0), cmp_imm(R4, 0), back(NE, second);
    add_imm(R3, 1), cmp_imm(R3, 3), back(NE, part);
    again(second);
}

static const struct {
    const char *name;
    void (*write)(void);
} all[PROGRAM_COUNT] = {
    { "arithmetic loop", arithmetic },
    { "load and store loop", transfers },
    { "branchy code", branches },
    { "fill and copy", fill_and_copy },
    { "checksum", checksum },
    { "debounced sensor", debounce },
    { "hire log", hire_log },
    { "oldest entry", oldest_entry },
    { "tag's check byte", tag_crc },
    { "tag search", tag_search },
    { "battery average", battery },
    { "clock", clock_tick },
};

void write_program(struct program *program, size_t index)
{
    program->name = all[index].name;
    begin(program);
    all[index].write();
}

bool load_program(const struct program *program, uint8_t *memory)
{
    uint8_t image[PAW_BLOCK_BYTES];
    paw_pack(program->code, program->n, WINDOW_START, WINDOW_BYTES, image, sizeof image);
    uint64_t answer = paw_load(image, sizeof image, memory, PAW_MEMORY_BYTES);
    if (paw_answer_number(answer) != PAW_OK)
        fprintf(stderr, "%s: refused %d at %d\n", program->name, paw_answer_number(answer),
                paw_answer_place(answer));
    return paw_answer_number(answer) == PAW_OK;
}
