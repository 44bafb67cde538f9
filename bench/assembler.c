#include "assembler.h"

#include <stdlib.h>

static struct program *out;

void begin(struct program *program)
{
    out = program;
    out->n = 0;
}

uint32_t here(void)
{
    return out->n;
}

static void emit(uint32_t h)
{
    if (out->n == PROGRAM_ROOM)
        abort();
    out->code[out->n++] = (uint16_t)h;
}

static void low(uint32_t operation, uint32_t rd, uint32_t rs)
{
    emit(0x4000 | operation << 6 | rs << 3 | rd);
}

static void any(uint32_t operation, uint32_t rd, uint32_t rs)
{
    emit(0x4400 | operation << 8 | (rd & 8) << 4 | rs << 3 | (rd & 7));
}

static void transfer(uint32_t operation, uint32_t rd, uint32_t rb, uint32_t field)
{
    emit(0x6000 | operation << 11 | field << 6 | rb << 3 | rd);
}

void set(uint32_t rd, uint32_t imm) { emit(0x2000 | rd << 8 | imm); }
void cmp_imm(uint32_t rd, uint32_t imm) { emit(0x2800 | rd << 8 | imm); }
void and(uint32_t rd, uint32_t rs) { low(0, rd, rs); }
void eor(uint32_t rd, uint32_t rs) { low(1, rd, rs); }
void asr(uint32_t rd, uint32_t rs) { low(2, rd, rs); }
void tst(uint32_t rd, uint32_t rs) { low(3, rd, rs); }
void neg(uint32_t rd, uint32_t rs) { low(4, rd, rs); }
void cmp(uint32_t rd, uint32_t rs) { low(5, rd, rs); }
void add(uint32_t rd, uint32_t rs) { any(0, rd, rs); }
void mov(uint32_t rd, uint32_t rs) { any(2, rd, rs); }
void str(uint32_t rd, uint32_t rb, uint32_t field) { transfer(0, rd, rb, field); }
void ldr(uint32_t rd, uint32_t rb, uint32_t field) { transfer(1, rd, rb, field); }
void strb(uint32_t rd, uint32_t rb, uint32_t field) { transfer(2, rd, rb, field); }
void ldrb(uint32_t rd, uint32_t rb, uint32_t field) { transfer(3, rd, rb, field); }

static void branch(uint32_t condition, uint32_t distance)
{
    emit(0xd000 | condition << 8 | (distance & 255));
}

void back(uint32_t condition, uint32_t place)
{
    branch(condition, place - here());
}

uint32_t ahead(uint32_t condition)
{
    branch(condition, 0);
    return here() - 1;
}

void land(uint32_t branch)
{
    out->code[branch] = (uint16_t)(out->code[branch] | (here() - branch));
}

void again(uint32_t place)
{
    set(R7, 0), back(EQ, place);
    emit(0); /* HALT */
}
