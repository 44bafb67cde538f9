/* An assembler of one pass: each call writes an instruction to the program that was begun last. */
#ifndef ASSEMBLER_H
#define ASSEMBLER_H

#include "programs.h"

enum { EQ, NE, CS, CC, MI, PL, VS, VC, HI, LS, GE, LT, GT, LE };
enum { R0, R1, R2, R3, R4, R5, R6, R7, R8, R9, R10 };

void begin(struct program *program);

/* The number of the next instruction. */
uint32_t here(void);

void set(uint32_t rd, uint32_t imm); /* MOV Rd, #imm */
void cmp_imm(uint32_t rd, uint32_t imm);
void and(uint32_t rd, uint32_t rs);
void eor(uint32_t rd, uint32_t rs);
void asr(uint32_t rd, uint32_t rs);
void tst(uint32_t rd, uint32_t rs);
void neg(uint32_t rd, uint32_t rs);
void cmp(uint32_t rd, uint32_t rs);
void add(uint32_t rd, uint32_t rs);
void mov(uint32_t rd, uint32_t rs);
void str(uint32_t rd, uint32_t rb, uint32_t field);
void ldr(uint32_t rd, uint32_t rb, uint32_t field);
void strb(uint32_t rd, uint32_t rb, uint32_t field);
void ldrb(uint32_t rd, uint32_t rb, uint32_t field);

/* A branch to a place that is written already. */
void back(uint32_t condition, uint32_t place);

/* A branch to a place yet to come, which `land` puts where the next instruction will be. */
uint32_t ahead(uint32_t condition);
void land(uint32_t branch);

/* Goes on from a place for ever, and ends the code. */
void again(uint32_t place);

#endif
