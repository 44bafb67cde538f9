/*
 * What each instruction does, once for all engines; an engine includes it where its bodies belong.
 * It has h (the halfword), pc and mem in scope, and defines
 *
 *   OP(kind)              what stands before the body of a kind
 *   REG(i)                register i
 *   SHOW_PC               makes REG(15) the PC, for what may read it there
 *   NZ(x)                 sets N and Z by a result, and is that result
 *   ADD, SUBTRACT, SHIFT  set C, and V but for the last, and are the result
 *   FLAG_N to FLAG_V      the flags as truth values
 *   NEXT                  ends a body: on to the next instruction
 *   JUMP(to)              ends a body: on to an address that is even if the PC is
 *   WRITE_PC(to)          ends a body: on to any address
 *   STOP(number)          ends a body: no step was made
 *   HALT_WITH(note)       ends a body: no step was made, and the machine gets the note
 *   TOUCH(touch, address) the step, which will be made, touches these data (enum paw_touch)
 */
OP(HALT)
{
    HALT_WITH(IMM8);
}

OP(MOV_IMM)
{
    REG(IMM8_RD) = NZ(IMM8);
    NEXT;
}

OP(CMP_IMM)
{
    NZ(SUBTRACT(REG(IMM8_RD), IMM8));
    NEXT;
}

OP(AND)
{
    REG(RD) = NZ(REG(RD) & REG(RS));
    NEXT;
}

OP(EOR)
{
    REG(RD) = NZ(REG(RD) ^ REG(RS));
    NEXT;
}

OP(ASR)
{
    REG(RD) = NZ(SHIFT(REG(RD), REG(RS)));
    NEXT;
}

OP(TST)
{
    NZ(REG(RD) & REG(RS));
    NEXT;
}

OP(NEG)
{
    REG(RD) = NZ(SUBTRACT(0, REG(RS)));
    NEXT;
}

OP(CMP)
{
    NZ(SUBTRACT(REG(RD), REG(RS)));
    NEXT;
}

OP(ADD_LOW_LOW)
{
    REG(RD) = NZ(ADD(REG(RD), REG(RS)));
    NEXT;
}

OP(ADD_LOW_HIGH)
{
    SHOW_PC;
    REG(RD) = NZ(ADD(REG(RD), REG(ANY_RS)));
    NEXT;
}

OP(ADD_HIGH)
{
    SHOW_PC;
    uint32_t sum = NZ(ADD(REG(HIGH_RD), REG(ANY_RS)));
    if (UNLIKELY(HIGH_RD == 15))
        WRITE_PC(sum);
    REG(HIGH_RD) = sum;
    NEXT;
}

OP(CMP_HIGH)
{
    SHOW_PC;
    NZ(SUBTRACT(REG(ANY_RD), REG(ANY_RS)));
    NEXT;
}

OP(MOV_LOW)
{
    SHOW_PC;
    REG(RD) = NZ(REG(ANY_RS));
    NEXT;
}

OP(MOV_HIGH)
{
    SHOW_PC;
    uint32_t value = NZ(REG(ANY_RS));
    if (UNLIKELY(HIGH_RD == 15))
        WRITE_PC(value);
    REG(HIGH_RD) = value;
    NEXT;
}

OP(STR)
{
    uint32_t address = (uint16_t)(REG(RS) + IMM5_TIMES_4);
    if (UNLIKELY(address & 3))
        STOP(PAW_STOP_MISALIGNED);
    put16(mem + address, REG(RD));
    TOUCH(PAW_WROTE_HALFWORD, address);
    NEXT;
}

OP(LDR)
{
    uint32_t address = (uint16_t)(REG(RS) + IMM5_TIMES_4);
    if (UNLIKELY(address & 3))
        STOP(PAW_STOP_MISALIGNED);
    REG(RD) = get16(mem + address);
    TOUCH(PAW_READ_HALFWORD, address);
    NEXT;
}

OP(STRB)
{
    uint32_t address = (uint16_t)(REG(RS) + IMM5);
    mem[address] = (uint8_t)REG(RD);
    TOUCH(PAW_WROTE_BYTE, address);
    NEXT;
}

OP(LDRB)
{
    uint32_t address = (uint16_t)(REG(RS) + IMM5);
    REG(RD) = mem[address];
    TOUCH(PAW_READ_BYTE, address);
    NEXT;
}

OP(ADD_PC)
{
    REG(IMM8_RD) = (uint16_t)((pc & 0xfffc) + 4 * IMM8);
    NEXT;
}

#define BRANCH(condition, holds)                                                                  \
    OP(B_##condition)                                                                             \
    {                                                                                             \
        if (holds)                                                                                \
            JUMP((uint16_t)(pc + 2 * (int8_t)h));                                                 \
        NEXT;                                                                                     \
    }

BRANCH(EQ, FLAG_Z)
BRANCH(NE, !FLAG_Z)
BRANCH(CS, FLAG_C)
BRANCH(CC, !FLAG_C)
BRANCH(MI, FLAG_N)
BRANCH(PL, !FLAG_N)
BRANCH(VS, FLAG_V)
BRANCH(VC, !FLAG_V)
BRANCH(HI, FLAG_C && !FLAG_Z)
BRANCH(LS, !FLAG_C || FLAG_Z)
BRANCH(GE, FLAG_N == FLAG_V)
BRANCH(LT, FLAG_N != FLAG_V)
BRANCH(GT, !FLAG_Z && FLAG_N == FLAG_V)
BRANCH(LE, FLAG_Z || FLAG_N != FLAG_V)

#undef BRANCH
