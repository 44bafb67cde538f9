/*
 * Kinds of instruction by the upper ten bits of a halfword. These tell all kinds apart, and which
 * operands are high registers.
 */
#ifndef KINDS_H
#define KINDS_H

/* Each kind with its first and its last value. */
#define KINDS(X)                                                                                  \
    X(HALT, 0x000, 0x003)                                                                         \
    X(MOV_IMM, 0x080, 0x09f)                                                                      \
    X(CMP_IMM, 0x0a0, 0x0bf)                                                                      \
    X(AND, 0x100, 0x100)                                                                          \
    X(EOR, 0x101, 0x101)                                                                          \
    X(ASR, 0x102, 0x102)                                                                          \
    X(TST, 0x103, 0x103)                                                                          \
    X(NEG, 0x104, 0x104)                                                                          \
    X(CMP, 0x105, 0x105)                                                                          \
    X(ADD_LOW_LOW, 0x110, 0x110)                                                                  \
    X(ADD_LOW_HIGH, 0x111, 0x111)                                                                 \
    X(ADD_HIGH, 0x112, 0x113)                                                                     \
    X(CMP_HIGH, 0x115, 0x117)                                                                     \
    X(MOV_LOW, 0x118, 0x119)                                                                      \
    X(MOV_HIGH, 0x11a, 0x11b)                                                                     \
    X(STR, 0x180, 0x19f)                                                                          \
    X(LDR, 0x1a0, 0x1bf)                                                                          \
    X(STRB, 0x1c0, 0x1df)                                                                         \
    X(LDRB, 0x1e0, 0x1ff)                                                                         \
    X(ADD_PC, 0x280, 0x29f)                                                                       \
    X(B_EQ, 0x340, 0x343)                                                                         \
    X(B_NE, 0x344, 0x347)                                                                         \
    X(B_CS, 0x348, 0x34b)                                                                         \
    X(B_CC, 0x34c, 0x34f)                                                                         \
    X(B_MI, 0x350, 0x353)                                                                         \
    X(B_PL, 0x354, 0x357)                                                                         \
    X(B_VS, 0x358, 0x35b)                                                                         \
    X(B_VC, 0x35c, 0x35f)                                                                         \
    X(B_HI, 0x360, 0x363)                                                                         \
    X(B_LS, 0x364, 0x367)                                                                         \
    X(B_GE, 0x368, 0x36b)                                                                         \
    X(B_LT, 0x36c, 0x36f)                                                                         \
    X(B_GT, 0x370, 0x373)                                                                         \
    X(B_LE, 0x374, 0x377)

/* What lies between them. */
#define HOLES(X)                                                                                  \
    X(0x004, 0x07f)                                                                               \
    X(0x0c0, 0x0ff)                                                                               \
    X(0x106, 0x10f)                                                                               \
    X(0x114, 0x114)                                                                               \
    X(0x11c, 0x17f)                                                                               \
    X(0x200, 0x27f)                                                                               \
    X(0x2a0, 0x33f)                                                                               \
    X(0x378, 0x3ff)

#endif
