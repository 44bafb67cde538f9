/*
 * The proved firmware of the PAW service board, for C11 and C++11 and up. Link with libpaw.a.
 *
 * A program for the board is written as text, of which paw_assemble makes code, and paw_list makes
 * text of code. It travels as an image file: paw_pack makes one, paw_check reads what it says of
 * itself, paw_verify decides whether it can be run without harm, paw_load puts it into memory if
 * so, and paw_run runs it.
 *
 * For all functions:
 * - What a pointer points to is lent for the time of the call. The library keeps no pointer and
 *   has no state of its own, so calls on different buffers may be made at the same time.
 * - A length says how many elements stand at the pointer: bytes, or halfwords for a uint16_t
 *   pointer. No pointer is null, not even one with length 0.
 * - What is lent through a pointer to const is only read. What can be written must not overlap
 *   anything else that is lent to the same call.
 * - Every value of every argument has its answer; there is nothing else to observe.
 */
#ifndef PAW_H
#define PAW_H

#include <stdbool.h>
#include <stddef.h>
#include <stdint.h>

#ifdef __cplusplus
#define PAW_STATIC_ASSERT static_assert
extern "C" {
#else
#define PAW_STATIC_ASSERT _Static_assert
#endif

/* The version of this header; paw_version tells that of the library. */
#define PAW_VERSION_MAJOR 0
#define PAW_VERSION_MINOR 5
#define PAW_VERSION_PATCH 0

/* The version as one number, larger for a later one, and as text, "0.5.0". */
#define PAW_VERSION (PAW_VERSION_MAJOR * 65536u + PAW_VERSION_MINOR * 256u + PAW_VERSION_PATCH)
#define PAW_VERSION_STRING                                                                         \
    PAW_QUOTE(PAW_VERSION_MAJOR) "." PAW_QUOTE(PAW_VERSION_MINOR) "." PAW_QUOTE(PAW_VERSION_PATCH)
#define PAW_QUOTE(value) PAW_QUOTE_AS_IS(value)
#define PAW_QUOTE_AS_IS(text) #text

enum {
    PAW_MEMORY_BYTES = 65536,      /* the whole address space */
    PAW_BLOCK_BYTES = 512,         /* a block of an image */
    PAW_BLOCK_HALFWORDS = 256,     /* the same, as halfwords; the low byte of each comes first */
    PAW_BLOCK_CODE = 249,          /* code halfwords that a block has room for */
    PAW_MAX_BLOCKS = 64,
    PAW_MAX_CODE = 15936,          /* code halfwords of an image: 64 times 249 */
    PAW_LISTING_PER_HALFWORD = 19, /* bytes of a listing, at most; paw_listing_room says why */
    PAW_MAX_LISTING = 302784       /* the same for PAW_MAX_CODE halfwords */
};

/*
 * Whether a call was refused: PAW_OK, or the number of the first check that failed. A refused call
 * has changed nothing. paw_step and paw_run answer how they ended instead, see enum paw_ending,
 * and what data they touched, see enum paw_touch.
 */
enum paw_number {
    PAW_OK = 0,             /* passed, loaded, packed, encoded, read, assembled or listed */
    PAW_MEMORY_SIZE = 1,    /* the memory does not have PAW_MEMORY_BYTES */
    PAW_FILE_LENGTH = 2,    /* the file is not 1 to 64 whole blocks */
    PAW_BLOCK_MARK = 3,     /* the block does not start with the mark 0xD0C1 */
    PAW_BLOCK_SUM = 4,      /* the halfwords of the block do not sum to 0 */
    PAW_BLOCK_NUMBER = 5,   /* the block tells a wrong number or a wrong count of blocks */
    PAW_BLOCK_USE = 6,      /* the block has a wrong count of code, or is not 0 behind its code */
    PAW_BLOCK_WINDOW = 7,   /* the window differs from that of block 0 */
    PAW_WINDOW = 8,         /* the window is misaligned, empty, on the code or beyond memory */
    PAW_UNDEFINED = 9,      /* the halfword is no instruction */
    PAW_OUT_OF_WINDOW = 10, /* the load or store might leave the window */
    PAW_MISALIGNED = 11,    /* the address of a halfword might not be a multiple of 4 */
    PAW_WRITES_PC = 12,     /* the instruction writes R15 */
    PAW_BRANCH_TARGET = 13, /* the branch leaves the code */
    PAW_LAST_NOT_HALT = 14, /* the last instruction is not HALT, whose note may be any */
    PAW_CODE_LENGTH = 15,   /* the code is not 1 to PAW_MAX_CODE halfwords long, or the text has not
                               so many instructions */
    PAW_OUTPUT_LENGTH = 16, /* the output is not exactly the blocks that the code needs, or it is
                               too short for an assembled code or for a listing */
    PAW_FIELDS = 17,        /* the fields form no instruction */
    PAW_SOURCE_LINE = 21,   /* the line is no instruction and no label, or has no line feed */
    PAW_SOURCE_LABEL = 22,  /* the label is defined a second time, or nowhere */
    PAW_SOURCE_VALUE = 23   /* the value, or the way to the label, does not fit its field */
};

/*
 * How a step or a run ended, which paw_step_number and paw_run_number take out of an answer. The
 * number 0 has two names, since it says two things: that a step was completed, and that a run has
 * spent its budget, though the program may not have done its work. That it has come to its end is
 * PAW_HALT. Either call may be refused instead: PAW_MEMORY_SIZE.
 */
enum paw_ending {
    PAW_COMPLETED = 0,        /* paw_step: the instruction was executed */
    PAW_SPENT = 0,            /* paw_run: the budget is used up, whatever would come next */
    PAW_STOP_ODD_PC = 18,     /* the program counter is odd */
    PAW_STOP_UNDEFINED = 19,  /* the halfword at the program counter is no instruction */
    PAW_STOP_MISALIGNED = 20, /* a halfword load or store at an address that 4 does not divide */
    PAW_HALT = 255            /* the program counter is at HALT; the machine has its note */
};

/*
 * What a number says, in words for people: that of a refusal or an ending, not a whole answer of
 * paw_step. 0 is "ok"; for a run see paw_run_text.
 */
static inline const char *paw_text(uint32_t number)
{
    switch (number) {
    case PAW_OK: return "ok";
    case PAW_MEMORY_SIZE: return "the memory does not have 65,536 bytes";
    case PAW_FILE_LENGTH: return "the file is not 1 to 64 whole blocks of 512 bytes";
    case PAW_BLOCK_MARK: return "the block does not start with the mark 0xD0C1";
    case PAW_BLOCK_SUM: return "the halfwords of the block do not sum to 0";
    case PAW_BLOCK_NUMBER: return "the block tells a wrong number or a wrong count of blocks";
    case PAW_BLOCK_USE: return "the block has a wrong count of code or is not 0 behind its code";
    case PAW_BLOCK_WINDOW: return "the window differs from that of block 0";
    case PAW_WINDOW: return "the window is misaligned, empty, on the code or beyond memory";
    case PAW_UNDEFINED: return "the halfword is no instruction";
    case PAW_OUT_OF_WINDOW: return "the load or store might leave the window";
    case PAW_MISALIGNED: return "the address of a halfword might not be a multiple of 4";
    case PAW_WRITES_PC: return "the instruction writes R15";
    case PAW_BRANCH_TARGET: return "the branch leaves the code";
    case PAW_LAST_NOT_HALT: return "the last instruction is not HALT";
    case PAW_CODE_LENGTH: return "the code is not 1 to 15,936 halfwords long";
    case PAW_OUTPUT_LENGTH: return "the output is not exactly the blocks that the code needs";
    case PAW_FIELDS: return "the fields form no instruction";
    case PAW_STOP_ODD_PC: return "the program counter is odd";
    case PAW_STOP_UNDEFINED: return "the halfword at the program counter is no instruction";
    case PAW_STOP_MISALIGNED: return "the address of a halfword is not a multiple of 4";
    case PAW_SOURCE_LINE: return "the line is no instruction and no label, or has no line feed";
    case PAW_SOURCE_LABEL: return "the label is defined a second time, or nowhere";
    case PAW_SOURCE_VALUE: return "the value, or the way to the label, does not fit its field";
    case PAW_HALT: return "halted";
    default: return "no number of an answer";
    }
}

/* The library and its manual --------------------------------------------------------------- */

/* Answers the version of the library. It is PAW_VERSION if library and header belong together. */
uint32_t paw_version(void);

/* Answers byte i of the date on the title page of the manual that decides, and 0 past its end. */
uint8_t paw_manual_date(size_t i);

/* Instructions ----------------------------------------------------------------------------- */

/*
 * Kinds of instruction, and the fields of each in the order in which a word holds them. rd, rs and
 * rb are numbers of registers, 0 to 7 unless it says more; an immediate is 0 to 255. What
 * an offset or an immediate counts in stands with the kind.
 */
enum paw_kind {
    PAW_KIND_NONE = 0,      /* no instruction */
    PAW_KIND_MOV_IMM = 1,   /* rd, immediate */
    PAW_KIND_CMP_IMM = 2,   /* rd, immediate */
    PAW_KIND_AND = 3,       /* rs, rd */
    PAW_KIND_EOR = 4,       /* rs, rd */
    PAW_KIND_ASR = 5,       /* rs, rd */
    PAW_KIND_TST = 6,       /* rs, rd */
    PAW_KIND_NEG = 7,       /* rs, rd */
    PAW_KIND_CMP = 8,       /* rs, rd */
    PAW_KIND_ADD_HIGH = 9,  /* rs, rd, each 0 to 15 */
    PAW_KIND_CMP_HIGH = 10, /* rs, rd, each 0 to 15, at least one of them 8 or more */
    PAW_KIND_MOV_HIGH = 11, /* rs, rd, each 0 to 15 */
    PAW_KIND_STR = 12,      /* offset, rb, rd; the offset is 0 to 31 and counts 4 bytes each */
    PAW_KIND_LDR = 13,      /* offset, rb, rd; as STR */
    PAW_KIND_STRB = 14,     /* offset, rb, rd; the offset is 0 to 31 and counts bytes */
    PAW_KIND_LDRB = 15,     /* offset, rb, rd; as STRB */
    PAW_KIND_ADD_PC = 16,   /* rd, immediate, which counts 4 bytes each from the instruction's own
                               address, rounded down to a multiple of 4 */
    PAW_KIND_BRANCH = 17,   /* condition, offset, a signed byte that counts instructions, 2 bytes
                               each, from the branch itself */
    PAW_KIND_HALT = 18      /* note, 0 to 255: the halfwords 0x0000 to 0x00FF */
};

/* The manual's name of a kind, without the condition of a branch; "undefined" for no kind. */
static inline const char *paw_kind_name(uint32_t kind)
{
    switch (kind) {
    case PAW_KIND_MOV_IMM:
    case PAW_KIND_MOV_HIGH: return "MOV";
    case PAW_KIND_CMP_IMM:
    case PAW_KIND_CMP:
    case PAW_KIND_CMP_HIGH: return "CMP";
    case PAW_KIND_AND: return "AND";
    case PAW_KIND_EOR: return "EOR";
    case PAW_KIND_ASR: return "ASR";
    case PAW_KIND_TST: return "TST";
    case PAW_KIND_NEG: return "NEG";
    case PAW_KIND_ADD_HIGH:
    case PAW_KIND_ADD_PC: return "ADD";
    case PAW_KIND_STR: return "STR";
    case PAW_KIND_LDR: return "LDR";
    case PAW_KIND_STRB: return "STRB";
    case PAW_KIND_LDRB: return "LDRB";
    case PAW_KIND_BRANCH: return "B";
    case PAW_KIND_HALT: return "HALT";
    default: return "undefined";
    }
}

/* Conditions of a branch, and the flags under which each holds. */
enum paw_condition {
    PAW_EQ = 0,  /* equal: Z */
    PAW_NE = 1,  /* not equal: not Z */
    PAW_CS = 2,  /* carry set, or unsigned higher or same: C */
    PAW_CC = 3,  /* carry clear, or unsigned lower: not C */
    PAW_MI = 4,  /* minus: N */
    PAW_PL = 5,  /* plus or zero: not N */
    PAW_VS = 6,  /* overflow: V */
    PAW_VC = 7,  /* no overflow: not V */
    PAW_HI = 8,  /* unsigned higher: C and not Z */
    PAW_LS = 9,  /* unsigned lower or same: not C, or Z */
    PAW_GE = 10, /* signed greater or equal: N is V */
    PAW_LT = 11, /* signed less: N is not V */
    PAW_GT = 12, /* signed greater: not Z, and N is V */
    PAW_LE = 13  /* signed less or equal: Z, or N is not V */
};

/* The manual's name of a condition in capitals, as in BEQ; "??" for what is none. */
static inline const char *paw_condition_name(uint32_t condition)
{
    switch (condition) {
    case PAW_EQ: return "EQ";
    case PAW_NE: return "NE";
    case PAW_CS: return "CS";
    case PAW_CC: return "CC";
    case PAW_MI: return "MI";
    case PAW_PL: return "PL";
    case PAW_VS: return "VS";
    case PAW_VC: return "VC";
    case PAW_HI: return "HI";
    case PAW_LS: return "LS";
    case PAW_GE: return "GE";
    case PAW_LT: return "LT";
    case PAW_GT: return "GT";
    case PAW_LE: return "LE";
    default: return "??";
    }
}

/* The word of a kind and its fields, 0 for fields that the kind does not have. */
static inline uint32_t paw_word(uint8_t kind, uint8_t first, uint8_t second, uint8_t third)
{
    return (uint32_t)kind << 24 | (uint32_t)first << 16 | (uint32_t)second << 8 | third;
}

/* The kind of a word. */
static inline uint8_t paw_word_kind(uint32_t word)
{
    return (uint8_t)(word >> 24);
}

/* Field 0, 1 or 2 of a word. */
static inline uint8_t paw_word_field(uint32_t word, unsigned field)
{
    return (uint8_t)(word >> (16 - 8 * field));
}

/* Answers the word of the instruction that a halfword says, or 0 where it is undefined. */
uint32_t paw_decode(uint16_t halfword);

/* Answers 65,536 times the halfword of an instruction's word, or PAW_FIELDS if there is none. */
uint32_t paw_encode(uint32_t word);

/* The number of an answer of paw_encode: PAW_OK or PAW_FIELDS. */
static inline uint16_t paw_encoded_number(uint32_t answer)
{
    return (uint16_t)answer;
}

/* The halfword of an answer of paw_encode whose number is PAW_OK. */
static inline uint16_t paw_encoded_halfword(uint32_t answer)
{
    return (uint16_t)(answer >> 16);
}

/* The machine ------------------------------------------------------------------------------ */

/*
 * Registers, flags and note. A program starts with R15 at 0; everything else may be anything.
 *
 * The note is a byte by which a program says why it ended: the low byte of the HALT that it came
 * to. A step or a run that answers PAW_HALT sets it, every time; nothing else changes it. It stays
 * after a completed step, a stop, a refusal, and a spent budget, even if HALT would have been next.
 * So it tells something of a program only once that has halted.
 *
 * The last byte of the record, behind the note, is nobody's: it may be anything before a call and
 * after it. Whoever compares two machines leaves it out.
 */
struct paw_machine {
    uint16_t regs[16]; /* R0 to R15; R15 is the program counter */
    bool n;            /* negative */
    bool z;            /* zero */
    bool c;            /* carry, or no borrow */
    bool v;            /* signed overflow */
    uint8_t note;      /* of the HALT that ended a step or a run last */
};

PAW_STATIC_ASSERT(sizeof(struct paw_machine) == 38, "one unused byte stands behind the note");
PAW_STATIC_ASSERT(offsetof(struct paw_machine, n) == 32, "the flags stand behind the registers");
PAW_STATIC_ASSERT(offsetof(struct paw_machine, v) == 35, "a flag is one byte");
PAW_STATIC_ASSERT(offsetof(struct paw_machine, note) == 36, "the note stands behind the flags");

/*
 * Executes the instruction at the program counter, on this very machine and memory. Answers how
 * the step ended and, of a completed one, what data it touched: paw_step_number and paw_touched
 * take the answer apart. (Up to version 0.2 an answer was its number alone. Now it is PAW_COMPLETED
 * as it stands only if no data were touched.) After all endings but PAW_COMPLETED, machine and
 * memory are as they were, but that PAW_HALT sets the note.
 */
uint32_t paw_step(struct paw_machine *machine, uint8_t *memory, size_t memory_len);

/* How a step ended: PAW_COMPLETED, PAW_HALT, PAW_STOP_... or PAW_MEMORY_SIZE. */
static inline uint32_t paw_step_number(uint32_t answer)
{
    return answer & 255;
}

/*
 * Executes up to `budget` instructions, on this very machine and memory. Answers how the run
 * ended, how many steps were completed, and what data the last of these touched; paw_run_number,
 * paw_run_steps and paw_touched take the answer apart. A run that has completed `budget` steps, be
 * it none, is PAW_SPENT, whatever the next one would do. One that answers PAW_HALT has come to a
 * HALT with some of the budget left, and has set the note.
 */
uint64_t paw_run(struct paw_machine *machine, uint8_t *memory, size_t memory_len, uint32_t budget);

/* How a run ended: PAW_SPENT, PAW_HALT, PAW_STOP_... or PAW_MEMORY_SIZE. */
static inline uint32_t paw_run_number(uint64_t answer)
{
    return (uint32_t)(answer & 255);
}

/* How a run ended, in words for people: paw_text, but a spent budget is told as such. */
static inline const char *paw_run_text(uint64_t answer)
{
    uint32_t number = paw_run_number(answer);
    return number == PAW_SPENT ? "the budget is spent" : paw_text(number);
}

/* How many steps a run completed. */
static inline uint32_t paw_run_steps(uint64_t answer)
{
    return (uint32_t)(answer >> 32);
}

/*
 * The data that a step touched: what a load read or a store wrote. The instruction that is fetched
 * is no data. Only a completed step tells, and a run tells that of its last completed step, however
 * it ended then; if it completed none, it tells no data.
 */
enum paw_touch {
    PAW_NO_DATA = 0,
    PAW_READ_BYTE = 1,
    PAW_READ_HALFWORD = 2,
    PAW_WROTE_BYTE = 3,
    PAW_WROTE_HALFWORD = 4
};

/* What an answer of paw_step or of paw_run says of data: a number of enum paw_touch. */
static inline uint32_t paw_touched(uint64_t answer)
{
    return (uint32_t)(answer >> 8 & 255);
}

/*
 * The byte address of the first byte touched, as the machine used it, wrapped to 16 bits. It is 0
 * if no data were touched; but 0 is an address too, so ask paw_touched first.
 */
static inline uint16_t paw_touched_address(uint64_t answer)
{
    return (uint16_t)(answer >> 16);
}

/* How many bytes were touched: 0, 1 or 2. They never go past the end of memory. */
static inline uint32_t paw_touched_bytes(uint64_t answer)
{
    uint32_t touched = paw_touched(answer);
    return touched == PAW_NO_DATA ? 0 : 2 - touched % 2;
}

/* Whether data were read, and whether they were written. */
static inline bool paw_touched_read(uint64_t answer)
{
    uint32_t touched = paw_touched(answer);
    return touched == PAW_READ_BYTE || touched == PAW_READ_HALFWORD;
}

static inline bool paw_touched_wrote(uint64_t answer)
{
    uint32_t touched = paw_touched(answer);
    return touched == PAW_WROTE_BYTE || touched == PAW_WROTE_HALFWORD;
}

/* What was touched, in words for people, without the address. */
static inline const char *paw_touched_text(uint64_t answer)
{
    switch (paw_touched(answer)) {
    case PAW_NO_DATA: return "no data";
    case PAW_READ_BYTE: return "read 1 byte";
    case PAW_READ_HALFWORD: return "read 2 bytes";
    case PAW_WROTE_BYTE: return "wrote 1 byte";
    case PAW_WROTE_HALFWORD: return "wrote 2 bytes";
    default: return "no kind of access";
    }
}

/* Images ----------------------------------------------------------------------------------- */

/* Puts checks 2 to 8 to an image file. Answers its layout or the refusal, as below. */
uint64_t paw_check(const uint8_t *file, size_t len);

/*
 * Puts checks 2 to 14 to an image file: a program that passes never leaves its code, never
 * touches data outside its window, and ends by HALT or a spent budget. Answers as paw_check.
 */
uint64_t paw_verify(const uint8_t *file, size_t len);

/*
 * Puts checks 1 to 14 to a memory and an image file. If all pass, memory gets the code from its
 * first byte on and zeros in the window; every other byte stays. Answers as paw_check.
 */
uint64_t paw_load(const uint8_t *file, size_t len, uint8_t *memory, size_t memory_len);

/* The number of an answer of paw_check, paw_verify, paw_load or paw_block: PAW_OK or a refusal. */
static inline uint16_t paw_answer_number(uint64_t answer)
{
    return (uint16_t)answer;
}

/*
 * Where a refusal was made: numbers 3 to 7 name a block, 9 to 14 the address of an instruction, and
 * the others no place, which is 0.
 */
static inline uint16_t paw_answer_place(uint64_t answer)
{
    return (uint16_t)(answer >> 16);
}

/* Of a layout, the PAW_OK answer of paw_check, paw_verify or paw_load: the bytes of its code. */
static inline uint16_t paw_answer_code_bytes(uint64_t answer)
{
    return (uint16_t)(answer >> 16);
}

/* Of a layout: the byte address at which the window starts. */
static inline uint16_t paw_answer_window_start(uint64_t answer)
{
    return (uint16_t)(answer >> 32);
}

/* Of a layout: the length of the window in bytes. */
static inline uint16_t paw_answer_window_bytes(uint64_t answer)
{
    return (uint16_t)(answer >> 48);
}

/*
 * Answers the sum so far of a block's halfwords, which is 0 before the first call, with one
 * halfword more, modulo 65,536. It is for drivers that get a block's last halfword first:
 *
 *     uint16_t sum = 0;
 *     for (size_t n = PAW_BLOCK_HALFWORDS; n-- > 0;)
 *         sum = paw_add_to_sum(sum, next_halfword());
 *
 * After the call for halfword n the sum is that of halfwords n to 255. A block passes check 4
 * exactly if it is 0 after the call for halfword 0; the other checks are paw_check's to put. The
 * caller counts the calls: each is answered from its two arguments alone.
 */
uint16_t paw_add_to_sum(uint16_t sum, uint16_t halfword);

/*
 * Puts checks 2 to 8 to an image file, then answers what a reader of it gives at its call number
 * n, counted from 0. One of three:
 * - the file is refused: the number and place of the refusal, at every n;
 * - a block: PAW_OK, where the block starts in the file, and its PAW_BLOCK_BYTES bytes;
 * - none is left, which is said only after the last block: PAW_OK, and 0 bytes.
 * An accepted file has len / PAW_BLOCK_BYTES blocks, block n from byte n * PAW_BLOCK_BYTES on: who
 * reads them all needs one call.
 */
uint64_t paw_block(const uint8_t *file, size_t len, size_t n);

/* Of an answer of paw_block that is a block: the byte of the file at which the block starts. */
static inline size_t paw_block_start(uint64_t answer)
{
    return (uint16_t)(answer >> 16);
}

/* Of an answer of paw_block whose number is PAW_OK: PAW_BLOCK_BYTES, or 0 if none is left. */
static inline size_t paw_block_bytes(uint64_t answer)
{
    return (uint16_t)(answer >> 32);
}

/* Bytes of the image of so many halfwords of code: the output that paw_pack asks for. */
static inline size_t paw_image_bytes(size_t code_len)
{
    return (code_len / PAW_BLOCK_CODE + (code_len % PAW_BLOCK_CODE != 0)) * PAW_BLOCK_BYTES;
}

/*
 * Puts checks 15, 8 and 16, then writes code and window (start and length in bytes) as an image
 * that fills the output. Answers PAW_OK or the refusal's number. Does not verify the code.
 */
uint32_t paw_pack(const uint16_t *code, size_t code_len, uint16_t window_start,
                  uint16_t window_bytes, uint8_t *out, size_t out_len);

/* Programs as text ------------------------------------------------------------------------- */

/*
 * A program as text is lines, each of them an instruction or a label. These are all forms:
 *
 *     line                          registers    n, or where the label may be
 *     AND|EOR|ASR|TST|NEG Rd, Rs    R0 to R7
 *     ADD|MOV|CMP Rd, Rs            R0 to R15
 *     MOV|CMP Rd, #n                R0 to R7     0 to 255
 *     ADD Rd, PC, #n                R0 to R7     0, 4, 8 .. 1020
 *     STR|LDR Rd, [Rb, #n]          R0 to R7     0, 4, 8 .. 124
 *     STRB|LDRB Rd, [Rb, #n]        R0 to R7     0 to 31
 *     BEQ|BNE|..|BLE label                       from 256 bytes before the branch to 254 behind
 *     HALT #n                                    0 to 255
 *     label:
 *
 * - A line ends in a line feed, byte 10, also the last one. One space stands behind the name of an
 *   instruction and behind each comma, none elsewhere. Letters are capitals but for labels.
 * - Numbers are decimal, with no zero in front and no sign, and may have any number of digits. An
 *   offset counts bytes, also where the field of the halfword counts fours of them.
 * - A branch is named by its condition, see enum paw_condition. CMP of R0 to R7 alone is
 *   PAW_KIND_CMP, with a higher register PAW_KIND_CMP_HIGH; ADD and MOV of two registers are
 *   PAW_KIND_ADD_HIGH and PAW_KIND_MOV_HIGH, whichever they are. R15 is written PC in
 *   ADD Rd, PC, #n, and R15 everywhere else.
 * - A label begins with a small letter and goes on with up to seven small letters or digits. It is
 *   the place of the instruction below it. Several may stand above one instruction, and some below
 *   the last: a branch there assembles, but leaves the code.
 */

/*
 * Makes code of a text of any length, and answers how many halfwords it wrote: one for each
 * instruction, from the first element of `code` on. Elements behind them stay.
 * paw_assembled_number, paw_assembled_halfwords and paw_assembled_line take the answer apart. Puts
 * these checks, each to the whole text before the next:
 *
 *     21  PAW_SOURCE_LINE    has every line one of the forms, with registers that it can hold?
 *     15  PAW_CODE_LENGTH    are there 1 to PAW_MAX_CODE instructions? Labels do not count.
 *     22  PAW_SOURCE_LABEL   is a label defined here for the first time, and that of a branch
 *                            somewhere, be it above or below?
 *     23  PAW_SOURCE_VALUE   does the value fit, and is the label, where it is defined first, in
 *                            reach of the branch?
 *     16  PAW_OUTPUT_LENGTH  is `code_len` at least the number of instructions?
 *
 * 22 and 23 are put together, line by line: of two faults the upper one is told, whichever number
 * it has. Does not verify the code.
 *
 * It takes at most 903,816 bytes of stack, nearly all of them a table of labels and notes of the
 * instructions. A text of 40 lines takes 7,928; but one of more than 16,384 bytes may take all, and
 * so may a shorter one with more instructions than its length lets expect: above 128 in 1,024 bytes.
 */
uint64_t paw_assemble(const uint8_t *text, size_t text_len, uint16_t *code, size_t code_len);

/* The number of an answer of paw_assemble: PAW_OK or the refusal's, 15, 16 or 21 to 23. */
static inline uint16_t paw_assembled_number(uint64_t answer)
{
    return (uint16_t)answer;
}

/* The halfwords of an answer of paw_assemble whose number is PAW_OK: so many were written. */
static inline size_t paw_assembled_halfwords(uint64_t answer)
{
    return (size_t)(answer >> 16);
}

/*
 * The line of the text at which paw_assemble refused it by 21, 22 or 23, counted from 1; 0 for 15
 * and 16, which are of no line. A line past 2^48 - 1 is told as that.
 */
static inline uint64_t paw_assembled_line(uint64_t answer)
{
    return answer >> 16;
}

/* What an answer of paw_assemble says, in words for people: paw_text, but 15 and 16 of a text. */
static inline const char *paw_assembled_reason(uint64_t answer)
{
    switch (paw_assembled_number(answer)) {
    case PAW_CODE_LENGTH: return "the text does not have 1 to 15,936 instructions";
    case PAW_OUTPUT_LENGTH: return "the output is too short for the code";
    default: return paw_text(paw_assembled_number(answer));
    }
}

/*
 * Writes code as a text, and answers how many bytes it wrote, from the first one of `text` on.
 * Bytes behind them stay. paw_listed_number, paw_listed_bytes and paw_listed_address take the
 * answer apart. The text has a line for each instruction, and before each instruction that a branch
 * of the code goes to a label: the letter a and the instruction's byte address, as in a10. If the
 * text is assembled, it gives the code back. Puts these checks:
 *
 *     15  PAW_CODE_LENGTH    is the code 1 to PAW_MAX_CODE halfwords long?
 *      9  PAW_UNDEFINED      for each halfword, the first one first: is it an instruction?
 *     13  PAW_BRANCH_TARGET  the same halfword, if a branch: does it stay within the code?
 *     16  PAW_OUTPUT_LENGTH  has the text room? paw_listing_room is enough for any code.
 *
 * 9 and 13 are those of paw_verify; its other checks are not put.
 *
 * It takes 2,104 bytes of stack.
 */
uint64_t paw_list(const uint16_t *code, size_t code_len, uint8_t *text, size_t text_len);

/* The number of an answer of paw_list: PAW_OK or the refusal's, 9, 13, 15 or 16. */
static inline uint16_t paw_listed_number(uint64_t answer)
{
    return (uint16_t)answer;
}

/* The bytes of an answer of paw_list whose number is PAW_OK: so many were written. */
static inline size_t paw_listed_bytes(uint64_t answer)
{
    return (size_t)(answer >> 16);
}

/* The byte address of the halfword that paw_list refused by 9 or 13; 0 for 15 and 16. */
static inline uint16_t paw_listed_address(uint64_t answer)
{
    return (uint16_t)(answer >> 16);
}

/* What an answer of paw_list says, in words for people: paw_text, but 16 of a listing. */
static inline const char *paw_listed_reason(uint64_t answer)
{
    uint32_t number = paw_listed_number(answer);
    return number == PAW_OUTPUT_LENGTH ? "the output is too short for the listing"
                                       : paw_text(number);
}

/*
 * Bytes that the listing of so many halfwords has at most. The longest line of an instruction is
 * "STRB R7, [R7, #31]" with its line feed, 19 bytes, and that of a label "a31870:", 8 bytes. But
 * for a label there is a branch, whose line, "BEQ a31870", has 11: a branch and its label have no
 * more than 19 together, and two branches need no second label. Codes of STRB alone are that long.
 */
static inline size_t paw_listing_room(size_t code_len)
{
    return code_len * PAW_LISTING_PER_HALFWORD;
}

#undef PAW_STATIC_ASSERT

#ifdef __cplusplus
}
#endif

#endif
