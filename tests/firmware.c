/*
 * The library as firmware uses it, through paw.h: the sample program P is packed, checked,
 * summed, verified, loaded and run, programs say by notes how they ended, steps and runs what data
 * they touched, and texts are assembled and codes listed. It is C11 and C++11 at once.
 *
 *     cc -std=c11 -Wall -Wextra -Werror -Iinclude tests/firmware.c target/staticlib/libpaw.a
 */
#include "paw.h" /* first, since it needs no other header before it */

#include <stdio.h>
#include <string.h>

#ifdef __cplusplus
#define LANGUAGE "C++"
#define ALIGNMENT_OF alignof
#define ALWAYS static_assert
#else
#define LANGUAGE "C"
#define ALIGNMENT_OF _Alignof
#define ALWAYS _Static_assert
#endif

ALWAYS(sizeof(struct paw_machine) == 38, "size");
ALWAYS(ALIGNMENT_OF(struct paw_machine) == 2, "alignment");
ALWAYS(offsetof(struct paw_machine, regs) == 0, "regs");
ALWAYS(offsetof(struct paw_machine, n) == 32, "n");
ALWAYS(offsetof(struct paw_machine, z) == 33, "z");
ALWAYS(offsetof(struct paw_machine, c) == 34, "c");
ALWAYS(offsetof(struct paw_machine, v) == 35, "v");
ALWAYS(offsetof(struct paw_machine, note) == 36, "note");
ALWAYS(sizeof(((struct paw_machine *)0)->note) == 1, "a byte");

static int failures;

#define EXPECT(condition)                                                                \
    do {                                                                                 \
        if (!(condition)) {                                                              \
            fprintf(stderr, "%s:%d: not so: %s\n", __FILE__, __LINE__, #condition);      \
            failures++;                                                                  \
        }                                                                                \
    } while (0)

enum { CODE_LEN = 7, WINDOW_START = 256, WINDOW_BYTES = 256 };

/* Masks R0 with 252, adds 256 and stores 252 there. */
static const uint16_t code[CODE_LEN] = {
    0x21FC, /* MOV R1, #252 */
    0x4008, /* AND R0, R1 */
    0x2280, /* MOV R2, #128 */
    0x4412, /* ADD R2, R2 */
    0x4410, /* ADD R0, R2 */
    0x6001, /* STR R1, [R0, #0] */
    0x0000, /* HALT */
};

static uint8_t file[PAW_BLOCK_BYTES];
static uint8_t memory[PAW_MEMORY_BYTES];
static uint8_t before[PAW_MEMORY_BYTES];

static bool all_are(const uint8_t *bytes, size_t len, uint8_t value)
{
    for (size_t i = 0; i < len; i++) {
        if (bytes[i] != value) {
            return false;
        }
    }
    return true;
}

/* Are registers and flags the same? The note may differ. */
static bool same_but_note(const struct paw_machine *a, const struct paw_machine *b)
{
    return memcmp(a, b, offsetof(struct paw_machine, note)) == 0;
}

/* Are registers, flags and note the same? */
static bool same_machine(const struct paw_machine *a, const struct paw_machine *b)
{
    return same_but_note(a, b) && a->note == b->note;
}

static void put_halfword(size_t address, uint32_t halfword)
{
    memory[address] = (uint8_t)halfword;
    memory[address + 1] = (uint8_t)(halfword >> 8);
}

static uint64_t layout_word(uint64_t code_bytes, uint64_t start, uint64_t length)
{
    return code_bytes << 16 | start << 32 | length << 48;
}

/* The header's version in three forms, and the library's. */
static void test_version(void)
{
    char text[16];
    snprintf(text, sizeof text, "%d.%d.%d", PAW_VERSION_MAJOR, PAW_VERSION_MINOR,
             PAW_VERSION_PATCH);
    EXPECT(strcmp(text, PAW_VERSION_STRING) == 0);
    EXPECT(PAW_VERSION >> 16 == PAW_VERSION_MAJOR);
    EXPECT((PAW_VERSION >> 8 & 255) == PAW_VERSION_MINOR);
    EXPECT((PAW_VERSION & 255) == PAW_VERSION_PATCH);
    EXPECT(paw_version() == PAW_VERSION);

    char date[18] = {0};
    for (size_t i = 0; i < sizeof date; i++) {
        date[i] = (char)paw_manual_date(i);
    }
    EXPECT(strcmp(date, "20 September 2015") == 0);
}

/* 1 to 23 and HALT have texts of their own, and whatever else comes has one too. */
static void test_texts(void)
{
    const char *unknown = paw_text(24);
    for (uint32_t number = 0; number <= 300; number++) {
        bool named = number <= 23 || number == PAW_HALT;
        EXPECT((strcmp(paw_text(number), unknown) != 0) == named);
        for (uint32_t other = 0; named && other < number; other++) {
            EXPECT(strcmp(paw_text(number), paw_text(other)) != 0);
        }
    }
    EXPECT(strcmp(paw_text(PAW_BRANCH_TARGET), "the branch leaves the code") == 0);
    EXPECT(strcmp(paw_text(UINT32_MAX), unknown) == 0);
}

/* The conditions are the numbers of the manual's table, in its order. */
static void test_condition_names(void)
{
    static const char *const names[] = {"EQ", "NE", "CS", "CC", "MI", "PL", "VS", "VC",
                                        "HI", "LS", "GE", "LT", "GT", "LE", "??", "??"};
    ALWAYS(sizeof names / sizeof names[0] == PAW_LE + 3, "a name for each condition");
    for (uint32_t condition = 0; condition < 16; condition++) {
        EXPECT(strcmp(paw_condition_name(condition), names[condition]) == 0);
    }
    EXPECT(strcmp(paw_condition_name(UINT32_MAX), "??") == 0);
}

/* A branch with any condition and offset, and with what is no condition. */
static void test_conditions(void)
{
    for (uint32_t fields = 0; fields <= 0xFFFF; fields++) {
        uint8_t condition = (uint8_t)(fields >> 8), offset = (uint8_t)fields;
        uint32_t word = paw_word(PAW_KIND_BRANCH, condition, offset, 0);
        uint32_t encoded = paw_encode(word);
        if (condition > PAW_LE) {
            EXPECT(encoded == PAW_FIELDS);
        } else {
            EXPECT(paw_encoded_number(encoded) == PAW_OK);
            EXPECT(paw_encoded_halfword(encoded) == (0xD000 | fields));
            EXPECT(paw_decode(paw_encoded_halfword(encoded)) == word);
        }
    }
}

/* What a condition says of the flags is what a branch does: BGT two instructions on. */
static void test_branching(void)
{
    memset(memory, 0, sizeof memory);
    memory[0] = 2;
    memory[1] = 0xD0 | PAW_GT;
    for (unsigned flags = 0; flags < 16; flags++) {
        struct paw_machine machine = {{0}, (flags & 8) != 0, (flags & 4) != 0, (flags & 2) != 0,
                                      (flags & 1) != 0, 0};
        bool taken = !machine.z && machine.n == machine.v;
        EXPECT(paw_step(&machine, memory, sizeof memory) == PAW_COMPLETED);
        EXPECT(machine.regs[15] == (taken ? 4 : 2));
    }
}

static void test_kinds(void)
{
    static const char *const names[] = {"undefined", "MOV", "CMP", "AND", "EOR", "ASR", "TST",
                                        "NEG", "CMP", "ADD", "CMP", "MOV", "STR", "LDR",
                                        "STRB", "LDRB", "ADD", "B", "HALT", "undefined"};
    ALWAYS(sizeof names / sizeof names[0] == PAW_KIND_HALT + 2, "a name for each kind");
    for (uint32_t kind = 0; kind <= PAW_KIND_HALT + 1; kind++) {
        EXPECT(strcmp(paw_kind_name(kind), names[kind]) == 0);
    }
}

/* The offset of a halfword counts fours of bytes, that of a byte counts bytes. */
static void test_offsets(void)
{
    static const uint8_t kinds[] = {PAW_KIND_STR, PAW_KIND_STRB};
    for (size_t i = 0; i < sizeof kinds; i++) {
        struct paw_machine machine = {{0xBEEF, 0x1000}, false, false, false, false, 0};
        uint16_t halfword = paw_encoded_halfword(paw_encode(paw_word(kinds[i], 31, 1, 0)));
        size_t address = 0x1000 + (kinds[i] == PAW_KIND_STR ? 4 * 31 : 31);
        memset(memory, 0, sizeof memory);
        put_halfword(0, halfword);
        EXPECT(paw_step_number(paw_step(&machine, memory, sizeof memory)) == PAW_COMPLETED);
        EXPECT(memory[address] == 0xEF);
        EXPECT(memory[address + 1] == (kinds[i] == PAW_KIND_STR ? 0xBE : 0));
    }
}

static void test_instructions(void)
{
    uint32_t word = paw_decode(0x6001);
    EXPECT(paw_word_kind(word) == PAW_KIND_STR);
    EXPECT(paw_word_field(word, 0) == 0 && paw_word_field(word, 1) == 0);
    EXPECT(paw_word_field(word, 2) == 1);
    EXPECT(word == paw_word(PAW_KIND_STR, 0, 0, 1));
    EXPECT(paw_decode(0x0100) == PAW_KIND_NONE);

    uint32_t encoded = paw_encode(paw_word(PAW_KIND_MOV_IMM, 1, 252, 0));
    EXPECT(paw_encoded_number(encoded) == PAW_OK && paw_encoded_halfword(encoded) == 0x21FC);
    EXPECT(paw_encode(paw_word(PAW_KIND_MOV_IMM, 8, 252, 0)) == PAW_FIELDS);
}

/* The note is HALT's only field; what stands for fields that it does not have is not looked at. */
static void test_halts(void)
{
    for (uint32_t halfword = 0; halfword < 0x2000; halfword++) {
        uint8_t note = (uint8_t)halfword;
        uint32_t word = paw_word(PAW_KIND_HALT, note, 0, 0), none = PAW_KIND_NONE;
        EXPECT(paw_decode((uint16_t)halfword) == (halfword <= 0x00FF ? word : none));
        EXPECT(paw_encode(word) == (uint32_t)note << 16);
        EXPECT(paw_encode(word | 0xFFFF) == (uint32_t)note << 16);
    }
    EXPECT(paw_word_field(paw_decode(0x00FF), 0) == 0xFF);
}

/* How many halfwords are instructions, each of which its fields give back. */
static void test_defined(void)
{
    unsigned defined = 0;
    for (uint32_t halfword = 0; halfword <= 0xFFFF; halfword++) {
        uint32_t word = paw_decode((uint16_t)halfword);
        if (word != PAW_KIND_NONE) {
            defined++;
            EXPECT(paw_encode(word) == halfword << 16);
        }
    }
    EXPECT(defined == 19264);
}

static void test_packing(void)
{
    memset(file, 0xEE, sizeof file);
    EXPECT(paw_image_bytes(CODE_LEN) == sizeof file);
    EXPECT(paw_pack(code, 0, 256, 256, file, sizeof file) == PAW_CODE_LENGTH);
    EXPECT(paw_pack(code, CODE_LEN, 257, 256, file, sizeof file) == PAW_WINDOW);
    EXPECT(paw_pack(code, CODE_LEN, 256, 256, file, sizeof file - 1) == PAW_OUTPUT_LENGTH);
    EXPECT(all_are(file, sizeof file, 0xEE));

    EXPECT(paw_pack(code, CODE_LEN, WINDOW_START, WINDOW_BYTES, file, sizeof file) == PAW_OK);
    EXPECT(file[0] == 0xC1 && file[1] == 0xD0);
    EXPECT(file[510] == 0x90 && file[511] == 0xC0);
}

static void test_checking(void)
{
    uint64_t answer = paw_check(file, sizeof file);
    EXPECT(answer == layout_word(14, 256, 256));
    EXPECT(paw_answer_number(answer) == PAW_OK);
    EXPECT(paw_answer_code_bytes(answer) == 2 * CODE_LEN);
    EXPECT(paw_answer_window_start(answer) == WINDOW_START);
    EXPECT(paw_answer_window_bytes(answer) == WINDOW_BYTES);
    EXPECT(paw_check(file, sizeof file - 1) == PAW_FILE_LENGTH);
}

/* The sum of halfwords n to 255 of a block, plainly. */
static uint32_t plain_sum(const uint8_t *block, size_t n)
{
    uint32_t sum = 0;
    for (size_t at = 2 * n; at < PAW_BLOCK_BYTES; at += 2) {
        sum += (uint32_t)(block[at] | block[at + 1] << 8);
    }
    return sum;
}

/* Sums a block from the back; after each call the sum is that of the halfwords so far. */
static uint16_t sum_from_back(const uint8_t *block)
{
    uint16_t sum = 0;
    for (size_t n = PAW_BLOCK_HALFWORDS; n-- > 0;) {
        sum = paw_add_to_sum(sum, (uint16_t)(block[2 * n] | block[2 * n + 1] << 8));
        EXPECT(sum == plain_sum(block, n) % 65536);
    }
    return sum;
}

/* P's block, the same with each byte damaged in turn, and one whose sum wraps time and again. */
static void test_summing(void)
{
    EXPECT(PAW_BLOCK_HALFWORDS * 2 == PAW_BLOCK_BYTES);
    EXPECT(paw_add_to_sum(0, 0) == 0 && paw_add_to_sum(0xFFFF, 1) == 0);
    EXPECT(paw_add_to_sum(0xFFFF, 0xFFFF) == 0xFFFE);
    EXPECT(paw_add_to_sum(0, 0xC090) == 0xC090); /* the last halfword of P's block */
    EXPECT(sum_from_back(file) == 0);
    for (size_t at = 0; at < sizeof file; at++) {
        file[at] ^= 0x80;
        EXPECT(sum_from_back(file) != 0);
        uint64_t answer = paw_check(file, sizeof file);
        EXPECT(paw_answer_number(answer) == (at < 2 ? PAW_BLOCK_MARK : PAW_BLOCK_SUM));
        file[at] ^= 0x80;
    }
    static uint8_t full[PAW_BLOCK_BYTES];
    memset(full, 0xFF, sizeof full);
    EXPECT(sum_from_back(full) == 65536 - 256);
}

/* A reader's three answers: a block, none left, refused. */
static void test_reading(void)
{
    static uint16_t long_code[PAW_BLOCK_CODE + 1];
    static uint8_t two[2 * PAW_BLOCK_BYTES];
    EXPECT(paw_image_bytes(PAW_BLOCK_CODE + 1) == sizeof two);
    EXPECT(paw_pack(long_code, PAW_BLOCK_CODE + 1, 1024, 4, two, sizeof two) == PAW_OK);

    for (size_t n = 0; n < 2; n++) {
        uint64_t block = paw_block(two, sizeof two, n);
        EXPECT(paw_answer_number(block) == PAW_OK);
        EXPECT(paw_block_start(block) == n * PAW_BLOCK_BYTES);
        EXPECT(paw_block_bytes(block) == PAW_BLOCK_BYTES);
        EXPECT(two[paw_block_start(block) + 2] == n); /* the block's own number */
    }

    const size_t past[] = {2, 3, (size_t)1 << 55, SIZE_MAX};
    for (size_t i = 0; i < sizeof past / sizeof past[0]; i++) {
        uint64_t none = paw_block(two, sizeof two, past[i]);
        EXPECT(paw_answer_number(none) == PAW_OK && paw_block_bytes(none) == 0);
        EXPECT(none == 0);
    }

    two[PAW_BLOCK_BYTES] ^= 1;
    for (size_t n = 0; n < 4; n++) {
        uint64_t refused = paw_block(two, sizeof two, n);
        EXPECT(paw_answer_number(refused) == PAW_BLOCK_MARK && paw_answer_place(refused) == 1);
        EXPECT(refused == paw_check(two, sizeof two));
    }
    EXPECT(paw_block(two, sizeof two - 1, 0) == PAW_FILE_LENGTH);
}

static void test_verifying(void)
{
    EXPECT(paw_verify(file, sizeof file) == layout_word(14, 256, 256));

    static uint8_t small[PAW_BLOCK_BYTES];
    EXPECT(paw_pack(code, CODE_LEN, WINDOW_START, 252, small, sizeof small) == PAW_OK);
    uint64_t answer = paw_verify(small, sizeof small);
    EXPECT(paw_answer_number(answer) == PAW_OUT_OF_WINDOW && paw_answer_place(answer) == 10);
    EXPECT(answer == (10 | 10 << 16));
}

/* P with another last halfword: a HALT with any note is fit, the first halfword behind them not. */
static void test_verifying_notes(void)
{
    static uint8_t noted[PAW_BLOCK_BYTES];
    uint16_t changed[CODE_LEN];
    memcpy(changed, code, sizeof code);
    for (uint16_t last = 0; last <= 0x0100; last++) {
        changed[CODE_LEN - 1] = last;
        EXPECT(paw_pack(changed, CODE_LEN, WINDOW_START, WINDOW_BYTES, noted, sizeof noted) ==
               PAW_OK);
        EXPECT(paw_check(noted, sizeof noted) == layout_word(14, 256, 256));
        uint64_t answer = paw_verify(noted, sizeof noted);
        EXPECT(answer == (last <= 0x00FF ? layout_word(14, 256, 256) : (9 | 12 << 16)));
    }
    changed[CODE_LEN - 1] = 0x2000; /* MOV R0, #0 */
    EXPECT(paw_pack(changed, CODE_LEN, WINDOW_START, WINDOW_BYTES, noted, sizeof noted) == PAW_OK);
    EXPECT(paw_verify(noted, sizeof noted) == (14 | 12 << 16));
}

static void test_loading(void)
{
    memset(memory, 0xEE, sizeof memory);
    EXPECT(paw_load(file, sizeof file, memory, sizeof memory - 1) == PAW_MEMORY_SIZE);
    EXPECT(paw_load(file, sizeof file - 1, memory, sizeof memory) == PAW_FILE_LENGTH);
    EXPECT(all_are(memory, sizeof memory, 0xEE));

    EXPECT(paw_load(file, sizeof file, memory, sizeof memory) == layout_word(14, 256, 256));
    for (size_t i = 0; i < CODE_LEN; i++) {
        EXPECT(memory[2 * i] == code[i] % 256 && memory[2 * i + 1] == code[i] / 256);
    }
    EXPECT(all_are(memory + 14, 256 - 14, 0xEE));
    EXPECT(all_are(memory + 256, 256, 0));
    EXPECT(all_are(memory + 512, PAW_MEMORY_BYTES - 512, 0xEE));
}

/* 0xBEEF masked with 252 is 236, and 256 more are 492. */
static void test_running(void)
{
    struct paw_machine machine = {{0xBEEF}, true, true, true, true, 0xA5};
    memset(memory + WINDOW_START, 0xA5, WINDOW_BYTES); /* shows both bytes of the store */
    memcpy(before, memory, sizeof memory);

    EXPECT(paw_run(&machine, memory, sizeof memory - 1, 1000) == PAW_MEMORY_SIZE);
    EXPECT(paw_run(&machine, memory, sizeof memory, 0) == PAW_SPENT);
    EXPECT(machine.regs[0] == 0xBEEF && machine.regs[15] == 0);

    EXPECT(paw_step(&machine, memory, sizeof memory) == PAW_COMPLETED);
    EXPECT(machine.regs[1] == 252 && machine.regs[15] == 2);
    EXPECT(!machine.n && !machine.z && machine.c && machine.v);

    uint64_t spent = paw_run(&machine, memory, sizeof memory, 3);
    EXPECT(paw_run_number(spent) == PAW_SPENT && paw_run_steps(spent) == 3);
    EXPECT(strcmp(paw_run_text(spent), "the budget is spent") == 0);
    EXPECT(machine.regs[0] == 236 && machine.regs[2] == 256 && machine.regs[15] == 8);
    EXPECT(memcmp(memory, before, sizeof memory) == 0);
    EXPECT(machine.note == 0xA5);

    uint64_t halted = paw_run(&machine, memory, sizeof memory, UINT32_MAX);
    EXPECT(paw_run_number(halted) == PAW_HALT && paw_run_steps(halted) == 2);
    EXPECT(strcmp(paw_run_text(halted), "halted") == 0);
    EXPECT(machine.regs[0] == 492 && machine.regs[1] == 252 && machine.regs[2] == 256);
    EXPECT(machine.regs[3] == 0 && machine.regs[14] == 0 && machine.regs[15] == 12);
    EXPECT(!machine.n && !machine.z && !machine.c && !machine.v);
    EXPECT(machine.note == 0);
    EXPECT(paw_step(&machine, memory, sizeof memory) == PAW_HALT);
    EXPECT(machine.regs[15] == 12);

    before[492] = 252;
    before[493] = 0;
    EXPECT(memcmp(memory, before, sizeof memory) == 0);
}

static void test_stops(void)
{
    struct paw_machine machine = {{2}, false, false, false, false, 0xA5};
    machine.regs[15] = 1;
    memcpy(before, memory, sizeof memory);
    EXPECT(paw_step(&machine, memory, sizeof memory) == PAW_STOP_ODD_PC);
    machine.regs[15] = 14; /* behind the code: 0xEEEE */
    EXPECT(paw_step(&machine, memory, sizeof memory) == PAW_STOP_UNDEFINED);
    machine.regs[15] = 10; /* STR R1, [R0, #0], with 2 in R0 */
    EXPECT(paw_step(&machine, memory, sizeof memory) == PAW_STOP_MISALIGNED);
    EXPECT(paw_run(&machine, memory, sizeof memory, 5) == PAW_STOP_MISALIGNED);
    EXPECT(machine.regs[0] == 2 && machine.regs[15] == 10 && machine.note == 0xA5);
    EXPECT(memcmp(memory, before, sizeof memory) == 0);
}

enum { SOMEWHERE = 0x4000 };

/* A machine with all registers the same but for the PC, which is SOMEWHERE, and with that note. */
static struct paw_machine machine_of(uint16_t value, uint8_t note)
{
    struct paw_machine machine = {{0}, true, false, true, false, note};
    for (size_t r = 0; r < 15; r++) {
        machine.regs[r] = value;
    }
    machine.regs[15] = SOMEWHERE;
    return machine;
}

/* A step at HALT takes its note, over any other and over its own, and changes nothing else. */
static void test_notes_of_steps(void)
{
    memset(memory, 0xEE, sizeof memory);
    for (unsigned note = 0; note < 256; note++) {
        put_halfword(SOMEWHERE, note);
        memcpy(before, memory, sizeof memory);
        const uint8_t earlier[] = {0, 255, (uint8_t)note, (uint8_t)~note};
        for (size_t i = 0; i < sizeof earlier; i++) {
            const struct paw_machine start = machine_of(0xBEEF, earlier[i]);
            struct paw_machine machine = start;
            EXPECT(paw_step(&machine, memory, sizeof memory) == PAW_HALT);
            EXPECT(machine.note == note && same_but_note(&machine, &start));
        }
        EXPECT(memcmp(memory, before, sizeof memory) == 0);
    }
}

/* A run takes the note once it is at HALT with budget left, and a second run takes it again. */
static void test_notes_of_runs(void)
{
    for (unsigned note = 0; note < 256; note++) {
        const uint8_t earlier = (uint8_t)~note;
        struct paw_machine machine = machine_of(0xBEEF, earlier);
        put_halfword(SOMEWHERE, 0x2007); /* MOV R0, #7 */
        put_halfword(SOMEWHERE + 2, note);

        EXPECT(paw_run(&machine, memory, sizeof memory, 0) == PAW_SPENT);
        EXPECT(machine.note == earlier);
        uint64_t spent = paw_run(&machine, memory, sizeof memory, 1);
        EXPECT(paw_run_number(spent) == PAW_SPENT && paw_run_steps(spent) == 1);
        EXPECT(machine.note == earlier);

        const struct paw_machine at_halt = machine;
        EXPECT(machine.regs[0] == 7 && machine.regs[15] == SOMEWHERE + 2);
        EXPECT(paw_run(&machine, memory, sizeof memory, 0) == PAW_SPENT);
        EXPECT(same_machine(&machine, &at_halt));
        EXPECT(paw_run(&machine, memory, sizeof memory, 1) == PAW_HALT);
        EXPECT(machine.note == note && same_but_note(&machine, &at_halt));
        machine.note = earlier;
        EXPECT(paw_run(&machine, memory, sizeof memory, 1) == PAW_HALT);
        EXPECT(machine.note == note && same_but_note(&machine, &at_halt));

        machine.regs[15] = SOMEWHERE;
        machine.note = earlier;
        uint64_t halted = paw_run(&machine, memory, sizeof memory, 2);
        EXPECT(paw_run_number(halted) == PAW_HALT && paw_run_steps(halted) == 1);
        EXPECT(machine.note == note);
    }
}

/* A step and a run of one step have this ending, and either leaves the note, whichever it is. */
static void expect_note_left(struct paw_machine start, size_t memory_len, uint32_t ending)
{
    for (unsigned note = 0; note < 256; note++) {
        start.note = (uint8_t)note;
        struct paw_machine stepped = start, ran = start;
        EXPECT(paw_step_number(paw_step(&stepped, memory, memory_len)) == ending);
        EXPECT(paw_run_number(paw_run(&ran, memory, memory_len, 1)) == ending);
        EXPECT(stepped.note == note && ran.note == note && same_machine(&stepped, &ran));
        EXPECT(ending == PAW_COMPLETED || same_machine(&stepped, &start));
    }
}

/* Stops and refusals leave the note, refusals at a HALT too. */
static void test_notes_left(void)
{
    struct paw_machine machine = machine_of(2, 0);
    put_halfword(SOMEWHERE, 0x6001); /* STR R1, [R0, #0] */
    expect_note_left(machine, sizeof memory, PAW_STOP_MISALIGNED);
    put_halfword(SOMEWHERE, 0x0100);
    expect_note_left(machine, sizeof memory, PAW_STOP_UNDEFINED);
    put_halfword(SOMEWHERE, 0x2007); /* MOV R0, #7 */
    put_halfword(SOMEWHERE + 2, 0x0033);
    expect_note_left(machine, sizeof memory, PAW_COMPLETED);

    put_halfword(SOMEWHERE, 0x0033); /* HALT #51 */
    expect_note_left(machine, sizeof memory - 1, PAW_MEMORY_SIZE);
    expect_note_left(machine, 0, PAW_MEMORY_SIZE);
    machine.regs[15] = SOMEWHERE + 1;
    expect_note_left(machine, sizeof memory, PAW_STOP_ODD_PC);
}

/* Every halfword, met by a step and by a run: HALT makes the note its low byte, others leave it. */
static void test_notes_of_halfwords(void)
{
    static const uint16_t values[] = {0x1000, 0x1002}; /* as addresses: 4 divides the first only */
    for (uint32_t halfword = 0; halfword <= 0xFFFF; halfword++) {
        for (size_t i = 0; i < sizeof values / sizeof values[0]; i++) {
            const uint8_t earlier = (uint8_t)~halfword;
            uint8_t note = halfword <= 0x00FF ? (uint8_t)halfword : earlier;
            struct paw_machine stepped = machine_of(values[i], earlier), ran = stepped;
            put_halfword(SOMEWHERE, halfword);
            uint32_t ending = paw_step_number(paw_step(&stepped, memory, sizeof memory));
            EXPECT((ending == PAW_HALT) == (halfword <= 0x00FF));
            EXPECT(paw_run_number(paw_run(&ran, memory, sizeof memory, 1)) == ending);
            EXPECT(stepped.note == note && ran.note == note);
        }
    }
}

/* As samples/fit-note.hex: the note tells whether a battery has 110 tenths of a volt, read at 256. */
static void test_two_endings(void)
{
    static const uint16_t battery[] = {
        0xA240, /* ADD R2, PC, #256 */
        0x7810, /* LDRB R0, [R2, #0] */
        0x286E, /* CMP R0, #110 */
        0xD202, /* BCS, over the next */
        0x0007, /* HALT #7 */
        0x0001, /* HALT #1 */
    };
    EXPECT(paw_pack(battery, 6, WINDOW_START, WINDOW_BYTES, file, sizeof file) == PAW_OK);
    EXPECT(paw_load(file, sizeof file, memory, sizeof memory) == layout_word(12, 256, 256));
    for (unsigned tenths = 0; tenths < 256; tenths++) {
        struct paw_machine machine = {{0}, false, false, false, false, 0};
        memory[WINDOW_START] = (uint8_t)tenths;
        uint64_t answer = paw_run(&machine, memory, sizeof memory, 1000);
        EXPECT(paw_run_number(answer) == PAW_HALT && paw_run_steps(answer) == 4);
        EXPECT(machine.note == (tenths < 110 ? 7 : 1));
    }
}

/* An answer of a step or a run says that these data were touched, in every way of asking. */
static void expect_touch(uint64_t answer, uint32_t touch, uint16_t address, uint32_t bytes)
{
    EXPECT(paw_touched(answer) == touch);
    EXPECT(paw_touched_address(answer) == address);
    EXPECT(paw_touched_bytes(answer) == bytes);
    EXPECT(paw_touched_read(answer) == (touch == PAW_READ_BYTE || touch == PAW_READ_HALFWORD));
    EXPECT(paw_touched_wrote(answer) == (touch == PAW_WROTE_BYTE || touch == PAW_WROTE_HALFWORD));
}

/* Of a run of the most steps at the highest address, the address of a step being as high. */
static void test_touched_texts(void)
{
    static const char *const texts[] = {"no data", "read 1 byte", "read 2 bytes", "wrote 1 byte",
                                        "wrote 2 bytes", "no kind of access"};
    for (uint64_t touch = 0; touch < sizeof texts / sizeof texts[0]; touch++) {
        uint64_t answer = touch << 8 | 0xFFFFFFFFFFFF00FF;
        EXPECT(strcmp(paw_touched_text(touch << 8), texts[touch]) == 0);
        EXPECT(strcmp(paw_touched_text(answer), texts[touch]) == 0);
        EXPECT(paw_touched(answer) == touch && paw_touched_address(answer) == 0xFFFF);
        EXPECT(paw_run_number(answer) == PAW_HALT && paw_run_steps(answer) == 0xFFFFFFFF);
        EXPECT(paw_step_number((uint32_t)answer) == PAW_HALT);
    }
}

/* The four accesses with R0 as their base and R1 as what is loaded or stored, at offset 0. */
static const struct access {
    uint16_t halfword;
    uint32_t touch;
    uint32_t bytes;
} accesses[] = {
    {0x7801, PAW_READ_BYTE, 1},     /* LDRB R1, [R0, #0] */
    {0x6801, PAW_READ_HALFWORD, 2}, /* LDR R1, [R0, #0] */
    {0x7001, PAW_WROTE_BYTE, 1},    /* STRB R1, [R0, #0] */
    {0x6001, PAW_WROTE_HALFWORD, 2} /* STR R1, [R0, #0] */
};

enum { ACCESSES = sizeof accesses / sizeof accesses[0] };

/* A machine at SOMEWHERE with that in R0. */
static struct paw_machine machine_with_base(uint16_t base)
{
    struct paw_machine machine = machine_of(0x1234, 0);
    machine.regs[0] = base;
    return machine;
}

/* Every offset from bases at both ends of memory. Bytes are counted in ones, halfwords in fours. */
static void test_touched_addresses(void)
{
    static const uint16_t bases[] = {0, 4, 256, 0x8000, 0xFF84, 0xFFFC, 1, 0xFFFF};
    for (size_t a = 0; a < ACCESSES; a++) {
        for (size_t b = 0; b < sizeof bases / sizeof bases[0]; b++) {
            for (unsigned offset = 0; offset < 32; offset++) {
                struct paw_machine machine = machine_with_base(bases[b]);
                unsigned unit = accesses[a].bytes == 2 ? 4 : 1;
                uint16_t address = (uint16_t)(bases[b] + unit * offset);
                put_halfword(SOMEWHERE, accesses[a].halfword | offset << 6);
                uint32_t answer = paw_step(&machine, memory, sizeof memory);
                if (unit == 4 && address % 4 != 0) {
                    EXPECT(answer == PAW_STOP_MISALIGNED);
                    expect_touch(answer, PAW_NO_DATA, 0, 0);
                } else {
                    EXPECT(paw_step_number(answer) == PAW_COMPLETED);
                    expect_touch(answer, accesses[a].touch, address, accesses[a].bytes);
                }
            }
        }
    }
    struct paw_machine machine = machine_with_base(0xFFFF);
    put_halfword(SOMEWHERE, 0x7941); /* LDRB R1, [R0, #5] */
    expect_touch(paw_step(&machine, memory, sizeof memory), PAW_READ_BYTE, 4, 1);
}

/* What stands behind an access, how a run then ends, and whether its last step is the access. */
static const struct behind {
    uint16_t halfword;
    uint32_t ending;
    uint32_t steps;
    bool is_last;
} behind_access[] = {
    {0x0007, PAW_HALT, 1, true},            /* HALT #7 */
    {0xFFFF, PAW_STOP_UNDEFINED, 1, true},  /* no instruction */
    {0x681A, PAW_STOP_MISALIGNED, 1, true}, /* LDR R2, [R3, #0], with 2 in R3 */
    {0x601A, PAW_STOP_MISALIGNED, 1, true}, /* STR R2, [R3, #0] */
    {0x2005, PAW_SPENT, 2, false},          /* MOV R0, #5 */
    {0xD001, PAW_SPENT, 2, false},          /* BEQ, not taken: Z is clear */
    {0xD101, PAW_SPENT, 2, false},          /* BNE, taken */
    {0x4687, PAW_SPENT, 2, false},          /* MOV R15, R0 */
    {0x4487, PAW_SPENT, 2, false}           /* ADD R15, R0 */
};

/* A run of budget 2 from each access, and of less. */
static void test_touched_by_runs(void)
{
    for (size_t a = 0; a < ACCESSES; a++) {
        for (size_t i = 0; i < sizeof behind_access / sizeof behind_access[0]; i++) {
            const struct behind *behind = &behind_access[i];
            struct paw_machine machine = machine_with_base(256);
            machine.regs[3] = 2;
            const struct paw_machine start = machine;
            put_halfword(SOMEWHERE, accesses[a].halfword);
            put_halfword(SOMEWHERE + 2, behind->halfword);

            expect_touch(paw_run(&machine, memory, sizeof memory, 0), PAW_NO_DATA, 0, 0);
            uint64_t refused = paw_run(&machine, memory, sizeof memory - 1, 2);
            EXPECT(refused == PAW_MEMORY_SIZE);
            EXPECT(paw_step(&machine, memory, sizeof memory - 1) == PAW_MEMORY_SIZE);
            uint64_t one = paw_run(&machine, memory, sizeof memory, 1);
            EXPECT(paw_run_number(one) == PAW_SPENT && paw_run_steps(one) == 1);
            expect_touch(one, accesses[a].touch, 256, accesses[a].bytes);

            machine = start;
            uint64_t two = paw_run(&machine, memory, sizeof memory, 2);
            EXPECT(paw_run_number(two) == behind->ending && paw_run_steps(two) == behind->steps);
            if (behind->is_last) {
                expect_touch(two, accesses[a].touch, 256, accesses[a].bytes);
                uint64_t again = paw_run(&machine, memory, sizeof memory, 2);
                EXPECT(again == behind->ending); /* no step was completed, and no data is told */
            } else {
                expect_touch(two, PAW_NO_DATA, 0, 0);
            }
        }
    }
}

/* The end of the sample program P: 252 goes to address 492, and HALT comes next. */
static void test_touched_by_p(void)
{
    struct paw_machine machine = {{0xBEEF}, true, true, true, true, 0};
    EXPECT(paw_pack(code, CODE_LEN, WINDOW_START, WINDOW_BYTES, file, sizeof file) == PAW_OK);
    EXPECT(paw_load(file, sizeof file, memory, sizeof memory) == layout_word(14, 256, 256));
    for (unsigned step = 0; step < CODE_LEN - 2; step++) {
        EXPECT(paw_step(&machine, memory, sizeof memory) == PAW_COMPLETED); /* and no data */
    }
    uint64_t halted = paw_run(&machine, memory, sizeof memory, 1000);
    EXPECT(paw_run_number(halted) == PAW_HALT && paw_run_steps(halted) == 1);
    expect_touch(halted, PAW_WROTE_HALFWORD, 492, 2);
    EXPECT(memory[paw_touched_address(halted)] == 252);
}

/* Texts and listings ------------------------------------------------------------------------ */

/* What is assembled and listed, with an element and a byte more than the library is lent. */
static uint16_t assembled[PAW_MAX_CODE + 1];
static uint8_t listing[PAW_MAX_LISTING + 1];

enum { ROOM = PAW_MAX_CODE };

/* Assembles a text into `room` elements, which were all 0xEEEE before. */
static uint64_t assemble_bytes(const uint8_t *text, size_t text_len, size_t room)
{
    memset(assembled, 0xEE, sizeof assembled);
    return paw_assemble(text, text_len, assembled, room);
}

static uint64_t assemble(const char *text)
{
    return assemble_bytes((const uint8_t *)text, strlen(text), ROOM);
}

/* Are all elements from `first` on what they were? */
static bool code_untouched_from(size_t first)
{
    return all_are((const uint8_t *)(assembled + first), sizeof assembled - 2 * first, 0xEE);
}

/* The answer says that so many were written, and no more were. */
static void expect_assembled(uint64_t answer, size_t halfwords)
{
    EXPECT(paw_assembled_number(answer) == PAW_OK);
    EXPECT(paw_assembled_halfwords(answer) == halfwords);
    EXPECT(answer == (uint64_t)halfwords << 16);
    EXPECT(code_untouched_from(halfwords));
}

/* The answer is that refusal, and nothing was written. */
static void expect_refused(uint64_t answer, uint32_t number, uint64_t line)
{
    EXPECT(paw_assembled_number(answer) == number && paw_assembled_line(answer) == line);
    EXPECT(answer == (number | line << 16));
    EXPECT(code_untouched_from(0));
}

static void refuse(const char *text, uint32_t number, uint64_t line)
{
    expect_refused(assemble(text), number, line);
}

/* The line is refused by that number, alone and among others. */
static void refuse_line(const char *line, uint32_t number)
{
    char text[256];
    snprintf(text, sizeof text, "%s\n", line);
    refuse(text, number, 1);
    snprintf(text, sizeof text, "start:\nMOV R0, #7\n%s\nBEQ start\nHALT #0\n", line);
    refuse(text, number, 3);
}

/* Lists into `room` bytes. What it does not tell to have written must stay. */
static uint64_t list(const uint16_t *halfwords, size_t len, size_t room)
{
    memset(listing, 0xEE, sizeof listing);
    uint64_t answer = paw_list(halfwords, len, listing, room);
    size_t written = paw_listed_number(answer) == PAW_OK ? paw_listed_bytes(answer) : 0;
    EXPECT(written <= room);
    EXPECT(all_are(listing + written, sizeof listing - written, 0xEE));
    return answer;
}

/* Is that the listing of these halfwords, which gives them back? */
static void expect_listing(const uint16_t *halfwords, size_t len, const char *text)
{
    size_t bytes = strlen(text);
    EXPECT(list(halfwords, len, bytes) == (uint64_t)bytes << 16);
    EXPECT(memcmp(listing, text, bytes) == 0);
    expect_assembled(assemble_bytes(listing, bytes, len), len);
    EXPECT(memcmp(assembled, halfwords, 2 * len) == 0);
}

/* Every form with its registers and values at both ends, and what the lister writes of it. */
static const struct form {
    const char *line;
    uint16_t halfword;
} forms[] = {
    {"MOV R0, #0", 0x2000},
    {"MOV R7, #255", 0x27FF},
    {"CMP R0, #0", 0x2800},
    {"CMP R7, #255", 0x2FFF},
    {"AND R0, R7", 0x4038},
    {"EOR R7, R0", 0x4047},
    {"ASR R1, R2", 0x4091},
    {"TST R2, R1", 0x40CA},
    {"NEG R7, R7", 0x413F},
    {"CMP R0, R0", 0x4140},
    {"CMP R7, R6", 0x4177},
    {"ADD R0, R0", 0x4400},
    {"ADD R7, R8", 0x4447},
    {"ADD R10, R3", 0x449A},
    {"ADD R15, R15", 0x44FF},
    {"CMP R0, R8", 0x4540},
    {"CMP R8, R0", 0x4580},
    {"CMP R15, R14", 0x45F7},
    {"MOV R0, R1", 0x4608},
    {"MOV R9, R10", 0x46D1},
    {"MOV R15, R0", 0x4687},
    {"STR R1, [R0, #4]", 0x6041},
    {"STR R7, [R0, #124]", 0x67C7},
    {"LDR R0, [R7, #0]", 0x6838},
    {"LDR R3, [R4, #64]", 0x6C23},
    {"STRB R0, [R1, #31]", 0x77C8},
    {"STRB R7, [R7, #1]", 0x707F},
    {"LDRB R2, [R5, #0]", 0x782A},
    {"LDRB R6, [R0, #30]", 0x7F86},
    {"ADD R0, PC, #4", 0xA001},
    {"ADD R7, PC, #1020", 0xA7FF},
    {"ADD R3, PC, #0", 0xA300},
    {"HALT #0", 0x0000},
    {"HALT #7", 0x0007},
    {"HALT #255", 0x00FF},
};

enum { FORMS = sizeof forms / sizeof forms[0] };

static void test_forms(void)
{
    for (size_t i = 0; i < FORMS; i++) {
        char text[32];
        snprintf(text, sizeof text, "%s\n", forms[i].line);
        expect_assembled(assemble(text), 1);
        EXPECT(assembled[0] == forms[i].halfword);
        expect_listing(&forms[i].halfword, 1, text);
    }
}

/* Every condition: ahead, back and to itself. The last is the manual's own way to write one. */
static void test_branch_lines(void)
{
    for (uint32_t condition = PAW_EQ; condition <= PAW_LE; condition++) {
        char text[64];
        const char *name = paw_condition_name(condition);
        const uint16_t ahead[] = {(uint16_t)(0xD002 | condition << 8), 0x2001, 0};
        snprintf(text, sizeof text, "B%s a4\nMOV R0, #1\na4:\nHALT #0\n", name);
        expect_listing(ahead, 3, text);
        const uint16_t back[] = {0x2001, (uint16_t)(0xD0FF | condition << 8), 0};
        snprintf(text, sizeof text, "a0:\nMOV R0, #1\nB%s a0\nHALT #0\n", name);
        expect_listing(back, 3, text);
        const uint16_t still[] = {0x2001, (uint16_t)(0xD000 | condition << 8)};
        snprintf(text, sizeof text, "MOV R0, #1\na2:\nB%s a2\n", name);
        expect_listing(still, 2, text);
    }
    expect_assembled(assemble("BEQ a10\nHALT #1\nHALT #2\nHALT #3\nHALT #4\na10:\nHALT #5\n"), 6);
    EXPECT(assembled[0] == 0xD005 && assembled[5] == 0x0005);
}

/* What is nearly a line. */
static void test_no_lines(void)
{
    static const char *const lines[] = {
        "", " ", ":", "\t", "\r", "#", "; a note", "\x80", "\xFF",
        /* names */
        "NOP", "mov R0, #1", "MOv R0, #1", "MOVE R0, #1", "MO R0, #1", "ADND R0, R1", "B a",
        "BAL start", "BEQ", "BEQ ", "BEQA", "Beq start", "BNV start", "HALT", "HALTS #0",
        "SUB R0, R1", "LDRH R0, [R1, #0]", "STRBB R0, [R1, #0]", "STRB", "AND", "AND ",
        /* spaces and commas */
        " MOV R0, #1", "MOV  R0, #1", "MOV R0,  #1", "MOV R0,#1", "MOV R0 , #1", "MOV R0, #1 ",
        "MOV R0, # 1", "MOVR0, #1", "MOV\tR0, #1", "MOV R0,\t#1", "MOV R0, #1\r", "MOV R0 #1",
        "HALT  #0", "HALT#0", "BEQ  start", "BEQ start ", "STR R1, [R0,#4]", "STR R1, [ R0, #4]",
        "STR R1, [R0, #4 ]",
        /* registers */
        "MOV R16, R0", "MOV R0, R16", "MOV R01, R0", "MOV R0, R00", "MOV R, R0", "MOV r0, R1",
        "ADD R0, R99", "MOV R-1, R0", "MOV R0, 1", "MOV 0, #1", "MOV R8, #1", "CMP R15, #0",
        "MOV R10, #1", "MOV R8, #256", "AND R8, R0", "AND R0, R8", "EOR R15, R1", "ASR R0, R10",
        "TST R8, R8", "NEG R0, R12", "STR R8, [R0, #0]", "STR R0, [R8, #0]", "LDR R0, [R15, #0]",
        "STRB R10, [R0, #0]", "LDRB R0, [R9, #0]", "ADD R8, PC, #4",
        "MOV R1000000000000000000000, R0",
        /* PC */
        "ADD R0, R15, #4", "ADD R0, PC", "ADD PC, R0", "MOV R0, PC", "MOV PC, R0", "CMP PC, #0",
        "ADD R0, PC, 4", "ADD R0, PC,#4", "ADD PC, PC, #4", "LDR R0, [PC, #4]", "ADD R0, SP, #4",
        /* numbers */
        "MOV R0, #", "MOV R0, #00", "MOV R0, #01", "MOV R0, #-1", "MOV R0, #+1", "MOV R0, #0x1",
        "MOV R0, #1a", "MOV R0, #A", "HALT #00", "HALT #1.", "HALT #1, #2", "HALT R0",
        "STR R1, [R0, #04]", "ADD R0, PC, #00",
        /* brackets */
        "STR R1, [R0]", "STR R1, [R0, #4", "STR R1, R0, #4]", "STR R1, R0", "STR R1, [R0, R2]",
        "STR R1, [R0, #4]]", "STR R1, [R0, #]", "LDR R1, (R0, #4)",
        /* labels */
        "a", "a::", "a :", "a: ", ":a", "1:", "1a:", "A:", "aB:", "a_b:", "a-b:", "a.b:",
        "abcdefghi:", "a123456789:", "\xE4:", "a\x80:", " a:", "a:HALT #0", "a: HALT #0", "BEQ a:",
        "BEQ A", "BEQ 1a", "BEQ abcdefghi", "BEQ 10", "BEQ #4", "BEQ start, start",
    };
    for (size_t i = 0; i < sizeof lines / sizeof lines[0]; i++) {
        refuse_line(lines[i], PAW_SOURCE_LINE);
    }
}

/* Every byte in places where few may stand. */
static void test_bytes(void)
{
    for (unsigned byte = 0; byte < 256; byte++) {
        const uint8_t b = (uint8_t)byte;
        const uint8_t number[] = {'H', 'A', 'L', 'T', ' ', '#', b, '\n'};
        const uint8_t label[] = {b, ':', '\n', 'H', 'A', 'L', 'T', ' ', '#', '0', '\n'};
        const uint8_t longer[] = {'a', b, ':', '\n', 'H', 'A', 'L', 'T', ' ', '#', '0', '\n'};
        bool digit = byte >= '0' && byte <= '9', letter = byte >= 'a' && byte <= 'z';
        uint64_t one = 1 << 16, no_line = PAW_SOURCE_LINE | 1 << 16;
        EXPECT(assemble_bytes(number, sizeof number, ROOM) == (digit ? one : no_line));
        EXPECT(assemble_bytes(label, sizeof label, ROOM) == (letter ? one : no_line));
        EXPECT(assemble_bytes(longer, sizeof longer, ROOM) == (letter || digit ? one : no_line));
    }
}

static const char text_of_p[] = "MOV R1, #252\n"
                                "AND R0, R1\n"
                                "MOV R2, #128\n"
                                "ADD R2, R2\n"
                                "ADD R0, R2\n"
                                "STR R1, [R0, #0]\n"
                                "HALT #0\n";

/* P's text and all that it can be cut to: whole lines are a program, but for none of them. */
static void test_line_feeds(void)
{
    size_t lines = 0;
    for (size_t len = 0; len < sizeof text_of_p; len++) {
        uint64_t answer = assemble_bytes((const uint8_t *)text_of_p, len, ROOM);
        bool whole = len == 0 || text_of_p[len - 1] == '\n';
        lines += len != 0 && whole;
        if (!whole) {
            expect_refused(answer, PAW_SOURCE_LINE, lines + 1);
        } else if (len == 0) {
            expect_refused(answer, PAW_CODE_LENGTH, 0);
        } else {
            expect_assembled(answer, lines);
            EXPECT(memcmp(assembled, code, 2 * lines) == 0);
        }
    }
    EXPECT(lines == CODE_LEN);
    refuse("HALT #0\na:", PAW_SOURCE_LINE, 2);
    refuse("HALT #0\n\n", PAW_SOURCE_LINE, 2);
    refuse("HALT #0\nhalt\nHALT #0", PAW_SOURCE_LINE, 2);
    refuse("HALT #256\nBEQ a\nHALT #0", PAW_SOURCE_LINE, 3);
    expect_listing(code, CODE_LEN, text_of_p);
}

/* A text that is made by the test, and the line that comes next in it. */
static uint8_t source[1 << 20];
static size_t source_len;
static uint64_t next_line;

static void begin_source(void)
{
    source_len = 0;
    next_line = 1;
}

static void add_text(const char *text)
{
    for (; *text != 0; text++) {
        source[source_len++] = (uint8_t)*text;
        next_line += *text == '\n';
    }
}

static void add_lines(const char *line, size_t times)
{
    while (times-- > 0) {
        add_text(line);
    }
}

/* A label of eight letters, another one for each number. */
static void add_name(uint32_t number)
{
    for (unsigned i = 0; i < 8; i++, number /= 26) {
        source[source_len++] = (uint8_t)('a' + number % 26);
    }
}

static uint64_t assemble_source(size_t room)
{
    return assemble_bytes(source, source_len, room);
}

/* What fits no field, from the next value on and where a value would wrap to one that fits. */
static void test_values(void)
{
    static const char *const lines[] = {
        "MOV R0, #256", "CMP R7, #256", "HALT #256", "STRB R0, [R1, #32]", "LDRB R0, [R1, #32]",
        "STR R0, [R1, #128]", "LDR R0, [R1, #128]", "ADD R0, PC, #1024", "MOV R0, #999",
        /* in fours */
        "STR R0, [R1, #1]", "LDR R0, [R1, #2]", "STR R0, [R1, #3]", "LDR R0, [R1, #122]",
        "STR R0, [R1, #125]", "ADD R0, PC, #2", "ADD R0, PC, #1018", "ADD R0, PC, #1021",
        /* 2 to the 16, 32, 64 and 128, and 4 more */
        "HALT #65536", "MOV R0, #4294967296", "CMP R0, #18446744073709551616",
        "STR R0, [R1, #65540]", "LDR R0, [R1, #4294967300]", "STRB R0, [R1, #18446744073709551620]",
        "ADD R0, PC, #18446744073709551620", "HALT #340282366920938463463374607431768211456",
    };
    for (size_t i = 0; i < sizeof lines / sizeof lines[0]; i++) {
        refuse_line(lines[i], PAW_SOURCE_VALUE);
    }
}

/* 6,000 digits: all of them nines, and a power of ten, of which any power of two leaves 0. */
static void test_long_numbers(void)
{
    static const char *const starts[] = {"HALT #", "MOV R3, #", "ADD R1, PC, #", "LDRB R1, [R2, #"};
    for (size_t i = 0; i < sizeof starts / sizeof starts[0]; i++) {
        for (unsigned nines = 0; nines < 2; nines++) {
            begin_source();
            add_text("HALT #0\n");
            add_text(starts[i]);
            add_text(nines ? "9" : "1");
            add_lines(nines ? "9" : "0", 5999);
            add_text(i == 3 ? "]\n" : "\n");
            expect_refused(assemble_source(ROOM), PAW_SOURCE_VALUE, 2);
            source_len -= 1; /* the line feed */
            expect_refused(assemble_source(ROOM), PAW_SOURCE_LINE, 2);
        }
    }
}

/* Branches over so many instructions, ahead and back. Labels on the way take no room. */
static void test_reach(void)
{
    for (size_t n = 1; n <= 300; n++) {
        begin_source();
        add_text("BEQ there\na:\nb:\n");
        add_lines("HALT #0\n", n - 1);
        add_text("c:\nthere:\nHALT #1\n");
        if (n <= 127) {
            expect_assembled(assemble_source(ROOM), n + 1);
            EXPECT(assembled[0] == (0xD000 | n) && assembled[n] == 0x0001);
        } else {
            expect_refused(assemble_source(ROOM), PAW_SOURCE_VALUE, 1);
        }
        begin_source();
        add_text("HALT #0\nthere:\na:\n");
        add_lines("HALT #0\n", n);
        uint64_t line = next_line;
        add_text("BLE there\nc:\n");
        if (n <= 128) {
            expect_assembled(assemble_source(ROOM), n + 2);
            EXPECT(assembled[n + 1] == (0xDD00 | (256 - n)));
        } else {
            expect_refused(assemble_source(ROOM), PAW_SOURCE_VALUE, line);
        }
    }
}

static void test_labels(void)
{
    refuse("a:\nHALT #0\na:\n", PAW_SOURCE_LABEL, 3);
    refuse("BEQ b\nHALT #0\n", PAW_SOURCE_LABEL, 1);
    refuse("BEQ b\na:\na:\nHALT #0\n", PAW_SOURCE_LABEL, 1);
    refuse("a:\na:\nBEQ b\nHALT #0\n", PAW_SOURCE_LABEL, 2);
    refuse("a:\nb:\nb:\na:\nHALT #0\n", PAW_SOURCE_LABEL, 3);
    refuse("abcdefg:\nBEQ abcdefgh\n", PAW_SOURCE_LABEL, 2);
    refuse("a1:\nBEQ a01\n", PAW_SOURCE_LABEL, 2); /* labels are no numbers */

    expect_assembled(assemble("a:\naa:\na0:\na00:\nabcdefgh:\nHALT #0\nBEQ abcdefgh\nb:\n"), 2);
    EXPECT(assembled[0] == 0x0000 && assembled[1] == 0xD0FF);
    expect_assembled(assemble("z9999999:\nBNE z9999999\n"), 1);
    EXPECT(assembled[0] == 0xD100);

    /* behind the last instruction: assembled, and refused by those who ask where it goes */
    expect_assembled(assemble("BEQ end\nHALT #0\nend:\n"), 2);
    EXPECT(assembled[0] == 0xD002);
    EXPECT(paw_list(assembled, 2, listing, sizeof listing) == PAW_BRANCH_TARGET);

    /* a branch goes to the first definition, and is measured to it */
    begin_source();
    add_text("a:\n");
    add_lines("HALT #0\n", 129);
    add_text("BEQ a\na:\nHALT #0\n");
    expect_refused(assemble_source(ROOM), PAW_SOURCE_VALUE, 131);
}

/* More labels than there may be instructions, above one of these, then one of them again. */
static void test_many_labels(void)
{
    enum { MANY = 32600 }; /* a few more than the library's table holds, which takes its time */
    static const uint32_t twice[] = {0, MANY - 1};
    begin_source();
    for (uint32_t i = 0; i < MANY; i++) {
        add_name(i);
        add_text(":\n");
    }
    add_text("HALT #0\n");
    size_t len = source_len;
    expect_assembled(assemble_source(1), 1);
    for (size_t i = 0; i < sizeof twice / sizeof twice[0]; i++) {
        source_len = len;
        add_text("BEQ ");
        add_name(twice[i]);
        add_text("\n");
        expect_assembled(assemble_source(2), 2);
        EXPECT(assembled[1] == 0xD0FF);
        add_name(twice[i]);
        add_text(":\n");
        expect_refused(assemble_source(2), PAW_SOURCE_LABEL, MANY + 3);
    }
    source_len = len;
    add_text("BEQ ");
    add_name(MANY);
    add_text("\n");
    expect_refused(assemble_source(2), PAW_SOURCE_LABEL, MANY + 2);
}

/* 21 over the whole text, then 15, then 22 and 23 by line, then 16. */
static void test_order(void)
{
    refuse("", PAW_CODE_LENGTH, 0);
    refuse("a:\n", PAW_CODE_LENGTH, 0);
    refuse("a:\na:\n", PAW_CODE_LENGTH, 0);
    refuse("HALT #256\nBEQ b\na:\na:\nbad\n", PAW_SOURCE_LINE, 5);
    refuse("HALT #256\na:\na:\nBEQ b\n", PAW_SOURCE_VALUE, 1);
    refuse("a:\na:\nHALT #256\nBEQ b\n", PAW_SOURCE_LABEL, 2);
    refuse("BEQ b\na:\na:\nHALT #256\n", PAW_SOURCE_LABEL, 1);
    refuse("a:\nHALT #0\nHALT #256\nBEQ b\n", PAW_SOURCE_VALUE, 3);

    const uint8_t *two = (const uint8_t *)"HALT #0\nHALT #1\n";
    const uint8_t *bad = (const uint8_t *)"HALT #256\n";
    expect_refused(assemble_bytes(two, 16, 0), PAW_OUTPUT_LENGTH, 0);
    expect_refused(assemble_bytes(two, 16, 1), PAW_OUTPUT_LENGTH, 0);
    expect_assembled(assemble_bytes(two, 16, 2), 2);
    expect_assembled(assemble_bytes(two, 16, 3), 2);
    expect_refused(assemble_bytes(bad, 10, 0), PAW_SOURCE_VALUE, 1);
    expect_refused(assemble_bytes(bad, 9, 0), PAW_SOURCE_LINE, 1);
    expect_refused(assemble_bytes(bad, 0, 0), PAW_CODE_LENGTH, 0);
}

/* As many instructions as there may be, each with a label, and one more. */
static void test_longest_texts(void)
{
    begin_source();
    for (uint32_t i = 0; i < PAW_MAX_CODE; i++) {
        add_name(i);
        add_text(":\nBEQ ");
        add_name(i < 128 ? 0 : i - 128);
        add_text("\n");
    }
    add_text("end:\n");
    const size_t len = source_len;
    const uint64_t lines = next_line - 1;
    expect_assembled(assemble_source(ROOM), PAW_MAX_CODE);
    for (size_t i = 0; i < PAW_MAX_CODE; i++) {
        EXPECT(assembled[i] == (i < 128 ? 0xD000 | ((256 - i) & 255) : 0xD080));
    }
    expect_refused(assemble_source(ROOM - 1), PAW_OUTPUT_LENGTH, 0);

    add_text("BEQ nowhere\n");
    expect_refused(assemble_source(ROOM), PAW_CODE_LENGTH, 0);
    add_text("HALT #256\nBEQ end\nend:\nhalt\n");
    expect_refused(assemble_source(ROOM), PAW_SOURCE_LINE, lines + 5);

    source_len = len;
    add_text("end:\n");
    expect_refused(assemble_source(ROOM), PAW_SOURCE_LABEL, lines + 1);
}

/* Refusals of the lister, and its room: exactly enough, a byte less, and more. */
static void test_listing(void)
{
    static const uint16_t undefined[] = {0x2000, 0x0100}, past[] = {0xD001};
    static const uint16_t back[] = {0xD0FF, 0x0000}; /* to the address before 0 */
    static const uint16_t both[] = {0xD005, 0x0100}, other_way[] = {0x0100, 0xD0FF};
    EXPECT(list(code, 0, ROOM) == PAW_CODE_LENGTH);
    EXPECT(list(assembled, PAW_MAX_CODE + 1, ROOM) == PAW_CODE_LENGTH);
    EXPECT(list(undefined, 2, ROOM) == (PAW_UNDEFINED | 2 << 16));
    EXPECT(list(undefined, 1, ROOM) == (uint64_t)11 << 16);
    EXPECT(list(past, 1, ROOM) == PAW_BRANCH_TARGET);
    EXPECT(list(back, 2, ROOM) == PAW_BRANCH_TARGET);
    EXPECT(list(both, 2, ROOM) == PAW_BRANCH_TARGET);
    EXPECT(list(other_way, 2, ROOM) == PAW_UNDEFINED);
    EXPECT(paw_listed_address(list(undefined, 2, 0)) == 2);

    const size_t bytes = sizeof text_of_p - 1;
    EXPECT(list(code, CODE_LEN, 0) == PAW_OUTPUT_LENGTH);
    EXPECT(list(code, CODE_LEN, bytes - 1) == PAW_OUTPUT_LENGTH);
    EXPECT(list(code, CODE_LEN, bytes + 1) == (uint64_t)bytes << 16);
    EXPECT(paw_listed_bytes(list(code, CODE_LEN, sizeof listing)) == bytes);
    EXPECT(memcmp(listing, text_of_p, bytes) == 0);
}

/* Every halfword between two rows of others: what is listed gives it back. */
static void test_listing_halfwords(void)
{
    enum { ROW = 128, LEN = 2 * ROW };
    static uint16_t row[LEN];
    for (uint32_t halfword = 0; halfword <= 0xFFFF; halfword++) {
        row[ROW] = (uint16_t)halfword;
        uint64_t answer = paw_list(row, LEN, listing, sizeof listing);
        if (paw_decode(row[ROW]) == PAW_KIND_NONE) {
            EXPECT(answer == (PAW_UNDEFINED | 2 * ROW << 16));
        } else {
            EXPECT(paw_listed_number(answer) == PAW_OK);
            EXPECT(assemble_bytes(listing, paw_listed_bytes(answer), LEN) == LEN << 16);
            EXPECT(memcmp(assembled, row, sizeof row) == 0);
        }
    }
}

/* Long codes of every kind, with branches within them: the listing gives them back. */
static void test_round_trip(void)
{
    static uint16_t long_code[PAW_MAX_CODE];
    static const size_t lengths[] = {1, 2, 249, 5001, PAW_MAX_CODE};
    uint32_t state = 1;
    for (size_t i = 0; i < sizeof lengths / sizeof lengths[0]; i++) {
        const size_t len = lengths[i];
        for (size_t k = 0; k < len;) {
            state = state * 1664525 + 1013904223;
            const uint16_t h = (uint16_t)(state >> 16);
            const size_t target = k + (size_t)(int8_t)h;
            if (paw_decode(h) != PAW_KIND_NONE && (h >> 12 != 0xD || target < len)) {
                long_code[k++] = h;
            }
        }
        uint64_t answer = list(long_code, len, paw_listing_room(len));
        EXPECT(paw_listed_number(answer) == PAW_OK);
        expect_assembled(assemble_bytes(listing, paw_listed_bytes(answer), len), len);
        EXPECT(memcmp(assembled, long_code, 2 * len) == 0);
    }
}

/* The longest listings: of stores, and of branches that each have a label. */
static void test_longest_listings(void)
{
    static uint16_t long_code[PAW_MAX_CODE];
    EXPECT(paw_listing_room(PAW_MAX_CODE) == PAW_MAX_LISTING);
    for (size_t i = 0; i < PAW_MAX_CODE; i++) {
        long_code[i] = 0x77FF; /* STRB R7, [R7, #31] */
    }
    uint64_t answer = list(long_code, PAW_MAX_CODE, PAW_MAX_LISTING);
    EXPECT(paw_listed_number(answer) == PAW_OK && paw_listed_bytes(answer) == PAW_MAX_LISTING);
    EXPECT(list(long_code, PAW_MAX_CODE, PAW_MAX_LISTING - 1) == PAW_OUTPUT_LENGTH);

    for (size_t i = 0; i < PAW_MAX_CODE; i++) {
        long_code[i] = 0xD000; /* BEQ, to itself */
    }
    answer = list(long_code, PAW_MAX_CODE, PAW_MAX_LISTING);
    /* 19 bytes for five digits of the address, 17 for four, and so on; the even ones of each */
    EXPECT(paw_listed_bytes(answer) == 19 * 10936 + 17 * 4500 + 15 * 450 + 13 * 45 + 11 * 5);
    expect_assembled(assemble_bytes(listing, paw_listed_bytes(answer), ROOM), PAW_MAX_CODE);
    EXPECT(memcmp(assembled, long_code, sizeof long_code) == 0);
}

/* Answers with as much in them as there may be, and what they say in words. */
static void test_source_answers(void)
{
    const uint64_t last_line = UINT64_MAX << 16 | PAW_SOURCE_LABEL;
    EXPECT(paw_assembled_number(last_line) == PAW_SOURCE_LABEL);
    EXPECT(paw_assembled_line(last_line) == ((uint64_t)1 << 48) - 1);
    EXPECT(paw_assembled_halfwords((uint64_t)PAW_MAX_CODE << 16) == PAW_MAX_CODE);
    EXPECT(paw_listed_bytes((uint64_t)PAW_MAX_LISTING << 16) == PAW_MAX_LISTING);
    EXPECT(paw_listed_address(PAW_UNDEFINED | (uint64_t)31870 << 16) == 31870);

    static const uint32_t numbers[] = {PAW_OK, PAW_UNDEFINED, PAW_BRANCH_TARGET, PAW_CODE_LENGTH,
                                       PAW_OUTPUT_LENGTH, PAW_SOURCE_LINE, PAW_SOURCE_LABEL,
                                       PAW_SOURCE_VALUE};
    for (size_t i = 0; i < sizeof numbers / sizeof numbers[0]; i++) {
        const uint64_t answer = numbers[i] | (uint64_t)7 << 16;
        const bool room = numbers[i] == PAW_OUTPUT_LENGTH, length = numbers[i] == PAW_CODE_LENGTH;
        const char *words = paw_text(numbers[i]);
        EXPECT((strcmp(paw_assembled_reason(answer), words) == 0) == !(room || length));
        EXPECT((strcmp(paw_listed_reason(answer), words) == 0) == !room);
    }
    EXPECT(strcmp(paw_assembled_reason(assemble("")),
                  "the text does not have 1 to 15,936 instructions") == 0);
    EXPECT(strcmp(paw_assembled_reason(PAW_OUTPUT_LENGTH),
                  "the output is too short for the code") == 0);
    EXPECT(strcmp(paw_listed_reason(list(code, CODE_LEN, 1)),
                  "the output is too short for the listing") == 0);
}

int main(void)
{
    test_version();
    test_texts();
    test_condition_names();
    test_conditions();
    test_branching();
    test_kinds();
    test_offsets();
    test_instructions();
    test_halts();
    test_defined();
    test_packing();
    test_checking();
    test_summing();
    test_reading();
    test_verifying();
    test_verifying_notes();
    test_loading();
    test_running();
    test_stops();
    test_notes_of_steps();
    test_notes_of_runs();
    test_notes_left();
    test_notes_of_halfwords();
    test_two_endings();
    test_touched_texts();
    test_touched_addresses();
    test_touched_by_runs();
    test_touched_by_p();
    test_forms();
    test_branch_lines();
    test_no_lines();
    test_bytes();
    test_line_feeds();
    test_values();
    test_long_numbers();
    test_reach();
    test_labels();
    test_many_labels();
    test_order();
    test_longest_texts();
    test_listing();
    test_listing_halfwords();
    test_round_trip();
    test_longest_listings();
    test_source_answers();
    if (failures == 0) {
        printf("firmware in " LANGUAGE
               ": P assembles, lists, packs, verifies, loads and runs through paw.h\n");
    }
    return failures != 0;
}
