/*
 * The code of a text, in one pass over its lines. An instruction becomes its halfword at once, a
 * label goes into a table, and a branch waits until all labels are known. All that is kept beside
 * the output, which is written when nothing can be refused any more.
 */
#include "labels.h"
#include "source.h"

enum {
    SHORTEST_LINE = 6, /* of an instruction: BEQ a */
    SMALL_ROOM = 8192, /* bytes for which the heap is not asked: a text of 200 lines or so */
};

#define MOST_LINE (((uint64_t)1 << 48) - 1) /* that an answer can tell */

struct branch {
    uint64_t label;
    uint64_t line;
    uint32_t number; /* of the instruction */
};

struct program {
    uint16_t *code;
    struct branch *branches; /* `waiting` of them */
    size_t count, waiting;
    uint64_t refused; /* the first refusal by 22 or 23 of a line that is no branch, or 0 */
    struct labels labels;
    void *heap; /* where all of that is, if it is much */
    uint64_t small[SMALL_ROOM / sizeof(uint64_t)];
};

/* What a line says. */
struct line {
    uint32_t halfword; /* of a branch, without its offset */
    bool fits;         /* the value, if there is one */
    uint64_t label;
};

enum form { NONE, LABEL, BRANCH, OTHER };

static uint64_t refused_at(unsigned number, uint64_t line)
{
    return number | (line < MOST_LINE ? line : MOST_LINE) << 16;
}

/* AND to CMP of two low registers. */
static inline uint32_t low_halfword(uint32_t operation, uint32_t rd, uint32_t rs)
{
    return 0x4000 | operation << 6 | rs << 3 | rd;
}

/* ADD, CMP and MOV of any two registers. */
static inline uint32_t any_halfword(uint32_t operation, uint32_t rd, uint32_t rs)
{
    return 0x4400 | operation << 8 | (rd & 8) << 4 | rs << 3 | (rd & 7);
}

/* Operands, and the end of the line ---------------------------------------------------------- */

static inline enum form low_pair(text *at, uint32_t operation, struct line *line)
{
    uint32_t rd, rs;
    if (!(take_low(at, &rd) && take_comma(at) && take_low(at, &rs) && take_end(at)))
        return NONE;
    line->halfword = low_halfword(operation, rd, rs);
    return OTHER;
}

/* The second register of ADD or MOV. */
static inline enum form second(text *at, uint32_t operation, uint32_t rd, struct line *line)
{
    uint32_t rs;
    if (!(take_any(at, &rs) && take_end(at)))
        return NONE;
    line->halfword = any_halfword(operation, rd, rs);
    return OTHER;
}

/* The same of CMP, which has a halfword of its own for two low registers. */
static inline enum form second_of_compare(text *at, uint32_t rd, struct line *line)
{
    uint32_t rs;
    if (!(take_any(at, &rs) && take_end(at)))
        return NONE;
    line->halfword = rd < 8 && rs < 8 ? low_halfword(5, rd, rs) : any_halfword(1, rd, rs);
    return OTHER;
}

/* The immediate of MOV or CMP. */
static inline enum form immediate(text *at, uint32_t operation, uint32_t rd, struct line *line)
{
    uint32_t n;
    if (!(rd < 8 && take_number(at, &n) && take_end(at)))
        return NONE;
    line->halfword = 0x2000 | operation << 11 | rd << 8 | n;
    line->fits = n <= 255;
    return OTHER;
}

static inline enum form move(text *at, struct line *line)
{
    uint32_t rd;
    if (!(take_any(at, &rd) && take_comma(at)))
        return NONE;
    return **at == '#' ? immediate(at, 0, rd, line) : second(at, 2, rd, line);
}

static inline enum form compare(text *at, struct line *line)
{
    uint32_t rd;
    if (!(take_any(at, &rd) && take_comma(at)))
        return NONE;
    return **at == '#' ? immediate(at, 1, rd, line) : second_of_compare(at, rd, line);
}

static inline enum form add_pc(text *at, uint32_t rd, struct line *line)
{
    uint32_t n;
    if (!(rd < 8 && take_two(at, 'P', 'C') && take_comma(at) && take_number(at, &n) &&
          take_end(at)))
        return NONE;
    line->halfword = 0xa000 | rd << 8 | n / 4;
    line->fits = n <= 1020 && n % 4 == 0;
    return OTHER;
}

static inline enum form add(text *at, struct line *line)
{
    uint32_t rd;
    if (!(take_any(at, &rd) && take_comma(at)))
        return NONE;
    return **at == 'P' ? add_pc(at, rd, line) : second(at, 0, rd, line);
}

/* STR or LDR, whose three letters are read: B may come next. */
static inline enum form transfer(text *at, uint32_t load, struct line *line)
{
    uint32_t rd, rb, n, byte = take(at, 'B');
    if (!(take(at, ' ') && take_low(at, &rd) && take_comma(at) && take(at, '[') &&
          take_low(at, &rb) && take_comma(at) && take_number(at, &n) && take(at, ']') &&
          take_end(at)))
        return NONE;
    uint32_t field = byte ? n : n / 4;
    line->halfword = 0x6000 | byte << 12 | load << 11 | field << 6 | rb << 3 | rd;
    line->fits = field <= 31 && (byte || n % 4 == 0);
    return OTHER;
}

static inline enum form branch(text *at, struct line *line)
{
    uint32_t condition;
    if (!(take_condition(at, &condition) && take(at, ' ') && take_name(at, &line->label) &&
          take_end(at)))
        return NONE;
    line->halfword = 0xd000 | condition << 8;
    return BRANCH;
}

static inline enum form halt(text *at, struct line *line)
{
    uint32_t n;
    if (!(take_number(at, &n) && take_end(at)))
        return NONE;
    line->halfword = n;
    line->fits = n <= 255;
    return OTHER;
}

static inline enum form label(text *at, struct line *line)
{
    return take_name(at, &line->label) && take_two(at, ':', '\n') ? LABEL : NONE;
}

/* Lines -------------------------------------------------------------------------------------- */

/* The two letters that a name of three goes on with, and the space behind it. */
static inline bool goes_on(text *at, char second, char third)
{
    return take_two(at, second, third) && take(at, ' ');
}

/* A line that starts with A: ADD, AND or ASR. */
static inline enum form line_of_a(text *at, struct line *line)
{
    switch (**at) {
    case 'D':
        return goes_on(at, 'D', 'D') ? add(at, line) : NONE;
    case 'N':
        return goes_on(at, 'N', 'D') ? low_pair(at, 0, line) : NONE;
    default:
        return goes_on(at, 'S', 'R') ? low_pair(at, 2, line) : NONE;
    }
}

/* Takes a line off the text, by its first letter. */
static inline enum form take_line(text *at, struct line *line)
{
    line->fits = true;
    switch (*(*at)++) {
    case 'a' ... 'z':
        --*at;
        return label(at, line);
    case 'A':
        return line_of_a(at, line);
    case 'B':
        return branch(at, line);
    case 'C':
        return goes_on(at, 'M', 'P') ? compare(at, line) : NONE;
    case 'E':
        return goes_on(at, 'O', 'R') ? low_pair(at, 1, line) : NONE;
    case 'H':
        return take_two(at, 'A', 'L') && take_two(at, 'T', ' ') ? halt(at, line) : NONE;
    case 'L':
        return take_two(at, 'D', 'R') ? transfer(at, 1, line) : NONE;
    case 'M':
        return goes_on(at, 'O', 'V') ? move(at, line) : NONE;
    case 'N':
        return goes_on(at, 'E', 'G') ? low_pair(at, 4, line) : NONE;
    case 'S':
        return take_two(at, 'T', 'R') ? transfer(at, 0, line) : NONE;
    case 'T':
        return goes_on(at, 'S', 'T') ? low_pair(at, 3, line) : NONE;
    default:
        return NONE;
    }
}

/* Keeps the first refusal; lines come from the top. */
static inline void refuse(struct program *program, unsigned number, uint64_t line)
{
    if (program->refused == PAW_OK)
        program->refused = refused_at(number, line);
}

/*
 * Reads all lines, answers PAW_OK or a refusal by 21, and leaves in the program what is to be said
 * of the others. Behind PAW_MAX_CODE instructions, lines are no more than looked at.
 */
static uint64_t read_lines(struct program *program, text at, size_t text_len)
{
    size_t whole = text_len; /* up to the last line feed */
    while (whole != 0 && at[whole - 1] != '\n')
        whole--;
    text end = at + whole;
    uint64_t number = 0;
    size_t count = 0, waiting = 0;
    while (at != end) {
        struct line line;
        enum form form = take_line(&at, &line);
        number++;
        if (UNLIKELY(form == NONE))
            return refused_at(PAW_SOURCE_LINE, number);
        if (form == LABEL) {
            if (UNLIKELY(!define(&program->labels, line.label, count)))
                refuse(program, PAW_SOURCE_LABEL, number);
            continue;
        }
        if (UNLIKELY(!line.fits))
            refuse(program, PAW_SOURCE_VALUE, number);
        if (UNLIKELY(count >= PAW_MAX_CODE)) {
            count = PAW_MAX_CODE + 1;
            continue;
        }
        if (form == BRANCH)
            program->branches[waiting++] = (struct branch){ line.label, number, (uint32_t)count };
        program->code[count++] = (uint16_t)line.halfword;
    }
    program->count = count;
    program->waiting = waiting;
    return whole == text_len ? PAW_OK : refused_at(PAW_SOURCE_LINE, number + 1);
}

/* The program --------------------------------------------------------------------------------- */

/* Room for all that a text of so many bytes can say, in one piece. */
static void begin_program(struct program *program, size_t text_len)
{
    size_t most = text_len / SHORTEST_LINE;
    most = most < PAW_MAX_CODE ? most : PAW_MAX_CODE;
    unsigned bits = bits_for(text_len);
    size_t bytes = (sizeof *program->branches + sizeof *program->code) * most + slot_bytes(bits);
    program->heap = NULL;
    if (bytes > sizeof program->small) {
        program->heap = malloc(bytes);
        if (program->heap == NULL)
            abort();
    }
    program->branches = program->heap != NULL ? program->heap : program->small;
    begin_labels(&program->labels, program->branches + most, bits);
    program->code = (uint16_t *)((uint8_t *)(program->branches + most) + slot_bytes(bits));
    program->refused = PAW_OK;
}

static void end_program(struct program *program)
{
    end_labels(&program->labels);
    free(program->heap);
}

/* Gives a branch its offset, or answers the refusal. */
static inline uint64_t send(struct program *program, const struct branch *branch)
{
    uint32_t place;
    if (UNLIKELY(!find(&program->labels, branch->label, &place)))
        return refused_at(PAW_SOURCE_LABEL, branch->line);
    uint32_t offset = place - branch->number;
    if (UNLIKELY(offset + 128 > 255))
        return refused_at(PAW_SOURCE_VALUE, branch->line);
    program->code[branch->number] |= (uint16_t)(offset & 255);
    return PAW_OK;
}

/* Gives all branches their offsets. Answers the first refusal by 22 or 23 of any line. */
static uint64_t send_branches(struct program *program)
{
    for (size_t i = 0; i < program->waiting; i++) {
        uint64_t refused = send(program, &program->branches[i]);
        if (UNLIKELY(refused != PAW_OK)) {
            bool first = program->refused == PAW_OK || refused >> 16 < program->refused >> 16;
            return first ? refused : program->refused;
        }
    }
    return program->refused;
}

static uint64_t assemble(struct program *program, text source, size_t text_len, size_t code_len)
{
    uint64_t refused = read_lines(program, source, text_len);
    if (refused != PAW_OK)
        return refused;
    if (program->count < 1 || program->count > PAW_MAX_CODE)
        return PAW_CODE_LENGTH;
    refused = send_branches(program);
    if (refused != PAW_OK)
        return refused;
    return code_len < program->count ? PAW_OUTPUT_LENGTH : (uint64_t)program->count << 16;
}

uint64_t PEER(assemble)(const uint8_t *source, size_t text_len, uint16_t *code, size_t code_len)
{
    struct program program;
    begin_program(&program, text_len);
    uint64_t answer = assemble(&program, source, text_len, code_len);
    if (paw_assembled_number(answer) == PAW_OK)
        memcpy(code, program.code, sizeof *code * program.count);
    end_program(&program);
    return answer;
}
