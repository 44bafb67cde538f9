/*
 * A run by tail calls: each instruction is a function that ends by a jump to the next one's, by a
 * table of 1,024 functions for the upper ten bits. What every instruction needs goes in argument
 * registers; the operands of carry and overflow lie in memory, where they are written often and
 * read seldom. clang is told to make jumps; gcc makes them from -O2 on, and without them a long run
 * would use up the stack. Link with -no-pie, or each jump pays for finding the table.
 */
#include "carry.h"
#include "kinds.h"
#include "result.h"

struct state {
    uint16_t regs[16];
    struct carry carry;
    struct last_access last;
    uint32_t number;
    uint8_t note;
};

/* What a run leaves in registers; the rest is in the state. */
struct left_over {
    uint32_t left, nz;
};

#define UNUSED __attribute__((unused))
#define PARAMETERS                                                                                \
    struct state *s, uint8_t *mem UNUSED, uint64_t pc, uint64_t left, uint64_t h UNUSED, uint64_t nz
#define ARGUMENTS s, mem, pc, left, h, nz

typedef struct left_over handler(PARAMETERS);
static handler *const handlers[1024];

#ifdef __clang__
#define TAIL_CALL __attribute__((musttail)) return
#else
#define TAIL_CALL return
#endif

__attribute__((noinline)) static struct left_over end(struct state *s, uint64_t pc, uint64_t left,
                                                      uint64_t nz, uint32_t number)
{
    s->regs[15] = (uint16_t)pc;
    s->number = number;
    return (struct left_over){ (uint32_t)left, (uint32_t)nz };
}

#define OP(kind) static struct left_over kind(PARAMETERS)
#define REG(i) s->regs[i]
#define SHOW_PC (s->regs[15] = (uint16_t)pc)
#define NZ(x) (nz = (x))
#define ADD(a, b) add(&s->carry, a, b)
#define SUBTRACT(a, b) subtract(&s->carry, a, b)
#define SHIFT(a, k) shift(&s->carry, a, k)
#define FLAG_N RESULT_N(nz)
#define FLAG_Z RESULT_Z(nz)
#define FLAG_C carried(&s->carry)
#define FLAG_V overflowed(&s->carry)
#define TOUCH(touch, address)                                                                     \
    (s->last = (struct last_access){ touched_as(touch, address), (uint32_t)left })
#define STOP(number) return end(s, pc, left, nz, number)
#define HALT_WITH(low)                                                                            \
    {                                                                                             \
        s->note = (uint8_t)(low);                                                                 \
        STOP(PAW_HALT);                                                                           \
    }
#define JUMP(to)                                                                                  \
    {                                                                                             \
        pc = (to);                                                                                \
        if (UNLIKELY(--left == 0))                                                                \
            return end(s, pc, left, nz, PAW_SPENT);                                               \
        h = get16(mem + pc);                                                                      \
        TAIL_CALL handlers[h >> 6](ARGUMENTS);                                                    \
    }
#define NEXT JUMP((uint16_t)(pc + 2))
#define WRITE_PC(to)                                                                              \
    {                                                                                             \
        if (UNLIKELY((to)&1))                                                                     \
            return end(s, to, left - 1, nz, left == 1 ? PAW_SPENT : PAW_STOP_ODD_PC);             \
        JUMP(to);                                                                                 \
    }

#include "instructions.h"

OP(UNDEFINED)
{
    STOP(PAW_STOP_UNDEFINED);
}

#define ENTRY(name, first, last) [first ... last] = name,
#define HOLE(first, last) [first ... last] = UNDEFINED,
static handler *const handlers[1024] = { KINDS(ENTRY) HOLES(HOLE) };

uint64_t PEER(tail_run)(struct paw_machine *m, uint8_t *mem, size_t len, uint32_t budget)
{
    if (len != PAW_MEMORY_BYTES)
        return PAW_MEMORY_SIZE;
    if (budget == 0)
        return PAW_SPENT;
    uint64_t pc = m->regs[15];
    if (UNLIKELY(pc & 1))
        return PAW_STOP_ODD_PC;
    struct state s;
    memcpy(s.regs, m->regs, sizeof s.regs);
    s.carry = carry_of(m->c, m->v);
    s.last = (struct last_access){ 0, 0 };
    s.note = m->note;
    uint64_t h = get16(mem + pc);
    struct left_over last = handlers[h >> 6](&s, mem, pc, budget, h, result_of(m->n, m->z));
    memcpy(m->regs, s.regs, sizeof s.regs);
    m->n = RESULT_N(last.nz);
    m->z = RESULT_Z(last.nz);
    m->c = carried(&s.carry);
    m->v = overflowed(&s.carry);
    m->note = s.note;
    return run_answer(s.number, budget, last.left, &s.last);
}
