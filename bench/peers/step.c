/* One step by a switch, on the caller's own record: nothing is copied, flags are set at once. */
#include "carry.h"
#include "dispatch.h"

static inline uint32_t set_nz(struct paw_machine *m, uint32_t result)
{
    m->n = result >= 0x8000;
    m->z = result == 0;
    return result;
}

static inline uint32_t set_cv(struct paw_machine *m, const struct carry *carry, uint32_t result)
{
    m->c = carried(carry);
    m->v = overflowed(carry);
    return result;
}

static inline uint32_t add_now(struct paw_machine *m, uint32_t a, uint32_t b)
{
    struct carry carry;
    uint32_t sum = add(&carry, a, b);
    return set_cv(m, &carry, sum);
}

static inline uint32_t subtract_now(struct paw_machine *m, uint32_t a, uint32_t b)
{
    struct carry carry;
    uint32_t difference = subtract(&carry, a, b);
    return set_cv(m, &carry, difference);
}

static inline uint32_t shift_now(struct paw_machine *m, uint32_t a, uint32_t k)
{
    struct carry carry = carry_of(m->c, false);
    uint32_t shifted = shift(&carry, a, k);
    m->c = carried(&carry);
    return shifted;
}

#define OP(kind) IS(kind) :
#define REG(i) regs[i]
#define SHOW_PC (void)0 /* it is there all the time */
#define NZ(x) set_nz(m, x)
#define ADD(a, b) add_now(m, a, b)
#define SUBTRACT(a, b) subtract_now(m, a, b)
#define SHIFT(a, k) shift_now(m, a, k)
#define FLAG_N (m->n)
#define FLAG_Z (m->z)
#define FLAG_C (m->c)
#define FLAG_V (m->v)
#define TOUCH(touch, address) (touched = touched_as(touch, address))
#define NEXT break
#define JUMP(to)                                                                                  \
    {                                                                                             \
        next = (to);                                                                              \
        break;                                                                                    \
    }
#define WRITE_PC(to) JUMP(to)
#define STOP(number) return number
#define HALT_WITH(low)                                                                            \
    {                                                                                             \
        m->note = (uint8_t)(low);                                                                 \
        STOP(PAW_HALT);                                                                           \
    }

uint32_t PEER(step)(struct paw_machine *m, uint8_t *mem, size_t len)
{
    if (len != PAW_MEMORY_BYTES)
        return PAW_MEMORY_SIZE;
    uint16_t *regs = m->regs;
    uint32_t pc = regs[15];
    if (UNLIKELY(pc & 1))
        return PAW_STOP_ODD_PC;
    uint32_t h = get16(mem + pc);
    uint32_t next = pc + 2;
    uint32_t touched = 0;
    switch (DISPATCH(h)) {
#include "instructions.h"
    IS_UNDEFINED
        return PAW_STOP_UNDEFINED;
    default:
        __builtin_unreachable();
    }
    regs[15] = (uint16_t)next;
    return PAW_COMPLETED | touched;
}
