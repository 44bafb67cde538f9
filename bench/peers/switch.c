/*
 * A run by a switch: registers are copied, flags are worked out where they are asked for, and the
 * PC is looked at for oddness only where it can become odd, at the start and after a write to R15.
 */
#include "carry.h"
#include "dispatch.h"
#include "result.h"

#define OP(kind) IS(kind) :
#define REG(i) regs[i]
#define SHOW_PC (regs[15] = pc)
#define NZ(x) (nz = (x))
#define ADD(a, b) add(&carry, a, b)
#define SUBTRACT(a, b) subtract(&carry, a, b)
#define SHIFT(a, k) shift(&carry, a, k)
#define FLAG_N RESULT_N(nz)
#define FLAG_Z RESULT_Z(nz)
#define FLAG_C carried(&carry)
#define FLAG_V overflowed(&carry)
#define TOUCH(touch, address) (last = (struct last_access){ touched_as(touch, address), left })
#define NEXT break
#define JUMP(to)                                                                                  \
    {                                                                                             \
        pc = (to);                                                                                \
        continue;                                                                                 \
    }
#define WRITE_PC(to)                                                                              \
    {                                                                                             \
        pc = (to);                                                                                \
        goto written;                                                                             \
    }
#define STOP(how)                                                                                 \
    {                                                                                             \
        number = (how);                                                                           \
        goto end;                                                                                 \
    }
#define HALT_WITH(low)                                                                            \
    {                                                                                             \
        m->note = (uint8_t)(low);                                                                 \
        STOP(PAW_HALT);                                                                           \
    }

uint64_t PEER(switch_run)(struct paw_machine *m, uint8_t *mem, size_t len, uint32_t budget)
{
    if (len != PAW_MEMORY_BYTES)
        return PAW_MEMORY_SIZE;
    uint16_t regs[16];
    memcpy(regs, m->regs, sizeof regs);
    uint32_t nz = result_of(m->n, m->z);
    struct carry carry = carry_of(m->c, m->v);
    uint32_t pc = regs[15];
    uint32_t left = budget;
    uint32_t number = PAW_SPENT;
    struct last_access last = { 0, 0 };
    if (UNLIKELY(pc & 1)) {
        if (left != 0)
            number = PAW_STOP_ODD_PC;
        goto end;
    }
    for (; left != 0; left--) {
        uint32_t h = get16(mem + pc);
        switch (DISPATCH(h)) {
#include "instructions.h"
        IS_UNDEFINED
            STOP(PAW_STOP_UNDEFINED);
        default:
            __builtin_unreachable();
        }
        pc = (uint16_t)(pc + 2);
        continue;
    written:
        if (UNLIKELY(pc & 1)) {
            left--;
            if (left != 0)
                number = PAW_STOP_ODD_PC;
            goto end;
        }
    }
end:
    regs[15] = pc;
    memcpy(m->regs, regs, sizeof regs);
    m->n = FLAG_N;
    m->z = FLAG_Z;
    m->c = FLAG_C;
    m->v = FLAG_V;
    return run_answer(number, budget, left, &last);
}
