/*
 * A step in the form of the library's: a core takes a machine by value and gives one back, and a
 * thin function over the caller's record calls it. So it shows what that form costs in C.
 */
#include "peer.h"

struct stepped {
    struct paw_machine machine;
    uint32_t number;
};

/*
 * A copy in parts. In one, compilers move the record's end as eight bytes from R15 on, and the
 * processor waits for the smaller writes that made them.
 */
static inline void copy_machine(struct paw_machine *to, const struct paw_machine *from)
{
    memcpy(to, from, offsetof(struct paw_machine, note));
    to->note = from->note;
}

static struct stepped step_value(struct paw_machine machine, uint8_t *mem, size_t len)
{
    uint32_t number = PEER(step)(&machine, mem, len);
    return (struct stepped){ machine, number };
}

uint32_t PEER(step_by_value)(struct paw_machine *m, uint8_t *mem, size_t len)
{
    struct paw_machine machine;
    copy_machine(&machine, m);
    struct stepped stepped = step_value(machine, mem, len);
    copy_machine(m, &stepped.machine);
    return stepped.number;
}
