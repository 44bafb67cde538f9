/* When two machines are the same. The record's last byte is nobody's and has no part in it. */
#ifndef MACHINE_H
#define MACHINE_H

#include <string.h>

#include "paw.h"

static inline bool same_machine(const struct paw_machine *a, const struct paw_machine *b)
{
    return memcmp(a, b, offsetof(struct paw_machine, note) + sizeof a->note) == 0;
}

#endif
