/*
 * The labels of a text and where each is defined first: a hash table with open addressing, which
 * doubles when half of it is taken. It begins in room that is lent, and goes to the heap when it
 * grows. A name is one word, a byte for each letter; 0 is none.
 */
#ifndef LABELS_H
#define LABELS_H

#include <stdlib.h>

#include "peer.h"

struct labels {
    uint64_t *names;
    uint16_t *places; /* how many instructions stand before the label */
    unsigned bits;    /* of the number of slots */
    size_t count;
    void *heap; /* where names and places are, once they have grown */
};

/* The slots, as bits, that a text of so many bytes is likely to need: it is all a guess. */
static inline unsigned bits_for(size_t text_len)
{
    enum { LEAST = 6, MOST = 15 }; /* the latter for a label an instruction */
    unsigned bits = LEAST;
    while (bits < MOST && text_len >> bits > 16)
        bits++;
    return bits;
}

static inline size_t slot_bytes(unsigned bits)
{
    return (sizeof(uint64_t) + sizeof(uint16_t)) << bits;
}

static inline void use_slots(struct labels *labels, void *room, unsigned bits)
{
    labels->bits = bits;
    labels->names = room;
    labels->places = (uint16_t *)(labels->names + ((size_t)1 << bits));
    memset(labels->names, 0, sizeof *labels->names << bits);
}

/* No labels as yet, in room of slot_bytes(bits). */
static inline void begin_labels(struct labels *labels, void *room, unsigned bits)
{
    labels->count = 0;
    labels->heap = NULL;
    use_slots(labels, room, bits);
}

static inline void end_labels(struct labels *labels)
{
    free(labels->heap);
}

/* The slot that has the name, or the free one where it belongs. */
static inline size_t slot_of(const struct labels *labels, uint64_t name)
{
    size_t slot = name * 0x9E3779B97F4A7C15 >> (64 - labels->bits);
    while (labels->names[slot] != 0 && labels->names[slot] != name)
        slot = (slot + 1) & (((size_t)1 << labels->bits) - 1);
    return slot;
}

static inline void put_label(struct labels *labels, size_t slot, uint64_t name, uint16_t place)
{
    labels->names[slot] = name;
    labels->places[slot] = place;
}

__attribute__((noinline)) static void double_slots(struct labels *labels)
{
    const struct labels old = *labels;
    labels->heap = malloc(slot_bytes(old.bits + 1));
    if (labels->heap == NULL)
        abort();
    use_slots(labels, labels->heap, old.bits + 1);
    for (size_t i = 0; i < (size_t)1 << old.bits; i++)
        if (old.names[i] != 0)
            put_label(labels, slot_of(labels, old.names[i]), old.names[i], old.places[i]);
    free(old.heap);
}

/* Defines a label, unless it is defined already. Answers whether it was not. */
static inline bool define(struct labels *labels, uint64_t name, size_t place)
{
    size_t slot = slot_of(labels, name);
    if (UNLIKELY(labels->names[slot] != 0))
        return false;
    put_label(labels, slot, name, (uint16_t)place);
    if (UNLIKELY(++labels->count << 1 >> labels->bits != 0))
        double_slots(labels);
    return true;
}

/* Finds where a label is defined. Answers whether it is. */
static inline bool find(const struct labels *labels, uint64_t name, uint32_t *place)
{
    size_t slot = slot_of(labels, name);
    *place = labels->places[slot];
    return labels->names[slot] != 0;
}

#endif
