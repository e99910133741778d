// The copy of a signal as AN3333 has it, byte by byte.
#pragma once
#include "bare.h"

// A payload with a byte before and one behind, for the two bytes that are read at once may begin or end outside.
struct source {
    uint8_t byte[10];
};

static void load(struct source *source, const uint8_t *payload, size_t size, int order)
{
    (void)order;
    *source = (struct source){{0}};
    memcpy(source->byte + 1, payload, size);
}

// CopySignalChkBE: one turn for each byte of the destination, made of eight bits of the source, which two of its bytes hold. A byte of the
// destination that does not change is not written.
static int copy_big(const struct source *from, unsigned p, unsigned size, uint8_t *to, unsigned q)
{
    unsigned skipped = q & 7, at = p + 8 - skipped, shift = 8 - (at & 7), mask = 0xff >> skipped, change;
    const uint8_t *source = from->byte + (at >> 3);
    int changed = 0;
    to += q >> 3;
    for (size += skipped; size > 8; size -= 8, source++, to++) {
        change = ((source[0] << 8 | source[1]) >> shift ^ *to) & mask;
        if (change) {
            *to ^= change;
            changed = 1;
        }
        mask = 0xff;
    }
    change = ((source[0] << 8 | source[1]) >> shift ^ *to) & mask & 0xff00 >> size;
    if (!change)
        return changed;
    *to ^= change;
    return 1;
}

// The same for little order: bit 0 is the lowest of its byte.
static int copy_little(const struct source *from, unsigned p, unsigned size, uint8_t *to, unsigned q)
{
    unsigned skipped = q & 7, at = p + 8 - skipped, shift = at & 7, mask = 0xff << skipped & 0xff, change;
    const uint8_t *source = from->byte + (at >> 3);
    int changed = 0;
    to += q >> 3;
    for (size += skipped; size > 8; size -= 8, source++, to++) {
        change = ((source[0] | source[1] << 8) >> shift ^ *to) & mask;
        if (change) {
            *to ^= change;
            changed = 1;
        }
        mask = 0xff;
    }
    change = ((source[0] | source[1] << 8) >> shift ^ *to) & mask & 0xff >> (8 - size);
    if (!change)
        return changed;
    *to ^= change;
    return 1;
}
