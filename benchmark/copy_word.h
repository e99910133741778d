// The copy of a signal by words of 64 bits, in which the bits of a payload stand in the order of the plan: in big order bit 0 is the highest.
#pragma once
#include "bare.h"

static uint64_t swapped(uint64_t word) { return __builtin_bswap64(word); }

struct source {
    uint64_t word;
};

static void load(struct source *source, const uint8_t *payload, size_t size, int order)
{
    source->word = 0;
    memcpy(&source->word, payload, size);
    if (!order)
        source->word = swapped(source->word);
}

static int copy_big(const struct source *source, unsigned p, unsigned size, uint8_t *to, unsigned q)
{
    uint64_t kept, bits = ~0ull << (64 - size) >> q;
    memcpy(&kept, to, 8);
    uint64_t change = (source->word << p >> q ^ swapped(kept)) & bits;
    kept ^= swapped(change);
    memcpy(to, &kept, 8);
    return change != 0;
}

// The same for little order: bit 0 is the lowest.
static int copy_little(const struct source *source, unsigned p, unsigned size, uint8_t *to, unsigned q)
{
    uint64_t kept, bits = ~0ull >> (64 - size) << q;
    memcpy(&kept, to, 8);
    uint64_t change = (source->word >> p << q ^ kept) & bits;
    kept ^= change;
    memcpy(to, &kept, 8);
    return change != 0;
}
