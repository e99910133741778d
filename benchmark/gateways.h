// The gateways under one set of calls.
#pragma once
#include "an3333.h"

struct gateway {
    struct gateway_opened (*open)(const uint8_t *, size_t, uint8_t *, size_t);
    struct gateway_received (*receive)(uint8_t *, size_t, size_t, uint32_t, const uint8_t *, size_t);
    uint16_t (*tick)(uint8_t *, size_t, uint8_t *, size_t);
    struct gateway_taken (*take)(uint8_t *, size_t, size_t);
    struct gateway_payload (*payload)(const uint8_t *, size_t, struct gateway_taken);
    struct gateway_fullness (*fullness)(const uint8_t *, size_t, size_t);
};

// A frame of 8 bytes as a take answers it, to look at its kept payload.
static inline struct gateway_taken frame(unsigned tx)
{
    return (struct gateway_taken){.kind = GATEWAY_FRAME, .tx = tx, .size = 8};
}

// Ours comes first.
enum { GATEWAYS = 3 };
static const struct gateway gateways[GATEWAYS] = {
    {gateway_open, gateway_receive, gateway_tick, gateway_take, gateway_payload, gateway_fullness},
    {an3333_open, an3333_receive, an3333_tick, an3333_take, an3333_payload, an3333_fullness},
    {an3333_open, word64_receive, word64_tick, word64_take, word64_payload, word64_fullness},
};
