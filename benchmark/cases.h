// The cases: what is set up for each, and what one turn of it calls.
#pragma once
#include "gateways.h"
#include "plans.h"

enum call { OPEN, RECEIVE, TICK, TAKE, PAYLOAD, CALLS };

// One gateway at work. The digest takes in all that it answers, reports and keeps, so that they can be compared.
struct run {
    const struct gateway *gateway;
    uint64_t digest;
    int counting;
    uint64_t stack[CALLS];
    uint8_t area[AREA_SIZE] __attribute__((aligned(16)));
    uint8_t report[256];
};

// What a case depends on; each uses what it needs.
struct setting {
    int order, rows, signals, bits, destinations, edge;
    int timers, prescaler, waiting;
};

struct scene {
    int turns;
    void (*begin)(struct run *run, const struct setting *setting);
    void (*turn)(struct run *run, const struct setting *setting, int i);
};

extern const struct scene reception_case, lookup_case, stranger_case;
extern const struct scene tx_tick_case, rx_tick_case, tx_expiry_case, rx_expiry_case;
extern const struct scene schedule_case, take_case, nothing_case, payload_case;
extern const struct scene opening_case, car_opening_case, car_reception_case, car_tick_case, car_case;

// Takes in the kept payloads.
void look_at_payloads(struct run *run);
