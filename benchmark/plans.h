// Plans by their records, and the plans of the cases.
#pragma once
#include "bare.h"

struct plan {
    size_t length;
    uint8_t byte[24000];
};

struct times {
    uint8_t prescaler, reload, initial;
};

void put_head(struct plan *plan, int order);
void put_node(struct plan *plan);
void put_tx(struct plan *plan, int node, int id, int size, struct times times, int flags);
void put_rx(struct plan *plan, int node, int id, int size, struct times times, int enable, int position, int long_count);
void put_signal(struct plan *plan, int position, int size);
void put_destination(struct plan *plan, int tx, int position);

// The ID of the i-th row of every plan here; an ID between two rows is no row's.
static inline uint32_t row_id(int i) { return 7 * i + 3; }

// One node with `rows` rows. The first has `signals` signals of `bits` bits, each to `destinations` Tx frames of its own.
void plan_reception(struct plan *plan, int order, int rows, int signals, int bits, int destinations, int edge);
// Timers of one prescaler. From the 21st tick on one of them expires at each handling, as in AN3333's own measurements.
void plan_tx_timers(struct plan *plan, int timers, int prescaler);
void plan_rx_timers(struct plan *plan, int timers, int prescaler);
// Timers that all expire at each tick.
void plan_all_expire(struct plan *plan, int tx, int rx);
// 256 rows, each with one bit for a Tx frame of its own that is sent on reception.
void plan_schedule(struct plan *plan);
// As many records of each kind as a plan may have.
void plan_largest(struct plan *plan);

// A high-class car after Lorenz, 5.6.6: 4 nodes, 168 Rx and 172 Tx frames, 4 signals a frame, 2 destinations a signal.
enum { CAR_NODES = 4, CAR_RX = 168, CAR_TX = 172, CAR_ROWS = CAR_RX / CAR_NODES };
void plan_car(struct plan *plan);
