#include "plans.h"

static void put(struct plan *plan, int byte) { plan->byte[plan->length++] = (uint8_t)byte; }

static void put_two(struct plan *plan, int number)
{
    put(plan, number >> 8);
    put(plan, number);
}

static void put_times(struct plan *plan, struct times times)
{
    put(plan, times.prescaler);
    put(plan, times.reload);
    put(plan, times.initial);
}

void put_head(struct plan *plan, int order)
{
    plan->length = 0;
    put(plan, 1);
    put(plan, order);
}

void put_node(struct plan *plan)
{
    put(plan, 2);
    put(plan, 0);
}

void put_tx(struct plan *plan, int node, int id, int size, struct times times, int flags)
{
    put(plan, 3);
    put(plan, node);
    put_two(plan, id);
    put(plan, size);
    put_times(plan, times);
    put(plan, flags);
    for (int i = 0; i < 8; i++)
        put(plan, 0);
}

void put_rx(struct plan *plan, int node, int id, int size, struct times times, int enable, int position, int long_count)
{
    put(plan, 4);
    put(plan, node);
    put_two(plan, id);
    put(plan, size);
    put_times(plan, times);
    put(plan, enable);
    put(plan, position);
    put(plan, long_count);
}

void put_signal(struct plan *plan, int position, int size)
{
    put(plan, 5);
    put(plan, position);
    put(plan, size);
}

void put_destination(struct plan *plan, int tx, int position)
{
    put(plan, 6);
    put_two(plan, tx);
    put(plan, position);
}

static const struct times stopped = {1, 0, 0};

void plan_reception(struct plan *plan, int order, int rows, int signals, int bits, int destinations, int edge)
{
    put_head(plan, order);
    put_node(plan);
    for (int t = 0; t < signals * destinations; t++)
        put_tx(plan, 0, 1024 + t, 8, stopped, 0);
    for (int r = 0; r < rows; r++) {
        put_rx(plan, 0, row_id(r), 8, (struct times){1, 100, 100}, 0, 0, 0);
        for (int s = 0; s < signals && r == 0; s++) {
            // no signal begins at a byte's edge, but for the whole payload; a destination does where it is asked
            put_signal(plan, bits == 64 ? 0 : 3 + 14 * s, bits);
            for (int d = 0; d < destinations; d++)
                put_destination(plan, destinations * s + d, bits == 64 ? 0 : edge ? 8 : 6);
        }
    }
}

// The i-th of some timers: those that expire from the 21st tick on come first.
static struct times staggered(int i, int prescaler)
{
    int handlings = 20 / prescaler;
    return (struct times){prescaler, 202, i < handlings ? handlings + 1 + i : 100 + i % 100};
}

void plan_tx_timers(struct plan *plan, int timers, int prescaler)
{
    put_head(plan, 0);
    put_node(plan);
    for (int t = 0; t < timers; t++)
        put_tx(plan, 0, t, 8, staggered(t, prescaler), 0);
}

// Each Rx frame has an indicator and one signal of one bit, 32 of them in a Tx frame.
static void put_rx_with_bits(struct plan *plan, int r, struct times times)
{
    put_rx(plan, 0, row_id(r), 8, times, 1, 2 * (r % 32), 3);
    put_signal(plan, r % 64, 1);
    put_destination(plan, r / 32, 2 * (r % 32) + 1);
}

void plan_rx_timers(struct plan *plan, int timers, int prescaler)
{
    put_head(plan, 0);
    put_node(plan);
    for (int t = 0; t < (timers + 31) / 32; t++)
        put_tx(plan, 0, t, 8, stopped, 0);
    for (int r = 0; r < timers; r++)
        put_rx_with_bits(plan, r, staggered(r, prescaler));
}

void plan_all_expire(struct plan *plan, int tx, int rx)
{
    const struct times always = {1, 1, 1};
    put_head(plan, 0);
    put_node(plan);
    for (int t = 0; t < (tx ? tx : (rx + 31) / 32); t++)
        put_tx(plan, 0, t, 8, tx ? always : stopped, 0);
    for (int r = 0; r < rx; r++)
        put_rx_with_bits(plan, r, always);
}

void plan_schedule(struct plan *plan)
{
    put_head(plan, 0);
    put_node(plan);
    for (int t = 0; t < 256; t++)
        put_tx(plan, 0, t, 8, (struct times){1, 100, 100}, 1);
    for (int r = 0; r < 256; r++) {
        put_rx(plan, 0, row_id(r), 8, (struct times){1, 100, 100}, 0, 0, 0);
        put_signal(plan, 3, 1);
        put_destination(plan, r, 6);
    }
}

void plan_largest(struct plan *plan)
{
    put_head(plan, 0);
    for (int n = 0; n < 16; n++)
        put_node(plan);
    for (int t = 0; t < 256; t++)
        put_tx(plan, t % 16, t, 8, (struct times){1, 100, 100}, 0);
    // eight destinations of seven bits in a Tx frame, and an indicator in the byte that they leave
    for (int r = 0; r < 256; r++) {
        put_rx(plan, r / 16, row_id(r), 8, (struct times){1, 100, 100}, 1, 56, 3);
        for (int s = 0; s < 4; s++) {
            put_signal(plan, 9 * s, 7);
            put_destination(plan, r, 7 * s);
            put_destination(plan, (r + 128) % 256, 7 * (s + 4));
        }
    }
}

// 86 % are periodic: in equal parts every 40, 100, 100 and 200 ms, where a tick is 10 ms.
static struct times car_period(int t)
{
    static const struct times period[] = {{2, 2, 1}, {1, 10, 5}, {10, 1, 1}, {20, 1, 1}};
    return t % 15 < 2 ? stopped : period[t / CAR_NODES % 4];
}

void plan_car(struct plan *plan)
{
    static const int size[] = {1, 4, 8, 16}, position[] = {3, 5, 13, 27};
    put_head(plan, 0);
    for (int n = 0; n < CAR_NODES; n++)
        put_node(plan);
    // 23 % are sent on change
    for (int t = 0; t < CAR_TX; t++)
        put_tx(plan, t % CAR_NODES, 1024 + t, 8, car_period(t), t % 13 < 3 ? 2 : 0);
    for (int r = 0; r < CAR_RX; r++) {
        // 10 % have a timeout: 500 ms, and after three of them the long one
        int timed = r % 10 == 0;
        put_rx(plan, r / CAR_ROWS, row_id(r), 6, timed ? (struct times){10, 5, 5} : stopped, timed, 58, timed ? 3 : 0);
        // all four signals go to the same two Tx frames, 29 bits in the lower and 29 in the upper part of one
        for (int s = 0, bits = 0; s < 4; bits += size[s++]) {
            put_signal(plan, position[s], size[s]);
            put_destination(plan, r, bits);
            put_destination(plan, (r + 85) % CAR_RX, 29 + bits);
        }
    }
}
