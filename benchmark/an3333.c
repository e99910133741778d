// Reception, tick and take in C, after AN3333, section 3.2. word64.c compiles this file once more, with another copy of a signal.
#include "an3333.h"
#ifndef CALL
#define CALL(name) an3333_##name
#include "copy_bytes.h"
#endif

static struct tables *opened(const uint8_t *area, size_t length)
{
    if (length < AREA_SIZE || area[0] != 0x47 || area[1] != 0x57)
        return 0;
    return (struct tables *)area;
}

// RxFindFrmId: the middle row first, then the half that remains. Where there is none, `place` becomes how many of the node's rows have a smaller ID.
static struct rx_frame *find(struct tables *g, const struct node *node, uint32_t id, uint16_t *place)
{
    struct rx_frame *base = &g->rx[node->first_row];
    for (unsigned i = node->rows; i != 0; i >>= 1) {
        struct rx_frame *p = base + (i >> 1);
        if (id == p->id)
            return p;
        if (id > p->id) {
            base = p + 1;
            i--;
        }
    }
    *place = base - &g->rx[node->first_row];
    return 0;
}

// FrameTransmit: a frame that waits already stays as it is.
static void schedule(struct tables *g, struct tx_frame *tx)
{
    if (tx->flags & SCHEDULED)
        return;
    struct node *node = &g->node[tx->node];
    tx->flags |= SCHEDULED;
    g->ring[node->ring + node->add] = tx;
    if (++node->add == node->ring_size)
        node->add = 0;
    tx->timer.count = tx->timer.reload;
}

// BitAssign: the failure bit of a frame, in the Tx frame of its first signal's first destination.
static void assign_failure(struct tables *g, const struct rx_frame *rx, int value)
{
    uint8_t *byte = &g->tx[g->descriptor[rx->descriptors + 1].destination.tx].data[rx->failure_position / 8];
    unsigned digit = rx->failure_position % 8;
    uint8_t bit = g->order ? 1 << digit : 0x80 >> digit;
    *byte = value ? *byte | bit : *byte & ~bit;
}

// CopySignals: the signals of a frame, each to its destinations.
static void copy_signals(struct tables *g, const struct rx_frame *rx, const struct source *source)
{
    const union descriptor *d = &g->descriptor[rx->descriptors];
    for (unsigned signals = rx->signals; signals; signals--) {
        unsigned p = d->signal.position, size = d->signal.size, destinations = d->signal.destinations;
        for (d++; destinations; destinations--, d++) {
            struct tx_frame *tx = &g->tx[d->destination.tx];
            unsigned q = d->destination.position;
            int changed = g->order ? copy_little(source, p, size, tx->data, q) : copy_big(source, p, size, tx->data, q);
            if (tx->flags & SEND_ON_RECEPTION || (changed && tx->flags & SEND_ON_CHANGE))
                schedule(g, tx);
        }
    }
}

struct gateway_received CALL(receive)(uint8_t *area, size_t area_length, size_t node, uint32_t id, const uint8_t *payload, size_t payload_length)
{
    struct tables *g = opened(area, area_length);
    if (!g)
        return (struct gateway_received){.number = 11};
    if (node >= g->nodes)
        return (struct gateway_received){.number = 12};
    if (payload_length > 8)
        return (struct gateway_received){.number = 13};
    uint16_t place;
    struct rx_frame *rx = find(g, &g->node[node], id, &place);
    if (!rx)
        return (struct gateway_received){.number = 1, .place = place};
    if (payload_length < rx->size)
        return (struct gateway_received){.number = 2};
    struct source source;
    load(&source, payload, rx->size, g->order);
    rx->timer.count = rx->timer.reload;
    rx->long_count = rx->long_reload;
    if (rx->failure_position != NO_INDICATOR)
        assign_failure(g, rx, 0);
    copy_signals(g, rx, &source);
    return (struct gateway_received){0};
}

// Handles a timer, and says whether it expired.
static int expired(struct timer *timer, uint8_t mask, uint8_t counter)
{
    if (counter & mask || timer->count == 0 || --timer->count != 0)
        return 0;
    timer->count = timer->reload;
    return 1;
}

// GatewayRxTimeout: the byte of the report, 1 short and 2 long.
static uint8_t time_out(struct tables *g, struct rx_frame *rx)
{
    if (rx->failure_position != NO_INDICATOR)
        assign_failure(g, rx, 1);
    if (rx->long_count == 0 || --rx->long_count != 0)
        return 1;
    rx->long_count = rx->long_reload;
    return 2;
}

// GatewayTick: the counter moves on last.
uint16_t CALL(tick)(uint8_t *area, size_t area_length, uint8_t *report, size_t report_length)
{
    struct tables *g = opened(area, area_length);
    if (!g)
        return 11;
    if (report_length < g->rx_frames)
        return 14;
    uint8_t counter = g->counter;
    for (struct tx_frame *tx = g->tx, *end = tx + g->tx_frames; tx < end; tx++)
        if (expired(&tx->timer, tx->mask, counter))
            schedule(g, tx);
    for (struct rx_frame *rx = g->rx, *end = rx + g->rx_frames; rx < end; rx++)
        *report++ = expired(&rx->timer, rx->mask, counter) ? time_out(g, rx) : 0;
    counter++;
    g->counter = (counter & 15) == 10 ? counter + 6 : counter;
    return 0;
}

// MsCanTxEmptyIsr: the oldest frame of a node's ring.
struct gateway_taken CALL(take)(uint8_t *area, size_t area_length, size_t node_number)
{
    struct tables *g = opened(area, area_length);
    if (!g)
        return (struct gateway_taken){.number = 11};
    if (node_number >= g->nodes)
        return (struct gateway_taken){.number = 12};
    struct node *node = &g->node[node_number];
    if (node->take == node->add)
        return (struct gateway_taken){0};
    struct tx_frame *tx = g->ring[node->ring + node->take];
    if (++node->take == node->ring_size)
        node->take = 0;
    tx->flags &= ~SCHEDULED;
    int waiting = node->add - node->take;
    if (waiting < 0)
        waiting += node->ring_size;
    return (struct gateway_taken){.kind = GATEWAY_FRAME, .tx = tx - g->tx, .size = tx->size, .id = tx->id, .waiting = waiting};
}

struct gateway_payload CALL(payload)(const uint8_t *area, size_t area_length, struct gateway_taken taken)
{
    (void)area;
    if (taken.kind != GATEWAY_FRAME || area_length < AREA_SIZE)
        return (struct gateway_payload){0};
    return (struct gateway_payload){.at = offsetof(struct tables, tx) + sizeof(struct tx_frame) * taken.tx, .size = taken.size};
}

struct gateway_fullness CALL(fullness)(const uint8_t *area, size_t area_length, size_t tx)
{
    const struct tables *g = opened(area, area_length);
    if (!g)
        return (struct gateway_fullness){.number = 11};
    if (tx >= g->tx_frames)
        return (struct gateway_fullness){.number = 15};
    return (struct gateway_fullness){.bits = g->owned[tx]};
}
