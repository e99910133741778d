// Opening in C: one pass checks the plan, a second builds the tables, for a refusal writes nothing.
#include "an3333.h"

enum { HEAD = 1, NODE, TX, RX, SIGNAL, DESTINATION };
static const uint8_t length_of[] = {0, 2, 2, 17, 11, 3, 4};

// The refusals of a plan.
enum { SHORT = 1, KIND, PLACE, COUNT, RANGE, ORDER, DATA, OWNER, INDICATOR, SHORT_AREA };

struct check {
    unsigned record;
    unsigned nodes, tx, rx, signals, destinations;
    uint8_t last;
    // the Rx frame: the lowest (node, ID) of the next one, its bits, its signals, the size and the destinations of the last signal
    unsigned floor, room, frame_signals, size, signal_destinations;
    // the kind that must follow an enabled indicator's frame, the indicator's position and the frame's record
    uint8_t awaits, position;
    unsigned source;
    uint8_t tx_size[FRAMES];
    uint64_t owned[FRAMES];
};

static unsigned two(const uint8_t *at) { return at[0] << 8 | at[1]; }

static int is_prescaler(uint8_t p) { return p == 1 || p == 2 || p == 10 || p == 20; }

static unsigned check_head(struct check *c, const uint8_t *x)
{
    if (c->last)
        return PLACE;
    return x[1] > 1 ? RANGE : 0;
}

static unsigned check_node(struct check *c, const uint8_t *x)
{
    if (c->last != HEAD && c->last != NODE)
        return PLACE;
    if (c->nodes == NODES)
        return COUNT;
    c->nodes++;
    return x[1] ? RANGE : 0;
}

static unsigned check_tx(struct check *c, const uint8_t *x)
{
    if (!c->last || c->last > TX)
        return PLACE;
    if (c->tx == FRAMES)
        return COUNT;
    if (x[1] >= c->nodes || two(x + 2) > 2047 || x[4] > 8 || !is_prescaler(x[5]) || x[8] > 3)
        return RANGE;
    for (unsigned i = x[4]; i < 8; i++)
        if (x[9 + i])
            return RANGE;
    c->tx_size[c->tx++] = x[4];
    return 0;
}

static unsigned check_rx(struct check *c, const uint8_t *x)
{
    if (!c->last)
        return PLACE;
    if (c->rx == FRAMES)
        return COUNT;
    if (x[1] >= c->nodes || two(x + 2) > 2047 || x[4] > 8 || !is_prescaler(x[5]) || x[8] > 1 || x[9] > 63 || x[10] > 15)
        return RANGE;
    unsigned key = x[1] * 2048 + two(x + 2);
    if (key < c->floor)
        return ORDER;
    c->rx++;
    c->floor = key + 1;
    c->room = 8 * x[4];
    c->frame_signals = 0;
    c->awaits = x[8] ? SIGNAL : 0;
    c->position = x[9];
    c->source = c->record;
    return 0;
}

static unsigned check_signal(struct check *c, const uint8_t *x)
{
    if (c->last < RX)
        return PLACE;
    if (c->signals == SIGNALS || c->frame_signals == 64)
        return COUNT;
    if (x[1] > 63 || x[2] == 0 || x[2] > 64)
        return RANGE;
    if (x[1] + x[2] > c->room)
        return DATA;
    c->signals++;
    c->frame_signals++;
    c->size = x[2];
    c->signal_destinations = 0;
    if (c->awaits)
        c->awaits = DESTINATION;
    return 0;
}

static unsigned check_destination(struct check *c, const uint8_t *x)
{
    unsigned tx = two(x + 1), q = x[3];
    if (c->last < SIGNAL)
        return PLACE;
    if (c->destinations == DESTINATIONS || c->signal_destinations == 15)
        return COUNT;
    if (q > 63)
        return RANGE;
    if (tx >= c->tx || q + c->size > 8u * c->tx_size[tx])
        return DATA;
    uint64_t bits = ~0ull >> (64 - c->size) << q;
    if (c->owned[tx] & bits)
        return OWNER;
    if (c->awaits) {
        uint64_t bit = 1ull << c->position;
        if (c->position >= 8 * c->tx_size[tx])
            return INDICATOR;
        if ((c->owned[tx] | bits) & bit)
            return OWNER;
        bits |= bit;
        c->awaits = 0;
    }
    c->owned[tx] |= bits;
    c->destinations++;
    c->signal_destinations++;
    return 0;
}

static unsigned check_record(struct check *c, const uint8_t *x, size_t left)
{
    unsigned kind = x[0];
    if (kind < HEAD || kind > DESTINATION)
        return KIND;
    if (left < length_of[kind])
        return SHORT;
    switch (kind) {
    case HEAD: return check_head(c, x);
    case NODE: return check_node(c, x);
    case TX: return check_tx(c, x);
    case RX: return check_rx(c, x);
    case SIGNAL: return check_signal(c, x);
    default: return check_destination(c, x);
    }
}

static unsigned check(struct check *c, const uint8_t *plan, size_t length)
{
    if (length == 0)
        return SHORT;
    for (size_t at = 0; at < length; at += length_of[c->last], c->record++) {
        if (c->awaits && c->awaits != plan[at]) {
            c->record = c->source;
            return INDICATOR;
        }
        unsigned refusal = check_record(c, plan + at, length - at);
        if (refusal)
            return refusal;
        c->last = plan[at];
    }
    if (c->awaits) {
        c->record = c->source;
        return INDICATOR;
    }
    return 0;
}

static uint8_t mask_of(uint8_t prescaler)
{
    return prescaler == 1 ? 0x00 : prescaler == 2 ? 0x01 : prescaler == 10 ? 0x0f : 0x1f;
}

static void fill_tx(struct tables *g, const uint8_t *x)
{
    struct tx_frame *tx = &g->tx[g->tx_frames++];
    memcpy(tx->data, x + 9, 8);
    tx->id = two(x + 2);
    tx->node = x[1];
    tx->size = x[4];
    tx->timer = (struct timer){x[6], x[7]};
    tx->mask = mask_of(x[5]);
    tx->flags = x[8];
    g->node[x[1]].ring_size++;
}

static void fill_rx(struct tables *g, const uint8_t *x, unsigned descriptors)
{
    struct node *node = &g->node[x[1]];
    if (node->rows++ == 0)
        node->first_row = g->rx_frames;
    struct rx_frame *rx = &g->rx[g->rx_frames++];
    rx->id = two(x + 2);
    rx->descriptors = descriptors;
    rx->size = x[4];
    rx->timer = (struct timer){x[6], x[7]};
    rx->mask = mask_of(x[5]);
    rx->failure_position = x[8] ? x[9] : NO_INDICATOR;
    rx->long_reload = rx->long_count = x[10];
}

static void fill(struct tables *g, const uint8_t *plan, size_t length)
{
    union descriptor *d = g->descriptor, *signal = d;
    for (const uint8_t *x = plan, *end = plan + length; x < end; x += length_of[x[0]]) {
        switch (x[0]) {
        case HEAD: g->order = x[1]; break;
        case NODE: g->node[g->nodes++].ring_size = 1; break;
        case TX: fill_tx(g, x); break;
        case RX: fill_rx(g, x, d - g->descriptor); break;
        case SIGNAL:
            signal = d++;
            signal->signal.position = x[1];
            signal->signal.size = x[2];
            g->rx[g->rx_frames - 1].signals++;
            break;
        default:
            signal->signal.destinations++;
            d->destination.tx = two(x + 1);
            d->destination.position = x[3];
            d++;
        }
    }
    for (unsigned n = 0, ring = 0; n < g->nodes; n++) {
        g->node[n].ring = ring;
        ring += g->node[n].ring_size;
    }
}

// How many bits of a set are 1: by pairs, by fours, by bytes, and the sum of the bytes.
static unsigned ones(uint64_t set)
{
    set -= set >> 1 & 0x5555555555555555u;
    set = (set & 0x3333333333333333u) + (set >> 2 & 0x3333333333333333u);
    set = (set + (set >> 4)) & 0x0f0f0f0f0f0f0f0fu;
    return (unsigned)(set * 0x0101010101010101u >> 56);
}

struct gateway_opened an3333_open(const uint8_t *plan, size_t plan_length, uint8_t *area, size_t area_length)
{
    struct check c;
    memset(&c, 0, sizeof c);
    unsigned refusal = check(&c, plan, plan_length);
    if (refusal)
        return (struct gateway_opened){.number = refusal, .record = c.record};
    if (area_length < AREA_SIZE)
        return (struct gateway_opened){.number = SHORT_AREA};
    struct tables *g = (struct tables *)area;
    memset(g, 0, sizeof *g);
    fill(g, plan, plan_length);
    for (unsigned t = 0; t < c.tx; t++)
        g->owned[t] = ones(c.owned[t]);
    g->mark[0] = 0x47;
    g->mark[1] = 0x57;
    return (struct gateway_opened){.nodes = c.nodes, .tx = c.tx, .rx = c.rx};
}
