// The comparison: plans by chance, good ones and spoiled ones, and calls by chance on those that open.
#include "check.h"
#include "gateways.h"
#include "plans.h"

static uint64_t state;

static unsigned chance(unsigned below)
{
    state ^= state << 13;
    state ^= state >> 7;
    state ^= state << 17;
    return (unsigned)((state * 0x2545f4914f6cdd1du >> 33) % below);
}

static uint64_t number(const char *text)
{
    uint64_t n = 0;
    for (; *text >= '0' && *text <= '9'; text++)
        n = 10 * n + (uint64_t)(*text - '0');
    return n;
}

static struct plan plan;
static uint8_t area[GATEWAYS][AREA_SIZE] __attribute__((aligned(16)));
static uint8_t report[GATEWAYS][300];
static unsigned nodes, tx_frames, rows, row_node[300], row_id_of[300];
static int size_of[300];
static uint64_t owned[300];
// which count is passed; mostly none is
static enum { NO_EXCESS, OF_NODES, OF_TX, OF_RX, OF_FRAME_SIGNALS, OF_SIGNAL_DESTINATIONS, OF_SIGNALS, OF_DESTINATIONS, EXCESSES } excess;

static struct times some_times(void)
{
    static const uint8_t prescaler[] = {1, 2, 10, 20};
    return (struct times){prescaler[chance(4)], chance(4), chance(4)};
}

// Whether a destination and, where it is below 64, an indicator's position find their bits free.
static int is_free(unsigned t, unsigned q, unsigned bits, unsigned position)
{
    uint64_t claim = ~0ull >> (64 - bits) << q;
    if (q + bits > 8u * size_of[t] || owned[t] & claim)
        return 0;
    if (position < 64) {
        if (position >= 8u * size_of[t] || (owned[t] | claim) >> position & 1)
            return 0;
        claim |= 1ull << position;
    }
    owned[t] |= claim;
    return 1;
}

// A destination on free bits, if one is found.
static int some_destination(unsigned bits, unsigned position)
{
    for (int tries = 0; tries < 20; tries++) {
        unsigned t = chance(tx_frames), q = chance(64);
        if (is_free(t, q, bits, position)) {
            put_destination(&plan, t, q);
            return 1;
        }
    }
    return 0;
}

// Now and then a frame whose destinations may lie anywhere, or whose indicator has none: mostly refused.
static void some_careless_rx(unsigned node, unsigned id)
{
    put_rx(&plan, node, id, 8, some_times(), chance(4) != 0, chance(64), chance(16));
    for (int s = chance(4); s > 0; s--) {
        put_signal(&plan, chance(50), 1 + chance(16));
        for (int d = chance(4); d > 0; d--)
            put_destination(&plan, chance(tx_frames + 1), chance(chance(2) ? 50 : 8));
    }
}

static void some_rx(unsigned node, unsigned id)
{
    int size = chance(8) ? 1 + chance(8) : 0, enable = tx_frames && size ? chance(2) : 0;
    unsigned position = chance(64), awaited = enable ? position : 64;
    int signals = excess == OF_FRAME_SIGNALS ? 65 : excess >= OF_SIGNALS ? 5 : (int)chance(5) + enable;
    put_rx(&plan, node, id, size, some_times(), enable, position, chance(4));
    uint8_t *enabled = &plan.byte[plan.length - 3];
    for (int s = 0; s < signals && size && tx_frames; s++) {
        int bits = excess ? 1 : chance(6) ? 1 + chance(12) : 1 + chance(64);
        if (bits > 8 * size)
            bits = 8 * size;
        put_signal(&plan, chance(8 * size - bits + 1), bits);
        int destinations = excess == OF_SIGNAL_DESTINATIONS ? 16 : excess == OF_DESTINATIONS ? 3 : (int)chance(3) + (awaited < 64);
        for (int d = 0; d < destinations; d++, awaited = 64)
            if (!some_destination(bits, awaited) && awaited < 64)
                *enabled = 0;
    }
}

static void some_plan(void)
{
    excess = chance(10) ? NO_EXCESS : chance(EXCESSES);
    nodes = excess == OF_NODES ? 17 : 1 + chance(chance(4) ? 4 : 16);
    tx_frames = excess == OF_TX ? 257 : excess >= OF_SIGNALS ? 256 : chance(8) ? 1 + chance(chance(4) ? 24 : 256) : 0;
    rows = 0;
    put_head(&plan, chance(2));
    for (unsigned n = 0; n < nodes; n++)
        put_node(&plan);
    for (unsigned t = 0; t < tx_frames; t++) {
        owned[t] = 0;
        size_of[t] = chance(6) ? 8 : chance(9);
        put_tx(&plan, chance(nodes), chance(2048), size_of[t], some_times(), chance(4));
        for (int i = 0; i < size_of[t]; i++)
            plan.byte[plan.length - 8 + i] = chance(256);
    }
    unsigned most = excess == OF_RX ? 257 : 256, step = excess ? 6 : chance(2) ? 40 : 900;
    for (unsigned n = 0; n < nodes; n++)
        for (unsigned id = chance(100); id < 2048 && rows < most && plan.length < 22000; id += chance(400) ? 1 + chance(step) : 0) {
            row_node[rows] = n;
            row_id_of[rows++] = id;
            if (chance(200))
                some_rx(n, id);
            else
                some_careless_rx(n, id);
        }
}

// The C gateways know neither LIN nodes, whose type is 1, nor frames with 29-bit IDs, of kinds 7 and 8: so no changed byte makes one.
static int is_known(unsigned at, unsigned byte)
{
    int is_type = at % 2 == 1 && at >= 3 && at < 2 + 2 * nodes;
    return byte != 7 && byte != 8 && !(is_type && byte == 1);
}

// A byte is changed or the plan is cut.
static void spoil(void)
{
    if (chance(4) == 0) {
        plan.length = chance(plan.length + 1);
        return;
    }
    unsigned at = chance(plan.length), byte = chance(2) ? chance(8) : chance(256);
    if (is_known(at, byte))
        plan.byte[at] = byte;
}

static int same_bytes(const uint8_t *a, const uint8_t *b, size_t n)
{
    for (size_t i = 0; i < n; i++)
        if (a[i] != b[i])
            return 0;
    return 1;
}

// Of the payload of a frame all have the same bytes, in places of their own.
static int same_payload(struct gateway_taken taken)
{
    struct gateway_payload part[GATEWAYS];
    for (int g = 0; g < GATEWAYS; g++) {
        part[g] = gateways[g].payload(area[g], AREA_SIZE, taken);
        if (part[g].size != part[0].size || !same_bytes(area[0] + part[0].at, area[g] + part[g].at, part[0].size))
            return 0;
    }
    return 1;
}

static int same_payloads(void)
{
    for (unsigned t = 0; t < 256; t++)
        if (!same_payload(frame(t)))
            return 0;
    return 1;
}

static int same_reception(void)
{
    uint8_t payload[16];
    unsigned row = rows ? chance(rows) : 0;
    unsigned node = rows && chance(10) ? row_node[row] : chance(17), id = rows && chance(10) ? row_id_of[row] : chance(2100);
    size_t length = chance(10) ? 8 : chance(11), size = chance(50) ? AREA_SIZE : AREA_SIZE - 1;
    for (int i = 0; i < 16; i++)
        payload[i] = chance(3) ? chance(256) : 0;
    struct gateway_received received[GATEWAYS];
    for (int g = 0; g < GATEWAYS; g++) {
        received[g] = gateways[g].receive(area[g], size, node, id, payload, length);
        if (received[g].number != received[0].number || received[g].place != received[0].place)
            return 0;
    }
    return 1;
}

static int same_tick(void)
{
    size_t length = chance(20) ? 300 : chance(257);
    unsigned number[GATEWAYS];
    for (int g = 0; g < GATEWAYS; g++) {
        memset(report[g], 0x77, 300);
        number[g] = gateways[g].tick(area[g], AREA_SIZE, report[g], length);
        if (number[g] != number[0] || !same_bytes(report[0], report[g], 300))
            return 0;
    }
    return 1;
}

static int is_same_taken(struct gateway_taken a, struct gateway_taken b)
{
    return a.number == b.number && a.kind == b.kind && a.tx == b.tx && a.size == b.size && a.id == b.id && a.waiting == b.waiting;
}

static int same_take(void)
{
    size_t node = chance(10) ? chance(nodes) : chance(18);
    struct gateway_taken taken[GATEWAYS];
    for (int g = 0; g < GATEWAYS; g++) {
        taken[g] = gateways[g].take(area[g], AREA_SIZE, node);
        if (!is_same_taken(taken[0], taken[g]))
            return 0;
    }
    return same_payload(taken[0]);
}

static int same_fullness(void)
{
    size_t tx = chance(260);
    struct gateway_fullness fullness[GATEWAYS];
    for (int g = 0; g < GATEWAYS; g++) {
        fullness[g] = gateways[g].fullness(area[g], AREA_SIZE, tx);
        if (fullness[g].number != fullness[0].number || fullness[g].bits != fullness[0].bits)
            return 0;
    }
    return 1;
}

static int same_calls(void)
{
    for (int i = 0; i < 400; i++) {
        unsigned which = chance(20);
        int same = which < 8 ? same_reception() : which < 12 ? same_tick() : which < 19 ? same_take() : same_fullness();
        if (!same || !same_payloads())
            return 0;
    }
    return 1;
}

static int is_same_opened(struct gateway_opened a, struct gateway_opened b)
{
    return a.number == b.number && a.record == b.record && a.nodes == b.nodes && a.tx == b.tx && a.rx == b.rx;
}

// Opens the plan, and gives the number that is answered.
static int same_opening(unsigned *number)
{
    size_t size = chance(30) ? AREA_SIZE : chance(AREA_SIZE);
    struct gateway_opened opened[GATEWAYS];
    for (int g = 0; g < GATEWAYS; g++) {
        area[g][0] = 0;
        opened[g] = gateways[g].open(plan.byte, plan.length, area[g], size);
        if (!is_same_opened(opened[0], opened[g]))
            return 0;
    }
    *number = opened[0].number;
    return 1;
}

int check(const char *seed, const char *plans)
{
    uint64_t met[11] = {0}, all = number(plans);
    state = number(seed) * 2 + 1;
    for (uint64_t i = 0; i < all; i++) {
        some_plan();
        if (chance(3) == 0)
            spoil();
        unsigned number;
        if (!same_opening(&number) || !same_calls()) {
            print("the gateways differ at plan ");
            print_number(i);
            print("\n");
            return 1;
        }
        met[number]++;
    }
    print_number(all);
    print(" plans, no difference. Good:");
    for (int i = 0; i < 11; i++) {
        print(i == 1 ? "; refused 1 to 10: " : " ");
        print_number(met[i]);
    }
    print("\n");
    return 0;
}
