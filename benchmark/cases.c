#include "cases.h"
#include "steps.h"

static struct plan plan;

static void take_in(struct run *run, uint64_t number)
{
    run->digest = (run->digest ^ number) * 0x9e3779b97f4a7c15u;
    run->digest ^= run->digest >> 29;
}

// After a call: the stack that it used.
static void called(struct run *run, enum call call)
{
    uint64_t stack = steps_stack();
    if (stack > run->stack[call])
        run->stack[call] = stack;
}

static void must(int holds)
{
    if (!holds) {
        print("a case does not do what it is meant to\n");
        stop(1);
    }
}

static void open(struct run *run)
{
    struct gateway_opened opened = COUNTED(run->gateway->open)(plan.byte, plan.length, run->area, AREA_SIZE);
    called(run, OPEN);
    must(opened.number == 0);
    take_in(run, opened.nodes);
    take_in(run, opened.tx);
    take_in(run, opened.rx);
}

// The number that is answered.
static unsigned receive(struct run *run, int node, uint32_t id, uint64_t payload)
{
    struct gateway_received received = COUNTED(run->gateway->receive)(run->area, AREA_SIZE, node, id, (uint8_t *)&payload, 8);
    called(run, RECEIVE);
    take_in(run, received.number);
    take_in(run, received.place);
    return received.number;
}

static void tick(struct run *run)
{
    unsigned number = COUNTED(run->gateway->tick)(run->area, AREA_SIZE, run->report, 256);
    called(run, TICK);
    must(number == 0);
    for (int r = 0; r < 256; r++)
        take_in(run, run->report[r]);
}

static struct gateway_taken take(struct run *run, int node)
{
    struct gateway_taken taken = COUNTED(run->gateway->take)(run->area, AREA_SIZE, node);
    called(run, TAKE);
    must(taken.number == 0);
    take_in(run, taken.kind);
    take_in(run, taken.tx);
    take_in(run, taken.size);
    take_in(run, taken.id);
    take_in(run, taken.waiting);
    return taken;
}

static void payload(struct run *run, struct gateway_taken taken)
{
    struct gateway_payload part = COUNTED(run->gateway->payload)(run->area, AREA_SIZE, taken);
    called(run, PAYLOAD);
    for (size_t i = 0; i < part.size; i++)
        take_in(run, run->area[part.at + i]);
}

void look_at_payloads(struct run *run)
{
    for (unsigned t = 0; t < 256; t++)
        payload(run, frame(t));
}

// What a turn needs around the call that is counted.
static void take_all_uncounted(struct run *run)
{
    steps_count(0);
    while (take(run, 0).kind)
        ;
    steps_count(run->counting);
}

static void begin_reception(struct run *run, const struct setting *s)
{
    plan_reception(&plan, s->order, s->rows, s->signals, s->bits, s->destinations, s->edge);
    open(run);
}

// The first row is the one that the search meets last. Every bit changes.
static void turn_reception(struct run *run, const struct setting *s, int i)
{
    (void)s;
    must(receive(run, 0, row_id(0), i % 2 ? 0 : ~0ull) == 0);
}

static void turn_lookup(struct run *run, const struct setting *s, int i)
{
    must(receive(run, 0, row_id(i % s->rows), 0) == 0);
}

static void turn_stranger(struct run *run, const struct setting *s, int i)
{
    must(receive(run, 0, row_id(i % s->rows) + 1, 0) == 1);
}

const struct scene reception_case = {2, begin_reception, turn_reception};
// 0 stands for a turn for each row
const struct scene lookup_case = {0, begin_reception, turn_lookup};
const struct scene stranger_case = {0, begin_reception, turn_stranger};

static void begin_tx_tick(struct run *run, const struct setting *s)
{
    plan_tx_timers(&plan, s->timers, s->prescaler);
    open(run);
}

static void begin_rx_tick(struct run *run, const struct setting *s)
{
    plan_rx_timers(&plan, s->timers, s->prescaler);
    open(run);
}

static void begin_tx_expiry(struct run *run, const struct setting *s)
{
    plan_all_expire(&plan, s->timers, 0);
    open(run);
}

static void begin_rx_expiry(struct run *run, const struct setting *s)
{
    plan_all_expire(&plan, 0, s->timers);
    open(run);
}

static void turn_tick(struct run *run, const struct setting *s, int i)
{
    (void)s, (void)i;
    tick(run);
}

static void turn_tick_and_take(struct run *run, const struct setting *s, int i)
{
    (void)s, (void)i;
    tick(run);
    take_all_uncounted(run);
}

// 20 ticks have one handling of the slowest prescaler; three expiries one long timeout.
const struct scene tx_tick_case = {20, begin_tx_tick, turn_tick};
const struct scene rx_tick_case = {20, begin_rx_tick, turn_tick};
const struct scene tx_expiry_case = {3, begin_tx_expiry, turn_tick_and_take};
const struct scene rx_expiry_case = {3, begin_rx_expiry, turn_tick};

// All but one of those that are to wait.
static void begin_queue(struct run *run, const struct setting *s)
{
    plan_schedule(&plan);
    open(run);
    for (int i = 0; i < s->waiting - 1; i++)
        receive(run, 0, row_id(i), 0);
}

// The frame that joins is the one that was taken last, so that all frames take their turns.
static void turn_schedule(struct run *run, const struct setting *s, int i)
{
    must(receive(run, 0, row_id((s->waiting - 1 + i) % 256), 0) == 0);
    steps_count(0);
    must(take(run, 0).waiting == s->waiting - 1);
    steps_count(run->counting);
}

static void turn_take(struct run *run, const struct setting *s, int i)
{
    steps_count(0);
    must(receive(run, 0, row_id((s->waiting - 1 + i) % 256), 0) == 0);
    steps_count(run->counting);
    must(take(run, 0).waiting == s->waiting - 1);
}

static void begin_nothing(struct run *run, const struct setting *s)
{
    (void)s;
    plan_schedule(&plan);
    open(run);
}

static void turn_nothing(struct run *run, const struct setting *s, int i)
{
    (void)s, (void)i;
    must(take(run, 0).kind == GATEWAY_NOTHING);
}

static void turn_payload(struct run *run, const struct setting *s, int i)
{
    (void)s;
    payload(run, frame(i));
}

const struct scene schedule_case = {256, begin_queue, turn_schedule};
const struct scene take_case = {256, begin_queue, turn_take};
const struct scene nothing_case = {1, begin_nothing, turn_nothing};
const struct scene payload_case = {1, begin_nothing, turn_payload};

static void begin_opening(struct run *run, const struct setting *s)
{
    (void)run, (void)s;
    plan_largest(&plan);
}

static void begin_car_opening(struct run *run, const struct setting *s)
{
    (void)run, (void)s;
    plan_car(&plan);
}

static void turn_opening(struct run *run, const struct setting *s, int i)
{
    (void)s, (void)i;
    open(run);
}

const struct scene opening_case = {1, begin_opening, turn_opening};
const struct scene car_opening_case = {1, begin_car_opening, turn_opening};

static void begin_car(struct run *run, const struct setting *s)
{
    (void)s;
    plan_car(&plan);
    open(run);
}

// The i-th reception: the frames by turns, half of the bits changed.
static void car_reception(struct run *run, int i)
{
    int r = i % CAR_RX;
    must(receive(run, r / CAR_ROWS, row_id(r), 0x5a3c96f00fa5c369u * (uint64_t)(i + 1)) == 0);
}

static void turn_car_reception(struct run *run, const struct setting *s, int i)
{
    (void)s;
    car_reception(run, i);
}

static void car_takes(struct run *run)
{
    for (int n = 0; n < CAR_NODES; n++)
        for (struct gateway_taken taken; (taken = take(run, n)).kind;)
            payload(run, taken);
}

static void turn_car_tick(struct run *run, const struct setting *s, int i)
{
    (void)s, (void)i;
    tick(run);
    steps_count(0);
    car_takes(run);
    steps_count(run->counting);
}

// 10 ms: a tick, 18 receptions (Lorenz has 1,798 in a second), and all that waits is taken.
static void turn_car(struct run *run, const struct setting *s, int i)
{
    (void)s;
    tick(run);
    for (int k = 0; k < 18; k++)
        car_reception(run, 18 * i + k);
    car_takes(run);
}

const struct scene car_reception_case = {CAR_RX, begin_car, turn_car_reception};
const struct scene car_tick_case = {20, begin_car, turn_car_tick};
const struct scene car_case = {10, begin_car, turn_car};
