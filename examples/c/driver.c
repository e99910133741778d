/*
 * A driver's loop over the gateway, with the plan of examples/ship.txt: the ship's bus, the instrument bus and the logger's bus. The controllers and
 * the clock are stubs at the end; a real driver has its own functions of these names. driver.txt is what it prints. docs/DRIVER.md explains it.
 */
#include "gateway.h"

#include <stdio.h>

#define NODES 3

struct frame {
    uint32_t id; /* as the can_id of SocketCAN: with GATEWAY_EXTENDED where it has 29 bits */
    uint8_t node;
    uint8_t length;
    uint8_t data[8];
};

/* What a real driver has from its controllers and its clock. */
static unsigned can_room(uint8_t node);                 /* how many frames the controller can still take */
static void can_send(const struct frame *frame);        /* copies the frame into the controller */
static int wait_for_interrupt(void);                    /* 0 ends the example; a real driver never ends */
static void source_is_silent(unsigned rx, int is_long); /* what the report says */
static void stranger(const struct frame *frame, unsigned place); /* no row, and where one belongs: tell each ID once */
static void stop(const char *call, unsigned number);    /* refused though all was right: something else wrote the area */

/* ---- what the interrupts leave for the loop. They call nothing of the gateway. */

#define RING 64 /* a power of two; one interrupt fills, the loop empties */

static struct frame ring[RING];
static volatile unsigned ring_in, ring_out; /* how many frames went in and out, ever */
static volatile unsigned ticks_due;         /* how many ticks fell due, ever */
static volatile unsigned frames_lost;

static void on_receive_interrupt(const struct frame *frame)
{
    if (ring_in - ring_out == RING) {
        frames_lost++;
        return;
    }
    ring[ring_in % RING] = *frame;
    ring_in++; /* last: the loop sees a frame that is whole. With more than one processor this is a release store */
}

static void on_clock_interrupt(void) { ticks_due++; }

/* ---- the loop: the only caller of the gateway */

static uint8_t area[GATEWAY_AREA_SIZE];
static uint8_t report[GATEWAY_REPORT_SIZE];
static unsigned rx_frames;
static unsigned ticks_done;
static unsigned frames_without_row, frames_too_short;
static int stopped;

static const uint8_t plan[] = {
    1, 0,
    2, 0, 2, 0, 2, 0,
    3, 2, 0x03, 0x00, 8, 10, 1, 2, 0, 0, 0, 0, 0, 0, 0, 0, 0,
    4, 0, 0x01, 0xf5, 8, 10, 2, 3, 1, 62, 3,
    5, 0, 24, 6, 0, 0, 0,
    5, 32, 24, 6, 0, 0, 24,
    4, 1, 0x00, 0xa2, 4, 2, 8, 8, 1, 63, 0,
    5, 2, 14, 6, 0, 0, 48,
};

static int open_gateway(void)
{
    struct gateway_opened opened = gateway_open(plan, sizeof plan, area, sizeof area);
    if (opened.number != 0) {
        printf("plan refused %u at record %u\n", opened.number, opened.record);
        return 0;
    }
    rx_frames = opened.rx;
    return 1;
}

static void hand_on(const struct frame *frame)
{
    struct gateway_received received = gateway_receive(area, sizeof area, frame->node, frame->id, frame->data, frame->length);
    switch (received.number) {
    case GATEWAY_ACCEPTED:
        break;
    case GATEWAY_NO_ROW:
        frames_without_row++;
        stranger(frame, received.place);
        break;
    case GATEWAY_TOO_SHORT:
        frames_too_short++;
        break;
    default:
        stop("receive", received.number);
    }
}

static void tick(void)
{
    unsigned refusal = gateway_tick(area, sizeof area, report, sizeof report);
    if (refusal != 0) {
        stop("tick", refusal);
        return;
    }
    for (unsigned r = 0; r < rx_frames; r++)
        if (report[r] != 0)
            source_is_silent(r, report[r] == GATEWAY_LONG_TIMEOUT);
}

/* A frame that was taken cannot be put back, so it is taken only when the controller has room. */
static void send(uint8_t node)
{
    while (can_room(node) > 0) {
        struct gateway_taken taken = gateway_take(area, sizeof area, node);
        if (taken.number != 0)
            stop("take", taken.number);
        if (taken.kind == GATEWAY_NOTHING)
            return; /* none waits, or the take was refused */
        struct gateway_payload payload = gateway_payload(area, sizeof area, taken);
        struct frame frame = { taken.id, node, (uint8_t)taken.size, { 0 } };
        for (size_t i = 0; i < payload.size && i < sizeof frame.data; i++)
            frame.data[i] = area[payload.at + i]; /* before the next call */
        can_send(&frame);
    }
}

int main(void)
{
    if (!open_gateway())
        return 1;
    while (!stopped && wait_for_interrupt()) {
        /* Ticks are looked at before the frames and done after them, so a frame that came before a tick is handed on before it. */
        unsigned due = ticks_due;
        while (ring_out != ring_in) {
            hand_on(&ring[ring_out % RING]);
            ring_out++;
        }
        while (ticks_done != due) {
            tick();
            ticks_done++;
        }
        for (uint8_t node = 0; node < NODES; node++)
            send(node);
    }
    printf("%u without a row, %u too short, %u lost\n", frames_without_row, frames_too_short, frames_lost);
    return 0;
}

/* ---- stubs: a script of what the buses and the clock do. A tick is 100 ms. */

static const struct arrival {
    unsigned before_tick;
    struct frame frame;
} script[] = {
    { 4, { 0x1f5, 0, 8, { 0x29, 0x83, 0x9f, 0xe0, 0x0b, 0x4c, 0x59, 0x68 } } }, /* position */
    { 8, { 0x0a2, 1, 4, { 0x10, 0x75, 0x00, 0xea } } },                         /* ion current */
    { 14, { 0x1f5, 0, 8, { 0x29, 0x84, 0x38, 0x38, 0x0b, 0x4d, 0x18, 0xd0 } } },
    { 18, { 0x0a2, 0, 4, { 0x3f, 0xff, 0x3f, 0xff } } }, /* on the wrong bus */
    { 18, { 0x0a2, 1, 1, { 0x3f } } },                   /* too short */
    { 18, { 0x0a2, 1, 4, { 0x10, 0x71, 0x00, 0xeb } } },
    { 28, { 0x0a2, 1, 4, { 0x10, 0x87, 0x00, 0xeb } } }, /* the position has fallen silent */
};

static unsigned now, arrived;

static int wait_for_interrupt(void)
{
    while (arrived < sizeof script / sizeof script[0] && script[arrived].before_tick == now)
        on_receive_interrupt(&script[arrived++].frame);
    on_clock_interrupt();
    return now++ < 31;
}

static unsigned can_room(uint8_t node)
{
    (void)node;
    return 3;
}

/* An ID as candump shows it: 3 digits, or 8 where it has 29 bits. */
static void print_id(uint32_t id)
{
    printf(id & GATEWAY_EXTENDED ? "%08X" : "%03X", (unsigned)(id & ~GATEWAY_EXTENDED));
}

static void can_send(const struct frame *frame)
{
    printf("tick %u: node %u sends ", now - 1, frame->node);
    print_id(frame->id);
    printf(" ");
    for (unsigned i = 0; i < frame->length; i++)
        printf("%02x", frame->data[i]);
    printf("\n");
}

static void source_is_silent(unsigned rx, int is_long)
{
    printf("tick %u: Rx frame %u is silent%s\n", now - 1, rx, is_long ? ", and for long" : "");
}

static void stranger(const struct frame *frame, unsigned place)
{
    printf("tick %u: node %u has no row for ", now - 1, frame->node);
    print_id(frame->id);
    printf("; it belongs behind %u of that node's rows\n", place);
}

static void stop(const char *call, unsigned number)
{
    printf("%s refused %u\n", call, number);
    stopped = 1;
}
