/*
 * The loop of a LIN master over the gateway: two pumps on LIN and the bridge's display on CAN. The plan decides what is asked and what is sent, and when;
 * the loop moves one frame at a time over the bus. The controllers and the clock are stubs at the end; a real driver has its own functions of these
 * names. pumps.txt is what it prints. docs/DRIVER.md explains it.
 */
#include "gateway.h"

#include <stdio.h>

#define DISPLAY 0 /* the CAN node */
#define PUMPS 1   /* the LIN node */

/* What a real driver has from its controllers and its clock. */
static void can_send(uint32_t id, const uint8_t *data, unsigned size);
static void lin_header(uint8_t protected_id); /* a pump puts its data and checksum behind it */
static void lin_send(uint8_t protected_id, const uint8_t *data, unsigned size, uint8_t checksum);
static unsigned lin_response(uint8_t *bytes); /* how many bytes came since the header, 9 at the most */
static int wait_for_interrupt(void);          /* 0 ends the example; a real driver never ends */
static void pump_is_silent(uint32_t id, int is_long);
static void pump_is_garbled(uint32_t id);
static void stop(const char *call, unsigned number); /* refused though all was right: something else wrote the area */

static const uint8_t plan[] = {
    1, 0,
    2, 0, 2, 1,
    3, 0, 0x03, 0x10, 4, 1, 0, 0, 2, 0, 0, 0, 0, 0, 0, 0, 0,       /* Tx 0: to the display, on change: both flows, and who is silent */
    3, 1, 0x00, 0x10, 2, 1, 8, 2, 0, 0x1e, 0x80, 0, 0, 0, 0, 0, 0, /* Tx 1: to the pumps, every 8 ticks: the set speed */
    4, 1, 0x00, 0x11, 2, 1, 4, 1, 1, 24, 2,                        /* Rx 0: the first pump's flow, asked for every 4 ticks; failure bit 24 */
    5, 4, 12, 6, 0, 0, 0,
    4, 1, 0x00, 0x12, 2, 1, 4, 1, 1, 25, 2,                        /* Rx 1: the second pump's; failure bit 25 */
    5, 4, 12, 6, 0, 0, 12,
};

static uint8_t area[GATEWAY_AREA_SIZE];
static uint8_t report[GATEWAY_REPORT_SIZE];
static int stopped;

/* ---- the LIN bus has one frame at a time: what was asked, until the response is whole or its time is over */

static struct gateway_taken asked; /* its kind is GATEWAY_REQUEST while a response is due */
static unsigned left;              /* how many rounds are left for it */

/* The response that is due: all its data with the checksum behind them, or not in time. What is garbled is told as if none had come. */
static void hear(void)
{
    uint8_t bytes[9];
    unsigned count = lin_response(bytes);
    if (count <= asked.size && --left > 0)
        return; /* more may come */
    asked.kind = GATEWAY_NOTHING;
    if (count > asked.size) {
        unsigned answer = gateway_respond(area, sizeof area, PUMPS, asked.id, bytes, asked.size, bytes[asked.size]);
        if (answer == GATEWAY_ACCEPTED)
            return;
        if (answer != GATEWAY_WRONG_SUM) {
            stop("response", answer);
            return;
        }
        pump_is_garbled(asked.id);
    }
    unsigned timeout = gateway_no_response(area, sizeof area, PUMPS, asked.id);
    if (timeout == GATEWAY_SHORT_TIMEOUT || timeout == GATEWAY_LONG_TIMEOUT)
        pump_is_silent(asked.id, timeout == GATEWAY_LONG_TIMEOUT);
    else
        stop("no response", timeout);
}

/* The next frame or request, once the bus is free. */
static void speak(void)
{
    struct gateway_taken taken = gateway_take(area, sizeof area, PUMPS);
    if (taken.number != 0) {
        stop("take", taken.number);
    } else if (taken.kind == GATEWAY_REQUEST) {
        asked = taken;
        left = 2;
        lin_header(taken.protected_id);
    } else if (taken.kind == GATEWAY_FRAME) {
        struct gateway_payload payload = gateway_payload(area, sizeof area, taken);
        lin_send(taken.protected_id, area + payload.at, payload.size, taken.checksum);
    }
}

static void send_to_display(void)
{
    struct gateway_taken taken = gateway_take(area, sizeof area, DISPLAY);
    if (taken.kind == GATEWAY_FRAME) {
        struct gateway_payload payload = gateway_payload(area, sizeof area, taken);
        can_send(taken.id, area + payload.at, payload.size);
    }
}

int main(void)
{
    struct gateway_opened opened = gateway_open(plan, sizeof plan, area, sizeof area);
    if (opened.number != 0) {
        printf("plan refused %u at record %u\n", opened.number, opened.record);
        return 1;
    }
    while (!stopped && wait_for_interrupt()) {
        /* The report says nothing of LIN: a tick asks, and who does not answer is told by "no response". */
        unsigned refusal = gateway_tick(area, sizeof area, report, sizeof report);
        if (refusal != 0)
            stop("tick", refusal);
        if (asked.kind == GATEWAY_REQUEST)
            hear();
        if (asked.kind != GATEWAY_REQUEST)
            speak();
        send_to_display();
    }
    return 0;
}

/* ---- stubs: what the pumps answer, and at which tick it is there. A tick is 10 ms. */

static const struct answer {
    unsigned tick;
    uint8_t protected_id;
    uint8_t count;
    uint8_t bytes[9];
} script[] = {
    { 2, 0x11, 3, { 0x01, 0x2c, 0xc1 } }, /* the first pump */
    { 3, 0x92, 3, { 0x00, 0xfa, 0x72 } }, /* the second */
    { 6, 0x11, 3, { 0x01, 0x2d, 0xc0 } },
    { 7, 0x92, 3, { 0x00, 0xfb, 0x72 } }, /* its data was disturbed */
    { 12, 0x92, 3, { 0x00, 0xfc, 0x70 } }, /* the first pump has fallen silent */
    { 17, 0x92, 3, { 0x00, 0xfd, 0x6f } },
    { 18, 0x11, 3, { 0x01, 0x2e, 0xbf } }, /* it is back */
};

static unsigned now;
static uint8_t heard;

static int wait_for_interrupt(void) { return now++ < 20; }

static void show(const uint8_t *data, unsigned size)
{
    for (unsigned i = 0; i < size; i++)
        printf(" %02x", data[i]);
}

static void lin_header(uint8_t protected_id)
{
    printf("tick %u: LIN asks %02x\n", now, protected_id);
    heard = protected_id;
}

static unsigned lin_response(uint8_t *bytes)
{
    for (size_t k = 0; k < sizeof script / sizeof script[0]; k++)
        if (script[k].tick == now && script[k].protected_id == heard) {
            for (unsigned i = 0; i < script[k].count; i++)
                bytes[i] = script[k].bytes[i];
            return script[k].count;
        }
    return 0;
}

static void lin_send(uint8_t protected_id, const uint8_t *data, unsigned size, uint8_t checksum)
{
    printf("tick %u: LIN sends %02x", now, protected_id);
    show(data, size);
    printf(" %02x\n", checksum);
}

static void can_send(uint32_t id, const uint8_t *data, unsigned size)
{
    printf("tick %u: CAN sends %03x", now, (unsigned)id);
    show(data, size);
    printf("\n");
}

static void pump_is_silent(uint32_t id, int is_long) { printf("tick %u: %02x is silent%s\n", now, (unsigned)id, is_long ? ", and for long" : ""); }

static void pump_is_garbled(uint32_t id) { printf("tick %u: %02x is garbled\n", now, (unsigned)id); }

static void stop(const char *call, unsigned number)
{
    printf("%s refused %u\n", call, number);
    stopped = 1;
}
