/* Document 01's listing: opens its plan, replays its events through the C interface and prints a line for each. listing.txt is what it prints. */
#include "gateway.h"

#include <stdio.h>

static const uint8_t plan[] = {
    1, 0,                                                     /* head: big order */
    2, 0,                                                     /* node 0: CAN */
    3, 0, 0x01, 0x00, 2, 1, 3, 3, 2, 0, 0, 0, 0, 0, 0, 0, 0,  /* Tx frame 0: ID hex 100, 2 bytes, sent every 3 ticks and on change */
    4, 0, 0x00, 0x20, 1, 1, 2, 2, 1, 15, 2,                   /* Rx frame 0: ID hex 20, 1 byte, failure bit 15 after 2 silent ticks */
    5, 2, 4,                                                  /* signal: its bits 2 to 5 */
    6, 0, 0, 6,                                               /* destination: Tx frame 0, bits 6 to 9 */
};

static uint8_t area[GATEWAY_AREA_SIZE];
static uint8_t report[GATEWAY_REPORT_SIZE];
static unsigned rx_frames;

/* Prints the first line; 0 says that the plan was refused. */
static int open_plan(void)
{
    struct gateway_opened opened = gateway_open(plan, sizeof plan, area, sizeof area);
    if (opened.number != 0) {
        printf("plan refused %u %u\n", opened.number, opened.record);
        return 0;
    }
    rx_frames = opened.rx;
    printf("plan ok %u %u %u\n", opened.nodes, opened.tx, opened.rx);
    return 1;
}

static void receive(size_t node, uint32_t id, const uint8_t *payload, size_t length)
{
    struct gateway_received received = gateway_receive(area, sizeof area, node, id, payload, length);
    if (received.number > GATEWAY_TOO_SHORT)
        printf("rx refused %u\n", received.number);
    else if (received.number == GATEWAY_NO_ROW)
        printf("rx %u %u\n", received.number, received.place);
    else
        printf("rx %u\n", received.number);
}

static void tick(void)
{
    unsigned refusal = gateway_tick(area, sizeof area, report, sizeof report);
    if (refusal != 0) {
        printf("tick refused %u\n", refusal);
        return;
    }
    printf("tick");
    for (unsigned r = 0; r < rx_frames; r++)
        printf(" %u", report[r]);
    printf("\n");
}

static void take(size_t node)
{
    struct gateway_taken taken = gateway_take(area, sizeof area, node);
    if (taken.number != 0) {
        printf("take refused %u\n", taken.number);
        return;
    }
    if (taken.kind == GATEWAY_NOTHING) {
        printf("take none\n");
        return;
    }
    struct gateway_payload payload = gateway_payload(area, sizeof area, taken);
    printf("take %u %u %u ", taken.tx, (unsigned)taken.id, taken.size);
    if (payload.size == 0)
        printf("-");
    for (size_t i = 0; i < payload.size; i++)
        printf("%02x", area[payload.at + i]);
    printf(" %u\n", taken.waiting);
}

int main(void)
{
    static const uint8_t payload[] = { 0x2c };
    if (!open_plan())
        return 1;
    take(0);
    receive(0, 0x20, payload, 1);
    take(0);
    tick();
    tick();
    tick();
    take(0);
    tick();
    receive(0, 0x20, payload, 1);
    take(0);
    receive(0, 0x21, payload, 1);
    receive(0, 0x20, payload, 0);
    return 0;
}
