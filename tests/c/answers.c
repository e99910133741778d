/* Every field of every struct, and every refusal, through the C interface. The arguments are refused plans: hex, refusal number, record. */
#include "gateway.h"

#include <stdio.h>

/* two nodes, four Tx frames on node 1 that all expire at the first tick, one Rx frame on node 0 with three bits for Tx frame 1 */
static const uint8_t plan[] = {
    1, 0,
    2, 0,
    2, 0,
    3, 1, 0x01, 0x23, 1, 1, 9, 1, 0, 0, 0, 0, 0, 0, 0, 0, 0,
    3, 1, 0x04, 0x56, 5, 1, 9, 1, 0, 0xa0, 0xa1, 0xa2, 0xa3, 0xa4, 0, 0, 0,
    3, 1, 0x07, 0x89, 0, 1, 9, 1, 0, 0, 0, 0, 0, 0, 0, 0, 0,
    3, 1, 0x07, 0xff, 8, 1, 9, 1, 0, 1, 2, 3, 4, 5, 6, 7, 8,
    4, 0, 0x00, 0x20, 1, 1, 1, 1, 0, 0, 2,
    5, 0, 3,
    6, 0, 1, 8,
};

/* one node, a Tx frame of two bytes that is sent on reception, a source of reload 2 and prescaler 1 whose failure bit is the frame's last */
static const uint8_t source_plan[] = {
    1, 0,
    2, 0,
    3, 0, 0x01, 0x00, 2, 1, 0, 0, 1, 0, 0, 0, 0, 0, 0, 0, 0,
    4, 0, 0x00, 0x20, 1, 1, 2, 0, 1, 15, 0,
    5, 0, 8,
    6, 0, 0, 0,
};

/*
 * Node 0 is CAN, node 1 LIN. Tx frame 0 on CAN is sent on reception; Tx frame 1 on LIN expires at ticks 1, 4 and 7. Both Rx frames are on LIN and are
 * asked for at every second tick: ID 01 of one byte, which goes to both Tx frames and has long count 2 and the failure bit that is Tx frame 0's last;
 * ID 3b of eight bytes, with neither.
 */
static const uint8_t lin_plan[] = {
    1, 0,
    2, 0,
    2, 1,
    3, 0, 0x01, 0x00, 2, 1, 0, 0, 1, 0, 0, 0, 0, 0, 0, 0, 0,
    3, 1, 0x00, 0x02, 3, 1, 3, 1, 0, 0x55, 0x93, 0xe5, 0, 0, 0, 0, 0,
    4, 1, 0x00, 0x01, 1, 1, 2, 2, 1, 15, 2,
    5, 0, 8,
    6, 0, 0, 0,
    6, 0, 1, 0,
    4, 1, 0x00, 0x3b, 8, 1, 2, 2, 0, 0, 0,
};

/*
 * Two CAN nodes. On node 0 five Rx frames of one byte, in the order of rows: 11-bit IDs 20 and 7ff, 29-bit IDs 0, 20 and 1fffffff. Each goes to the Tx frame
 * of its number on node 1, which is sent on reception: 11-bit IDs 7ff and 0, 29-bit IDs 7ff, 0 and 1fffffff.
 */
static const uint8_t formats_plan[] = {
    1, 0,
    2, 0,
    2, 0,
    3, 1, 0x07, 0xff, 1, 1, 0, 0, 1, 0, 0, 0, 0, 0, 0, 0, 0,
    7, 1, 0x00, 0x00, 0x07, 0xff, 1, 1, 0, 0, 1, 0, 0, 0, 0, 0, 0, 0, 0,
    7, 1, 0x1f, 0xff, 0xff, 0xff, 1, 1, 0, 0, 1, 0, 0, 0, 0, 0, 0, 0, 0,
    3, 1, 0x00, 0x00, 1, 1, 0, 0, 1, 0, 0, 0, 0, 0, 0, 0, 0,
    7, 1, 0x00, 0x00, 0x00, 0x00, 1, 1, 0, 0, 1, 0, 0, 0, 0, 0, 0, 0, 0,
    4, 0, 0x00, 0x20, 1, 1, 0, 0, 0, 0, 0,
    5, 0, 8, 6, 0, 0, 0,
    4, 0, 0x07, 0xff, 1, 1, 0, 0, 0, 0, 0,
    5, 0, 8, 6, 0, 1, 0,
    8, 0, 0x00, 0x00, 0x00, 0x00, 1, 1, 0, 0, 0, 0, 0,
    5, 0, 8, 6, 0, 2, 0,
    8, 0, 0x00, 0x00, 0x00, 0x20, 1, 1, 0, 0, 0, 0, 0,
    5, 0, 8, 6, 0, 3, 0,
    8, 0, 0x1f, 0xff, 0xff, 0xff, 1, 1, 0, 0, 0, 0, 0,
    5, 0, 8, 6, 0, 4, 0,
};

static uint8_t area[GATEWAY_AREA_SIZE + 1];
static uint8_t report[GATEWAY_REPORT_SIZE];
static const uint8_t payload[9];
static unsigned wrong;

static void expect(const char *what, size_t got, size_t said)
{
    if (got != said) {
        printf("%s: %lu, and not %lu\n", what, (unsigned long)got, (unsigned long)said);
        wrong++;
    }
}

/* What has no more to say than its number: every other field is 0. */
static void expect_received(const char *what, struct gateway_received got, unsigned number)
{
    expect(what, got.number, number);
    expect(what, got.place, 0);
}

static void expect_no_row(const char *what, size_t node, uint32_t id, unsigned place)
{
    struct gateway_received got = gateway_receive(area, GATEWAY_AREA_SIZE, node, id, payload, 1);
    expect(what, got.number, GATEWAY_NO_ROW);
    expect("the place", got.place, place);
}

static void expect_nothing(const char *what, struct gateway_taken got, unsigned number)
{
    expect(what, got.number, number);
    expect(what, got.kind, GATEWAY_NOTHING);
    expect(what, got.size, 0);
    expect(what, got.tx, 0);
    expect(what, got.rx, 0);
    expect(what, got.id, 0);
    expect(what, got.waiting, 0);
    expect(what, got.protected_id, 0);
    expect(what, got.checksum, 0);
}

static void expect_no_part(const char *what, struct gateway_payload got)
{
    expect(what, got.at, 0);
    expect(what, got.size, 0);
}

static void expect_no_bits(const char *what, struct gateway_fullness got, unsigned number)
{
    expect(what, got.number, number);
    expect(what, got.bits, 0);
}

static void expect_not_opened(const char *what, struct gateway_opened got, unsigned number, unsigned record)
{
    expect(what, got.number, number);
    expect("its record", got.record, record);
    expect("no nodes", got.nodes, 0);
    expect("no Tx frames", got.tx, 0);
    expect("no Rx frames", got.rx, 0);
}

static unsigned digit(char c) { return (unsigned)(c <= '9' ? c - '0' : c - 'a' + 10); }

static unsigned number(const char *text)
{
    unsigned n = 0;
    while (*text)
        n = 10 * n + digit(*text++);
    return n;
}

static void refused_plan(const char *hex, const char *refusal, const char *record)
{
    uint8_t bytes[256];
    size_t n = 0;
    for (; hex[0] && hex[1] && n < sizeof bytes; hex += 2)
        bytes[n++] = (uint8_t)(16 * digit(hex[0]) + digit(hex[1]));
    expect_not_opened("a refused plan", gateway_open(bytes, n, area, GATEWAY_AREA_SIZE), number(refusal), number(record));
}

static void expect_taken(struct gateway_taken got, unsigned size, unsigned id, unsigned waiting)
{
    expect("no refusal", got.number, 0);
    expect("size", got.size, size);
    expect("ID", got.id, id);
    expect("waiting", got.waiting, waiting);
}

static void expect_frame(struct gateway_taken got, unsigned tx, unsigned size, unsigned id, unsigned waiting)
{
    expect_taken(got, size, id, waiting);
    expect("a frame", got.kind, GATEWAY_FRAME);
    expect("Tx number", got.tx, tx);
    expect("a frame has no Rx number", got.rx, 0);
}

static void expect_can_frame(struct gateway_taken got, unsigned tx, unsigned size, unsigned id, unsigned waiting)
{
    expect_frame(got, tx, size, id, waiting);
    expect("no protected identifier on CAN", got.protected_id, 0);
    expect("no checksum on CAN", got.checksum, 0);
}

/* The oldest that waits on LIN node 1. */
static void expect_request(unsigned rx, unsigned size, unsigned id, unsigned waiting, unsigned protected_id)
{
    struct gateway_taken got = gateway_take(area, GATEWAY_AREA_SIZE, 1);
    expect_taken(got, size, id, waiting);
    expect("a request", got.kind, GATEWAY_REQUEST);
    expect("Rx number", got.rx, rx);
    expect("a request has no Tx number", got.tx, 0);
    expect("the protected identifier", got.protected_id, protected_id);
    expect("a request has no checksum", got.checksum, 0);
    expect_no_part("payload of a request", gateway_payload(area, GATEWAY_AREA_SIZE, got));
}

static void expect_lin_frame(uint8_t first, unsigned waiting, unsigned checksum)
{
    struct gateway_taken got = gateway_take(area, GATEWAY_AREA_SIZE, 1);
    expect_frame(got, 1, 3, 0x02, waiting);
    expect("the protected identifier", got.protected_id, 0x42);
    expect("the checksum", got.checksum, checksum);
    struct gateway_payload part = gateway_payload(area, GATEWAY_AREA_SIZE, got);
    expect("payload size on LIN", part.size, 3);
    expect("payload byte 0", area[part.at], first);
    expect("payload byte 1", area[part.at + 1], 0x93);
    expect("payload byte 2", area[part.at + 2], 0xe5);
}

/* The second and the last frame of four, on node 1: no two fields have the same value in both. */
static void frames(void)
{
    gateway_take(area, GATEWAY_AREA_SIZE, 1);
    struct gateway_taken taken = gateway_take(area, GATEWAY_AREA_SIZE, 1);
    expect_can_frame(taken, 1, 5, 0x456, 2);
    struct gateway_payload part = gateway_payload(area, GATEWAY_AREA_SIZE, taken);
    expect("where the payload begins", part.at, 6392);
    expect("payload size", part.size, 5);
    for (size_t i = 0; i < 5; i++)
        expect("payload byte", area[part.at + i], i == 1 ? 0x01 : 0xa0 + i);
    expect_no_part("payload, one byte short", gateway_payload(area, GATEWAY_AREA_SIZE - 1, taken));
    gateway_take(area, GATEWAY_AREA_SIZE, 1);
    expect_can_frame(gateway_take(area, GATEWAY_AREA_SIZE, 1), 3, 8, 0x7ff, 0);
    taken = gateway_take(area, GATEWAY_AREA_SIZE, 1);
    expect_nothing("none left", taken, 0);
    expect_no_part("payload of none", gateway_payload(area, GATEWAY_AREA_SIZE, taken));
}

/* Structs that no take answers: the kind alone says whether there is a payload, and the part lies in the area. */
static void made_up(void)
{
    struct gateway_taken taken = {GATEWAY_REFUSED_NO_NODE, GATEWAY_FRAME, 0xf3, 0xff02, 0xffff, 0xffffffff, 0xffff, 0xff, 0xff};
    struct gateway_payload part = gateway_payload(area, GATEWAY_AREA_SIZE, taken);
    expect("payload of a frame made up", part.at, 6400);
    expect("size of a frame made up", part.size, 3);
    taken.kind = GATEWAY_REQUEST;
    expect_no_part("payload of a request made up", gateway_payload(area, GATEWAY_AREA_SIZE, taken));
    taken.kind = 0x81;
    expect_no_part("another kind", gateway_payload(area, GATEWAY_AREA_SIZE, taken));
}

/* Ticket 8: a refused tick makes no value older, and an opening forgets what was accepted before. */
static void ages(void)
{
    static const uint8_t value[1] = {0x2c};
    gateway_open(source_plan, sizeof source_plan, area, GATEWAY_AREA_SIZE);
    gateway_receive(area, GATEWAY_AREA_SIZE, 0, 0x20, value, 1);
    gateway_tick(area, GATEWAY_AREA_SIZE, report, sizeof report);
    for (int i = 0; i < 5; i++)
        expect("a refused tick", gateway_tick(area, GATEWAY_AREA_SIZE, report, 0), GATEWAY_REFUSED_SHORT_REPORT);
    struct gateway_taken taken = gateway_take(area, GATEWAY_AREA_SIZE, 0);
    expect_can_frame(taken, 0, 2, 0x100, 0);
    size_t at = gateway_payload(area, GATEWAY_AREA_SIZE, taken).at;
    expect("the value", area[at], 0x2c);
    expect("failure bit after one tick and refused ones", area[at + 1], 0);
    gateway_tick(area, GATEWAY_AREA_SIZE, report, sizeof report);
    expect("failure bit after two ticks", area[at + 1], 1);
    gateway_open(source_plan, sizeof source_plan, area, GATEWAY_AREA_SIZE);
    expect("the value since the opening", area[at], 0);
    expect("failure bit since the opening", area[at + 1], 0);
}

/* The answer to a take on this node is this Tx frame of the plan below. */
static void expect_turn(size_t node, unsigned tx, unsigned waiting)
{
    expect_can_frame(gateway_take(area, GATEWAY_AREA_SIZE, node), tx, 1, tx, waiting);
}

/* Ticket 14: two full queues of 128 frames each, which fall due at every tick, and between them a node without any. */
static void turns(void)
{
    static uint8_t full_plan[2 + 3 * 2 + 256 * 17] = {1, 0, 2, 0, 2, 0, 2, 0};
    for (unsigned tx = 0; tx < 256; tx++) {
        uint8_t *record = full_plan + 8 + 17 * tx;
        const uint8_t fields[9] = {3, tx < 128 ? 0 : 2, 0, (uint8_t)tx, 1, 1, 1, 1, 0};
        for (unsigned i = 0; i < sizeof fields; i++)
            record[i] = fields[i];
    }
    expect("open with full queues", gateway_open(full_plan, sizeof full_plan, area, GATEWAY_AREA_SIZE).number, 0);
    expect_nothing("nothing is due yet", gateway_take(area, GATEWAY_AREA_SIZE, 0), 0);
    gateway_tick(area, GATEWAY_AREA_SIZE, report, sizeof report);
    for (unsigned tx = 0; tx < 50; tx++)
        expect_turn(0, tx, 127 - tx);
    /* the 50 join again behind the 78 that wait, and the ring goes round */
    gateway_tick(area, GATEWAY_AREA_SIZE, report, sizeof report);
    expect_nothing("a node without frames", gateway_take(area, GATEWAY_AREA_SIZE, 1), 0);
    expect_nothing("a refused take", gateway_take(area, GATEWAY_AREA_SIZE, 3), GATEWAY_REFUSED_NO_NODE);
    for (unsigned i = 0; i < 128; i++) {
        expect_turn(0, (50 + i) % 128, 127 - i);
        expect_turn(2, 128 + i, 127 - i);
    }
    expect_nothing("all have left", gateway_take(area, GATEWAY_AREA_SIZE, 0), 0);
    gateway_tick(area, GATEWAY_AREA_SIZE, report, sizeof report);
    expect_turn(2, 128, 127);
    gateway_open(full_plan, sizeof full_plan, area, GATEWAY_AREA_SIZE);
    expect_nothing("an opening empties the queues", gateway_take(area, GATEWAY_AREA_SIZE, 2), 0);
}

/* A frame without a row changes nothing; its place counts the rows before it, those with 11-bit IDs first. */
static void strangers(void)
{
    static const struct {
        const char *what;
        uint32_t id;
        unsigned place;
    } told[] = {
        {"before all 11-bit rows", 0x1f, 0},
        {"between the 11-bit rows", 0x21, 1},
        {"between the 11-bit rows, at the end", 0x7fe, 1},
        {"the first number past 11 bits", 0x800, 2},
        {"a 29-bit row's number without its bit", 0x1fffffff, 2},
        {"an error frame, bit 29", 0x20000020, 2},
        {"a remote frame, bit 30", 0x40000020, 2},
        {"bits 29 and 30, as large as can be", 0x7fffffff, 2},
        {"between the 29-bit rows", GATEWAY_EXTENDED | 0x01, 3},
        {"just below the row 20 of 29 bits", GATEWAY_EXTENDED | 0x1f, 3},
        {"just above the row 20 of 29 bits", GATEWAY_EXTENDED | 0x21, 4},
        {"an 11-bit row's number with 29 bits", GATEWAY_EXTENDED | 0x7ff, 4},
        {"the low bits of a row", GATEWAY_EXTENDED | 0x10020, 4},
        {"the last but one of 29 bits", GATEWAY_EXTENDED | 0x1ffffffe, 4},
        {"the first number past 29 bits", GATEWAY_EXTENDED | 0x20000000, 5},
        {"bit 29 beside the row 20", GATEWAY_EXTENDED | 0x20000020, 5},
        {"a remote frame with 29 bits", GATEWAY_EXTENDED | 0x40000020, 5},
        {"bits 29 and 30 beside the row 0", GATEWAY_EXTENDED | 0x60000000, 5},
        {"all bits", 0xffffffff, 5},
    };
    static uint8_t before[GATEWAY_AREA_SIZE];
    for (size_t i = 0; i < sizeof before; i++)
        before[i] = area[i];
    for (size_t i = 0; i < sizeof told / sizeof *told; i++)
        expect_no_row(told[i].what, 0, told[i].id, told[i].place);
    expect_no_row("a row's ID on another node", 1, 0x20, 0);
    expect_no_row("a row's 29-bit ID on another node", 1, GATEWAY_EXTENDED | 0x20, 0);
    for (size_t i = 0; i < sizeof before; i++)
        expect("a byte of the area after strangers", area[i], before[i]);
}

/* Ticket 6: bit 31 says that an ID has 29 bits, in a reception and in a take. */
static void formats(void)
{
    static const uint32_t received[5] = {0x20, 0x7ff, GATEWAY_EXTENDED, GATEWAY_EXTENDED | 0x20, GATEWAY_EXTENDED | 0x1fffffff};
    static const uint32_t sent[5] = {0x7ff, GATEWAY_EXTENDED | 0x7ff, GATEWAY_EXTENDED | 0x1fffffff, 0, GATEWAY_EXTENDED};
    struct gateway_opened opened = gateway_open(formats_plan, sizeof formats_plan, area, GATEWAY_AREA_SIZE);
    expect("open with both formats", opened.number, 0);
    expect("Tx frames of both formats", opened.tx, 5);
    expect("Rx frames of both formats", opened.rx, 5);
    strangers();
    for (unsigned i = 0; i < 5; i++) {
        uint8_t value = (uint8_t)(0x51 + i);
        expect_received("accepted in its format", gateway_receive(area, GATEWAY_AREA_SIZE, 0, received[i], &value, 1), GATEWAY_ACCEPTED);
        struct gateway_taken taken = gateway_take(area, GATEWAY_AREA_SIZE, 1);
        expect_can_frame(taken, i, 1, sent[i], 0);
        expect("its payload", area[gateway_payload(area, GATEWAY_AREA_SIZE, taken).at], value);
        expect_nothing("no frame of the other format", gateway_take(area, GATEWAY_AREA_SIZE, 1), 0);
    }
    strangers();
    for (unsigned i = 0; i < 5; i++) {
        expect_received("too short in its format", gateway_receive(area, GATEWAY_AREA_SIZE, 0, received[i], payload, 0), GATEWAY_TOO_SHORT);
        expect_received("too long in its format", gateway_receive(area, GATEWAY_AREA_SIZE, 0, received[i], payload, 9), GATEWAY_REFUSED_LONG_PAYLOAD);
        expect_received("no such node for it", gateway_receive(area, GATEWAY_AREA_SIZE, 2, received[i], payload, 9), GATEWAY_REFUSED_NO_NODE);
    }
    /* both formats wait at once */
    for (unsigned i = 0; i < 5; i++)
        gateway_receive(area, GATEWAY_AREA_SIZE, 0, received[4 - i], payload, 1);
    for (unsigned i = 0; i < 5; i++)
        expect_can_frame(gateway_take(area, GATEWAY_AREA_SIZE, 1), 4 - i, 1, sent[4 - i], 4 - i);
}

static unsigned respond(size_t node, uint32_t id, const uint8_t *bytes, size_t length, uint8_t checksum)
{
    return gateway_respond(area, GATEWAY_AREA_SIZE, node, id, bytes, length, checksum);
}

static unsigned no_response(size_t node, uint32_t id) { return gateway_no_response(area, GATEWAY_AREA_SIZE, node, id); }

/* The tick of this number, from 1: on LIN the report says nothing. */
static void lin_tick(unsigned number)
{
    report[0] = report[1] = 0x5a;
    expect("a tick with LIN", gateway_tick(area, GATEWAY_AREA_SIZE, report, sizeof report), 0);
    if (report[0] != 0 || report[1] != 0) {
        printf("tick %u: the report is %u %u\n", number, report[0], report[1]);
        wrong++;
    }
}

/* What is refused or not accepted on LIN, with the area as it stands: it does not change. */
static void lin_unchanged(void)
{
    static const uint8_t value[9] = {0x2c, 0x01};
    static uint8_t before[GATEWAY_AREA_SIZE];
    for (size_t i = 0; i < sizeof before; i++)
        before[i] = area[i];
    expect_received("a reception on LIN", gateway_receive(area, GATEWAY_AREA_SIZE, 1, 0x01, value, 1), GATEWAY_REFUSED_WRONG_CALL);
    expect_received("16 before 13", gateway_receive(area, GATEWAY_AREA_SIZE, 1, 0x01, value, 9), GATEWAY_REFUSED_WRONG_CALL);
    expect_received("a 29-bit ID on LIN", gateway_receive(area, GATEWAY_AREA_SIZE, 1, GATEWAY_EXTENDED | 0x01, value, 9), GATEWAY_REFUSED_WRONG_CALL);
    expect("a response with a 29-bit ID", respond(1, GATEWAY_EXTENDED | 0x01, value, 1, 0x12), GATEWAY_REFUSED_WRONG_CALL);
    expect("no response with a 29-bit ID", no_response(1, GATEWAY_EXTENDED | 0x01), GATEWAY_REFUSED_WRONG_CALL);
    expect("a response, one byte short", gateway_respond(area, GATEWAY_AREA_SIZE - 1, 1, 0x01, value, 1, 0x12), GATEWAY_REFUSED_NOT_OPEN);
    expect("a response, no such node", respond(2, 0x01, value, 9, 0x12), GATEWAY_REFUSED_NO_NODE);
    expect("a response on CAN", respond(0, 0x01, value, 9, 0x12), GATEWAY_REFUSED_WRONG_CALL);
    expect("a response without a row", respond(1, 0x02, value, 9, 0x12), GATEWAY_REFUSED_WRONG_CALL);
    expect("a response with the protected identifier", respond(1, 0xc1, value, 1, 0x12), GATEWAY_REFUSED_WRONG_CALL);
    expect("a response with an ID of more than two bytes", respond(1, 0x10001, value, 1, 0x12), GATEWAY_REFUSED_WRONG_CALL);
    expect("a long response", respond(1, 0x01, value, 9, 0x11), GATEWAY_REFUSED_LONG_PAYLOAD);
    expect("a short response", respond(1, 0x01, value, 0, 0x3e), GATEWAY_TOO_SHORT);
    expect("a short response with a wrong checksum", respond(1, 0x01, value, 0, 0x3f), GATEWAY_TOO_SHORT);
    expect("a wrong checksum", respond(1, 0x01, value, 1, 0x13), GATEWAY_WRONG_SUM);
    expect("the checksum of the data alone", respond(1, 0x01, value, 1, 0xd3), GATEWAY_WRONG_SUM);
    expect("the checksum of the size's bytes", respond(1, 0x01, value, 2, 0x12), GATEWAY_WRONG_SUM);
    expect("no response, one byte short", gateway_no_response(area, GATEWAY_AREA_SIZE - 1, 1, 0x01), GATEWAY_REFUSED_NOT_OPEN);
    expect("no response, no such node", no_response(2, 0x01), GATEWAY_REFUSED_NO_NODE);
    expect("no response on CAN", no_response(0, 0x01), GATEWAY_REFUSED_WRONG_CALL);
    expect("no response without a row", no_response(1, 0x3c), GATEWAY_REFUSED_WRONG_CALL);
    for (size_t i = 0; i < sizeof before; i++)
        expect("a byte of the area", area[i], before[i]);
}

/* Ticket 2: requests, responses with their checksums, and "no response". */
static void lin(void)
{
    static const uint8_t value[2] = {0x2c, 0x01};
    static const uint8_t zeros[8];
    struct gateway_opened opened = gateway_open(lin_plan, sizeof lin_plan, area, GATEWAY_AREA_SIZE);
    expect("LIN nodes", opened.nodes, 2);
    expect("Rx frames on LIN", opened.rx, 2);
    lin_unchanged();
    expect_nothing("nothing waits on LIN", gateway_take(area, GATEWAY_AREA_SIZE, 1), 0);
    lin_tick(1);
    expect_lin_frame(0x55, 0, 0xee);
    lin_tick(2);
    expect_request(0, 1, 0x01, 1, 0xc1);
    expect_request(1, 8, 0x3b, 0, 0xfb);
    expect_nothing("both are taken", gateway_take(area, GATEWAY_AREA_SIZE, 1), 0);

    expect("a response", respond(1, 0x01, value, 1, 0x12), GATEWAY_ACCEPTED);
    expect("a response of eight bytes", respond(1, 0x3b, zeros, 8, 0x04), GATEWAY_ACCEPTED);
    struct gateway_taken taken = gateway_take(area, GATEWAY_AREA_SIZE, 0);
    expect_can_frame(taken, 0, 2, 0x100, 0);
    size_t at = gateway_payload(area, GATEWAY_AREA_SIZE, taken).at;
    expect("the value from LIN", area[at], 0x2c);
    expect("failure bit after a response", area[at + 1], 0);
    lin_tick(3);
    expect_nothing("a response reloads no timer, and none is due", gateway_take(area, GATEWAY_AREA_SIZE, 1), 0);
    lin_tick(4);
    expect_lin_frame(0x2c, 2, 0x18);
    lin_tick(5);
    lin_tick(6);
    expect_request(0, 1, 0x01, 1, 0xc1);
    lin_unchanged();
    expect_request(1, 8, 0x3b, 0, 0xfb);

    expect("no response", no_response(1, 0x01), GATEWAY_SHORT_TIMEOUT);
    expect("failure bit after no response", area[at + 1], 1);
    expect("no response, two in a row", no_response(1, 0x01), GATEWAY_LONG_TIMEOUT);
    expect("no response, the count begins again", no_response(1, 0x01), GATEWAY_SHORT_TIMEOUT);
    lin_unchanged();
    expect("the checksum of every byte handed in", respond(1, 0x01, value, 2, 0x11), GATEWAY_ACCEPTED);
    expect("failure bit after the response", area[at + 1], 0);
    expect("no response after a response", no_response(1, 0x01), GATEWAY_SHORT_TIMEOUT);
    for (int i = 0; i < 3; i++)
        expect("no response without a long count", no_response(1, 0x3b), GATEWAY_SHORT_TIMEOUT);
}

int main(int count, char **arguments)
{
    for (int i = 1; i + 2 < count; i += 3)
        refused_plan(arguments[i], arguments[i + 1], arguments[i + 2]);

    expect_not_opened("a short area", gateway_open(plan, sizeof plan, area, GATEWAY_AREA_SIZE - 1), GATEWAY_REFUSED_SHORT_AREA, 0);
    expect("tick, not open", gateway_tick(area, GATEWAY_AREA_SIZE, report, sizeof report), GATEWAY_REFUSED_NOT_OPEN);
    expect_received("receive, not open", gateway_receive(area, GATEWAY_AREA_SIZE, 0, 0x20, payload, 1), GATEWAY_REFUSED_NOT_OPEN);
    expect_nothing("take, not open", gateway_take(area, GATEWAY_AREA_SIZE, 0), GATEWAY_REFUSED_NOT_OPEN);
    expect("a response, not open", respond(0, 0x20, payload, 1, 0), GATEWAY_REFUSED_NOT_OPEN);
    expect("no response, not open", no_response(0, 0x20), GATEWAY_REFUSED_NOT_OPEN);
    expect_no_bits("fullness, not open", gateway_fullness(area, GATEWAY_AREA_SIZE, 0), GATEWAY_REFUSED_NOT_OPEN);

    area[GATEWAY_AREA_SIZE] = 0x5a;
    struct gateway_opened opened = gateway_open(plan, sizeof plan, area, sizeof area);
    expect("open", opened.number, 0);
    expect("no record", opened.record, 0);
    expect("nodes", opened.nodes, 2);
    expect("Tx frames", opened.tx, 4);
    expect("Rx frames", opened.rx, 1);
    expect("the byte past the area", area[GATEWAY_AREA_SIZE], 0x5a);
    expect("tick, one byte short", gateway_tick(area, GATEWAY_AREA_SIZE - 1, report, sizeof report), GATEWAY_REFUSED_NOT_OPEN);
    expect_received("receive, one byte short", gateway_receive(area, GATEWAY_AREA_SIZE - 1, 0, 0x20, payload, 1), GATEWAY_REFUSED_NOT_OPEN);
    expect_nothing("take, one byte short", gateway_take(area, GATEWAY_AREA_SIZE - 1, 0), GATEWAY_REFUSED_NOT_OPEN);
    expect_no_bits("fullness, one byte short", gateway_fullness(area, GATEWAY_AREA_SIZE - 1, 0), GATEWAY_REFUSED_NOT_OPEN);

    struct gateway_fullness fullness = gateway_fullness(area, GATEWAY_AREA_SIZE, 1);
    expect("fullness", fullness.bits, 3);
    expect("a frame that exists", fullness.number, 0);
    expect_no_bits("no such Tx frame", gateway_fullness(area, GATEWAY_AREA_SIZE, 4), GATEWAY_REFUSED_NO_FRAME);
    expect_nothing("no such node", gateway_take(area, GATEWAY_AREA_SIZE, 2), GATEWAY_REFUSED_NO_NODE);
    expect_received("a long payload", gateway_receive(area, GATEWAY_AREA_SIZE, 0, 0x20, payload, 9), GATEWAY_REFUSED_LONG_PAYLOAD);
    expect("a short report", gateway_tick(area, GATEWAY_AREA_SIZE, report, 0), GATEWAY_REFUSED_SHORT_REPORT);
    expect_received("accepted", gateway_receive(area, GATEWAY_AREA_SIZE, 0, 0x20, payload, 8), GATEWAY_ACCEPTED);
    expect_no_row("no row, before the only one", 0, 0x1f, 0);
    expect_no_row("no row, behind the only one", 0, 0x21, 1);
    expect_no_row("no row, an ID of more than two bytes", 0, 0x10020, 1);
    expect_no_row("no row on another node", 1, 0x20, 0);
    expect_received("too short", gateway_receive(area, GATEWAY_AREA_SIZE, 0, 0x20, payload, 0), GATEWAY_TOO_SHORT);

    report[1] = 0x5a;
    expect("tick", gateway_tick(area, GATEWAY_AREA_SIZE, report, sizeof report), 0);
    expect("a short timeout", report[0], GATEWAY_SHORT_TIMEOUT);
    expect("the report's further bytes", report[1], 0x5a);
    expect_nothing("nothing waits on node 0", gateway_take(area, GATEWAY_AREA_SIZE, 0), 0);
    frames();
    made_up();

    expect_received("accepted after a timeout", gateway_receive(area, GATEWAY_AREA_SIZE, 0, 0x20, payload, 1), GATEWAY_ACCEPTED);
    gateway_tick(area, GATEWAY_AREA_SIZE, report, sizeof report);
    expect("the next timeout is the first in a row", report[0], GATEWAY_SHORT_TIMEOUT);
    gateway_tick(area, GATEWAY_AREA_SIZE, report, sizeof report);
    expect("a long timeout, two in a row", report[0], GATEWAY_LONG_TIMEOUT);
    ages();
    turns();
    formats();
    lin();

    printf(wrong == 0 ? "ok\n" : "wrong\n");
    return wrong != 0;
}
