/*
 * The gateway's calls from C. Link with libinterface.a, which `tools/prove interface_c` proves and writes to target/staticlib/.
 *
 * A slice is two arguments: a pointer and how many bytes stand there. The pointer is never NULL, also where the count is 0; what is lent to one
 * call does not overlap; and nothing else reads or writes it while the call runs. Between the calls the caller may read the area, and writes
 * nothing into it. No call asks more: any bytes and any numbers are met, and every call ends.
 *
 * A call answers a struct of at most 16 bytes, or a number alone. `number` is 0, one of the answers, or one of the refusals below. A field that
 * says nothing is 0. A refused call changes no byte.
 */
#ifndef GATEWAY_H
#define GATEWAY_H

#include <stddef.h>
#include <stdint.h>

#ifdef __cplusplus
extern "C" {
#endif

/* How many bytes an area needs, and how many bytes of report are enough for every plan. */
#define GATEWAY_AREA_SIZE 32768
#define GATEWAY_REPORT_SIZE 256

/* In an ID of CAN this bit says that it has 29 bits, as CAN_EFF_FLAG in the can_id of Linux's SocketCAN; without it the ID has 11 bits. */
#define GATEWAY_EXTENDED 0x80000000u

/* What a reception or a response that is not refused answers. */

/* accepted: the frame's signals are copied, and its long counter starts again; in a reception its timer too */
#define GATEWAY_ACCEPTED 0
/* a frame with no matching row: nothing changes */
#define GATEWAY_NO_ROW 1
/* a payload shorter than the row's size: nothing changes */
#define GATEWAY_TOO_SHORT 2
/* a wrong checksum of a response: nothing changes */
#define GATEWAY_WRONG_SUM 3

/* What a take has taken. */
#define GATEWAY_NOTHING 0
#define GATEWAY_FRAME 1
#define GATEWAY_REQUEST 2

/* A timeout of an Rx frame, in a report and as the answer to "no response"; a long one comes after as many in a row as its long count. */
#define GATEWAY_SHORT_TIMEOUT 1
#define GATEWAY_LONG_TIMEOUT 2

/* The refusals: each is given exactly when its words say. */

/* the input is empty, or the record runs past its end */
#define GATEWAY_REFUSED_SHORT 1
/* the kind is not 1 to 8 */
#define GATEWAY_REFUSED_KIND 2
/* the kind may not stand here, or a CAN node follows a LIN node */
#define GATEWAY_REFUSED_PLACE 3
/* a count is passed: 16 nodes, 256 Tx, 256 Rx frames, 1,024 signals (64 in a frame), 2,048 destinations (15 for a signal) */
#define GATEWAY_REFUSED_COUNT 4
/* a field is outside its range */
#define GATEWAY_REFUSED_RANGE 5
/* an Rx frame's (node, ID) is not above that of the one before; a 29-bit ID is above all 11-bit IDs */
#define GATEWAY_REFUSED_ORDER 6
/* a signal or destination passes its frame's data, or the Tx frame does not exist */
#define GATEWAY_REFUSED_DATA 7
/* a bit would have two owners */
#define GATEWAY_REFUSED_OWNER 8
/* an enabled indicator's Rx frame is not followed at once by a signal and a destination, or its position passes the Tx data */
#define GATEWAY_REFUSED_INDICATOR 9
/* the plan is good and the area is shorter than 32,768 bytes */
#define GATEWAY_REFUSED_SHORT_AREA 10
/* in a call, the area is shorter than 32,768 bytes or does not begin with hex 47 57 */
#define GATEWAY_REFUSED_NOT_OPEN 11
/* no such node */
#define GATEWAY_REFUSED_NO_NODE 12
/* a received payload is longer than 8 bytes */
#define GATEWAY_REFUSED_LONG_PAYLOAD 13
/* the report is shorter than the Rx frame count */
#define GATEWAY_REFUSED_SHORT_REPORT 14
/* no such Tx frame */
#define GATEWAY_REFUSED_NO_FRAME 15
/* a reception on a LIN node; a response or "no response" where the node is not LIN or has no such Rx frame */
#define GATEWAY_REFUSED_WRONG_CALL 16

/*
 * Checks the plan and fills the area. The answer has the counts of nodes, Tx and Rx frames.
 * Refusals 1 to 10, with the number of the record that is refused, from 0.
 */
struct gateway_opened {
    uint16_t number;
    uint16_t record;
    uint16_t nodes;
    uint16_t tx;
    uint16_t rx;
};
struct gateway_opened gateway_open(const uint8_t *plan, size_t plan_length, uint8_t *area, size_t area_length);

/*
 * A frame that a CAN node received. `id` is as in SocketCAN: the number, with GATEWAY_EXTENDED where it has 29 bits. ID 32 in one format is not ID 32
 * in the other. A number past its format's range, 0 to 2,047 or 0 to 536,870,911, is one that no row has; so is every `id` with bit 29 or 30 set,
 * which SocketCAN gives to error and remote frames.
 * The number is GATEWAY_ACCEPTED, GATEWAY_NO_ROW or GATEWAY_TOO_SHORT. With GATEWAY_NO_ROW, `place` is how many of that node's rows come before the ID,
 * those with 11-bit IDs before those with 29-bit IDs, each by number: behind so many of them such a row belongs in the plan.
 * Refusals 11, 12, 16, 13.
 */
struct gateway_received {
    uint16_t number;
    uint16_t place;
};
struct gateway_received gateway_receive(uint8_t *area, size_t area_length, size_t node, uint32_t id, const uint8_t *payload, size_t payload_length);

/*
 * A response to a request on a LIN node: its plain ID, its data, and the checksum that came behind them. The answer is the number alone:
 * GATEWAY_ACCEPTED, GATEWAY_TOO_SHORT or GATEWAY_WRONG_SUM; the checksum is that of the protected identifier and every byte of the payload.
 * Refusals 11, 12, 16, 13.
 */
uint16_t gateway_respond(uint8_t *area, size_t area_length, size_t node, uint32_t id, const uint8_t *payload, size_t payload_length, uint8_t checksum);

/*
 * A request on a LIN node was not answered: to failure bit and long counter this is what an expiry is on CAN. The answer is the number alone:
 * GATEWAY_SHORT_TIMEOUT or GATEWAY_LONG_TIMEOUT. Refusals 11, 12, 16.
 */
uint16_t gateway_no_response(uint8_t *area, size_t area_length, size_t node, uint32_t id);

/*
 * One tick of the clock. The report gets a byte for each Rx frame, in their order: 0, GATEWAY_SHORT_TIMEOUT or GATEWAY_LONG_TIMEOUT; on a LIN node
 * always 0, since its timer only asks for the frame. Its further bytes stay. The answer is the number alone: 0, or refusals 11, 14.
 */
uint16_t gateway_tick(uint8_t *area, size_t area_length, uint8_t *report, size_t report_length);

/*
 * The oldest frame or request that waits on a node, which then waits no more. The kind is GATEWAY_FRAME, and then the answer has its Tx number; or
 * GATEWAY_REQUEST, on a LIN node, and then the Rx number of the frame that is asked for; and with both its size, its ID and how many still wait on
 * that node. On CAN `id` is as in SocketCAN, with GATEWAY_EXTENDED for one of 29 bits, and `protected_id` and `checksum` are 0. On LIN `id` is the plain
 * one, `protected_id` is the protected identifier, which is never 0, and for a frame `checksum` is that of the payload.
 * What waits leaves in the order in which it joined: with n ahead of it, at the (n + 1)-th take on its node. The kind is GATEWAY_NOTHING where
 * nothing waits or the take is refused. Refusals 11, 12.
 */
struct gateway_taken {
    uint16_t number;
    uint8_t kind;
    uint8_t size;
    uint16_t tx;
    uint16_t rx;
    uint32_t id;
    uint16_t waiting;
    uint8_t protected_id;
    uint8_t checksum;
};
struct gateway_taken gateway_take(uint8_t *area, size_t area_length, size_t node);

/*
 * The payload of a frame that was taken: `size` bytes of the area, from its byte `at` on; `taken` is what the take answered. The bytes are those
 * that a call last left there: read them before the next one. Where no frame was taken both are 0. A plan's sizes are at most 8; in
 * an area that others wrote into a size can be up to 15. Never refused, whatever `taken` has.
 */
struct gateway_payload {
    uint16_t at;
    uint16_t size;
};
struct gateway_payload gateway_payload(const uint8_t *area, size_t area_length, struct gateway_taken taken);

/*
 * How many bits of a Tx frame have an owner, 0 to 64. Refusals 11, 15.
 */
struct gateway_fullness {
    uint16_t number;
    uint16_t bits;
};
struct gateway_fullness gateway_fullness(const uint8_t *area, size_t area_length, size_t tx);

#ifdef __cplusplus
}
#endif

#endif
