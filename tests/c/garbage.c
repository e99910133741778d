/* Marked areas of random bytes through every call: each call comes back, changes neither the mark nor a byte behind the area, a payload lies
   in the area, and the ID of a frame is below 65,536 or has 29 bits and the bit that says so. */
#include "gateway.h"

#include <stdio.h>

#define BEHIND 4096
#define SEED 2026
#define QUEUES 80 /* where in an area the records of the queues begin */

static uint8_t area[BEHIND + GATEWAY_AREA_SIZE + BEHIND];
static uint8_t report[GATEWAY_REPORT_SIZE];
static unsigned answers[65536];
static unsigned outside;
static unsigned formats[2], no_format; /* IDs of frames: of 11 and of 29 bits, and others */
static uint64_t state = SEED;

/* splitmix64 */
static uint64_t next(void)
{
    uint64_t z = state += 0x9e3779b97f4a7c15;
    z = (z ^ z >> 30) * 0xbf58476d1ce4e5b9;
    z = (z ^ z >> 27) * 0x94d049bb133111eb;
    return z ^ z >> 31;
}

/* One call on the area that begins at `own`. */
static void call(uint8_t *own)
{
    uint8_t payload[9];
    for (unsigned i = 0; i < sizeof payload; i++)
        payload[i] = (uint8_t)next();
    unsigned number;
    switch (next() % 6) {
    case 0: {
        uint32_t id = (uint32_t)(next() % 3 ? next() % 65536 : next());
        number = gateway_receive(own, GATEWAY_AREA_SIZE, next() % 17, next() % 2 ? id : GATEWAY_EXTENDED | id, payload, next() % 10).number;
        break;
    }
    case 1:
        number = gateway_tick(own, GATEWAY_AREA_SIZE, report, next() % 8 ? sizeof report : next() % 256);
        break;
    case 2: {
        struct gateway_taken taken = gateway_take(own, GATEWAY_AREA_SIZE, next() % 17);
        struct gateway_payload part = gateway_payload(own, GATEWAY_AREA_SIZE, taken);
        number = taken.number;
        outside += part.at + part.size > GATEWAY_AREA_SIZE;
        if (taken.kind == GATEWAY_FRAME) {
            unsigned extended = (taken.id & GATEWAY_EXTENDED) != 0;
            formats[extended]++;
            no_format += (taken.id & ~GATEWAY_EXTENDED) > (extended ? 0x1fffffff : 0xffff);
        }
        break;
    }
    case 3:
        number = gateway_respond(own, GATEWAY_AREA_SIZE, next() % 17, (uint32_t)(next() % 3 ? next() % 64 : next()), payload, next() % 10, (uint8_t)next());
        break;
    case 4:
        number = gateway_no_response(own, GATEWAY_AREA_SIZE, next() % 17, (uint32_t)(next() % 3 ? next() % 64 : next()));
        break;
    default:
        number = gateway_fullness(own, GATEWAY_AREA_SIZE, next() % 300).number;
    }
    answers[number]++;
}

int main(void)
{
    static uint8_t before[sizeof area];
    uint8_t *own = area + BEHIND;
    for (unsigned round = 0; round < 60; round++) {
        for (size_t i = 0; i < sizeof area; i++)
            area[i] = before[i] = (uint8_t)next();
        own[0] = before[BEHIND] = 0x47;
        own[1] = before[BEHIND + 1] = 0x57;
        if (round % 4 == 0) /* no ring has room */
            for (unsigned node = 0; node < 16; node++)
                own[QUEUES + 8 * node + 2] = own[QUEUES + 8 * node + 3] = 0;
        for (unsigned i = 0; i < 90; i++)
            call(own);
        for (size_t i = 0; i < sizeof area; i++)
            if ((i < BEHIND + 2 || i >= BEHIND + GATEWAY_AREA_SIZE) && area[i] != before[i]) {
                printf("byte %ld changed in round %u\n", (long)i - BEHIND, round);
                return 1;
            }
    }
    if (outside) {
        printf("%u payloads lie outside the area\n", outside);
        return 1;
    }
    if (no_format || !formats[0] || !formats[1]) {
        printf("IDs of frames: %u of 11 bits, %u of 29, %u of neither\n", formats[0], formats[1], no_format);
        return 1;
    }
    /* each answer that such an area can give */
    const unsigned met[] = {0, GATEWAY_NO_ROW, GATEWAY_REFUSED_NO_NODE, GATEWAY_REFUSED_LONG_PAYLOAD, GATEWAY_REFUSED_SHORT_REPORT,
                            GATEWAY_REFUSED_NO_FRAME, GATEWAY_REFUSED_WRONG_CALL};
    for (unsigned i = 0; i < sizeof met / sizeof *met; i++)
        if (!answers[met[i]]) {
            printf("answer %u was never met\n", met[i]);
            return 1;
        }
    printf("60 areas of random bytes from seed %d, 90 calls on each: ok\n", SEED);
    return 0;
}
