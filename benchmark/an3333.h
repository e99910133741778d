// The tables of a gateway in C after Freescale AN3333, section 3.1, in a lent area. All the gateways here have the calls of include/gateway.h.
#pragma once
#include "bare.h"
#include "gateway.h"

enum { NODES = 16, FRAMES = 256, SIGNALS = 1024, DESTINATIONS = 2048, AREA_SIZE = 32768 };

struct timer {
    uint8_t reload, count;
};

enum { SEND_ON_RECEPTION = 1, SEND_ON_CHANGE = 2, SCHEDULED = 4 };

struct tx_frame {
    uint8_t data[8];
    uint16_t id;
    uint8_t node, size;
    struct timer timer;
    uint8_t mask, flags;
};

// An Rx frame whose failure position is this has no indicator.
enum { NO_INDICATOR = 255 };

struct rx_frame {
    uint16_t id;
    // where its signal descriptors begin, and how many signals it has
    uint16_t descriptors;
    uint8_t signals, size;
    struct timer timer;
    uint8_t mask, failure_position;
    uint8_t long_reload, long_count;
};

// A signal's descriptor is followed by those of its destinations.
union descriptor {
    struct {
        uint8_t position, size, destinations;
    } signal;
    struct {
        uint16_t tx;
        uint8_t position;
    } destination;
};

struct node {
    uint16_t first_row, rows;
    // the ring: where it begins, its size, the first empty slot and the oldest entry
    uint16_t ring, ring_size, add, take;
};

struct tables {
    uint8_t mark[2], counter, order;
    uint16_t nodes, tx_frames, rx_frames;
    struct node node[NODES];
    struct tx_frame tx[FRAMES];
    struct rx_frame rx[FRAMES];
    struct tx_frame *ring[FRAMES + NODES];
    uint8_t owned[FRAMES];
    union descriptor descriptor[SIGNALS + DESTINATIONS];
};
_Static_assert(sizeof(struct tables) <= AREA_SIZE, "the tables are in the area");

struct gateway_opened an3333_open(const uint8_t *plan, size_t plan_length, uint8_t *area, size_t area_length);
struct gateway_received an3333_receive(uint8_t *area, size_t area_length, size_t node, uint32_t id, const uint8_t *payload, size_t payload_length);
uint16_t an3333_tick(uint8_t *area, size_t area_length, uint8_t *report, size_t report_length);
struct gateway_taken an3333_take(uint8_t *area, size_t area_length, size_t node);
struct gateway_payload an3333_payload(const uint8_t *area, size_t area_length, struct gateway_taken taken);
struct gateway_fullness an3333_fullness(const uint8_t *area, size_t area_length, size_t tx);

// The same with another copy of a signal; an3333_open opens for both.
struct gateway_received word64_receive(uint8_t *area, size_t area_length, size_t node, uint32_t id, const uint8_t *payload, size_t payload_length);
uint16_t word64_tick(uint8_t *area, size_t area_length, uint8_t *report, size_t report_length);
struct gateway_taken word64_take(uint8_t *area, size_t area_length, size_t node);
struct gateway_payload word64_payload(const uint8_t *area, size_t area_length, struct gateway_taken taken);
struct gateway_fullness word64_fullness(const uint8_t *area, size_t area_length, size_t tx);
