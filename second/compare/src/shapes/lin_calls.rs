//! The calls on LIN nodes: every answer, every refusal and two of them at once,
//! and checksums of all kinds.

use second::lin::{folded_sum, plain, protected_identifier};

use super::Shape;
use crate::checksums::{Response, OTHER_CHECKSUMS};
use crate::events::{right_checksum, Events, EVEN};
use crate::good;
use crate::rng::Rng;
use crate::spec::{Destination, Plan, Rx, Signal, Tx};

pub fn shapes() -> Vec<Shape> {
    vec![
        Shape::new("lin: every answer, big order", |rng| answers(rng, 0)),
        Shape::new("lin: every answer, little order", |rng| answers(rng, 1)),
        Shape::new("lin: every refusal", refusals),
        Shape::new("lin: checksums of another kind", other_checksums),
        Shape::new("lin: every checksum of a response", every_checksum),
        Shape::new("lin: every ID", every_id),
    ]
}

fn to(tx: u16, position: u8) -> Destination {
    Destination { tx, position }
}

/// Node 0 is CAN, nodes 1 and 2 are LIN, each with a Tx frame that is due at
/// every tick. Row 0 is on node 0, rows 1 and 2 on node 1, row 3 on node 2; rows
/// 0 and 1 have the same ID. Signals go from CAN to LIN, from LIN to CAN and
/// from LIN to LIN.
fn calls_plan(rng: &mut Rng, order: u8) -> Plan {
    let first = rng.from_to(0, 20) as u16;
    let second = first + rng.from_to(1, 10) as u16;
    let third = second + rng.from_to(0, 10) as u16;
    let mut plan = Plan {
        order,
        nodes: 3,
        lin: 2,
        ..Plan::default()
    };
    for (node, id) in [(0, rng.below(2048)), (1, rng.below(60)), (2, rng.below(60))] {
        plan.tx.push(Tx {
            reload: 1,
            timer: 1,
            flags: rng.from_to(1, 3) as u8,
            payload: good::payload_of_size(rng, 8),
            ..Tx::quiet(node, id as u16, 8)
        });
    }
    let rows = [
        (0, first, vec![to(1, 0), to(2, 0)]),
        (1, first, vec![to(0, 0), to(1, 10)]),
        (1, second, vec![to(2, 10)]),
        (2, third, vec![to(1, 20), to(0, 20)]),
    ];
    for (place, (node, id, destinations)) in (40..).zip(rows) {
        let size = rng.from_to(2, 7);
        plan.rx.push(Rx {
            reload: rng.from_to(1, 3) as u8,
            timer: rng.from_to(1, 3) as u8,
            prescaler: rng.pick(&[1, 1, 2]),
            long_count: 2,
            signals: vec![Signal {
                position: rng.from_to(0, 8 * size - 8) as u8,
                size: 8,
                destinations,
            }],
            ..Rx::watched(node, id, size as u8, place)
        });
    }
    // A row without indicator and long count.
    plan.rx[2].enable = 0;
    plan.rx[2].long_count = 0;
    plan
}

fn answers(rng: &mut Rng, order: u8) -> Vec<u8> {
    let plan = calls_plan(rng, order);
    let mut events = Events::new(&plan);
    for row in 0..plan.rx.len() {
        events.accepted(rng, row);
        events.drain();
    }
    for row in plan.lin_rows() {
        let rx = &plan.rx[row];
        for length in (0..=12).chain([128, 255]) {
            let data = rng.payload();
            let right = right_checksum(rx.id, length, &data);
            let wrong = right ^ rng.from_to(1, 255) as u8;
            events.response(rx.node, rx.id, length, data, wrong);
            events.response(rx.node, rx.id, length, data, right);
        }
        for _ in 0..3 {
            events.no_response(rx.node, rx.id);
            events.ticks(1);
            events.drain();
        }
        events.accepted(rng, row);
        events.ticks(1);
        events.drain();
    }
    events.some(rng, 40, EVEN);
    events.show_all(rng);
    plan.input(&events.bytes)
}

fn refusals(rng: &mut Rng) -> Vec<u8> {
    let order = rng.below(2) as u8;
    let plan = calls_plan(rng, order);
    let mut refused = refused_calls(rng, &plan);
    rng.shuffle(&mut refused);
    let mut events = Events::new(&plan);
    for (node, id, length) in refused {
        let data = rng.payload();
        let right = right_checksum(id, length, &data);
        let checksum = right ^ rng.pick(&[0, 0, 1, 0xFF]);
        events.response(node, id, length, data, checksum);
        events.no_response(node, id);
        events.reception(node, id, length, data);
        if rng.once_in(4) {
            events.some(rng, 1, EVEN);
        }
    }
    // 13 with the right checksum and with a wrong one.
    let rx = &plan.rx[1];
    for wrong in [0, 1] {
        let checksum = right_checksum(rx.id, 9, &[0; 8]) ^ wrong;
        events.response(rx.node, rx.id, 9, rng.payload(), checksum);
    }
    events.show_all(rng);
    plan.input(&events.bytes)
}

/// Nodes, IDs and lengths: with a row and without, too long, too short and just
/// right.
fn refused_calls(rng: &mut Rng, plan: &Plan) -> Vec<(u8, u16, u8)> {
    let id = plain(plan.rx[1].id);
    let no_row = rng.from_to(41, 59) as u16;
    let ids = [
        id,
        no_row,
        60,
        63,
        id + 64,
        id + 256,
        id + 2048,
        plain(plan.rx[2].id) + 64,
        u16::from(protected_identifier(plain(plan.rx[2].id))),
        u16::MAX,
    ];
    let mut calls = Vec::new();
    for id in ids {
        for node in [0, 1, 2, 3, 16, 255] {
            calls.push((node, id, rng.pick(&[9, 10, 255])));
            calls.push((node, id, rng.below(9) as u8));
        }
    }
    // The old reception of a row that would fit, and of one too short.
    calls.extend([(1, id, plan.rx[1].size), (1, id, plan.rx[1].size - 1)]);
    calls
}

/// A LIN node with rows of all sizes, whose bytes go to a frame of its own.
fn sizes_plan(rng: &mut Rng) -> Plan {
    let mut plan = Plan {
        order: rng.below(2) as u8,
        nodes: 2,
        lin: 1,
        ..Plan::default()
    };
    let mut id = 0;
    for size in 1..=8 {
        let flags = rng.from_to(1, 3) as u8;
        plan.tx.push(Tx {
            timer: 1,
            flags,
            ..Tx::quiet(1, id, size)
        });
        plan.rx.push(Rx {
            signals: vec![Signal {
                position: 0,
                size: 8 * size,
                destinations: vec![to(u16::from(size) - 1, 0)],
            }],
            ..Rx::quiet(1, id, size)
        });
        id += rng.from_to(1, 7) as u16;
    }
    plan
}

/// For each of the other checksums a response that it lets in and that is wrong,
/// then the same one with its right checksum.
fn other_checksums(rng: &mut Rng) -> Vec<u8> {
    let plan = sizes_plan(rng);
    let mut events = Events::new(&plan);
    for (_, checksum) in OTHER_CHECKSUMS {
        let (rx, length, data, other, right) = loop {
            let rx = &plan.rx[rng.below(plan.rx.len())];
            let length = rng.from_to(usize::from(rx.size), 8);
            let data = rng.payload();
            let response = Response {
                id: plain(rx.id),
                size: rx.size.into(),
                bytes: &data[..length],
                data: &data,
            };
            let (other, right) = (checksum(&response), response.right_checksum());
            if other != right {
                break (rx, length as u8, data, other, right);
            }
        };
        for checksum in [other, right] {
            events.response(rx.node, rx.id, length, data, checksum);
            events.take(1);
        }
    }
    events.ticks(1);
    events.drain();
    plan.input(&events.bytes)
}

/// One response with each of the 256 checksums; the right one is not 0.
fn every_checksum(rng: &mut Rng) -> Vec<u8> {
    let plan = sizes_plan(rng);
    let rx = &plan.rx[rng.below(plan.rx.len())];
    let length = rng.from_to(usize::from(rx.size), 8) as u8;
    let mut data = rng.payload();
    while right_checksum(rx.id, length, &data) == 0 {
        data = rng.payload();
    }
    let mut events = Events::new(&plan);
    for checksum in 0..=255 {
        events.response(rx.node, rx.id, length, data, checksum);
    }
    events.drain();
    plan.input(&events.bytes)
}

/// A LIN node with a row for each ID, and each ID with no row on another. The
/// calls take the plain ID and not the protected one.
fn every_id(rng: &mut Rng) -> Vec<u8> {
    let mut plan = Plan {
        order: rng.below(2) as u8,
        nodes: 3,
        lin: 2,
        tx: vec![Tx {
            flags: 3,
            ..Tx::quiet(rng.below(3) as u8, 0, 8)
        }],
        ..Plan::default()
    };
    for id in 0..60 {
        let size = rng.from_to(1, 8) as u8;
        plan.rx.push(Rx {
            timer: rng.from_to(0, 2) as u8,
            signals: vec![Signal {
                position: 0,
                size: 1,
                destinations: vec![to(0, id as u8)],
            }],
            ..Rx::quiet(1, id, size)
        });
    }
    let mut rows: Vec<usize> = (0..60).collect();
    rng.shuffle(&mut rows);
    let mut events = Events::new(&plan);
    for row in rows {
        let id = plain(plan.rx[row].id);
        let data = rng.payload();
        let protected = protected_identifier(id);
        // Protected identifiers with another parity bit.
        for bits in [0x40, 0x80, 0xC0] {
            let mut bytes = vec![protected ^ bits];
            bytes.extend(data);
            events.response(1, id, 8, data, !folded_sum(&bytes));
        }
        events.accepted(rng, row);
        let right = right_checksum(id, 8, &data);
        events.response(1, u16::from(protected), 8, data, right);
        events.no_response(1, u16::from(protected));
        events.response(2, id, 8, data, right);
        events.no_response(2, id);
        if rng.once_in(8) {
            events.ticks(1);
            events.drain();
        }
    }
    events.ticks(2);
    events.drain();
    plan.input(&events.bytes)
}
