//! LIN rows as sources: their long counters, which "no response" moves, and
//! fixes of any age, of which Ticket 8 says nothing.

use second::lin::plain;

use super::Shape;
use crate::events::{right_checksum, Events, EVEN};
use crate::good;
use crate::rng::Rng;
use crate::spec::{Destination, Plan, Rx, Signal, Tx};
use crate::tally::PRESCALERS;

pub fn shapes() -> Vec<Shape> {
    let mut shapes = Vec::new();
    // The 16 long counts by fours.
    for least in 0..4 {
        let long_counts = [least, 7 - least, 8 + least, 15 - least];
        let name = format!("lin: long counts {long_counts:?}");
        shapes.push(Shape::new(&name, move |rng| restarts(rng, long_counts)));
    }
    for (order, name) in [(0, "big"), (1, "little")] {
        let name = format!("lin: fixes of any age, {name} order");
        shapes.push(Shape::new(&name, move |rng| any_age(rng, order)));
    }
    shapes
}

/// What comes between two silences of a row and is no restart.
#[derive(Clone, Copy)]
enum Other {
    Tick,
    Request,
    AnotherAccepted,
    AnotherSilent,
    TooShort,
    WrongChecksum,
    TooLong,
    NoSuchNode,
    OldReception,
    NotThere,
}

const OTHERS: [Other; 10] = [
    Other::Tick,
    Other::Request,
    Other::AnotherAccepted,
    Other::AnotherSilent,
    Other::TooShort,
    Other::WrongChecksum,
    Other::TooLong,
    Other::NoSuchNode,
    Other::OldReception,
    Other::NotThere,
];

/// Node 0 is CAN; node 1 is LIN with a row for each long count, which asks at
/// every tick.
fn restarts_plan(rng: &mut Rng, long_counts: [u8; 4]) -> Plan {
    let mut plan = Plan {
        order: rng.below(2) as u8,
        nodes: 2,
        lin: 1,
        ..Plan::default()
    };
    let mut id = 0;
    for (number, long_count) in (0..).zip(long_counts) {
        plan.tx.push(Tx {
            reload: 1,
            timer: 1,
            flags: rng.below(4) as u8,
            ..Tx::quiet(rng.below(2) as u8, rng.below(60) as u16, 2)
        });
        let size = rng.from_to(1, 8) as u8;
        plan.rx.push(Rx {
            reload: 1,
            timer: 1,
            long_count,
            enable: rng.below(2) as u8,
            failure_position: 15,
            signals: vec![Signal {
                position: 0,
                size: 8,
                destinations: vec![Destination {
                    tx: number,
                    position: 0,
                }],
            }],
            ..Rx::quiet(1, id, size)
        });
        id += rng.from_to(1, 15) as u16;
    }
    plan
}

fn restarts(rng: &mut Rng, long_counts: [u8; 4]) -> Vec<u8> {
    let plan = restarts_plan(rng, long_counts);
    let mut events = Events::new(&plan);
    for row in 0..plan.rx.len() {
        restart(rng, &mut events, &plan, row);
    }
    events.some(rng, 40, EVEN);
    events.show_all(rng);
    plan.input(&events.bytes)
}

/// Not all silences of the row's long count, and a restart; then all of them,
/// with no restart between; then some more.
fn restart(rng: &mut Rng, events: &mut Events, plan: &Plan, row: usize) {
    let rx = &plan.rx[row];
    let long_count = usize::from(rx.long_count).max(2);
    let silent = |events: &mut Events| events.no_response(rx.node, rx.id);
    events.accepted(rng, row);
    for _ in 0..rng.from_to(1, long_count - 1) {
        silent(events);
    }
    events.accepted(rng, row);
    let places = OTHERS.map(|other| (other, rng.from_to(1, long_count - 1)));
    for silence in 0..long_count {
        for (other, place) in places {
            if place == silence {
                add_other(rng, events, plan, row, other);
            }
        }
        silent(events);
        if rng.once_in(3) {
            events.ticks(1);
            events.drain();
        }
    }
    for _ in 0..rng.from_to(0, long_count) {
        silent(events);
    }
}

fn add_other(rng: &mut Rng, events: &mut Events, plan: &Plan, row: usize, other: Other) {
    let rx = &plan.rx[row];
    let another = (row + rng.from_to(1, plan.rx.len() - 1)) % plan.rx.len();
    let data = rng.payload();
    let right = right_checksum(rx.id, rx.size, &data);
    match other {
        Other::Tick => events.ticks(1),
        Other::Request => {
            events.drain();
            events.ticks(1);
        }
        Other::AnotherAccepted => events.accepted(rng, another),
        Other::AnotherSilent => events.no_response(rx.node, plan.rx[another].id),
        Other::TooShort => {
            let length = rng.below(usize::from(rx.size)) as u8;
            let right = right_checksum(rx.id, length, &data);
            events.response(rx.node, rx.id, length, data, right);
        }
        Other::WrongChecksum => {
            let wrong = right ^ rng.from_to(1, 255) as u8;
            events.response(rx.node, rx.id, rx.size, data, wrong);
        }
        Other::TooLong => events.response(rx.node, rx.id, 9, data, right),
        Other::NoSuchNode => {
            let node = rng.pick(&[2, 16, 255]);
            events.response(node, rx.id, rx.size, data, right);
            events.no_response(node, rx.id);
        }
        Other::OldReception => events.reception(rx.node, rx.id, rx.size, data),
        Other::NotThere => {
            let (node, id) = rng.pick(&[(0, plain(rx.id)), (1, 59), (1, plain(rx.id) + 64)]);
            events.no_response(node, id);
        }
    }
}

/// A CAN frame, due at every tick, with bits and failure bits of two LIN sources
/// and of a CAN source. The LIN sources keep failure bit 0 however long nothing
/// comes, and have it 1 as soon as the driver says so.
fn any_age(rng: &mut Rng, order: u8) -> Vec<u8> {
    let mut plan = Plan {
        order,
        nodes: 3,
        lin: 2,
        tx: vec![Tx {
            reload: 1,
            timer: 1,
            flags: rng.below(4) as u8,
            ..Tx::quiet(0, rng.below(2048) as u16, 8)
        }],
        ..Plan::default()
    };
    for (node, position) in [(0, 0), (1, 16), (2, 32)] {
        plan.rx.push(Rx {
            prescaler: rng.pick(&PRESCALERS),
            reload: rng.from_to(2, 6) as u8,
            timer: good::timer_value(rng),
            long_count: rng.below(4) as u8,
            signals: vec![Signal {
                position: 0,
                size: 8,
                destinations: vec![Destination { tx: 0, position }],
            }],
            ..Rx::watched(
                node,
                rng.below(59) as u16,
                rng.from_to(1, 8) as u8,
                61 + node,
            )
        });
    }
    let mut events = Events::new(&plan);
    events.ticks(1);
    for _ in 0..3 {
        for row in [0, 1, 2] {
            events.accepted(rng, row);
        }
        events.take(0);
        let bounds = [1, 2].map(|row| {
            let rx = &plan.rx[row];
            usize::from(rx.prescaler) * usize::from(rx.reload)
        });
        events.ticks(bounds[0].max(bounds[1]) + rng.below(3));
        events.take(0);
        for row in [1, 2] {
            events.accepted(rng, row);
            events.no_response(plan.rx[row].node, plan.rx[row].id);
        }
        events.ticks(1);
        events.take(0);
        events.some(rng, 10, EVEN);
    }
    events.drain();
    plan.input(&events.bytes)
}
