//! Requests: the queues they stand in, and the timers that they come from.

use super::Shape;
use crate::events::{right_checksum, Events, EVEN};
use crate::good;
use crate::rng::Rng;
use crate::spec::{Destination, Plan, Rx, Signal, Tx};
use crate::tally::PRESCALERS;

pub fn shapes() -> Vec<Shape> {
    let mut shapes = vec![
        Shape::new("lin: requests and frames in a queue", in_a_queue),
        Shape::new("lin: 256 frames and 60 requests waiting", all_on_one_node),
        Shape::new("lin: 256 requests on five nodes", on_five_nodes),
    ];
    for prescaler in PRESCALERS {
        let name = format!("lin: timers of prescaler {prescaler}");
        shapes.push(Shape::new(&name, move |rng| timers(rng, prescaler)));
    }
    shapes
}

/// Two Tx frames and four rows of a LIN node. The first tick queues a frame and
/// two requests, the second a frame and a request, the third a request.
fn in_a_queue(rng: &mut Rng) -> Vec<u8> {
    let mut plan = Plan {
        nodes: 2,
        lin: rng.from_to(1, 2),
        ..Plan::default()
    };
    for timer in [1, 2] {
        plan.tx.push(Tx {
            reload: rng.from_to(3, 5) as u8,
            timer,
            payload: good::payload_of_size(rng, 1),
            ..Tx::quiet(1, rng.below(60) as u16, 1)
        });
    }
    for (id, timer) in (0..).zip([1, 1, 2, 3]) {
        plan.rx.push(Rx {
            reload: rng.from_to(3, 5) as u8,
            timer,
            ..Rx::quiet(1, 7 * id + rng.below(7) as u16, rng.from_to(1, 8) as u8)
        });
    }
    let mut events = Events::new(&plan);
    events.ticks(3);
    events.drain();
    for _ in 0..rng.from_to(20, 60) {
        let ticks = rng.from_to(1, 3);
        events.ticks(ticks);
        for _ in 0..rng.below(3) {
            events.take(1);
        }
        if rng.once_in(3) {
            events.some(rng, 1, EVEN);
        }
    }
    events.drain();
    plan.input(&events.bytes)
}

/// As many as can wait on one node.
fn all_on_one_node(rng: &mut Rng) -> Vec<u8> {
    let mut plan = Plan {
        nodes: 2,
        lin: 1,
        ..Plan::default()
    };
    for _ in 0..256 {
        plan.tx.push(Tx {
            timer: 1,
            reload: rng.from_to(1, 3) as u8,
            ..Tx::quiet(1, rng.below(60) as u16, 1)
        });
    }
    for id in 0..60 {
        plan.rx.push(Rx {
            timer: 1,
            reload: rng.from_to(1, 3) as u8,
            ..Rx::quiet(1, id, rng.from_to(1, 8) as u8)
        });
    }
    let mut events = Events::new(&plan);
    events.ticks(1);
    // Some go and come again, so that both kinds stand among each other.
    for _ in 0..rng.from_to(2, 40) {
        for _ in 0..rng.below(60) {
            events.take(1);
        }
        let ticks = rng.from_to(1, 3);
        events.ticks(ticks);
    }
    events.drain_node(1);
    plan.input(&events.bytes)
}

/// As many requests as can wait at all.
fn on_five_nodes(rng: &mut Rng) -> Vec<u8> {
    let mut plan = Plan {
        nodes: 6,
        lin: 5,
        ..Plan::default()
    };
    for number in 0..256 {
        let (node, id) = (1 + number / 52, number % 52);
        plan.rx.push(Rx {
            timer: 1,
            reload: rng.from_to(0, 3) as u8,
            ..Rx::quiet(node as u8, id as u16, rng.from_to(1, 8) as u8)
        });
    }
    let mut events = Events::new(&plan);
    events.ticks(1);
    for _ in 0..rng.from_to(2, 100) {
        events.take(rng.from_to(1, 5) as u8);
        if rng.once_in(4) {
            events.ticks(1);
        }
    }
    events.drain();
    plan.input(&events.bytes)
}

/// What comes while a timer is under way and does not load it.
#[derive(Clone, Copy)]
enum Passing {
    Accepted,
    TooShort,
    WrongChecksum,
    Silent,
    TooLong,
    OldReception,
    Take,
}

const ALL: [Passing; 7] = [
    Passing::Accepted,
    Passing::Silent,
    Passing::TooShort,
    Passing::WrongChecksum,
    Passing::TooLong,
    Passing::OldReception,
    Passing::Take,
];

/// A row that asks at tick 0 and from then on once in a period, and whose failure
/// bit stands in a CAN frame that is due at every tick; others beside it.
fn timers_plan(rng: &mut Rng, prescaler: u8) -> Plan {
    let order = rng.below(2) as u8;
    let on_can = Tx {
        reload: 1,
        timer: 1,
        flags: rng.below(4) as u8,
        ..Tx::quiet(0, rng.below(2048) as u16, 8)
    };
    let on_lin = Tx {
        prescaler,
        reload: rng.from_to(1, 3) as u8,
        timer: 1,
        flags: rng.below(4) as u8,
        ..Tx::quiet(1, rng.below(60) as u16, 2)
    };
    let mut plan = Plan {
        order,
        nodes: 2,
        lin: 1,
        tx: vec![on_can, on_lin],
        ..Plan::default()
    };
    for (id, failure_position) in [(3, 60), (5, 61), (9, 62)] {
        plan.rx.push(Rx {
            prescaler,
            reload: rng.from_to(2, 5) as u8,
            timer: 1,
            long_count: rng.from_to(0, 3) as u8,
            signals: vec![Signal {
                position: 0,
                size: 8,
                destinations: vec![Destination {
                    tx: 0,
                    position: 16 * (failure_position - 60),
                }],
            }],
            ..Rx::watched(1, id, rng.from_to(1, 8) as u8, failure_position)
        });
    }
    plan
}

/// Each of them while the timer of a row is under way, and once more while its
/// request waits.
fn timers(rng: &mut Rng, prescaler: u8) -> Vec<u8> {
    let plan = timers_plan(rng, prescaler);
    let row = rng.below(plan.rx.len());
    let handling = usize::from(prescaler);
    let handlings = usize::from(plan.rx[row].reload);
    let mut events = Events::new(&plan);
    events.ticks(1);
    let mut all = ALL;
    rng.shuffle(&mut all);
    for passing in all {
        let before = rng.from_to(1, handlings - 1);
        // The take is that of the row's own request.
        if !matches!(passing, Passing::Take) {
            events.drain();
        }
        events.ticks(before * handling);
        add(rng, &mut events, &plan, row, passing);
        if matches!(passing, Passing::Take) {
            events.drain();
        }
        events.ticks((handlings - before) * handling);
        add(rng, &mut events, &plan, row, passing);
        if rng.once_in(2) {
            // One more expiry while the request waits.
            events.ticks(handlings * handling);
        }
    }
    events.ticks(2 * handlings * handling);
    events.drain();
    plan.input(&events.bytes)
}

fn add(rng: &mut Rng, events: &mut Events, plan: &Plan, row: usize, passing: Passing) {
    let rx = &plan.rx[row];
    let data = rng.payload();
    let right = right_checksum(rx.id, rx.size, &data);
    match passing {
        Passing::Accepted => events.response(rx.node, rx.id, rx.size, data, right),
        Passing::WrongChecksum => {
            let wrong = right ^ rng.from_to(1, 255) as u8;
            events.response(rx.node, rx.id, rx.size, data, wrong);
        }
        Passing::TooShort => {
            let length = rx.size - 1;
            let right = right_checksum(rx.id, length, &data);
            events.response(rx.node, rx.id, length, data, right);
        }
        Passing::TooLong => events.response(rx.node, rx.id, 9, data, right),
        Passing::Silent => events.no_response(rx.node, rx.id),
        Passing::OldReception => events.reception(rx.node, rx.id, rx.size, data),
        Passing::Take => events.take(rx.node),
    }
}
