//! The rest of the rules on frames with 29-bit IDs: failure bits, long counts,
//! ages, scheduling, timers and queues.

use second::id::{Id, GREATEST_29};

use super::Shape;
use crate::events::{Events, EVEN};
use crate::good;
use crate::ids;
use crate::rng::Rng;
use crate::spec::{Destination, Plan, Rx, Signal, Tx};
use crate::tally::PRESCALERS;

pub fn shapes() -> Vec<Shape> {
    vec![
        Shape::new("formats: sources of one number, big order", |rng| {
            sources(rng, 0)
        }),
        Shape::new("formats: sources of one number, little order", |rng| {
            sources(rng, 1)
        }),
        Shape::new("formats: sent in every way", sent),
        Shape::new("formats: frames of both in a queue", in_a_queue),
    ]
}

fn wide(rng: &mut Rng) -> Id {
    Id::Bits29(rng.below(GREATEST_29 as usize + 1) as u32)
}

/// Two sources with one number in both formats, each with its failure bit in a
/// frame on node 1 that is due at every tick.
fn sources_plan(rng: &mut Rng, order: u8) -> Plan {
    let number = rng.below(2048) as u16;
    let mut plan = Plan {
        order,
        nodes: 2,
        tx: vec![Tx {
            timer: 1,
            reload: 1,
            ..Tx::quiet(1, wide(rng), 8)
        }],
        ..Plan::default()
    };
    let ids = [Id::Bits11(number), Id::Bits29(number.into())];
    for (place, id) in (0..).zip(ids) {
        plan.rx.push(Rx {
            reload: rng.from_to(2, 5) as u8,
            long_count: rng.from_to(2, 5) as u8,
            signals: vec![Signal {
                position: rng.below(5) as u8,
                size: 4,
                destinations: vec![Destination {
                    tx: 0,
                    position: 8 * place + rng.below(5) as u8,
                }],
            }],
            ..Rx::watched(0, id, 1, 62 + place)
        });
    }
    plan
}

/// For each of the two: takes around the tick that sets its failure bit, and a
/// long count that starts again, with the other accepted between.
fn sources(rng: &mut Rng, order: u8) -> Vec<u8> {
    let plan = sources_plan(rng, order);
    let mut events = Events::new(&plan);
    for row in [0, 1] {
        let other = 1 - row;
        let reload = usize::from(plan.rx[row].reload);
        let long_count = usize::from(plan.rx[row].long_count);
        events.accepted(rng, other);
        events.accepted(rng, row);
        events.ticks(1);
        events.take(1);
        events.accepted(rng, other);
        events.ticks(reload - 2);
        events.take(1);
        events.take(1);
        events.accepted(rng, row);
        // The last take with the bit 0, and the first with it 1.
        events.ticks(1);
        events.accepted(rng, other);
        if reload > 2 {
            events.take(1);
            events.ticks(reload - 2);
        }
        events.take(1);
        events.ticks(1);
        events.take(1);
        // Some expiries, a restart, and the whole long count.
        events.ticks(reload * rng.from_to(1, long_count - 1));
        events.accepted(rng, other);
        events.accepted(rng, row);
        events.ticks(reload);
        events.accepted(rng, row);
        events.ticks(reload);
        events.accepted(rng, other);
        events.take(1);
        events.ticks(reload * (long_count - 1));
        events.drain();
        events.accepted(rng, row);
        events.ticks(1);
        events.drain();
    }
    events.some(rng, 60, EVEN);
    events.show_all(rng);
    plan.input(&events.bytes)
}

/// A row of each format whose byte goes to frames of both formats: sent on
/// reception, on change and by timers of every prescaler.
fn sent(rng: &mut Rng) -> Vec<u8> {
    let mut plan = Plan {
        order: rng.below(2) as u8,
        nodes: 3,
        ..Plan::default()
    };
    let narrow = ids::some_id(rng);
    let wides = [wide(rng), wide(rng)];
    for (flags, id) in [(1, wides[0]), (2, wides[1]), (1, narrow), (2, narrow)] {
        plan.tx.push(Tx {
            flags,
            ..Tx::quiet(1, id, 2)
        });
    }
    for prescaler in PRESCALERS {
        plan.tx.push(Tx {
            prescaler,
            timer: 1,
            reload: 1,
            ..Tx::quiet(2, wide(rng), rng.below(3) as u8)
        });
    }
    let number = rng.from_to(0, 2000) as u16;
    let mut ids = vec![Id::Bits11(number), Id::Bits29(number.into())];
    // Rows that expire by timers of every prescaler.
    ids.extend((1..=4).map(|more| Id::Bits29(u32::from(number) + more)));
    let prescalers = [1, 1].into_iter().chain(PRESCALERS);
    for (place, (id, prescaler)) in ids.into_iter().zip(prescalers).enumerate() {
        let mut row = Rx::quiet(0, id, 1);
        row.prescaler = prescaler;
        if place < 2 {
            let destinations = (0..4).map(|tx| Destination {
                tx,
                position: 8 * place as u8,
            });
            row.signals = vec![Signal {
                position: 0,
                size: 8,
                destinations: destinations.collect(),
            }];
        } else {
            row.timer = 1;
            row.reload = rng.from_to(1, 2) as u8;
            row.long_count = 2;
        }
        plan.rx.push(row);
    }
    let mut events = Events::new(&plan);
    for row in [0, 1] {
        let data = [rng.from_to(1, 255) as u8; 8];
        let id = plan.rx[row].id;
        // A change; again while all wait; none; and a change again.
        events.reception(0, id, 1, data);
        events.reception(0, id, 1, data);
        events.drain_node(1);
        events.reception(0, id, 1, data);
        events.drain_node(1);
        events.reception(0, id, 1, data.map(|byte| !byte));
        events.drain_node(1);
    }
    for _ in 0..rng.from_to(81, 100) {
        events.ticks(1);
        if rng.once_in(2) {
            events.drain_node(2);
        }
        if rng.once_in(4) {
            events.some(rng, 1, EVEN);
        }
    }
    events.drain();
    plan.input(&events.bytes)
}

/// A node of both formats and one of 29 bits alone, full and drained in part.
fn in_a_queue(rng: &mut Rng) -> Vec<u8> {
    let mut plan = Plan {
        nodes: 2,
        ..Plan::default()
    };
    let due = |rng: &mut Rng, node, id| Tx {
        timer: rng.from_to(1, 2) as u8,
        reload: rng.from_to(1, 2) as u8,
        payload: good::payload_of_size(rng, 1),
        ..Tx::quiet(node, id, 1)
    };
    for _ in 0..rng.from_to(2, 6) {
        let number = rng.below(2048) as u16;
        for id in [Id::Bits11(number), Id::Bits29(number.into())] {
            let frame = due(rng, 0, id);
            plan.tx.push(frame);
        }
        let id = wide(rng);
        let frame = due(rng, 1, id);
        plan.tx.push(frame);
    }
    rng.shuffle(&mut plan.tx);
    let mut events = Events::new(&plan);
    events.ticks(2);
    for _ in 0..rng.from_to(10, 30) {
        for _ in 0..rng.from_to(1, 6) {
            events.take(rng.below(2) as u8);
        }
        let ticks = rng.from_to(1, 2);
        events.ticks(ticks);
    }
    events.drain();
    plan.input(&events.bytes)
}
