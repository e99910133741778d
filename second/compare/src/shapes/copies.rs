//! Signals of every position and size.
//!
//! In each order of bits, a round of these shapes copies from each pair of a
//! position and a size once and to each pair once, whatever the seed.

use super::Shape;
use crate::events::Events;
use crate::good;
use crate::rng::Rng;
use crate::spec::{Destination, Plan, Rx, Signal, Tx};

/// The 64 sizes by fours, which have 130 positions together: a plan has room
/// for them in Tx frames of their own.
pub fn shapes() -> Vec<Shape> {
    let mut shapes = Vec::new();
    for (order, name) in [(0, "big"), (1, "little")] {
        for least in 1..=16 {
            let sizes = [least, 33 - least, 32 + least, 65 - least];
            shapes.push(Shape::new(
                &format!("copies: sizes {sizes:?}, {name} order"),
                move |rng| copies(rng, order, sizes),
            ));
        }
    }
    shapes
}

/// A signal at each position of each size, and its one destination at a
/// position by chance, each position once.
fn copies_plan(rng: &mut Rng, order: u8, sizes: [u8; 4]) -> Plan {
    let mut plan = Plan {
        order,
        nodes: rng.from_to(1, 3),
        ..Plan::default()
    };
    let mut signals = Vec::new();
    for size in sizes {
        let mut positions: Vec<u8> = (0..=64 - size).collect();
        rng.shuffle(&mut positions);
        for (from, to) in (0..).zip(positions) {
            signals.push(Signal {
                position: from,
                size,
                destinations: vec![Destination {
                    tx: plan.tx.len() as u16,
                    position: to,
                }],
            });
            let least = (to + size).div_ceil(8);
            let bytes = rng.from_to(usize::from(least), 8) as u8;
            let node = rng.below(plan.nodes) as u8;
            plan.tx.push(Tx {
                // A tick shows the frame.
                reload: 1,
                timer: 1,
                flags: rng.from_to(1, 3) as u8,
                payload: good::payload_of_size(rng, bytes),
                ..Tx::quiet(node, rng.below(2048) as u16, bytes)
            });
        }
    }
    // Rows of each size, since signals that end near each other share one.
    let end = |signal: &Signal| signal.position + signal.size;
    signals.sort_by_key(end);
    for (id, part) in (0..).zip(signals.chunks(rng.from_to(4, 20))) {
        let bits = part.iter().map(end).max().unwrap_or(0);
        plan.rx.push(Rx {
            signals: part.to_vec(),
            ..Rx::quiet(0, id, bits.div_ceil(8))
        });
    }
    good::widen_some(rng, &mut plan);
    plan
}

fn copies(rng: &mut Rng, order: u8, sizes: [u8; 4]) -> Vec<u8> {
    let plan = copies_plan(rng, order, sizes);
    let mut events = Events::new(&plan);
    for _ in 0..rng.from_to(2, 5) {
        for row in 0..plan.rx.len() {
            events.accepted(rng, row);
        }
        events.drain();
    }
    events.ticks(1);
    events.drain();
    plan.input(&events.bytes)
}
