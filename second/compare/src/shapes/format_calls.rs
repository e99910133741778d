//! Receptions and takes of both formats: rows that are easily taken for each
//! other, the ends of the ranges and past them, and every order of tests.

use second::id::{Id, GREATEST_29};

use super::Shape;
use crate::events::{Events, EVEN};
use crate::good;
use crate::rng::Rng;
use crate::spec::{Destination, Plan, Rx, Signal, Tx};

pub fn shapes() -> Vec<Shape> {
    vec![
        Shape::new("formats: every answer, big order", |rng| answers(rng, 0)),
        Shape::new("formats: every answer, little order", |rng| answers(rng, 1)),
        Shape::new("formats: takes of every size", takes),
        Shape::new("formats: rows of the same low bits", low_bits),
        Shape::new("formats: each bit of an ID", each_bit),
    ]
}

/// Nodes 0 and 1 are CAN, node 2 is LIN. On node 0 two numbers have a row of each
/// format, of unlike sizes; on node 1 two numbers have a row of one format only,
/// and the LIN node has a row.
fn answers_plan(rng: &mut Rng, order: u8) -> Plan {
    let first = rng.from_to(1, 1000) as u16;
    let second = first + rng.from_to(1, 1000) as u16;
    let on_lin = rng.below(60) as u16;
    let keys = [
        (0, Id::Bits11(first), 2),
        (0, Id::Bits11(second), 6),
        (0, Id::Bits29(first.into()), 5),
        (0, Id::Bits29(second.into()), 3),
        (1, Id::Bits11(first), 1),
        (1, Id::Bits29(second.into()), 1),
        (2, Id::Bits11(on_lin), 3),
    ];
    let mut plan = Plan {
        order,
        nodes: 3,
        lin: 1,
        ..Plan::default()
    };
    // Of both formats with one number, and shown at every tick.
    let number = rng.below(2048) as u16;
    for id in [Id::Bits11(number), Id::Bits29(number.into())] {
        plan.tx.push(Tx {
            timer: 1,
            reload: 1,
            flags: rng.from_to(1, 3) as u8,
            ..Tx::quiet(0, id, 8)
        });
    }
    for (place, (node, id, size)) in (0..).zip(keys) {
        let destinations = (0..2).map(|tx| Destination {
            tx,
            position: 8 * place,
        });
        plan.rx.push(Rx {
            signals: vec![Signal {
                position: 0,
                size: 8,
                destinations: destinations.collect(),
            }],
            ..Rx::quiet(node, id, size)
        });
    }
    plan
}

/// Each length of each row, in its own format and in the other; strangers; and
/// refusals.
fn answers(rng: &mut Rng, order: u8) -> Vec<u8> {
    let plan = answers_plan(rng, order);
    let lengths = || (0..=12).chain([128, 255]);
    let mut events = Events::new(&plan);
    for rx in &plan.rx {
        let number = rx.id.number();
        for id in [Id::Bits11(number as u16), Id::Bits29(number)] {
            for length in lengths() {
                events.reception(rx.node, id, length, rng.payload());
            }
            events.ticks(1);
            events.take(0);
            events.take(0);
        }
    }
    let mut ids = vec![
        Id::Bits11(2048),
        Id::Bits11(u16::MAX),
        Id::Bits29(1 << 29),
        Id::Bits29(1 << 30),
        Id::Bits29(1 << 31),
        Id::Bits29(u32::MAX),
        Id::Bits29(rng.from_to(65_536, GREATEST_29 as usize) as u32),
    ];
    rng.shuffle(&mut ids);
    for id in ids {
        for node in [0, 1, 2, 3, 16, 255] {
            for length in [2, rng.from_to(0, 8) as u8, rng.pick(&[9, 10, 255])] {
                events.reception(node, id, length, rng.payload());
            }
        }
    }
    events.some(rng, 30, EVEN);
    events.show_all(rng);
    plan.input(&events.bytes)
}

/// Tx frames with IDs of every width, of every size and in both formats.
fn takes(rng: &mut Rng) -> Vec<u8> {
    let mut plan = Plan {
        order: rng.below(2) as u8,
        nodes: rng.from_to(1, 3),
        ..Plan::default()
    };
    let any = rng.from_to(65_536, GREATEST_29 as usize) as u32;
    let number = rng.below(2048) as u32;
    let ids = [
        0,
        GREATEST_29,
        number,
        rng.from_to(2048, 65_535) as u32,
        any,
        any & 0xFFFF,
        1 << 28,
        (1 << 28) - 1,
        65_536,
    ];
    for (size, id) in (0..).zip(ids) {
        let of_11 = Id::Bits11(id as u16 & 0x7FF);
        for id in [Id::Bits29(id), of_11, Id::Bits11(2047)] {
            plan.tx.push(Tx {
                timer: 1,
                reload: rng.from_to(1, 3) as u8,
                payload: good::payload_of_size(rng, size),
                ..Tx::quiet(0, id, size)
            });
        }
    }
    rng.shuffle(&mut plan.tx);
    let mut events = Events::new(&plan);
    for _ in 0..3 {
        events.ticks(1);
        events.drain();
    }
    plan.input(&events.bytes)
}

/// A row, and others with the same low 11, 16 and 28 bits; a row of 11 bits; and on
/// the next node one row of each format alone.
fn low_bits(rng: &mut Rng) -> Vec<u8> {
    let number = rng.from_to(1, 2047) as u16;
    let wide = rng.below(GREATEST_29 as usize + 1) as u32 | 1 << 27;
    let mut like = [wide, wide ^ 1 << 12, wide ^ 1 << 17, wide ^ 1 << 28];
    like.sort_unstable();
    let alone = rng.below(GREATEST_29 as usize + 1) as u32 | 1 << 26;
    let mut plan = Plan {
        nodes: 2,
        tx: vec![Tx {
            flags: 1,
            ..Tx::quiet(0, Id::Bits29(wide), 8)
        }],
        ..Plan::default()
    };
    plan.rx.push(Rx::quiet(0, number, 1));
    for (place, id) in (0..).zip(like) {
        plan.rx.push(Rx {
            signals: vec![Signal {
                position: 0,
                size: 8,
                destinations: vec![Destination {
                    tx: 0,
                    position: 8 * place,
                }],
            }],
            ..Rx::quiet(0, Id::Bits29(id), 1)
        });
    }
    plan.rx.push(Rx::quiet(1, number, 1));
    plan.rx.push(Rx::quiet(1, Id::Bits29(alone), 1));
    let mut events = Events::new(&plan);
    for row in 1..5 {
        events.accepted(rng, row);
        events.take(0);
    }
    let narrow = u32::from(number);
    let mut strangers = vec![
        Id::Bits29(alone ^ 1 << 11),
        Id::Bits29(alone ^ 1 << 16),
        Id::Bits29(alone ^ 1 << 28),
        Id::Bits29(alone ^ 1 << 29),
        Id::Bits29(alone ^ 1 << 30),
        Id::Bits29(alone ^ 1 << 31),
        Id::Bits29(narrow | 1 << 11),
        Id::Bits29(narrow | 1 << 16),
        Id::Bits11(number ^ 1 << rng.from_to(11, 15)),
        Id::Bits11(alone as u16),
        Id::Bits11(alone as u16 & 0x7FF),
    ];
    rng.shuffle(&mut strangers);
    for id in strangers {
        events.reception(1, id, 1, rng.payload());
    }
    events.show_all(rng);
    plan.input(&events.bytes)
}

/// A row of each format, and receptions that differ from it in one bit each.
fn each_bit(rng: &mut Rng) -> Vec<u8> {
    let narrow = rng.below(2048) as u16;
    let wide = rng.below(GREATEST_29 as usize + 1) as u32;
    let plan = Plan {
        nodes: 1,
        rx: vec![Rx::quiet(0, narrow, 0), Rx::quiet(0, Id::Bits29(wide), 0)],
        ..Plan::default()
    };
    let mut ids: Vec<Id> = (0..16).map(|bit| Id::Bits11(narrow ^ 1 << bit)).collect();
    ids.extend((0..32).map(|bit| Id::Bits29(wide ^ 1 << bit)));
    ids.extend(plan.rx.iter().map(|rx| rx.id));
    rng.shuffle(&mut ids);
    let mut events = Events::new(&plan);
    for id in ids {
        events.reception(0, id, 0, rng.payload());
    }
    plan.input(&events.bytes)
}
