//! Good plans with IDs of both formats: the ends of their ranges, the order of
//! rows, and the limits.

use second::id::{Id, GREATEST_29};

use super::Shape;
use crate::events::ordinary;
use crate::format_plans::ENDS;
use crate::good;
use crate::ids;
use crate::rng::Rng;
use crate::spec::{Plan, Rx, Tx};

pub fn shapes() -> Vec<Shape> {
    vec![
        Shape::new("formats: the ends of the ranges", ends_of_the_ranges),
        Shape::new("formats: rows in their order", rows_in_their_order),
        Shape::new("formats: 29-bit IDs alone", |rng| {
            let mut plan = good::rich_plan_of_both(rng);
            (plan.nodes, plan.lin) = (plan.nodes - plan.lin, 0);
            plan.tx = vec![of_29(rng, 0), of_29(rng, 0)];
            plan.rx = rows(rng, 6, Id::Bits29);
            plan.input(&ordinary(rng, &plan, 30))
        }),
        Shape::new("formats: beside LIN nodes", |rng| {
            let mut plan = good::rich_lin_plan(rng);
            plan.tx.push(of_29(rng, 0));
            plan.input(&ordinary(rng, &plan, 40))
        }),
        Shape::new("formats: 256 frames, both formats", |rng| {
            let count = rng.from_to(1, 255);
            full(rng, count)
        }),
        Shape::new("formats: 256 frames, 29 bits", |rng| full(rng, 0)),
    ]
}

/// A Tx frame with a 29-bit ID that is due at every tick.
fn of_29(rng: &mut Rng, node: u8) -> Tx {
    let size = rng.from_to(0, 8) as u8;
    let id = Id::Bits29(rng.below(GREATEST_29 as usize + 1) as u32);
    Tx {
        timer: 1,
        reload: 1,
        payload: good::payload_of_size(rng, size),
        ..Tx::quiet(node, id, size)
    }
}

/// So many rows on node 0, rising by chance.
fn rows(rng: &mut Rng, count: usize, of: fn(u32) -> Id) -> Vec<Rx> {
    let mut number = 0;
    let mut row = || {
        number += rng.from_to(1, 7) as u32;
        Rx::quiet(0, of(number), rng.below(9) as u8)
    };
    (0..count).map(|_| row()).collect()
}

/// Each end as a row, as the ID of a Tx frame that is due at every tick, as a
/// reception on its node, and as one on a node without rows.
fn ends_of_the_ranges(rng: &mut Rng) -> Vec<u8> {
    let mut plan = Plan {
        order: rng.below(2) as u8,
        nodes: 2,
        ..Plan::default()
    };
    for id in ENDS {
        let size = rng.below(9) as u8;
        let node = rng.below(2) as u8;
        plan.tx.push(Tx {
            timer: 1,
            reload: 1,
            payload: good::payload_of_size(rng, size),
            ..Tx::quiet(node, id, size)
        });
        plan.rx.push(Rx::quiet(0, id, rng.below(9) as u8));
    }
    rng.shuffle(&mut plan.tx);
    let mut events = crate::events::Events::new(&plan);
    for row in 0..4 {
        events.accepted(rng, row);
        events.reception(1, plan.rx[row].id, 8, rng.payload());
    }
    events.ticks(1);
    events.drain();
    events.bytes.extend(ordinary(rng, &plan, 20));
    plan.input(&events.bytes)
}

/// Rows whose order is easily mistaken: a lower, an equal and a higher number
/// after an 11-bit row; 29-bit rows that rise while their low bits fall; and nodes
/// that begin anew.
fn rows_in_their_order(rng: &mut Rng) -> Vec<u8> {
    let middle = rng.from_to(1, 2046) as u16;
    let number = u32::from(middle);
    let any = rng.below(1 << 28) as u32;
    let below = |bits: u32| any >> bits << bits | ((1 << bits) - 1);
    let node_0 = [below(11), below(16), (1 << 28) - 1];
    let mut of_0: Vec<u32> = node_0.into_iter().flat_map(|id| [id, id + 1]).collect();
    of_0.push(number - 1);
    of_0.sort_unstable();
    of_0.dedup();
    of_0.retain(|id| *id >= number - 1);
    let mut keys = vec![(0, Id::Bits11(middle)), (0, Id::Bits29(number - 1))];
    keys.extend(of_0.into_iter().skip(1).map(|id| (0, Id::Bits29(id))));
    let last = rng.from_to(1, 2000) as u32;
    keys.extend([
        (1, Id::Bits11(middle)),
        (1, Id::Bits29(number)),
        (2, Id::Bits11(middle)),
        (2, Id::Bits29(number + 1)),
        (2, Id::Bits29(3000)),
        // 29-bit rows after 29-bit ones: a lower number, and an equal one.
        (3, Id::Bits29(last)),
        (4, Id::Bits29(last)),
        (5, Id::Bits11(last as u16)),
    ]);
    let mut plan = Plan {
        order: rng.below(2) as u8,
        nodes: 6,
        ..Plan::default()
    };
    plan.tx = vec![of_29(rng, 0), of_29(rng, 5)];
    for (node, id) in keys {
        plan.rx.push(Rx::quiet(node, id, rng.below(9) as u8));
    }
    plan.input(&ordinary(rng, &plan, 60))
}

/// As many Tx frames and rows as there can be, so many of them of 11 bits.
fn full(rng: &mut Rng, of_11: usize) -> Vec<u8> {
    let mut plan = Plan {
        order: rng.below(2) as u8,
        nodes: 2,
        ..Plan::default()
    };
    plan.tx = (0..256).map(|_| of_29(rng, 1)).collect();
    for tx in &mut plan.tx[..of_11] {
        tx.id = ids::some_id(rng);
    }
    rng.shuffle(&mut plan.tx);
    plan.rx = rows(rng, of_11, |number| Id::Bits11(number as u16));
    plan.rx.extend(rows(rng, 256 - of_11, Id::Bits29));
    plan.input(&ordinary(rng, &plan, 40))
}
