//! Receptions between the expiries of a long count: the long counter of a row
//! starts again at those that the row accepts, and at no others.

use second::id::Id;

use super::Shape;
use crate::events::{Events, Mix};
use crate::good::{self, Measure};
use crate::ids;
use crate::rng::Rng;
use crate::spec::{Plan, Rx};

/// What comes between two expiries of a row and is no restart.
#[derive(Clone, Copy)]
pub enum Other {
    AnotherRow,
    Stranger,
    TooShort,
    NoSuchNode,
    TooLong,
}

pub const OTHERS: [Other; 5] = [
    Other::AnotherRow,
    Other::Stranger,
    Other::TooShort,
    Other::NoSuchNode,
    Other::TooLong,
];

/// The 16 long counts by fours.
pub fn shapes() -> Vec<Shape> {
    let shape = |least| {
        let long_counts = [least, 7 - least, 8 + least, 15 - least];
        let name = format!("restarts: long counts {long_counts:?}");
        Shape::new(&name, move |rng| restarts(rng, long_counts))
    };
    (0..4).map(shape).collect()
}

/// Rows that expire often, and whose payload can be too short.
fn restarts_plan(rng: &mut Rng) -> Plan {
    let measure = Measure {
        nodes: rng.from_to(2, 4),
        lin: 0,
        tx: rng.from_to(2, 6),
        rx: rng.from_to(4, 8),
        signals: 3,
        destinations: 3,
    };
    let mut plan = good::plan(rng, measure);
    for rx in &mut plan.rx {
        rx.size = rx.size.max(1);
        rx.reload = rng.from_to(1, 3) as u8;
        rx.timer = rng.from_to(1, 3) as u8;
        rx.long_count = rng.from_to(0, 4) as u8;
    }
    plan
}

/// One row for each of the long counts, and perhaps others beside them.
fn restarts(rng: &mut Rng, long_counts: [u8; 4]) -> Vec<u8> {
    let mut plan = restarts_plan(rng);
    let mut rows: Vec<usize> = (0..plan.rx.len()).collect();
    rng.shuffle(&mut rows);
    rows.truncate(long_counts.len());
    for (row, long_count) in rows.iter().zip(long_counts) {
        plan.rx[*row].long_count = long_count;
    }
    let mut events = Events::new(&plan);
    for row in rows {
        restart(rng, &mut events, &plan, row);
    }
    let mix = Mix {
        hits: 6,
        misses: 3,
        ticks: 8,
        burst: 4,
        takes: 2,
    };
    events.some(rng, 40, mix);
    events.show_all(rng);
    plan.input(&events.bytes)
}

/// Not all expiries of the row's long count, and a restart; then all of them,
/// with no restart between; then some more.
fn restart(rng: &mut Rng, events: &mut Events, plan: &Plan, row: usize) {
    // From the reload value on, so many ticks have one expiry.
    let period = usize::from(plan.rx[row].reload) * usize::from(plan.rx[row].prescaler);
    let long_count = usize::from(plan.rx[row].long_count).max(2);
    events.accepted(rng, row);
    events.ticks(period * rng.from_to(1, long_count - 1));
    events.accepted(rng, row);
    let places = OTHERS.map(|other| (other, rng.from_to(1, long_count - 1)));
    for expiry in 0..long_count {
        for (other, place) in places {
            if place == expiry {
                add_other(rng, events, plan, row, other);
            }
        }
        events.ticks(period);
    }
    events.ticks(period * rng.from_to(0, long_count));
}

pub fn add_other(rng: &mut Rng, events: &mut Events, plan: &Plan, row: usize, other: Other) {
    let rx = &plan.rx[row];
    let (mut node, mut id, mut length) = (rx.node, rx.id, rx.size);
    match other {
        Other::AnotherRow => {
            let further = rng.from_to(1, plan.rx.len() - 1);
            return events.accepted(rng, (row + further) % plan.rx.len());
        }
        Other::Stranger => (node, id) = stranger(rng, plan, rx),
        Other::TooShort => length = rng.below(usize::from(rx.size)) as u8,
        Other::NoSuchNode => node = rng.pick(&[plan.nodes as u8, 16, 255]),
        Other::TooLong => length = rng.pick(&[9, 10, 12, 128, 255]),
    }
    events.reception(node, id, length, rng.payload());
}

/// A node and an ID near those of the row that no row has.
fn stranger(rng: &mut Rng, plan: &Plan, rx: &Rx) -> (u8, Id) {
    let id = rx.id;
    let mut near = vec![(rx.node, ids::past_the_range(rng, id))];
    near.push((rx.node, ids::strange_id(rng, id)));
    for node in 0..plan.nodes as u8 {
        near.extend([0, 1, -1].map(|more| (node, ids::next_id(id, more))));
    }
    near.retain(|key| plan.rx.iter().all(|row| (row.node, row.id) != *key));
    rng.pick(&near)
}
