//! Receptions that find no row, at every place of every node.

use std::collections::BTreeSet;

use second::id::Id;

use super::Shape;
use crate::events::{Events, EVEN};
use crate::good::{self, Keys, Measure};
use crate::ids;
use crate::rng::Rng;
use crate::spec::Plan;

pub fn shapes() -> Vec<Shape> {
    vec![
        Shape::new("places: no rows", |rng| {
            let nodes = rng.from_to(1, 16);
            places(rng, nodes, Keys::new())
        }),
        Shape::new("places: nodes of 0 to 15 rows", |rng| {
            let keys = nodes_of_0_to_15_rows(rng);
            places(rng, 16, keys)
        }),
        Shape::new("places: one node of 256 rows", |rng| {
            let nodes = rng.from_to(1, 16);
            let node = rng.below(nodes) as u8;
            let keys = with_gaps(rng, 256).map(|id| (node, id)).collect();
            places(rng, nodes, keys)
        }),
        Shape::new("places: 16 nodes of like IDs", |rng| {
            let keys = nodes_of_like_ids(rng);
            places(rng, 16, keys)
        }),
        Shape::new("places: rows without a gap", |rng| {
            let keys = without_a_gap(rng);
            places(rng, 3, keys)
        }),
    ]
}

/// Each node has another number of rows.
fn nodes_of_0_to_15_rows(rng: &mut Rng) -> Keys {
    let mut counts: Vec<usize> = (0..16).collect();
    rng.shuffle(&mut counts);
    let mut keys = Keys::new();
    for (node, count) in (0..).zip(counts) {
        keys.extend(with_gaps(rng, count).map(|id| (node, id)));
    }
    keys
}

/// Each node has some of the same 16 IDs, at least two.
fn nodes_of_like_ids(rng: &mut Rng) -> Keys {
    let mut ids: Vec<Id> = with_gaps(rng, 16).collect();
    let mut keys = Keys::new();
    for node in 0..16 {
        rng.shuffle(&mut ids);
        let count = rng.from_to(2, 16);
        keys.extend(ids[..count].iter().map(|id| (node, *id)));
    }
    keys
}

/// The rows of each node follow each other, at either end of the IDs or
/// anywhere.
fn without_a_gap(rng: &mut Rng) -> Keys {
    let mut keys = Keys::new();
    for node in 0..3 {
        let count = rng.from_to(1, 40);
        let last = 2048 - count;
        let any = rng.below(last);
        let first = rng.pick(&[0, last, any]);
        keys.extend((first..first + count).map(|id| (node, Id::Bits11(id as u16))));
    }
    keys
}

/// So many IDs, rising, with others below, between and above them: each second
/// one, or near each other, or anywhere.
fn with_gaps(rng: &mut Rng, count: usize) -> impl Iterator<Item = Id> {
    // One ID below each is kept free, and is not counted in the width.
    let most = 2047 - count;
    let width = rng.pick(&[count, 2 * count, most]);
    let first = rng.from_to(1, 1 + most - width);
    let mut steps: Vec<usize> = (0..width).collect();
    rng.shuffle(&mut steps);
    steps.truncate(count);
    steps.sort();
    let ids = (first..).zip(steps).map(|(from, step)| from + step);
    ids.map(|id| Id::Bits11(id as u16))
}

/// Every node gets IDs of each run that none of its rows has; other events
/// come between them, since the place is the same whatever came before.
fn places(rng: &mut Rng, nodes: usize, keys: Keys) -> Vec<u8> {
    let measure = Measure {
        nodes,
        lin: 0,
        tx: rng.from_to(nodes, 4 * nodes),
        rx: keys.len(),
        signals: 2,
        destinations: 2,
    };
    let plan = good::plan_with_rows(rng, measure, keys);
    let mut events = Events::new(&plan);
    for (node, id) in strangers(rng, &plan) {
        events.reception(node, id, rng.below(9) as u8, rng.payload());
        if rng.once_in(8) {
            events.some(rng, 1, EVEN);
        }
    }
    events.show_all(rng);
    plan.input(&events.bytes)
}

/// Some IDs of each run, each once, in any order.
fn strangers(rng: &mut Rng, plan: &Plan) -> Vec<(u8, Id)> {
    let mut strangers = BTreeSet::new();
    for node in 0..plan.nodes as u8 {
        for run in ids::unlisted(plan, node) {
            strangers.extend(ids::some_of(rng, run).map(|id| (node, id)));
        }
    }
    let mut strangers: Vec<(u8, Id)> = strangers.into_iter().collect();
    rng.shuffle(&mut strangers);
    strangers
}
