//! Strangers of both formats, at every place of nodes with rows of none, one and
//! both.

use std::collections::BTreeSet;

use second::id::{Id, GREATEST_29};

use super::Shape;
use crate::events::{Events, EVEN};
use crate::good::{self, Keys, Measure};
use crate::ids;
use crate::rng::Rng;
use crate::spec::Plan;

pub fn shapes() -> Vec<Shape> {
    vec![
        Shape::new("formats: places on nodes of every kind", |rng| {
            let keys = of_every_kind(rng);
            places(rng, 4, keys)
        }),
        Shape::new("formats: places beside 256 rows", |rng| {
            let of_11 = rng.from_to(1, 255);
            let mut keys = of_11_bits(rng, 0, of_11);
            keys.extend(of_29_bits(rng, 0, 256 - of_11));
            places(rng, 1, keys)
        }),
        Shape::new("formats: places beside rows without a gap", |rng| {
            let keys = without_a_gap(rng);
            places(rng, 3, keys)
        }),
    ]
}

/// So many rows, none of them at an end, and no two next to each other.
fn of_11_bits(rng: &mut Rng, node: u8, count: usize) -> Keys {
    let step = 2046 / count;
    let ids = (0..count).map(|number| 1 + number * step + rng.below(step - 1));
    ids.map(|id| (node, Id::Bits11(id as u16))).collect()
}

/// The same, of which the first has a number below those of most 11-bit rows, the
/// second one above 65,535, and the last bit 28.
fn of_29_bits(rng: &mut Rng, node: u8, count: usize) -> Keys {
    let mut ids = BTreeSet::from([
        rng.from_to(1, 40) as u32,
        rng.from_to(65_538, 1 << 20) as u32,
        rng.from_to((1 << 28) + 1, GREATEST_29 as usize - 1) as u32,
    ]);
    while ids.len() < count {
        let id = rng.from_to(1, GREATEST_29 as usize - 1) as u32;
        if !ids.contains(&(id - 1)) && !ids.contains(&(id + 1)) {
            ids.insert(id);
        }
    }
    ids.into_iter().map(|id| (node, Id::Bits29(id))).collect()
}

/// Nodes with rows of both formats, of either alone, and without, in any turn.
fn of_every_kind(rng: &mut Rng) -> Keys {
    let mut nodes = [0, 1, 2, 3];
    rng.shuffle(&mut nodes);
    let [both, of_11, of_29, _] = nodes;
    let mut keys = Keys::new();
    for (node, is_11) in [(both, true), (of_11, true), (both, false), (of_29, false)] {
        let count = rng.from_to(3, 8);
        keys.extend(match is_11 {
            true => of_11_bits(rng, node, count),
            false => of_29_bits(rng, node, count),
        });
    }
    keys
}

/// Rows of both formats that follow each other, at either end or anywhere.
fn without_a_gap(rng: &mut Rng) -> Keys {
    let mut keys = Keys::new();
    for node in 0..3 {
        let count = rng.from_to(1, 20);
        let last = 2048 - count;
        let any = rng.below(last);
        let first = rng.pick(&[0, last, any]);
        keys.extend((first..first + count).map(|id| (node, Id::Bits11(id as u16))));
        let last = GREATEST_29 as usize + 1 - count;
        let any = rng.below(last);
        let first = rng.pick(&[0, last, any, first]);
        keys.extend((first..first + count).map(|id| (node, Id::Bits29(id as u32))));
    }
    keys
}

/// Every node gets IDs of each run of either format that none of its rows has.
fn places(rng: &mut Rng, nodes: usize, keys: Keys) -> Vec<u8> {
    let measure = Measure {
        nodes,
        lin: 0,
        tx: rng.from_to(nodes, 4 * nodes),
        rx: keys.len(),
        signals: 1,
        destinations: 1,
    };
    let plan = good::plan_with_rows(rng, measure, keys);
    let mut events = Events::new(&plan);
    for (node, id) in strangers(rng, &plan) {
        events.reception(node, id, rng.below(9) as u8, rng.payload());
        if rng.once_in(16) {
            events.some(rng, 1, EVEN);
        }
    }
    plan.input(&events.bytes)
}

/// Some IDs of each run, each once, in any order.
fn strangers(rng: &mut Rng, plan: &Plan) -> Vec<(u8, Id)> {
    let mut strangers = BTreeSet::new();
    for node in 0..plan.nodes as u8 {
        let runs = ids::unlisted(plan, node).into_iter();
        for run in runs.chain(ids::unlisted_29(plan, node)) {
            strangers.extend(ids::some_of(rng, run).map(|id| (node, id)));
        }
        // Bits above 28 alone, and with a row below them.
        strangers.extend([29, 30, 31].map(|bit| (node, Id::Bits29(1 << bit))));
    }
    let mut strangers: Vec<(u8, Id)> = strangers.into_iter().collect();
    rng.shuffle(&mut strangers);
    strangers
}
