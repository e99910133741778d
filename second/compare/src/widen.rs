//! Plans of 29-bit IDs, made from plans of 11-bit ones.

use std::collections::BTreeSet;

use second::id::{Id, GREATEST_29};

use crate::rng::Rng;
use crate::spec::Plan;

/// Gives some frames of CAN nodes 29-bit IDs, and leaves a good plan good: of each
/// node the last rows, since "11-bit rows come before 29-bit ones", and any Tx
/// frames. If both formats can be there as rows and as Tx frames, they are.
pub fn widen(rng: &mut Rng, plan: &mut Plan) {
    for node in 0..(plan.nodes - plan.lin) as u8 {
        widen_rows(rng, plan, node);
    }
    let on_can = |place: &usize| !plan.is_lin(plan.tx[*place].node);
    let mut frames: Vec<usize> = (0..plan.tx.len()).filter(on_can).collect();
    rng.shuffle(&mut frames);
    let count = some_but_not_all(rng, frames.len());
    for place in frames.into_iter().take(count) {
        let number = plan.tx[place].id.number();
        plan.tx[place].id = Id::Bits29(like(rng, number));
    }
}

/// So many of these: if there are two or more, some and not all.
fn some_but_not_all(rng: &mut Rng, count: usize) -> usize {
    match count {
        0 | 1 => rng.from_to(0, count),
        _ => rng.from_to(1, count - 1),
    }
}

fn widen_rows(rng: &mut Rng, plan: &mut Plan, node: u8) {
    let is_here = |place: &usize| plan.rx[*place].node == node;
    let rows: Vec<usize> = (0..plan.rx.len()).filter(is_here).collect();
    let count = some_but_not_all(rng, rows.len());
    let (narrow, wide) = rows.split_at(rows.len() - count);
    let mut numbers: Vec<u32> = narrow.iter().map(|row| plan.rx[*row].id.number()).collect();
    numbers.extend(wide.iter().map(|row| plan.rx[*row].id.number()));
    let style = rng.below(3);
    let mut ids = BTreeSet::new();
    while ids.len() < count {
        let number = rng.pick(&numbers);
        let any = rng.below(GREATEST_29 as usize + 1) as u32;
        ids.insert(match style {
            0 => like(rng, number),
            1 => any,
            // Without a gap, or nearly.
            _ => (number + rng.below(2 * count + 2) as u32).min(GREATEST_29),
        });
    }
    for (row, id) in wide.iter().zip(ids) {
        plan.rx[*row].id = Id::Bits29(id);
    }
}

/// A number in the range of 29 bits that could be taken for this one: the same,
/// the same in its low 11, 16 or 28 bits, at the ends, or any.
fn like(rng: &mut Rng, number: u32) -> u32 {
    let any = rng.below(GREATEST_29 as usize + 1) as u32;
    let above = |bits: u32| number & ((1 << bits) - 1) | any >> bits << bits;
    match rng.below(8) {
        0 | 1 => number & GREATEST_29,
        2 => above(11),
        3 => above(16),
        4 => above(28),
        5 => rng.pick(&[0, 1, GREATEST_29 - 1, GREATEST_29]),
        _ => any,
    }
}
