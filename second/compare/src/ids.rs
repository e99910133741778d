//! IDs of both formats: those that no row has, and those that could be taken for
//! the ID of a row.

use second::id::{Id, GREATEST_11, GREATEST_29};

use crate::rng::Rng;
use crate::spec::Plan;

/// A run of IDs of one format, from a lowest to a highest number.
#[derive(Clone, Copy, Debug)]
pub struct Run {
    of: fn(u32) -> Id,
    lowest: u32,
    highest: u32,
}

/// The ID of 11 bits with this number.
fn of_11(number: u32) -> Id {
    Id::Bits11(number as u16)
}

/// The 11-bit IDs that no row of the node has, in runs. Those above 2047 are a run
/// of their own.
pub fn unlisted(plan: &Plan, node: u8) -> Vec<Run> {
    let greatest = [u32::from(GREATEST_11), u32::from(u16::MAX)];
    unlisted_of(plan, node, of_11, greatest)
}

/// The same of 29 bits; those above 536,870,911 are a run of their own.
pub fn unlisted_29(plan: &Plan, node: u8) -> Vec<Run> {
    unlisted_of(plan, node, Id::Bits29, [GREATEST_29, u32::MAX])
}

fn unlisted_of(plan: &Plan, node: u8, of: fn(u32) -> Id, greatest: [u32; 2]) -> Vec<Run> {
    let [greatest, beyond] = greatest;
    let mut runs = Vec::new();
    let mut lowest = 0;
    for row in plan.rx.iter().filter(|rx| rx.node == node) {
        let number = row.id.number();
        if row.id != of(number) {
            continue;
        }
        if lowest < number {
            runs.push((lowest, number - 1));
        }
        lowest = number + 1;
    }
    if lowest <= greatest {
        runs.push((lowest, greatest));
    }
    runs.push((greatest + 1, beyond));
    let run = |(lowest, highest)| Run {
        of,
        lowest,
        highest,
    };
    runs.into_iter().map(run).collect()
}

/// Both ends of a run and an ID of it.
pub fn some_of(rng: &mut Rng, run: Run) -> [Id; 3] {
    let any = rng.from_to(run.lowest as usize, run.highest as usize);
    [run.lowest, any as u32, run.highest].map(run.of)
}

/// Any ID of 11 bits.
pub fn some_id(rng: &mut Rng) -> Id {
    Id::Bits11(rng.below(2048) as u16)
}

/// The ID of the same format with a number that is so much more.
pub fn next_id(id: Id, more: i32) -> Id {
    match id {
        Id::Bits11(number) => Id::Bits11(number.wrapping_add_signed(more as i16)),
        Id::Bits29(number) => Id::Bits29(number.wrapping_add_signed(more)),
    }
}

/// The ID with a bit above its range.
pub fn past_the_range(rng: &mut Rng, id: Id) -> Id {
    match id {
        Id::Bits11(number) => Id::Bits11(number ^ rng.pick(&[2048, 4096, 0x8000])),
        Id::Bits29(number) => Id::Bits29(number ^ 1 << rng.from_to(29, 31)),
    }
}

/// An ID that could be taken for this one: of the other format, cut, or with
/// other high bits; or any, or one past the ranges.
pub fn strange_id(rng: &mut Rng, id: Id) -> Id {
    let number = id.number();
    let any = rng.number() as u32;
    match rng.below(8) {
        0 => Id::Bits11(rng.pick(&[2048, u16::MAX, any as u16])),
        1 => Id::Bits29(rng.pick(&[GREATEST_29 + 1, u32::MAX, any, any >> 3])),
        2 => Id::Bits29(number),
        3 => Id::Bits29(number ^ 1 << rng.from_to(11, 28)),
        4 => Id::Bits29(number | 1 << rng.from_to(29, 31)),
        5 => Id::Bits29(number & 0xFFFF),
        6 => Id::Bits11(number as u16 & 0x7FF),
        _ => Id::Bits11(number as u16),
    }
}
