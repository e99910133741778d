//! What of the ages of fixes the table counts, as the calls answer them.

use std::collections::BTreeSet;
use std::mem;

use second::bits::Order;
use second::gateway::Answer;
use second::id::Id;
use second::plan::Plan;
use second::refusal::Refusal;
use second::taken::TakenFrame;

use crate::ages::{stale, Ages, Fix};
use crate::format_rows::OTHER_FORMAT;
use crate::long_counters::passing_by;
use crate::tally::{
    first_bit_1_row, kept_row, last_bit_0_row, when_due_row, Tally, GREATEST_BOUND, OLDEST, RELOADS,
};

pub struct AgeRows<'p> {
    plan: &'p Plan,
    ages: Ages<'p>,
    /// The number of the coming tick.
    tick_number: u64,
    rows: Vec<Seen>,
}

/// What was seen of a row since its last acceptance.
#[derive(Clone, Default)]
struct Seen {
    /// The number of the tick after the acceptance.
    accepted_before: u64,
    data: Option<[u8; 8]>,
    /// The data of the acceptance before.
    data_before: Option<[u8; 8]>,
    handlings: u64,
    /// The ticks and the failure bit at the last take of its frame.
    at_last_take: Option<(u64, bool)>,
    /// The ticks at the expiry, if takes just before and just after it were seen.
    expired: Option<u64>,
    /// What came while the timer was under way, or after the expiry, and is no
    /// acceptance.
    passed_by: BTreeSet<&'static str>,
}

impl<'p> AgeRows<'p> {
    /// After opening.
    pub fn new(plan: &'p Plan) -> AgeRows<'p> {
        AgeRows {
            plan,
            ages: Ages::new(plan),
            tick_number: 0,
            rows: vec![Seen::default(); plan.rx_frames.len()],
        }
    }

    pub fn reception(&mut self, node: u8, id: Id, data: [u8; 8], answer: Result<Answer, Refusal>) {
        let is_accepted = answer == Ok(Answer::Accepted);
        if is_accepted {
            self.ages.accept(node, id, data);
        }
        for (row, seen) in self.plan.rx_frames.iter().zip(&mut self.rows) {
            let is_named = (row.node, row.id) == (node, id);
            if is_named && is_accepted {
                *seen = Seen {
                    accepted_before: self.tick_number,
                    data: Some(data),
                    data_before: seen.data,
                    ..Seen::default()
                };
            }
            // Before the first handling a reload of the timer changes nothing.
            if seen.handlings > 0 {
                seen.passed_by.extend(passing_by(is_named, answer));
                let has_number = row.node == node && row.id.number() == id.number();
                if is_accepted && has_number && !is_named {
                    seen.passed_by.insert(OTHER_FORMAT);
                }
            }
        }
    }

    pub fn tick(&mut self) {
        for (row, seen) in self.plan.rx_frames.iter().zip(&mut self.rows) {
            if self.tick_number.is_multiple_of(u64::from(row.prescaler)) {
                seen.handlings += 1;
            }
        }
        self.tick_number += 1;
        self.ages.tick();
    }

    pub fn take(&mut self, tally: &mut Tally, taken: &TakenFrame) {
        let mut payload = [0; 8];
        payload[..taken.size].copy_from_slice(&taken.payload);
        let fixes = self.ages.take(taken.tx_frame, payload);
        let (of_lin, fixes): (Vec<Fix>, Vec<Fix>) =
            fixes.into_iter().partition(|fix| fix.is_on_lin);
        for fix in &of_lin {
            of_a_lin_source(tally, fix);
        }
        for fix in &fixes {
            match (fix.ticks, fix.failure_bit) {
                (None, Some(false)) => self.never_accepted(tally, fix),
                (Some(ticks), None) => without_bit(tally, fix, ticks),
                (Some(ticks), Some(bit)) if fix.row.reload == 0 => {
                    if !bit && ticks >= GREATEST_BOUND {
                        tally.met("5100 ticks old, reload 0");
                    }
                }
                (Some(ticks), Some(true)) => self.bit_1(tally, fix, ticks),
                (Some(ticks), Some(false)) => {
                    self.bit_0(tally, fix, ticks);
                    self.changed(tally, fix, taken.tx_frame, &payload);
                }
                (None, _) => {}
            }
        }
        in_one_frame(tally, &fixes);
    }

    /// The sentence is of sources that were accepted.
    fn never_accepted(&self, tally: &mut Tally, fix: &Fix) {
        if fix.row.reload > 0 && self.tick_number >= fix.bound() {
            tally.met("never accepted, bit 0 after r p ticks");
        }
    }

    fn bit_0(&mut self, tally: &mut Tally, fix: &Fix, ticks: u64) {
        tally.met("fixes with bit 0");
        if ticks + 1 == fix.bound() {
            tally.met(&last_bit_0_row(fix.row.prescaler));
            if fix.row.id.is_29_bits() {
                tally.met("bit 0 at r p - 1 ticks, 29-bit source");
            }
        }
        self.rows[fix.number].at_last_take = Some((ticks, false));
    }

    fn bit_1(&mut self, tally: &mut Tally, fix: &Fix, ticks: u64) {
        let seen = &mut self.rows[fix.number];
        match (seen.at_last_take.replace((ticks, true)), seen.expired) {
            (Some((before, false)), _) if before + 1 == ticks => {
                seen.expired = Some(ticks);
                seen.expiry(tally, fix, ticks);
            }
            // The next expiry, which sets the bit anew, is r times p ticks later.
            (Some((_, true)), Some(expired)) if ticks < expired + fix.bound() => {
                tally.met(&kept_row("a take"));
                seen.passed_by.remove(OTHER_FORMAT);
                for what in mem::take(&mut seen.passed_by) {
                    tally.met(&kept_row(what));
                }
            }
            _ => {}
        }
    }

    /// The frame has another bit from the source than it would have without
    /// the last acceptance.
    fn changed(&self, tally: &mut Tally, fix: &Fix, tx_number: usize, payload: &[u8; 8]) {
        let before = self.rows[fix.number].data_before;
        let changed =
            before.and_then(|before| stale(self.plan, fix.row, &before, tx_number, payload));
        if changed.is_some() {
            tally.met(match self.plan.order {
                Order::Big => "bit 0, changed by the acceptance, big",
                Order::Little => "bit 0, changed by the acceptance, little",
            });
        }
    }
}

impl Seen {
    /// The tick between two takes set the bit.
    fn expiry(&mut self, tally: &mut Tally, fix: &Fix, ticks: u64) {
        let (prescaler, reload) = (fix.row.prescaler, fix.row.reload);
        let [at_the_bound, phases] = OLDEST.map(|(row, _)| row);
        let phase = self.accepted_before % u64::from(prescaler);
        tally.met_pair(phases, usize::from(prescaler), phase as usize);
        for what in mem::take(&mut self.passed_by) {
            tally.met(&when_due_row(what));
        }
        if ticks == fix.bound() {
            tally.met(&first_bit_1_row(prescaler));
            if fix.row.id.is_29_bits() {
                tally.met("bit 1 at r p ticks, 29-bit source");
            }
            if RELOADS.contains(&reload) {
                tally.met_pair(at_the_bound, usize::from(prescaler), usize::from(reload));
            }
        }
    }
}

/// A fix of a LIN source, of which nothing is said.
fn of_a_lin_source(tally: &mut Tally, fix: &Fix) {
    let (Some(ticks), Some(bit)) = (fix.ticks, fix.failure_bit) else {
        return;
    };
    match (bit, ticks >= fix.bound()) {
        (false, false) => tally.met("LIN source, bit 0 before r p ticks"),
        (false, true) if fix.row.reload > 0 => tally.met("LIN source, bit 0 at r p ticks or more"),
        (true, false) => tally.met("LIN source, bit 1 before r p ticks"),
        _ => {}
    }
}

/// A fix in a frame where its failure bit does not stand.
fn without_bit(tally: &mut Tally, fix: &Fix, ticks: u64) {
    if !fix.row.failure_enabled {
        if ticks >= GREATEST_BOUND {
            tally.met("5100 ticks old, indicator off");
        }
    } else if fix.row.reload > 0 && ticks >= fix.bound() {
        tally.met("past the bound, failure bit elsewhere");
    }
}

/// Sources of unlike bounds, each with its failure bit in the same frame.
fn in_one_frame(tally: &mut Tally, fixes: &[Fix]) {
    let of_bit = |bit| {
        let fixes = fixes.iter().filter(|fix| fix.row.reload > 0);
        fixes.filter(move |fix| fix.ticks.is_some() && fix.failure_bit == Some(bit))
    };
    let bounds: BTreeSet<u64> = of_bit(false).map(Fix::bound).collect();
    if bounds.len() > 1 {
        tally.met("bits 0 of unlike bounds in a frame");
    }
    let least_bound_of_1 = of_bit(true).map(Fix::bound).min();
    let most_ticks_of_0 = of_bit(false).filter_map(|fix| fix.ticks).max();
    if least_bound_of_1.is_some_and(|bound| most_ticks_of_0 >= Some(bound)) {
        tally.met("bit 0 past the bound of another source");
    }
}
