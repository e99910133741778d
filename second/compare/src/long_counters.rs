//! Each row's long counter, told from what the calls answer, and what of it the
//! table counts. On LIN nodes "no response" is the expiry.
//!
//! Ticket 1: "The long counter must start again at every accepted reception, so
//! that a long timeout means that many expiries in a row."

use std::collections::BTreeSet;
use std::mem;

use second::gateway::Answer;
use second::id::Id;
use second::plan::Plan;
use second::refusal::Refusal;

use crate::format_rows::OTHER_FORMAT;
use crate::tally::{
    after_restart_row, after_rx_0_row, despite_row, on_lin_row, Tally, LIN_PASSING_BY, PASSING_BY,
};

pub struct LongCounters {
    rows: Vec<LongCounter>,
}

/// The long counter of one row.
struct LongCounter {
    node: u8,
    id: Id,
    is_on_lin: bool,
    long_count: u32,
    /// The expiries since the last acceptance, or since opening.
    in_a_row: u32,
    /// The expiries since opening.
    in_all: u32,
    accepted: bool,
    /// Whether the last acceptance found the counter under way.
    restarted: bool,
    /// What came while the counter was under way and is no restart.
    passed_by: BTreeSet<&'static str>,
}

impl LongCounters {
    /// The counters after opening.
    pub fn new(plan: &Plan) -> LongCounters {
        let rows = plan.rx_frames.iter().map(|row| LongCounter {
            node: row.node,
            id: row.id,
            is_on_lin: plan.is_on_lin(row),
            long_count: u32::from(row.long_count),
            in_a_row: 0,
            in_all: 0,
            accepted: false,
            restarted: false,
            passed_by: BTreeSet::new(),
        });
        LongCounters {
            rows: rows.collect(),
        }
    }

    pub fn reception(
        &mut self,
        tally: &mut Tally,
        node: u8,
        id: Id,
        answer: Result<Answer, Refusal>,
    ) {
        for row in &mut self.rows {
            let is_named = (row.node, row.id) == (node, id);
            let has_number = row.node == node && row.id.number() == id.number();
            if answer == Ok(Answer::Accepted) && has_number && !is_named {
                row.pass_by(OTHER_FORMAT);
            }
            let passing_by = match row.is_on_lin {
                true => passing_by_on_lin(is_named, answer),
                false => passing_by(is_named, answer),
            };
            match passing_by {
                Some(what) => row.pass_by(what),
                None if is_named && answer == Ok(Answer::Accepted) => row.accept(tally),
                None => {}
            }
        }
    }

    /// A tick with its report, and the rows on LIN nodes whose request it queued.
    pub fn tick(&mut self, tally: &mut Tally, report: &[u8], requests: &[usize]) {
        for (row, byte) in self.rows.iter_mut().zip(report) {
            match byte {
                0 if row.is_on_lin => row.pass_by("a tick"),
                0 => row.pass_by("a tick without an expiry"),
                1 => row.expire(tally, false),
                _ => row.expire(tally, true),
            }
        }
        for number in requests {
            self.rows[*number].pass_by("a request");
        }
    }

    /// "No response", which is the expiry of a row on a LIN node.
    pub fn silent(&mut self, tally: &mut Tally, node: u8, id: Id, answer: Result<u8, Refusal>) {
        for row in self.rows.iter_mut().filter(|row| row.is_on_lin) {
            let is_named = (row.node, row.id) == (node, id);
            match answer {
                Ok(answer) if is_named => row.expire(tally, answer == 2),
                Ok(_) => row.pass_by("silent of another row"),
                Err(Refusal::NoSuchNode) => row.pass_by("silent refused 12"),
                Err(_) => row.pass_by("silent refused 16"),
            }
        }
    }
}

/// What a reception is to a row that does not accept it, by its name in
/// `PASSING_BY`. One that is not accepted concerns the row it names; if it names
/// none, every row.
pub fn passing_by(is_named: bool, answer: Result<Answer, Refusal>) -> Option<&'static str> {
    let [another_row, stranger, too_short, no_such_node, too_long] = PASSING_BY;
    match answer {
        Ok(Answer::Accepted) if !is_named => Some(another_row),
        Ok(Answer::NoMatchingRow { .. }) => Some(stranger),
        Ok(Answer::TooShort) if is_named => Some(too_short),
        Err(Refusal::NoSuchNode) => Some(no_such_node),
        Err(Refusal::PayloadTooLong) if is_named => Some(too_long),
        _ => None,
    }
}

/// The same for a row on a LIN node, by its name in `LIN_PASSING_BY`.
fn passing_by_on_lin(is_named: bool, answer: Result<Answer, Refusal>) -> Option<&'static str> {
    let [_, _, another_row, too_short, wrong_checksum, no_such_node, too_long, ..] = LIN_PASSING_BY;
    match answer {
        Ok(Answer::Accepted) if !is_named => Some(another_row),
        Ok(Answer::TooShort) if is_named => Some(too_short),
        Ok(Answer::WrongChecksum) if is_named => Some(wrong_checksum),
        Err(Refusal::NoSuchNode) => Some(no_such_node),
        Err(Refusal::PayloadTooLong) if is_named => Some(too_long),
        Err(Refusal::NotOfThisNode) if is_named => Some("rx refused 16"),
        _ => None,
    }
}

impl LongCounter {
    /// Counts one for the row of the table, or that of LIN nodes.
    fn met(&self, tally: &mut Tally, row: String) {
        match self.is_on_lin {
            true => tally.met(&on_lin_row(row)),
            false => tally.met(&row),
        }
    }

    /// Whether so many expiries are whole long counts.
    fn are_whole(&self, expiries: u32) -> bool {
        self.long_count > 0 && expiries.is_multiple_of(self.long_count)
    }

    /// Whether the counter is below the long count: some of its expiries have
    /// come, and not all.
    fn is_under_way(&self) -> bool {
        self.long_count > 0 && !self.are_whole(self.in_a_row)
    }

    fn pass_by(&mut self, what: &'static str) {
        if self.is_under_way() {
            self.passed_by.insert(what);
        }
    }

    fn accept(&mut self, tally: &mut Tally) {
        self.accepted = true;
        self.restarted = self.is_under_way();
        if self.restarted {
            self.met(tally, "restarts of a long counter under way".to_string());
            if self.id.is_29_bits() {
                tally.met("restarts of a long counter, 29-bit row");
            }
        }
        self.in_a_row = 0;
        self.passed_by.clear();
    }

    fn expire(&mut self, tally: &mut Tally, is_long: bool) {
        self.in_a_row += 1;
        self.in_all += 1;
        if self.accepted && self.long_count < 2 {
            self.met(tally, after_rx_0_row(self.long_count));
        }
        // Without restarts all expiries would count.
        if !is_long && self.are_whole(self.in_all) {
            self.met(tally, "long timeouts put off by a restart".to_string());
        }
        if is_long && self.are_whole(self.in_a_row) {
            self.long_timeout_when_due(tally);
        }
    }

    fn long_timeout_when_due(&mut self, tally: &mut Tally) {
        if self.restarted && self.in_a_row == self.long_count {
            self.met(tally, after_restart_row(self.long_count));
            if self.id.is_29_bits() {
                tally.met("long timeouts after a restart, 29-bit row");
            }
        }
        for what in mem::take(&mut self.passed_by) {
            self.met(tally, despite_row(what));
        }
    }
}
