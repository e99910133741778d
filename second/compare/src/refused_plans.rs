//! What a plan was refused for, seen from its bytes.

use second::gateway::Gateway;
use second::parse::{body_length, two_byte_number, DESTINATION, NODE, SIGNAL};
use second::parse::{RX_FRAME, RX_FRAME_29, TX_FRAME, TX_FRAME_29};
use second::refusal::{PlanRefusal, Refusal};

use crate::tally::{past_row, Tally, KINDS, LIMITS};

impl Tally {
    pub fn refused_plan(&mut self, plan: &[u8], refused: PlanRefusal) {
        self.met(&format!("plan refused {}", refused.refusal.number()));
        if refused.refusal == Refusal::CountPassed {
            for (what, limit) in passed(plan, refused.record) {
                self.met(&past_row(what, limit));
            }
        }
        if let Some(cause) = cause(plan, refused) {
            self.met(&format!("{}: {cause}", refused.refusal.number()));
        }
        self.lin_refused(plan, refused);
        self.format_refused(plan, refused);
    }
}

/// The places of a plan's records up to the one of this number.
pub fn places(plan: &[u8], record: usize) -> Vec<usize> {
    let mut places = Vec::new();
    let mut place = 0;
    for _ in 0..=record {
        places.push(place);
        let kind = plan.get(place).copied().unwrap_or(0);
        place += 1 + body_length(kind).unwrap_or(0);
    }
    places
}

/// The limits that a plan passes at the record of this number, counted from
/// the bytes.
fn passed(plan: &[u8], record: usize) -> Vec<(&'static str, usize)> {
    let mut counts = [0; 7];
    let mut kind = 0;
    for place in places(plan, record) {
        kind = plan[place];
        match kind {
            NODE => counts[0] += 1,
            TX_FRAME | TX_FRAME_29 => counts[1] += 1,
            RX_FRAME | RX_FRAME_29 => {
                counts[2] += 1;
                counts[4] = 0;
            }
            SIGNAL => {
                counts[3] += 1;
                counts[4] += 1;
                counts[6] = 0;
            }
            DESTINATION => {
                counts[5] += 1;
                counts[6] += 1;
            }
            _ => {}
        }
    }
    let of_this_kind: &[usize] = match kind {
        NODE => &[0],
        TX_FRAME | TX_FRAME_29 => &[1],
        RX_FRAME | RX_FRAME_29 => &[2],
        SIGNAL => &[3, 4],
        _ => &[5, 6],
    };
    let passed = of_this_kind.iter().filter(|n| counts[**n] > LIMITS[**n].1);
    passed.map(|n| LIMITS[*n]).collect()
}

/// What a plan was refused for, where its number has several causes, seen from
/// the bytes at the record.
fn cause(plan: &[u8], refused: PlanRefusal) -> Option<String> {
    if plan.is_empty() {
        return Some("empty plan".to_string());
    }
    let places = places(plan, refused.record + 1);
    let bytes = &plan[places[refused.record]..];
    let next_kind = plan.get(places[refused.record + 1]);
    let kind = bytes[0];
    let name = |kind: u8| KINDS[usize::from(kind) - 1];
    let cause = match (refused.refusal, kind) {
        (Refusal::PastTheEnd, _) => return Some(format!("{} cut", name(kind))),
        (Refusal::KindNotHere | Refusal::OutsideRange, _) => {
            return Some(name(kind).to_string());
        }
        (Refusal::PassesData, SIGNAL) => "signal past the data",
        (Refusal::PassesData, _) => {
            let number = usize::from(two_byte_number(bytes[1], bytes[2]));
            let before = places[..refused.record].iter();
            let tx_frames = before.filter(|place| matches!(plan[**place], TX_FRAME | TX_FRAME_29));
            match number < tx_frames.count() {
                true => "destination past the data",
                false => "no such Tx frame",
            }
        }
        (Refusal::TwoOwners, _) => match without_indicator(plan, &places) {
            true => "failure bit",
            false => "destination",
        },
        (Refusal::BadIndicator, RX_FRAME | RX_FRAME_29) => match next_kind {
            Some(&SIGNAL) => "no destination",
            _ => "no signal",
        },
        (Refusal::BadIndicator, _) => "position past the Tx data",
        _ => return None,
    };
    Some(cause.to_string())
}

/// Whether the plan up to the last but one of these places is good once the
/// indicator of its last Rx frame is taken away.
pub fn without_indicator(plan: &[u8], places: &[usize]) -> bool {
    let mut plan = plan[..places[places.len() - 1]].to_vec();
    let is_row = |place: &&usize| matches!(plan.get(**place), Some(&RX_FRAME | &RX_FRAME_29));
    if let Some(row) = places.iter().rev().find(is_row) {
        let enable = if plan[*row] == RX_FRAME { 8 } else { 10 };
        plan[row + enable] = 0;
    }
    Gateway::open(&plan).is_ok()
}
