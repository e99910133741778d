//! What the table counts of receptions and takes of both formats.
//!
//! Ticket 6: "A reception and a take say which format; the bench puts `e` before
//! such an ID. ID 32 in one format is not ID 32 in the other." "Bench event kind
//! 19 is such a reception, four-byte ID."

use second::gateway::Answer;
use second::id::{Id, GREATEST_29};
use second::plan::{NodeType, Plan, RxFrame};
use second::refusal::Refusal;
use second::taken::TakenFrame;

use crate::format_plans::{low, ENDS, LOW_BITS};
use crate::tally::Tally;

pub const FORMATS: [&str; 2] = ["11 bits", "29 bits"];

/// The ends of the ranges and past them, as strangers.
const STRANGERS: [Id; 10] = [
    ENDS[0],
    ENDS[1],
    Id::Bits11(2048),
    Id::Bits11(u16::MAX),
    ENDS[2],
    ENDS[3],
    Id::Bits29(1 << 29),
    Id::Bits29(1 << 30),
    Id::Bits29(1 << 31),
    Id::Bits29(u32::MAX),
];

/// The row that counts the lengths at which event 19 was cut, each once, and how
/// many there are.
pub const CUT_EVENT: (&str, u64) = ("lengths of a cut event 19, of 14", 14);

/// Event 19: the test that decided, and what else is so.
const ORDERS: [&str; 16] = [
    "event 19: 12",
    "event 19: 12 before 13",
    "event 19: 12 before 16",
    "event 19: 16 before 13",
    "event 19: 16, an 11-bit row that fits",
    "event 19: 16 before 2, an 11-bit row",
    "event 19: 16 before 1",
    "event 19: 16 before 1, bits above 28",
    "event 19: 13, a row that fits",
    "event 19: 13, a row of the other format",
    "event 19: 13 before 1",
    "event 19: 13 before 1, bits above 28",
    "event 19: 2",
    "event 19: 0, of the size",
    "event 19: 0, longer than the size",
    "event 19: 0, size 0",
];

/// 29-bit IDs by the width of their number.
const TAKES: [&str; 3] = [
    "takes of a 29-bit ID below 2048",
    "takes of a 29-bit ID of 2048 to 65535",
    "takes of a 29-bit ID above 65535",
];

pub fn rows() -> Vec<String> {
    let mut rows = Vec::new();
    for format in FORMATS {
        rows.extend([
            format!("rx 0, {format}, rows of both formats"),
            format!("rx 0, {format}, too short for the other row"),
            format!("rx 2, {format}, not too short for the other row"),
            format!("rx 1, {format}, a row of the other format"),
            format!("take, {format}, Tx frames of both formats"),
        ]);
    }
    rows.extend(ENDS.map(|id| format!("rx 0 of {id}")));
    rows.extend(STRANGERS.map(|id| format!("rx 1 of {id}")));
    rows.extend(ENDS.map(|id| format!("take of {id}")));
    for bits in LOW_BITS {
        rows.push(low_row("29 bits", bits, "a 29-bit"));
        rows.push(beside_row(bits));
    }
    rows.push(low_row("29 bits", 29, "a 29-bit"));
    rows.extend([11, 16].map(|bits| low_row("29 bits", bits, "an 11-bit")));
    rows.extend([11, 16].map(|bits| low_row("11 bits", bits, "a 29-bit")));
    rows.push(low_row("11 bits", 11, "an 11-bit"));
    rows.extend(ORDERS.map(String::from));
    rows.extend(TAKES.map(String::from));
    rows.extend((0..=12).map(|length| format!("event 19 of length {length}")));
    rows.push("event 19 of length above 12".to_string());
    rows.extend((0..=8).map(|size| format!("takes of {size} bytes, 29 bits")));
    rows.push(CUT_EVENT.0.to_string());
    rows
}

/// For a stranger that has the low bits of a row, and other bits above.
fn low_row(format: &str, bits: u32, row: &str) -> String {
    format!("rx 1, {format}, the low {bits} of {row} row")
}

/// For a 29-bit ID with a row, beside another row of the same low bits.
fn beside_row(bits: u32) -> String {
    format!("rx 0, 29 bits, beside the same low {bits}")
}

/// The ID of the other format with the same number, if there is one.
pub fn other_format(id: Id) -> Option<Id> {
    match id {
        Id::Bits11(number) => Some(Id::Bits29(u32::from(number))),
        Id::Bits29(number) => u16::try_from(number).ok().map(Id::Bits11),
    }
}

pub fn format_of(id: Id) -> &'static str {
    FORMATS[usize::from(id.is_29_bits())]
}

impl Tally {
    /// A reception of either format.
    pub fn format_reception(
        &mut self,
        plan: &Plan,
        (node, id): (u8, Id),
        length: u8,
        answer: Result<Answer, Refusal>,
    ) {
        let rows: Vec<&RxFrame> = plan.rx_frames.iter().filter(|r| r.node == node).collect();
        let of = |id: Option<Id>| rows.iter().find(|row| Some(row.id) == id).copied();
        let (row, other) = (of(Some(id)), of(other_format(id)));
        if id.is_29_bits() {
            match length {
                0..=12 => self.met(&format!("event 19 of length {length}")),
                _ => self.met("event 19 of length above 12"),
            }
            self.event_19(plan, (row, other), id.number(), length, answer);
        }
        let format = format_of(id);
        let is_too_short = |row: &RxFrame| usize::from(length) < row.size;
        match (answer, other) {
            (Ok(Answer::Accepted), Some(other)) => {
                self.met(&format!("rx 0, {format}, rows of both formats"));
                if is_too_short(other) {
                    self.met(&format!("rx 0, {format}, too short for the other row"));
                }
            }
            (Ok(Answer::TooShort), Some(other)) if !is_too_short(other) => {
                self.met(&format!("rx 2, {format}, not too short for the other row"));
            }
            (Ok(Answer::NoMatchingRow { .. }), Some(_)) => {
                self.met(&format!("rx 1, {format}, a row of the other format"));
            }
            _ => {}
        }
        match answer {
            Ok(Answer::Accepted) => {
                if ENDS.contains(&id) {
                    self.met(&format!("rx 0 of {id}"));
                }
                self.beside(&rows, id);
            }
            Ok(Answer::NoMatchingRow { .. }) => {
                if STRANGERS.contains(&id) {
                    self.met(&format!("rx 1 of {id}"));
                }
                self.low_bits(&rows, id);
            }
            _ => {}
        }
    }

    /// Other 29-bit rows with the low bits of a 29-bit ID.
    fn beside(&mut self, rows: &[&RxFrame], id: Id) {
        let Id::Bits29(number) = id else { return };
        for bits in LOW_BITS {
            let is_beside = |row: &&&RxFrame| match row.id {
                Id::Bits29(other) => other != number && low(other, bits) == low(number, bits),
                Id::Bits11(_) => false,
            };
            if rows.iter().any(|row| is_beside(&row)) {
                self.met(&beside_row(bits));
            }
        }
    }

    /// Rows with the low bits of a stranger.
    fn low_bits(&mut self, rows: &[&RxFrame], id: Id) {
        let of_29 = [(11, "a 29-bit"), (16, "a 29-bit"), (28, "a 29-bit")];
        let all: &[(u32, &str)] = match id {
            Id::Bits11(_) => &[(11, "a 29-bit"), (16, "a 29-bit"), (11, "an 11-bit")],
            Id::Bits29(_) => &[
                of_29[0],
                of_29[1],
                of_29[2],
                (29, "a 29-bit"),
                (11, "an 11-bit"),
                (16, "an 11-bit"),
            ],
        };
        for (bits, what) in all {
            let is_low = |row: &&&RxFrame| {
                let (number, of_row) = (id.number(), row.id.number());
                let is_of = (*what == "a 29-bit") == row.id.is_29_bits();
                is_of && number != of_row && low(number, *bits) == low(of_row, *bits)
            };
            if rows.iter().any(|row| is_low(&row)) {
                self.met(&low_row(format_of(id), *bits, what));
            }
        }
    }

    /// The order of the tests of event 19.
    fn event_19(
        &mut self,
        plan: &Plan,
        (row, other): (Option<&RxFrame>, Option<&RxFrame>),
        number: u32,
        length: u8,
        answer: Result<Answer, Refusal>,
    ) {
        let fits = |row: &RxFrame| usize::from(length.min(8)) >= row.size;
        let is_above = number > GREATEST_29;
        let row = match answer {
            Err(Refusal::NoSuchNode) => {
                if length > 8 {
                    self.met("event 19: 12 before 13");
                }
                if plan.nodes.contains(&NodeType::Lin) {
                    self.met("event 19: 12 before 16");
                }
                "event 19: 12"
            }
            Err(Refusal::NotOfThisNode) => match other {
                _ if length > 8 => "event 19: 16 before 13",
                Some(row) if fits(row) => "event 19: 16, an 11-bit row that fits",
                Some(_) => "event 19: 16 before 2, an 11-bit row",
                None if is_above => "event 19: 16 before 1, bits above 28",
                None => "event 19: 16 before 1",
            },
            Err(_) => match (row, other) {
                (Some(_), _) => "event 19: 13, a row that fits",
                (None, Some(_)) => "event 19: 13, a row of the other format",
                (None, None) if is_above => "event 19: 13 before 1, bits above 28",
                (None, None) => "event 19: 13 before 1",
            },
            Ok(Answer::TooShort) => "event 19: 2",
            Ok(Answer::Accepted) => match row.map_or(0, |row| row.size) {
                0 => "event 19: 0, size 0",
                size if size == usize::from(length) => "event 19: 0, of the size",
                _ => "event 19: 0, longer than the size",
            },
            Ok(_) => return,
        };
        self.met(row);
    }

    /// A take of a frame.
    pub fn format_take(&mut self, plan: &Plan, taken: &TakenFrame) {
        let node = plan.tx_frames[taken.tx_frame].node;
        let other = other_format(taken.id);
        let is_other = |id: Id| Some(id) == other;
        let mut frames = plan.tx_frames.iter().filter(|tx| tx.node == node);
        if frames.any(|tx| is_other(tx.id)) {
            let format = format_of(taken.id);
            self.met(&format!("take, {format}, Tx frames of both formats"));
        }
        if ENDS.contains(&taken.id) {
            self.met(&format!("take of {}", taken.id));
        }
        if let Id::Bits29(number) = taken.id {
            self.met(&format!("takes of {} bytes, 29 bits", taken.size));
            self.met(match number {
                0..2048 => TAKES[0],
                2048..65_536 => TAKES[1],
                _ => TAKES[2],
            });
        }
    }

    /// An event record that cannot be read.
    pub fn format_bad_event(&mut self, rest: &[u8]) {
        if let [19, body @ ..] = rest {
            self.met_pair(CUT_EVENT.0, body.len(), 0);
        }
    }
}
