//! What the table counts of plans that were refused at, or under, a frame with a
//! 29-bit ID.
//!
//! Ticket 6: "otherwise as 3 and 4"; "Refusals: 5 for these on a LIN node; 6 uses
//! the new order and 2 begins past the new kinds."

use second::id::{Id, GREATEST_29};
use second::parse::{
    body_length, four_byte_number, two_byte_number, HEAD, NODE, RX_FRAME, RX_FRAME_29, SIGNAL,
    TX_FRAME, TX_FRAME_29,
};
use second::refusal::{PlanRefusal, Refusal};

use crate::format_plans::{low, LOW_BITS};
use crate::refused_plans::places;
use crate::tally::Tally;

const FRAMES: [&str; 2] = ["29-bit Tx frame", "29-bit Rx frame"];

/// How the node and the ID of a frame can be out of their ranges.
const OUTSIDE: [&str; 8] = [
    "no such node",
    "ID 536870912",
    "ID above it with bit 29",
    "ID with bit 30",
    "ID with bit 31",
    "ID 4294967295",
    "LIN node, ID below 60",
    "LIN node, ID of 60 or more",
];

/// The fields after them, by the place in a Tx and in an Rx frame.
const FIELDS: [[&str; 4]; 2] = [
    ["size", "prescaler", "flags", "payload past the size"],
    ["size", "prescaler", "failure enable", "failure position"],
];

/// Two faults of one record: the one that decides, and the other.
const ORDERS: [&[(u8, u8)]; 2] = [
    &[
        (1, 3),
        (1, 4),
        (1, 5),
        (3, 4),
        (3, 5),
        (4, 5),
        (9, 1),
        (9, 3),
        (9, 4),
        (9, 5),
    ],
    &[
        (1, 3),
        (1, 4),
        (1, 5),
        (1, 6),
        (3, 5),
        (4, 5),
        (4, 6),
        (5, 6),
        (9, 1),
        (9, 4),
        (9, 5),
        (9, 6),
    ],
];

/// The rows that count the lengths of cut records, each once, and how many there
/// are.
pub const CUTS: [(&str, u64); 2] = [
    ("1: lengths of a cut 29-bit Tx frame, of 18", 18),
    ("1: lengths of a cut 29-bit Rx frame, of 12", 12),
];

/// What is refused at a signal or a destination, or for want of one.
const UNDER: [&str; 9] = [
    "7: signal past the data of a 29-bit row",
    "7: destination past the data of a 29-bit frame",
    "7: no such Tx frame, from a 29-bit row",
    "8: destination in a 29-bit frame",
    "8: failure bit of a 29-bit row",
    "9: past the data of a 29-bit frame",
    "9: no signal, 29-bit row",
    "9: no destination, 29-bit row",
    "9 before 2: a 29-bit row without a follower",
];

pub fn rows() -> Vec<String> {
    let mut rows = UNDER.map(String::from).to_vec();
    rows.extend(["0", "9", "10 to 254", "255"].map(|kind| format!("2: kind {kind}")));
    for how in ["lower", "equal", "higher"] {
        rows.push(format!("6: 11-bit row after a 29-bit one, {how}"));
    }
    let falling = ["equal to", "below"].map(|how| format!("6: 29-bit row {how} the one before"));
    rows.extend(falling);
    rows.push("6: 29-bit row of a node before".to_string());
    rows.extend(LOW_BITS.map(|bits| format!("6: 29-bit row below, low {bits} bits above")));
    for (number, frame) in FRAMES.into_iter().enumerate() {
        let fields = OUTSIDE.into_iter().chain(FIELDS[number]);
        rows.extend(fields.map(|how| format!("5: {frame}, {how}")));
        for format in ["11-bit", "29-bit"] {
            let what = ["Tx", "Rx"][number];
            rows.push(format!("4: {format} {what} frame after both formats"));
            rows.push(format!("4: {format} {what} frame after 256 of the other"));
        }
        let orders = ORDERS[number].iter();
        rows.extend(orders.map(|(first, then)| format!("{first} before {then}: {frame}")));
    }
    rows.push("5: 29-bit Rx frame, long count".to_string());
    for number in [5, 6] {
        rows.push(format!(
            "{number} before a missing follower: 29-bit Rx frame"
        ));
    }
    rows.extend(CUTS.map(|(row, _)| row.to_string()));
    rows
}

fn is_tx(kind: u8) -> bool {
    matches!(kind, TX_FRAME | TX_FRAME_29)
}

fn is_rx(kind: u8) -> bool {
    matches!(kind, RX_FRAME | RX_FRAME_29)
}

impl Tally {
    /// A refused plan.
    pub fn format_refused(&mut self, plan: &[u8], refused: PlanRefusal) {
        let record = BadRecord::new(plan, refused);
        let number = refused.refusal.number();
        match record.kind {
            TX_FRAME_29 | RX_FRAME_29 => self.bad_frame(&record, number),
            _ => {}
        }
        match refused.refusal {
            Refusal::UnknownKind => self.met(match record.kind {
                0 => "2: kind 0",
                9 => "2: kind 9",
                255 => "2: kind 255",
                _ => "2: kind 10 to 254",
            }),
            Refusal::CountPassed => self.one_too_many(&record),
            Refusal::NotAbove => self.not_above(&record),
            Refusal::PassesData | Refusal::TwoOwners | Refusal::BadIndicator => {
                self.under(&record, refused.refusal, plan);
            }
            _ => {}
        }
    }

    /// The faults of a frame with a 29-bit ID, whichever decided.
    fn bad_frame(&mut self, record: &BadRecord, number: u8) {
        let which = usize::from(is_rx(record.kind));
        let faults = record.faults();
        for fault in &faults {
            if ORDERS[which].contains(&(number, *fault)) {
                self.met(&format!("{number} before {fault}: {}", FRAMES[which]));
            }
        }
        if number == 1 {
            self.met_pair(CUTS[which].0, record.body.len(), 0);
        }
        if let (5, [how]) = (number, &record.outside()[..]) {
            self.met(&format!("5: {}, {how}", FRAMES[which]));
        }
        let is_watched = which == 1 && record.field(4) == Some(1);
        if is_watched && !record.is_for_9 && record.next_kind != Some(SIGNAL) {
            if let 5 | 6 = number {
                self.met(&format!(
                    "{number} before a missing follower: {}",
                    FRAMES[1]
                ));
            }
        }
    }

    /// The 257th frame, by the formats of those before it.
    fn one_too_many(&mut self, record: &BadRecord) {
        let (before, what): (Vec<u8>, &str) = match record.kind {
            kind if is_tx(kind) => (record.kinds_before(is_tx), "Tx"),
            kind if is_rx(kind) => (record.kinds_before(is_rx), "Rx"),
            _ => return,
        };
        let is_29 = |kind: u8| kind > SIGNAL;
        let of_29 = before.iter().filter(|kind| is_29(**kind)).count();
        let format = if is_29(record.kind) {
            "29-bit"
        } else {
            "11-bit"
        };
        let others = if is_29(record.kind) {
            256 - of_29
        } else {
            of_29
        };
        if others == 256 {
            self.met(&format!("4: {format} {what} frame after 256 of the other"));
        } else if others > 0 && of_29 < 256 {
            self.met(&format!("4: {format} {what} frame after both formats"));
        }
    }

    fn not_above(&mut self, record: &BadRecord) {
        let (Some((node_before, before)), Some((node, id))) = (record.key_before, record.key())
        else {
            return;
        };
        match (before, id) {
            (_, Id::Bits29(_)) if node < node_before => self.met("6: 29-bit row of a node before"),
            (Id::Bits29(before), Id::Bits29(after)) if before == after => {
                self.met("6: 29-bit row equal to the one before");
            }
            (Id::Bits29(before), Id::Bits29(after)) => {
                self.met("6: 29-bit row below the one before");
                for bits in LOW_BITS {
                    if low(after, bits) > low(before, bits) {
                        self.met(&format!("6: 29-bit row below, low {bits} bits above"));
                    }
                }
            }
            (Id::Bits29(_), Id::Bits11(_)) if node == node_before => {
                let how = id.number().cmp(&before.number()) as i8;
                let how = ["lower", "equal", "higher"][(1 + how) as usize];
                self.met(&format!("6: 11-bit row after a 29-bit one, {how}"));
            }
            _ => {}
        }
    }

    /// A signal, a destination, or what stands in the place of one.
    fn under(&mut self, record: &BadRecord, refusal: Refusal, plan: &[u8]) {
        let of_29 = record.row_kind == RX_FRAME_29;
        let to_29 = record.destination_kind() == Some(TX_FRAME_29);
        let row = match refusal {
            Refusal::PassesData if record.kind == SIGNAL && of_29 => UNDER[0],
            Refusal::PassesData if to_29 => UNDER[1],
            Refusal::PassesData if of_29 && record.destination_kind().is_none() => UNDER[2],
            Refusal::TwoOwners if record.is_of_the_failure_bit(plan) && of_29 => UNDER[4],
            Refusal::TwoOwners if !record.is_of_the_failure_bit(plan) && to_29 => UNDER[3],
            Refusal::BadIndicator if !record.is_for_9 && to_29 => UNDER[5],
            Refusal::BadIndicator if record.is_for_9 && of_29 => match record.kind_before() {
                Some(SIGNAL) => UNDER[7],
                _ => UNDER[6],
            },
            _ => return,
        };
        self.met(row);
        let is_unknown = record.kind != 0 && body_length(record.kind).is_none();
        if record.is_for_9 && of_29 && is_unknown {
            self.met(UNDER[8]);
        }
    }
}

/// A record at which a plan was refused; where a follower is missing, the one in
/// its place.
struct BadRecord<'p> {
    /// 0 at the end.
    kind: u8,
    /// What is there of its body.
    body: &'p [u8],
    next_kind: Option<u8>,
    /// The kinds of the records before it.
    kinds: Vec<u8>,
    /// The types of the nodes before it.
    types: Vec<u8>,
    /// The node and the ID of the row before it.
    key_before: Option<(u8, Id)>,
    /// The kind of that row.
    row_kind: u8,
    /// It stands in the place of a follower.
    is_for_9: bool,
}

impl<'p> BadRecord<'p> {
    fn new(plan: &'p [u8], refused: PlanRefusal) -> BadRecord<'p> {
        let at = |place: usize| plan.get(place).copied();
        let all = places(plan, refused.record + 3);
        let mut record = refused.record;
        let is_row = |place: &usize| at(*place).is_some_and(is_rx);
        if refused.refusal == Refusal::BadIndicator && is_row(&all[record]) {
            record += 1 + usize::from(at(all[record + 1]) == Some(SIGNAL));
        }
        let (start, end) = (all[record], all[record + 1]);
        let before = &all[..record];
        let body = |place: usize| {
            let length = at(place).and_then(body_length).unwrap_or(0);
            let end = (place + 1 + length).min(plan.len());
            plan.get(place + 1..end).unwrap_or(&[])
        };
        let nodes = before.iter().filter(|place| at(**place) == Some(NODE));
        let row = before.iter().rev().find(|place| is_row(place)).copied();
        BadRecord {
            kind: at(start).unwrap_or(0),
            body: body(start),
            next_kind: at(end),
            kinds: before.iter().filter_map(|place| at(*place)).collect(),
            types: nodes.filter_map(|place| at(place + 1)).collect(),
            key_before: row.and_then(|place| key(plan[place], body(place))),
            row_kind: row.map_or(0, |place| plan[place]),
            is_for_9: record > refused.record,
        }
    }

    fn kind_before(&self) -> Option<u8> {
        self.kinds.last().copied()
    }

    fn kinds_before(&self, is_counted: fn(u8) -> bool) -> Vec<u8> {
        let kinds = self.kinds.iter().copied();
        kinds.filter(|kind| is_counted(*kind)).collect()
    }

    /// The node and the ID, if they are there.
    fn key(&self) -> Option<(u8, Id)> {
        key(self.kind, self.body)
    }

    /// A field after the node and the ID of a frame with a 29-bit ID.
    fn field(&self, place: usize) -> Option<u8> {
        self.body.get(5 + place).copied()
    }

    /// The faults of a frame with a 29-bit ID.
    fn faults(&self) -> Vec<u8> {
        let which = usize::from(is_rx(self.kind));
        let count = self.kinds_before([is_tx, is_rx][which]).len();
        let may_stand = match self.kind_before() {
            None => false,
            Some(before) => which == 1 || matches!(before, HEAD | NODE) || is_tx(before),
        };
        let is_above = self.key().is_none_or(|key| self.key_before < Some(key));
        let faults = [
            (1, Some(self.body.len()) < body_length(self.kind)),
            (3, !may_stand),
            (4, count >= 256),
            (5, !self.outside().is_empty()),
            (6, which == 1 && !is_above),
        ];
        let faults = faults.into_iter().filter(|(_, is_so)| *is_so);
        faults.map(|(fault, _)| fault).collect()
    }

    /// The fields of a frame with a 29-bit ID that are out of their ranges, as far
    /// as they are there.
    fn outside(&self) -> Vec<&'static str> {
        let which = usize::from(is_rx(self.kind));
        let mut outside = Vec::new();
        let Some((node, id)) = self.key() else {
            return outside;
        };
        let node_type = self.types.get(usize::from(node));
        outside.extend(match (node_type, id.number()) {
            (_, number) if number > GREATEST_29 => Some(match number {
                0x2000_0000 => OUTSIDE[1],
                u32::MAX => OUTSIDE[5],
                _ if number >> 31 == 1 => OUTSIDE[4],
                _ if number >> 30 == 1 => OUTSIDE[3],
                _ => OUTSIDE[2],
            }),
            (None, _) => Some(OUTSIDE[0]),
            (Some(1), 0..60) => Some(OUTSIDE[6]),
            (Some(1), _) => Some(OUTSIDE[7]),
            _ => None,
        });
        let is_past = |place: usize, most: u8| self.field(place).is_some_and(|byte| byte > most);
        let prescaler = self.field(1).unwrap_or(1);
        let size = usize::from(self.field(0).unwrap_or(8)).min(8);
        let payload = self.body.get(10 + size..18).unwrap_or(&[]);
        let fields = match which {
            0 => [is_past(4, 3), payload.iter().any(|byte| *byte != 0)],
            _ => [is_past(4, 1), is_past(5, 63)],
        };
        let is_so = [is_past(0, 8), ![1, 2, 10, 20].contains(&prescaler)];
        let is_so = is_so.into_iter().chain(fields);
        let of_fields = FIELDS[which].into_iter().zip(is_so);
        outside.extend(of_fields.filter(|(_, is_so)| *is_so).map(|(how, _)| how));
        if which == 1 && is_past(6, 15) {
            outside.push("long count");
        }
        outside
    }

    /// The kind of the Tx frame that a destination names, if it exists.
    fn destination_kind(&self) -> Option<u8> {
        let [high, low, _] = self.body else {
            return None;
        };
        let number = usize::from(two_byte_number(*high, *low));
        self.kinds_before(is_tx).get(number).copied()
    }

    /// Whether a bit with two owners is that of the failure indicator: without it
    /// the plan would be good so far.
    fn is_of_the_failure_bit(&self, plan: &[u8]) -> bool {
        let record = self.kinds.len();
        crate::refused_plans::without_indicator(plan, &places(plan, record + 1))
    }
}

/// The node and the ID of a frame, if they are there.
fn key(kind: u8, body: &[u8]) -> Option<(u8, Id)> {
    let node = *body.first()?;
    let id = match kind {
        TX_FRAME_29 | RX_FRAME_29 => Id::Bits29(four_byte_number(body.get(1..5)?)),
        _ => Id::Bits11(two_byte_number(*body.get(1)?, *body.get(2)?)),
    };
    Some((node, id))
}
