//! What the table counts of plans with LIN nodes, good and refused.
//!
//! Ticket 2: "LIN nodes follow all CAN nodes. IDs there run 0 to 59, sizes 1 to
//! 8." "Refusals: 3 for a CAN node after a LIN node; 5 for the new ranges".

use second::id::Id;
use second::lin::plain;
use second::parse::{four_byte_number, two_byte_number};
use second::parse::{NODE, RX_FRAME, RX_FRAME_29, SIGNAL, TX_FRAME};
use second::plan::{NodeType, Plan};
use second::refusal::{PlanRefusal, Refusal};

use crate::refused_plans::places;
use crate::tally::Tally;

const CAN_AFTER_LIN: &str = "CAN node after a LIN node";
const TYPE_AFTER_LIN: &str = "type after a LIN node";
const TYPE_BEFORE_LIN: &str = "type before a LIN node";
const FRAMES: [&str; 2] = ["LIN Tx frame", "LIN Rx frame"];

/// How a frame on a LIN node can be out of its range.
const OUTSIDE: [&str; 5] = [
    "size 0",
    "size above 8",
    "ID 60 to 63",
    "ID 64 to 2047",
    "ID above 2047",
];

/// Two faults of one record: the one that decides, and the other.
const ORDERS: [(u8, u8, &str); 12] = [
    (1, 3, "node after a LIN node"),
    (3, 4, CAN_AFTER_LIN),
    (9, 3, CAN_AFTER_LIN),
    (3, 5, TYPE_AFTER_LIN),
    (4, 5, TYPE_AFTER_LIN),
    (1, 5, FRAMES[0]),
    (3, 5, FRAMES[0]),
    (4, 5, FRAMES[0]),
    (1, 5, FRAMES[1]),
    (4, 5, FRAMES[1]),
    (9, 5, FRAMES[1]),
    (5, 6, FRAMES[1]),
];

pub fn good_rows() -> Vec<String> {
    let mut rows = [
        "plans with LIN nodes alone",
        "plans with LIN nodes after CAN nodes",
        "plans of 16 nodes, the last LIN",
        "plans of a LIN node of 60 rows",
        "LIN rows with an indicator",
        "LIN rows without an indicator",
        "LIN rows of long count 0",
        "LIN rows of a long count above 0",
        "LIN rows of reload 0",
        "LIN rows of a reload above 0",
    ]
    .map(String::from)
    .to_vec();
    for frame in FRAMES {
        rows.extend([0, 59].map(|id| format!("{frame}s of ID {id}")));
        rows.extend([1, 8].map(|size| format!("{frame}s of size {size}")));
    }
    rows
}

pub fn refused_rows() -> Vec<String> {
    let mut rows = [
        "3: CAN node after a LIN node",
        "4: LIN node",
        "5: type before a LIN node",
        "5: type after a LIN node",
        "6: LIN Rx frame",
    ]
    .map(String::from)
    .to_vec();
    for frame in FRAMES {
        rows.extend(OUTSIDE.map(|what| format!("5: {frame}, {what}")));
    }
    rows.extend(ORDERS.map(|(first, then, what)| format!("{first} before {then}: {what}")));
    rows
}

impl Tally {
    /// A good plan.
    pub fn lin_plan(&mut self, plan: &Plan) {
        let lin = plan.nodes.iter().filter(|node| **node == NodeType::Lin);
        match lin.count() {
            0 => return,
            all if all == plan.nodes.len() => self.met("plans with LIN nodes alone"),
            _ => self.met("plans with LIN nodes after CAN nodes"),
        }
        if plan.nodes.len() == 16 {
            self.met("plans of 16 nodes, the last LIN");
        }
        let is_lin = |node: u8| plan.node_type(node) == Some(NodeType::Lin);
        for tx in plan.tx_frames.iter().filter(|tx| is_lin(tx.node)) {
            self.lin_frame(FRAMES[0], plain(tx.id), tx.size);
        }
        for rx in plan.rx_frames.iter().filter(|rx| is_lin(rx.node)) {
            self.lin_frame(FRAMES[1], plain(rx.id), rx.size);
            self.met(match rx.failure_enabled {
                true => "LIN rows with an indicator",
                false => "LIN rows without an indicator",
            });
            self.met(match rx.long_count {
                0 => "LIN rows of long count 0",
                _ => "LIN rows of a long count above 0",
            });
            self.met(match rx.reload {
                0 => "LIN rows of reload 0",
                _ => "LIN rows of a reload above 0",
            });
        }
        let rows_of = |node: u8| plan.rx_frames.iter().filter(move |row| row.node == node);
        if (0..16).any(|node| is_lin(node) && rows_of(node).count() == 60) {
            self.met("plans of a LIN node of 60 rows");
        }
    }

    fn lin_frame(&mut self, frame: &str, id: u16, size: usize) {
        if id == 0 || id == 59 {
            self.met(&format!("{frame}s of ID {id}"));
        }
        if size == 1 || size == 8 {
            self.met(&format!("{frame}s of size {size}"));
        }
    }

    /// A refused plan: the faults of LIN at the refused record.
    pub fn lin_refused(&mut self, plan: &[u8], refused: PlanRefusal) {
        let number = refused.refusal.number();
        let record = BadRecord::new(plan, refused);
        for (fault, of, how) in record.faults() {
            if fault == number {
                self.met(&format!("{fault}: {of}{how}"));
            } else if ORDERS.contains(&(number, fault, of)) {
                self.met(&format!("{number} before {fault}: {of}"));
            }
        }
    }
}

/// A record at which a plan was refused.
struct BadRecord<'p> {
    kind: u8,
    /// What is there of its body.
    body: &'p [u8],
    /// The types of the nodes before it.
    types_before: Vec<u8>,
    /// The node and the ID of the Rx frame before it.
    key_before: Option<(u8, Id)>,
    is_before_lin: bool,
    kind_before: u8,
    /// It stands in the place of a follower.
    is_for_9: bool,
}

/// A refusal, what it is of, and how.
type Fault = (u8, &'static str, String);

impl<'p> BadRecord<'p> {
    /// The record that was refused; where a follower is missing, the one in its
    /// place.
    fn new(plan: &'p [u8], refused: PlanRefusal) -> BadRecord<'p> {
        let at = |place: usize| plan.get(place).copied().unwrap_or(0);
        let all = places(plan, refused.record + 3);
        let mut record = refused.record;
        let is_row = |place: usize| matches!(at(place), RX_FRAME | RX_FRAME_29);
        if refused.refusal == Refusal::BadIndicator && is_row(all[record]) {
            record += 1 + usize::from(at(all[record + 1]) == SIGNAL);
        }
        let (start, end) = (all[record], all[record + 1]);
        let before = |kind| {
            all[..record]
                .iter()
                .filter(move |place| at(**place) == kind)
        };
        let rows_before = all[..record].iter().filter(|place| is_row(**place));
        let key = |place: &usize| {
            let id = match at(*place) {
                RX_FRAME => Id::Bits11(two_byte_number(at(place + 2), at(place + 3))),
                _ => Id::Bits29(four_byte_number(&[2, 3, 4, 5].map(|byte| at(place + byte)))),
            };
            (at(place + 1), id)
        };
        BadRecord {
            kind: at(start),
            body: plan.get(start + 1..end.min(plan.len())).unwrap_or(&[]),
            types_before: before(NODE).map(|place| at(place + 1)).collect(),
            key_before: rows_before.map(key).next_back(),
            is_before_lin: plan.get(end..end + 2) == Some(&[NODE, 1]),
            kind_before: record.checked_sub(1).map_or(0, |before| at(all[before])),
            is_for_9: record > refused.record,
        }
    }

    /// The faults that have to do with LIN, whichever decided.
    fn faults(&self) -> Vec<Fault> {
        match self.kind {
            NODE => self.node_faults(),
            TX_FRAME => self.frame_faults(FRAMES[0]),
            RX_FRAME => self.frame_faults(FRAMES[1]),
            _ => Vec::new(),
        }
    }

    fn node_faults(&self) -> Vec<Fault> {
        let is_after_lin = self.types_before.contains(&1);
        let is_too_many = self.types_before.len() >= 16;
        // Elsewhere no node may stand, of whatever type.
        let may_stand = self.kind_before == NODE && is_after_lin;
        let (is_cut, is_can, is_lin) = (self.body.is_empty(), self.body == [0], self.body == [1]);
        let has_no_type = self.body.first() > Some(&1);
        let faults = [
            (3, "node after a LIN node", is_cut && may_stand),
            (3, CAN_AFTER_LIN, is_can && may_stand),
            (3, CAN_AFTER_LIN, is_can && is_after_lin && self.is_for_9),
            (4, CAN_AFTER_LIN, is_can && may_stand && is_too_many),
            (4, "LIN node", is_lin && is_too_many),
            (5, TYPE_AFTER_LIN, has_no_type && is_after_lin),
            (5, TYPE_BEFORE_LIN, has_no_type && self.is_before_lin),
        ];
        let faults = faults.into_iter().filter(|(_, _, is_so)| *is_so);
        let faults = faults.map(|(fault, of, _)| (fault, of, String::new()));
        faults.collect()
    }

    fn frame_faults(&self, frame: &'static str) -> Vec<Fault> {
        let Some([node, high, low, size]) = self.body.first_chunk() else {
            return Vec::new();
        };
        if self.types_before.get(usize::from(*node)) != Some(&1) {
            return Vec::new();
        }
        let id = two_byte_number(*high, *low);
        let outside = [
            *size == 0,
            *size > 8,
            (60..64).contains(&id),
            (64..2048).contains(&id),
            id > 2047,
        ];
        let outside = OUTSIDE.into_iter().zip(outside).filter(|(_, is_so)| *is_so);
        let mut faults: Vec<Fault> = outside
            .map(|(how, _)| (5, frame, format!(", {how}")))
            .collect();
        let is_above = self.key_before < Some((*node, Id::Bits11(id)));
        if self.kind == RX_FRAME && !is_above {
            faults.push((6, frame, String::new()));
        }
        faults
    }
}
