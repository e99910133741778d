//! What the table counts of good plans with 29-bit IDs.
//!
//! Ticket 6: "Kinds 7 and 8 are Tx and Rx frames with a four-byte ID, 0 to
//! 536,870,911". "Within a node 11-bit rows come before 29-bit ones, each in
//! ascending order".

use second::id::{Id, GREATEST_11, GREATEST_29};
use second::plan::{NodeType, Plan, RxFrame};

use crate::tally::Tally;

/// The least and the greatest ID of each format.
pub const ENDS: [Id; 4] = [
    Id::Bits11(0),
    Id::Bits11(GREATEST_11),
    Id::Bits29(0),
    Id::Bits29(GREATEST_29),
];

/// Low bits by which rows could be compared, or IDs be cut to.
pub const LOW_BITS: [u32; 3] = [11, 16, 28];

const FRAMES: [&str; 2] = ["Tx frames", "Rx frames"];

pub fn rows() -> Vec<String> {
    let mut rows = [
        "plans of both formats, Tx and Rx frames",
        "plans of both formats and LIN nodes",
        "plans of 29-bit IDs alone",
        "29-bit row after an 11-bit one, number lower",
        "29-bit row after an 11-bit one, number equal",
        "29-bit row after an 11-bit one, number higher",
        "29-bit row one above the row before",
        "11-bit row after a 29-bit one, next node",
        "29-bit row on the next node, number lower",
        "29-bit row on the next node, number equal",
    ]
    .map(String::from)
    .to_vec();
    rows.extend(LOW_BITS.map(|bits| format!("29-bit rows that rise, low {bits} bits do not")));
    for frames in FRAMES {
        rows.extend(ENDS.map(|id| format!("{frames} of ID {id}")));
        rows.push(format!("a number in both formats, {frames} of a node"));
        rows.push(format!("plans of 256 {frames}, both formats"));
        rows.push(format!("plans of 256 {frames}, 29 bits"));
    }
    rows
}

/// The low bits of a number.
pub fn low(number: u32, bits: u32) -> u32 {
    number & ((1 << bits) - 1)
}

impl Tally {
    /// A good plan.
    pub fn format_plan(&mut self, plan: &Plan) {
        let tx: Vec<(u8, Id)> = plan.tx_frames.iter().map(|tx| (tx.node, tx.id)).collect();
        let rx: Vec<(u8, Id)> = plan.rx_frames.iter().map(|rx| (rx.node, rx.id)).collect();
        let of_29 = |frames: &[(u8, Id)]| frames.iter().filter(|(_, id)| id.is_29_bits()).count();
        let has_both = |frames: &[(u8, Id)]| (1..frames.len()).contains(&of_29(frames));
        for (what, frames) in FRAMES.into_iter().zip([&tx, &rx]) {
            self.format_frames(what, frames);
            match of_29(frames) {
                0 => {}
                256 => self.met(&format!("plans of 256 {what}, 29 bits")),
                _ if frames.len() == 256 => self.met(&format!("plans of 256 {what}, both formats")),
                _ => {}
            }
        }
        if has_both(&tx) && has_both(&rx) {
            self.met("plans of both formats, Tx and Rx frames");
        }
        let is_alone = |frames: &[(u8, Id)]| !frames.is_empty() && of_29(frames) == frames.len();
        if is_alone(&tx) && is_alone(&rx) {
            self.met("plans of 29-bit IDs alone");
        }
        if plan.nodes.contains(&NodeType::Lin) && of_29(&tx) + of_29(&rx) > 0 {
            self.met("plans of both formats and LIN nodes");
        }
        for pair in plan.rx_frames.windows(2) {
            self.row_after(&pair[0], &pair[1]);
        }
    }

    fn format_frames(&mut self, what: &str, frames: &[(u8, Id)]) {
        for id in ENDS {
            if frames.iter().any(|frame| frame.1 == id) {
                self.met(&format!("{what} of ID {id}"));
            }
        }
        let is_in_both = |(node, id): &(u8, Id)| match id {
            Id::Bits11(number) => frames.contains(&(*node, Id::Bits29(u32::from(*number)))),
            Id::Bits29(_) => false,
        };
        if frames.iter().any(is_in_both) {
            self.met(&format!("a number in both formats, {what} of a node"));
        }
    }

    /// A row and the one after it.
    fn row_after(&mut self, before: &RxFrame, after: &RxFrame) {
        let numbers = (before.id.number(), after.id.number());
        let is_next_node = before.node < after.node;
        match (before.id, after.id) {
            (Id::Bits11(_), Id::Bits29(_)) if !is_next_node => {
                let how =
                    ["lower", "equal", "higher"][(1 + numbers.1.cmp(&numbers.0) as i8) as usize];
                self.met(&format!("29-bit row after an 11-bit one, number {how}"));
            }
            (Id::Bits29(_), Id::Bits11(_)) => self.met("11-bit row after a 29-bit one, next node"),
            (Id::Bits29(_), Id::Bits29(_)) if is_next_node => {
                if numbers.1 < numbers.0 {
                    self.met("29-bit row on the next node, number lower");
                } else if numbers.1 == numbers.0 {
                    self.met("29-bit row on the next node, number equal");
                }
            }
            (Id::Bits29(before), Id::Bits29(after)) => {
                if before + 1 == after {
                    self.met("29-bit row one above the row before");
                }
                for bits in LOW_BITS {
                    if low(after, bits) <= low(before, bits) {
                        self.met(&format!("29-bit rows that rise, low {bits} bits do not"));
                    }
                }
            }
            _ => {}
        }
    }
}
