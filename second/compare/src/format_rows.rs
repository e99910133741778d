//! What the table counts of the rest of the rules on frames with 29-bit IDs:
//! signals, failure bits, timers, scheduling, and the order in which frames leave.
//!
//! Ticket 6: "otherwise as 3 and 4."

use std::collections::VecDeque;

use second::gateway::{Gateway, Waiting};
use second::id::Id;
use second::plan::{NodeType, Plan, RxFrame, TxFrame};

use crate::observe::failure_bits;
use crate::tally::{Tally, PRESCALERS};

/// How a reception schedules a frame.
pub const SCHEDULED: [&str; 4] = [
    "sent on reception",
    "sent on change, with a change",
    "sent on change, without a change",
    "scheduled while waiting",
];

/// The number of a row, received in the other format.
pub const OTHER_FORMAT: &str = "its number in the other format";

pub fn rows() -> Vec<String> {
    let mut rows = [
        "failure bit set, 29-bit row",
        "failure bit cleared, 29-bit row",
        "bit kept, its number in the other format",
        "copied from 11 to 29 bits",
        "copied from 29 to 11 bits",
        "copied from 29 to 29 bits",
        "short timeouts of a 29-bit row",
        "long timeouts of a 29-bit row",
        "restarts of a long counter, 29-bit row",
        "long timeouts after a restart, 29-bit row",
        "bit 0 at r p - 1 ticks, 29-bit source",
        "bit 1 at r p ticks, 29-bit source",
        "full: a node of both formats",
        "full: a node of 29-bit frames",
        "left in turn, a 29-bit frame behind 11 bits",
        "left in turn, an 11-bit frame behind 29 bits",
    ]
    .map(String::from)
    .to_vec();
    rows.extend(SCHEDULED.map(of_29_row));
    rows.extend(PRESCALERS.map(|p| of_29_row(&format!("sent by a timer of prescaler {p}"))));
    rows.extend(PRESCALERS.map(|p| of_29_row(&format!("timeouts of prescaler {p}"))));
    rows.push(crate::tally::despite_row(OTHER_FORMAT));
    rows.push(crate::tally::when_due_row(OTHER_FORMAT));
    rows
}

pub fn of_29_row(what: &str) -> String {
    format!("{what}, 29 bits")
}

pub struct FormatRows<'p> {
    plan: &'p Plan,
    failure_bits: Vec<bool>,
    /// How many wait on each node, and the unrefused takes there.
    waiting: Vec<usize>,
    takes: Vec<usize>,
    /// What waits, by Tx number.
    frames: Vec<Option<Entry>>,
}

#[derive(Clone, Copy)]
struct Entry {
    ahead: usize,
    /// The unrefused takes on its node before it joined.
    takes: usize,
    /// Whether a frame of 11 and one of 29 bits is ahead of it.
    behind: [bool; 2],
}

impl<'p> FormatRows<'p> {
    /// After opening; nothing if the plan has no 29-bit IDs.
    pub fn new(plan: &'p Plan, gateway: &Gateway) -> Option<FormatRows<'p>> {
        let tx = plan.tx_frames.iter().map(|tx| tx.id);
        let rx = plan.rx_frames.iter().map(|rx| rx.id);
        tx.chain(rx).any(Id::is_29_bits).then(|| FormatRows {
            plan,
            failure_bits: failure_bits(gateway),
            waiting: vec![0; plan.nodes.len()],
            takes: vec![0; plan.nodes.len()],
            frames: vec![None; plan.tx_frames.len()],
        })
    }

    /// After an accepted reception.
    pub fn accepted(&mut self, tally: &mut Tally, gateway: &Gateway, node: u8, id: Id) {
        for (number, bit) in failure_bits(gateway).into_iter().enumerate() {
            let row = &self.plan.rx_frames[number];
            let is_other = row.id != id && row.id.number() == id.number();
            match (self.failure_bits[number], bit) {
                (true, false) if row.id.is_29_bits() => {
                    tally.met("failure bit cleared, 29-bit row");
                }
                (true, true) if row.node == node && is_other => {
                    tally.met("bit kept, its number in the other format");
                }
                _ => {}
            }
            self.failure_bits[number] = bit;
        }
        let mut rows = self.plan.rx_frames.iter();
        if let Some(row) = rows.find(|row| (row.node, row.id) == (node, id)) {
            self.copied(tally, row);
        }
        self.joined(tally, gateway);
    }

    fn copied(&self, tally: &mut Tally, row: &RxFrame) {
        for to in row.signals.iter().flat_map(|s| &s.destinations) {
            let to = self.plan.tx_frames[to.tx_frame].id;
            match (row.id, to) {
                (Id::Bits11(_), Id::Bits29(_)) => tally.met("copied from 11 to 29 bits"),
                (Id::Bits29(_), Id::Bits11(_)) => tally.met("copied from 29 to 11 bits"),
                (Id::Bits29(_), Id::Bits29(_)) => tally.met("copied from 29 to 29 bits"),
                _ => {}
            }
        }
    }

    /// After "no response".
    pub fn silent(&mut self, gateway: &Gateway) {
        self.failure_bits = failure_bits(gateway);
    }

    /// After a tick with its report.
    pub fn tick(&mut self, tally: &mut Tally, gateway: &Gateway, report: &[u8]) {
        for (number, bit) in failure_bits(gateway).into_iter().enumerate() {
            let row = &self.plan.rx_frames[number];
            if row.id.is_29_bits() && bit && !self.failure_bits[number] {
                tally.met("failure bit set, 29-bit row");
            }
            self.failure_bits[number] = bit;
            if row.id.is_29_bits() && report[number] > 0 {
                tally.met(match report[number] {
                    1 => "short timeouts of a 29-bit row",
                    _ => "long timeouts of a 29-bit row",
                });
                let timeouts = format!("timeouts of prescaler {}", row.prescaler);
                tally.met(&of_29_row(&timeouts));
            }
        }
        for number in self.joined(tally, gateway) {
            let tx = &self.plan.tx_frames[number];
            if tx.id.is_29_bits() {
                let sent = format!("sent by a timer of prescaler {}", tx.prescaler);
                tally.met(&of_29_row(&sent));
            }
        }
    }

    /// The frames that an event put into the queues, each behind those that
    /// waited.
    fn joined(&mut self, tally: &mut Tally, gateway: &Gateway) -> Vec<usize> {
        let mut joined = Vec::new();
        for node in 0..self.waiting.len() {
            let queue = gateway.queue(node);
            let before = std::mem::replace(&mut self.waiting[node], queue.len());
            if queue.len() > before {
                joined.extend(self.joined_on(node, queue, before));
                self.full(tally, node, queue.len());
            }
        }
        joined
    }

    fn joined_on(&mut self, node: usize, queue: &VecDeque<Waiting>, from: usize) -> Vec<usize> {
        let mut behind = [false; 2];
        let mut joined = Vec::new();
        for (ahead, waiting) in queue.iter().enumerate() {
            let Waiting::Frame(number) = *waiting else {
                continue;
            };
            if ahead >= from {
                joined.push(number);
                self.frames[number] = Some(Entry {
                    ahead,
                    takes: self.takes[node],
                    behind,
                });
            }
            behind[usize::from(self.plan.tx_frames[number].id.is_29_bits())] = true;
        }
        joined
    }

    /// The queue of a CAN node that holds all that can be scheduled on it.
    fn full(&self, tally: &mut Tally, node: usize, waiting: usize) {
        let is_here = |tx: &&TxFrame| usize::from(tx.node) == node;
        let frames = self.plan.tx_frames.iter().filter(is_here);
        let of_29 = frames.clone().filter(|tx| tx.id.is_29_bits()).count();
        let is_can = self.plan.nodes[node] == NodeType::Can;
        if of_29 > 0 && is_can && waiting == frames.count() {
            tally.met(match of_29 == waiting {
                true => "full: a node of 29-bit frames",
                false => "full: a node of both formats",
            });
        }
    }

    /// After an unrefused take on the node.
    pub fn take(&mut self, tally: &mut Tally, gateway: &Gateway, node: u8, taken: Option<usize>) {
        let node = usize::from(node);
        self.takes[node] += 1;
        self.waiting[node] = gateway.queue(node).len();
        let Some(number) = taken else { return };
        let Some(entry) = self.frames[number].take() else {
            return;
        };
        if self.takes[node] - entry.takes != entry.ahead + 1 {
            return;
        }
        let [behind_11, behind_29] = entry.behind;
        match self.plan.tx_frames[number].id {
            Id::Bits29(_) if behind_11 => tally.met("left in turn, a 29-bit frame behind 11 bits"),
            Id::Bits11(_) if behind_29 => tally.met("left in turn, an 11-bit frame behind 29 bits"),
            _ => {}
        }
    }
}
