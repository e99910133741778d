//! What the table counts of the order in which frames and requests leave.
//!
//! Ticket 14: "a frame with n ahead of it leaves at the (n + 1)-th unrefused
//! take on its node, whatever else but an opening is called between." Such a
//! frame, or request, left in turn.

use std::collections::VecDeque;

use second::gateway::{Gateway, Waiting};
use second::id::Id;
use second::plan::{NodeType, Plan};

use crate::tally::Tally;

/// What can come between the joining of an entry and its leaving; the last four
/// are of its own node, its own frame or its own timer.
const BETWEEN: [&str; 17] = [
    "a tick",
    "rx 0",
    "rx 1",
    "rx 2",
    "rx 3",
    "rx refused 12",
    "rx refused 13",
    "rx refused 16",
    "silent",
    "silent refused 12",
    "silent refused 16",
    "take none",
    "take refused 12",
    "a take on another node",
    "one that joined behind it",
    "its scheduling by a reception",
    "its own expiry",
];

/// How many of them are told by the event alone.
const EVENTS: usize = 13;

/// Each n below this is met.
pub const AHEAD: usize = 16;

/// The rows that count pairs, each pair once, and how many pairs there are: n
/// and what left in turn, which is a frame of a CAN node, one of a LIN node or a
/// request; and n and what came between.
pub const LEAVING_PAIRS: [(&str, u64); 2] = [
    ("n ahead, 0 to 15, and what left, of 48", 48),
    ("n ahead, 0 to 15, and what came, of 272", 272),
];

pub fn rows() -> Vec<String> {
    let mut rows = BETWEEN.map(despite_row).to_vec();
    let others = [
        "left in turn, a frame behind a request",
        "left in turn, a request behind a frame",
        "left in turn, 100 or more ahead, frames only",
        "left in turn, 100 or more ahead, with requests",
        "left in turn, 255 ahead, frames only",
        "left in turn, 315 ahead",
    ];
    rows.extend(others.map(String::from));
    rows.extend(LEAVING_PAIRS.map(|(row, _)| row.to_string()));
    rows
}

/// For what left in turn, with something ahead of it, although this came between.
fn despite_row(what: &str) -> String {
    format!("left in turn despite {what}")
}

pub struct LeavingRows<'p> {
    plan: &'p Plan,
    /// The number of the coming tick.
    tick_number: u64,
    /// The number of the event, from 1.
    event: u64,
    /// The last event of each kind in `BETWEEN`.
    last: [u64; EVENTS],
    nodes: Vec<Node>,
    /// What waits: by Tx number, and by Rx number.
    frames: Vec<Option<Entry>>,
    requests: Vec<Option<Entry>>,
    met: Met,
}

/// What of `BETWEEN` was met, and the pairs; the table gets them at the end.
#[derive(Default)]
struct Met {
    despite: [u64; BETWEEN.len()],
    left: [[bool; 3]; AHEAD],
    came: [[bool; BETWEEN.len()]; AHEAD],
}

#[derive(Clone, Default)]
struct Node {
    /// The unrefused takes.
    takes: usize,
    /// The last event that took something.
    last_take: u64,
    /// The last event that put something into the queue.
    last_join: u64,
}

#[derive(Clone)]
struct Entry {
    ahead: usize,
    behind_frame: bool,
    behind_request: bool,
    /// The unrefused takes on its node before it joined.
    takes: usize,
    /// The event at which it joined.
    event: u64,
    /// Whether it was scheduled again while it waits.
    by_reception: bool,
    by_expiry: bool,
}

impl<'p> LeavingRows<'p> {
    /// After opening.
    pub fn new(plan: &'p Plan) -> LeavingRows<'p> {
        LeavingRows {
            plan,
            tick_number: 0,
            event: 0,
            last: [0; EVENTS],
            nodes: vec![Node::default(); plan.nodes.len()],
            frames: vec![None; plan.tx_frames.len()],
            requests: vec![None; plan.rx_frames.len()],
            met: Met::default(),
        }
    }

    /// An event begins, told by its line as far as `BETWEEN` has it.
    pub fn event(&mut self, line: &str) {
        self.event += 1;
        if let Some(kind) = BETWEEN[..EVENTS].iter().position(|what| *what == line) {
            self.last[kind] = self.event;
        }
    }

    /// Before a tick: the timers that expire while their entry waits.
    pub fn before_tick(&mut self, gateway: &Gateway) {
        let tick_number = self.tick_number;
        let is_handled = |prescaler: u8| tick_number.is_multiple_of(u64::from(prescaler));
        for (number, entry) in self.frames.iter_mut().enumerate() {
            let Some(entry) = entry else { continue };
            let prescaler = self.plan.tx_frames[number].prescaler;
            entry.by_expiry |= gateway.tx_timer(number) == 1 && is_handled(prescaler);
        }
        for (number, entry) in self.requests.iter_mut().enumerate() {
            let Some(entry) = entry else { continue };
            let prescaler = self.plan.rx_frames[number].prescaler;
            entry.by_expiry |= gateway.rx_timer(number) == 1 && is_handled(prescaler);
        }
        self.tick_number += 1;
    }

    /// A reception or a response was accepted, and what joined is not yet known.
    pub fn accepted(&mut self, node: u8, id: Id) {
        let mut rows = self.plan.rx_frames.iter();
        let Some(row) = rows.find(|row| (row.node, row.id) == (node, id)) else {
            return;
        };
        for to in row.signals.iter().flat_map(|s| &s.destinations) {
            if self.plan.tx_frames[to.tx_frame].send_on_reception {
                if let Some(entry) = &mut self.frames[to.tx_frame] {
                    entry.by_reception = true;
                }
            }
        }
    }

    /// What the event put into the queue of a node: all from this place on.
    pub fn joined(&mut self, node: usize, queue: &VecDeque<Waiting>, from: usize) {
        let is_frame = |waiting: &Waiting| matches!(waiting, Waiting::Frame(_));
        self.nodes[node].last_join = self.event;
        let mut behind_frame = queue.range(..from).any(is_frame);
        let mut behind_request = !queue.range(..from).all(is_frame);
        for (ahead, waiting) in queue.iter().enumerate().skip(from) {
            let entry = Some(Entry {
                ahead,
                behind_frame,
                behind_request,
                takes: self.nodes[node].takes,
                event: self.event,
                by_reception: false,
                by_expiry: false,
            });
            match waiting {
                Waiting::Frame(tx_number) => self.frames[*tx_number] = entry,
                Waiting::Request(rx_number) => self.requests[*rx_number] = entry,
            }
            behind_frame |= is_frame(waiting);
            behind_request |= !is_frame(waiting);
        }
    }

    /// An unrefused take on the node.
    pub fn take(&mut self, tally: &mut Tally, node: usize, taken: Option<Waiting>) {
        self.nodes[node].takes += 1;
        let entry = match taken {
            Some(Waiting::Frame(tx_number)) => self.frames[tx_number].take(),
            Some(Waiting::Request(rx_number)) => self.requests[rx_number].take(),
            None => None,
        };
        let (Some(waiting), Some(entry)) = (taken, entry) else {
            return;
        };
        if self.nodes[node].takes - entry.takes == entry.ahead + 1 {
            self.in_turn(tally, node, waiting, &entry);
        }
        self.nodes[node].last_take = self.event;
    }

    /// At the (n + 1)-th unrefused take.
    fn in_turn(&mut self, tally: &mut Tally, node: usize, waiting: Waiting, entry: &Entry) {
        let is_request = matches!(waiting, Waiting::Request(_));
        let is_lin = self.plan.nodes[node] == NodeType::Lin;
        if let Some(left) = self.met.left.get_mut(entry.ahead) {
            left[usize::from(is_lin) + usize::from(is_request)] = true;
        }
        for kind in 0..BETWEEN.len() {
            if self.came(kind, node, entry) {
                self.met.despite[kind] += u64::from(entry.ahead > 0);
                if let Some(came) = self.met.came.get_mut(entry.ahead) {
                    came[kind] = true;
                }
            }
        }
        match is_request {
            false if entry.behind_request => tally.met("left in turn, a frame behind a request"),
            true if entry.behind_frame => tally.met("left in turn, a request behind a frame"),
            _ => {}
        }
        if entry.ahead >= 100 {
            tally.met(match is_request || entry.behind_request {
                false => "left in turn, 100 or more ahead, frames only",
                true => "left in turn, 100 or more ahead, with requests",
            });
        }
        match entry.ahead {
            255 if !entry.behind_request && !is_request => {
                tally.met("left in turn, 255 ahead, frames only");
            }
            315 => tally.met("left in turn, 315 ahead"),
            _ => {}
        }
    }

    /// After the last event.
    pub fn end(&self, tally: &mut Tally) {
        let [what_left, what_came] = LEAVING_PAIRS.map(|(row, _)| row);
        for (what, times) in BETWEEN.into_iter().zip(self.met.despite) {
            tally.met_times(&despite_row(what), times);
        }
        for ahead in 0..AHEAD {
            for what in true_places(&self.met.left[ahead]) {
                tally.met_pair(what_left, ahead, what);
            }
            for kind in true_places(&self.met.came[ahead]) {
                tally.met_pair(what_came, ahead, kind);
            }
        }
    }

    /// Whether this kind of `BETWEEN` came while the entry waited.
    fn came(&self, kind: usize, node: usize, entry: &Entry) -> bool {
        if let Some(last) = self.last.get(kind) {
            return *last > entry.event;
        }
        let taken_elsewhere =
            |(other, of_other): (usize, &Node)| other != node && of_other.last_take > entry.event;
        match kind - EVENTS {
            0 => self.nodes.iter().enumerate().any(taken_elsewhere),
            1 => self.nodes[node].last_join > entry.event,
            2 => entry.by_reception,
            _ => entry.by_expiry,
        }
    }
}

fn true_places(are_met: &[bool]) -> impl Iterator<Item = usize> + '_ {
    (0..are_met.len()).filter(|place| are_met[*place])
}
