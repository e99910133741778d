//! What the table counts of the room of a queue.
//!
//! Ticket 14: "a node's queue never holds more than the frames and requests
//! which can be scheduled on it, and cut our room to that." A ring of that room
//! is filled from its first place to its last and then from the first again, so
//! the place of an entry is the number of those that joined before it, modulo
//! the room.

use second::gateway::Waiting;
use second::plan::{NodeType, Plan};

use crate::tally::Tally;

/// What can be scheduled on a node that has room.
const KINDS: [&str; 4] = [
    "CAN node",
    "LIN node, frames only",
    "LIN node, requests only",
    "LIN node, both",
];

/// What a ring is for.
const HOLDS: [&str; 2] = ["frames only", "with requests"];

/// The largest rooms: all Tx frames of a plan, all IDs of a LIN node, and both.
const LARGEST: [(usize, usize, &str); 3] = [
    (256, 0, "full: 256 frames"),
    (0, 60, "full: 60 requests"),
    (256, 60, "full: 256 frames and 60 requests"),
];

/// The rooms from 1 to this one are met with each kind and each place.
pub const ROOMS: usize = 15;

/// The rows that count pairs, each pair once, and how many pairs there are: a
/// room and a kind that were full, where both kinds of entries need a room of
/// 2; and a room and the place of the oldest when full, on rings for frames only
/// and with requests.
pub const ROOM_PAIRS: [(&str, u64); 3] = [
    ("full: rooms 1 to 15 by node, of 59", 59),
    ("full: places of the oldest, frames, of 120", 120),
    ("full: places of the oldest, requests, of 120", 120),
];

pub fn rows() -> Vec<String> {
    let mut rows = KINDS.map(|kind| format!("full: {kind}")).to_vec();
    rows.push("full: room 1".to_string());
    rows.extend(LARGEST.map(|(_, _, row)| row.to_string()));
    for what in [
        "full and wrapped",
        "joined at the last place",
        "joined at the first place again",
        "takes across the ring's end",
        "gone round ten times",
    ] {
        rows.extend(HOLDS.map(|holds| holding_row(what, holds)));
    }
    let others = [
        "requests joined at the last place",
        "requests joined at the first place again",
        "neighbours full at once",
        "neighbours full, the lower one last",
        "neighbours full, the upper one last",
        "full below a node without room",
        "full above a node without room",
        "full on both sides of a node without room",
        "full: 16 nodes at once",
        "full: 256 frames and 256 requests at once",
        "take none, no room, CAN node with rows",
        "take none, no room, CAN node without rows",
        "take none, no room, LIN node",
    ];
    rows.extend(others.map(String::from));
    rows.extend(ROOM_PAIRS.map(|(row, _)| row.to_string()));
    rows
}

fn holding_row(what: &str, holds: &str) -> String {
    format!("{what}, {holds}")
}

pub struct RoomRows {
    rings: Vec<Ring>,
}

struct Ring {
    is_lin: bool,
    has_rows: bool,
    frames: usize,
    requests: usize,
    /// The entries that joined since opening.
    joined: usize,
    waiting: usize,
}

impl RoomRows {
    /// After opening.
    pub fn new(plan: &Plan) -> RoomRows {
        let ring = |(node, node_type): (usize, &NodeType)| {
            let is_lin = *node_type == NodeType::Lin;
            let frames = plan.tx_frames.iter();
            let rows = plan.rx_frames.iter();
            let rows = rows.filter(|row| usize::from(row.node) == node).count();
            Ring {
                is_lin,
                has_rows: rows > 0,
                frames: frames.filter(|tx| usize::from(tx.node) == node).count(),
                requests: if is_lin { rows } else { 0 },
                joined: 0,
                waiting: 0,
            }
        };
        RoomRows {
            rings: plan.nodes.iter().enumerate().map(ring).collect(),
        }
    }

    /// What one event put into the queues, each with its node.
    pub fn joined(&mut self, tally: &mut Tally, joined: &[(usize, Waiting)]) {
        let before: Vec<bool> = self.rings.iter().map(Ring::is_full).collect();
        for (node, waiting) in joined {
            self.rings[*node].join(tally, *waiting);
        }
        let filled = |node: &usize| self.rings[*node].is_full() && !before[*node];
        let filled: Vec<usize> = (0..self.rings.len()).filter(filled).collect();
        for node in &filled {
            self.rings[*node].full(tally);
            self.beside(tally, *node, &before);
        }
        if !filled.is_empty() {
            self.all_at_once(tally);
        }
    }

    fn all_at_once(&self, tally: &mut Tally) {
        let with_room = self.rings.iter().filter(|ring| ring.room() > 0);
        if !with_room.clone().all(Ring::is_full) {
            return;
        }
        if with_room.clone().count() == 16 {
            tally.met("full: 16 nodes at once");
        }
        let frames: usize = with_room.clone().map(|ring| ring.frames).sum();
        let requests: usize = with_room.map(|ring| ring.requests).sum();
        if (frames, requests) == (256, 256) {
            tally.met("full: 256 frames and 256 requests at once");
        }
    }

    /// The nodes beside one whose queue has become full.
    fn beside(&self, tally: &mut Tally, node: usize, before: &[bool]) {
        let has_no_room = |node: usize| self.rings.get(node).is_some_and(|r| r.room() == 0);
        let is_full = |node: usize| self.rings.get(node).is_some_and(Ring::is_full);
        let was_full = |node: usize| before.get(node) == Some(&true);
        let (above, below) = (node + 1, node.wrapping_sub(1));
        if is_full(above) {
            tally.met(match was_full(above) {
                true => "neighbours full, the lower one last",
                false => "neighbours full at once",
            });
        }
        if was_full(below) {
            tally.met("neighbours full, the upper one last");
        }
        if has_no_room(above) {
            tally.met("full below a node without room");
        }
        if has_no_room(below) {
            tally.met("full above a node without room");
        }
        let upper = has_no_room(above) && is_full(above + 1);
        let lower = has_no_room(below) && was_full(below.wrapping_sub(1));
        if upper || lower {
            tally.met("full on both sides of a node without room");
        }
    }

    /// An unrefused take on the node, of an entry or none.
    pub fn take(&mut self, tally: &mut Tally, node: usize, is_entry: bool) {
        let ring = &mut self.rings[node];
        if is_entry {
            ring.leave(tally);
        } else if ring.room() == 0 {
            tally.met(match (ring.is_lin, ring.has_rows) {
                (false, true) => "take none, no room, CAN node with rows",
                (false, false) => "take none, no room, CAN node without rows",
                (true, _) => "take none, no room, LIN node",
            });
        }
    }
}

impl Ring {
    fn room(&self) -> usize {
        self.frames + self.requests
    }

    fn is_full(&self) -> bool {
        self.room() > 0 && self.waiting == self.room()
    }

    /// The place of the oldest that waits.
    fn oldest(&self) -> usize {
        (self.joined - self.waiting) % self.room()
    }

    fn met(&self, tally: &mut Tally, what: &str) {
        let holds = HOLDS[usize::from(self.requests > 0)];
        tally.met(&holding_row(what, holds));
    }

    fn join(&mut self, tally: &mut Tally, waiting: Waiting) {
        let place = self.joined % self.room();
        self.joined += 1;
        self.waiting += 1;
        // A ring of one place has no other to go to.
        if self.room() == 1 {
            return;
        }
        let is_again = self.joined > self.room();
        for (is_so, what) in [
            (place + 1 == self.room(), "joined at the last place"),
            (place == 0 && is_again, "joined at the first place again"),
        ] {
            if is_so {
                self.met(tally, what);
                if let Waiting::Request(_) = waiting {
                    tally.met(&format!("requests {what}"));
                }
            }
        }
        if self.joined == 10 * self.room() + 1 {
            self.met(tally, "gone round ten times");
        }
    }

    /// The last entry there is room for has joined.
    fn full(&self, tally: &mut Tally) {
        let [by_node, of_frames, of_requests] = ROOM_PAIRS.map(|(row, _)| row);
        let kind = match (self.is_lin, self.frames, self.requests) {
            (false, ..) => 0,
            (true, _, 0) => 1,
            (true, 0, _) => 2,
            (true, ..) => 3,
        };
        tally.met(&format!("full: {}", KINDS[kind]));
        let room = self.room();
        if room == 1 {
            tally.met("full: room 1");
        }
        for (frames, requests, row) in LARGEST {
            if (frames, requests) == (self.frames, self.requests) {
                tally.met(row);
            }
        }
        if self.oldest() != 0 {
            self.met(tally, "full and wrapped");
        }
        if room <= ROOMS {
            tally.met_pair(by_node, room, kind);
            let places = [of_frames, of_requests][usize::from(self.requests > 0)];
            tally.met_pair(places, room, self.oldest());
        }
    }

    fn leave(&mut self, tally: &mut Tally) {
        let place = self.oldest();
        self.waiting -= 1;
        if self.room() > 1 && place + 1 == self.room() && self.waiting > 0 {
            self.met(tally, "takes across the ring's end");
        }
    }
}
