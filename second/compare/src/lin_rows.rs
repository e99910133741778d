//! What the table counts of requests, responses and frames on LIN nodes, seen
//! from the queues and timers before and after each event.

use std::collections::{BTreeSet, VecDeque};
use std::mem;

use second::bench::Event;
use second::gateway::{Answer, Gateway, Waiting};
use second::id::Id;
use second::plan::{NodeType, Plan};
use second::refusal::Refusal;
use second::taken::Taken;

use crate::observe::failure_bits;
use crate::tally::{Tally, LIN_IDS, PRESCALERS};

/// What comes for a row and does not load its timer, nor take its request away.
const PASSING_BY: [&str; 6] = [
    "rx 0",
    "rx 2",
    "rx 3",
    "rx refused 13",
    "rx refused 16",
    "silent",
];

const TYPES: [&str; 2] = ["CAN", "LIN"];

pub fn rows() -> Vec<String> {
    let mut rows = [
        "requests that leave failure bit 0",
        "requests that leave failure bit 1",
        "requests again after their take",
        "expiries while the request waits",
        "requests after frames of one tick",
        "requests of one tick in number order",
        "requests behind an older frame",
        "frames behind an older request",
        "takes of a request before a frame",
        "takes of a frame before a request",
        "takes that leave more than 256 waiting",
        "rx 0 while no request waits",
        "silent while no request waits",
        "silent 1, indicator off",
        "silent 1, long count 0",
        "failure bit set by silent",
        "failure bit cleared by a response",
        "LIN frames sent by a timer",
        "LIN frames sent by a reception",
        "LIN frames sent by a response",
        "CAN frames sent by a response",
        LIN_IDS.0,
    ]
    .map(String::from)
    .to_vec();
    rows.extend(PRESCALERS.map(by_timer_row));
    rows.push(when_due_row("their take"));
    rows.extend(PASSING_BY.map(when_due_row));
    rows.extend(PASSING_BY.map(stayed_row));
    rows.extend((1..=8).map(|size| format!("takes of a request of {size} bytes")));
    rows.extend((1..=8).map(|size| format!("takes of a LIN frame of {size} bytes")));
    for (from, to) in [(0, 1), (1, 0), (1, 1)] {
        rows.push(copied_row(from, to));
    }
    rows
}

fn by_timer_row(prescaler: u8) -> String {
    format!("requests by a timer of prescaler {prescaler}")
}

/// For a request that came when due although this came while the timer was
/// under way.
fn when_due_row(what: &str) -> String {
    format!("requests when due despite {what}")
}

/// For a request that was taken although this came while it waited.
fn stayed_row(what: &str) -> String {
    format!("requests taken despite {what}")
}

fn copied_row(from: usize, to: usize) -> String {
    format!("copied from {} to {}", TYPES[from], TYPES[to])
}

pub struct LinRows<'p> {
    plan: &'p Plan,
    /// The number of the coming tick.
    tick_number: u64,
    before: Before,
    rows: Vec<Seen>,
}

/// What stood in the gateway before an event.
struct Before {
    queues: Vec<VecDeque<Waiting>>,
    timers: Vec<u8>,
    failure_bits: Vec<bool>,
}

/// What was seen of a row on a LIN node.
#[derive(Clone, Default)]
struct Seen {
    was_taken: bool,
    /// What came since the timer was loaded, and while it was under way.
    passed_by: BTreeSet<&'static str>,
    /// What came while the request waits.
    while_waiting: BTreeSet<&'static str>,
}

impl Before {
    fn new(gateway: &Gateway) -> Before {
        let plan = gateway.plan();
        let nodes = 0..plan.nodes.len();
        let rows = 0..plan.rx_frames.len();
        Before {
            queues: nodes.map(|node| gateway.queue(node).clone()).collect(),
            timers: rows.map(|row| gateway.rx_timer(row)).collect(),
            failure_bits: failure_bits(gateway),
        }
    }
}

impl<'p> LinRows<'p> {
    /// After opening; nothing if the plan has no LIN nodes.
    pub fn new(plan: &'p Plan, gateway: &Gateway) -> Option<LinRows<'p>> {
        plan.nodes.contains(&NodeType::Lin).then(|| LinRows {
            plan,
            tick_number: 0,
            before: Before::new(gateway),
            rows: vec![Seen::default(); plan.rx_frames.len()],
        })
    }

    /// The number of the row on a LIN node.
    fn lin_row(&self, node: u8, id: Id) -> Option<usize> {
        let mut rows = self.plan.rx_frames.iter();
        let number = rows.position(|row| (row.node, row.id) == (node, id))?;
        self.is_lin(node).then_some(number)
    }

    fn is_lin(&self, node: u8) -> bool {
        self.plan.node_type(node) == Some(NodeType::Lin)
    }

    /// After a reception or a response.
    pub fn received(
        &mut self,
        tally: &mut Tally,
        gateway: &Gateway,
        event: Event,
        answer: Result<Answer, Refusal>,
    ) {
        let (node, id) = match event {
            Event::Reception { node, id, .. } => (node, id),
            Event::Response { node, id, .. } => (node, Id::Bits11(id)),
            _ => return,
        };
        if answer == Ok(Answer::Accepted) {
            self.copied(tally, node, id);
            self.sent(tally, gateway, node);
        }
        if let Some(row) = self.lin_row(node, id) {
            if let Some(what) = passing_by(answer) {
                self.pass_by(tally, row, what);
            }
            if answer == Ok(Answer::Accepted) {
                tally.met_pair(LIN_IDS.0, id.number() as usize, 0);
                if self.before.failure_bits[row] {
                    tally.met("failure bit cleared by a response");
                }
            }
        }
        self.before = Before::new(gateway);
    }

    /// After "no response".
    pub fn silent(
        &mut self,
        tally: &mut Tally,
        gateway: &Gateway,
        (node, id): (u8, Id),
        answer: Result<u8, Refusal>,
    ) {
        if let (Some(number), Ok(_)) = (self.lin_row(node, id), answer) {
            self.pass_by(tally, number, "silent");
            let row = &self.plan.rx_frames[number];
            if !row.failure_enabled {
                tally.met("silent 1, indicator off");
            } else if !self.before.failure_bits[number] {
                tally.met("failure bit set by silent");
            }
            if row.long_count == 0 {
                tally.met("silent 1, long count 0");
            }
        }
        self.before = Before::new(gateway);
    }

    fn pass_by(&mut self, tally: &mut Tally, number: usize, what: &'static str) {
        let row = &self.plan.rx_frames[number];
        let queue = &self.before.queues[usize::from(row.node)];
        let seen = &mut self.rows[number];
        if queue.contains(&Waiting::Request(number)) {
            seen.while_waiting.insert(what);
        } else if what == "rx 0" || what == "silent" {
            tally.met(&format!("{what} while no request waits"));
        }
        let timer = self.before.timers[number];
        if timer != 0 && timer != row.reload {
            seen.passed_by.insert(what);
        }
    }

    /// The types of the nodes that an accepted payload went from and to.
    fn copied(&self, tally: &mut Tally, node: u8, id: Id) {
        let rows = self.plan.rx_frames.iter();
        for row in rows.filter(|row| (row.node, row.id) == (node, id)) {
            for to in row.signals.iter().flat_map(|s| &s.destinations) {
                let to_node = self.plan.tx_frames[to.tx_frame].node;
                let (from, to) = (self.is_lin(node).into(), self.is_lin(to_node).into());
                if from + to > 0 {
                    tally.met(&copied_row(from, to));
                }
            }
        }
    }

    /// The frames that a reception or a response scheduled.
    fn sent(&self, tally: &mut Tally, gateway: &Gateway, from: u8) {
        for node in 0..self.plan.nodes.len() {
            let older = &self.before.queues[node];
            let is_new = gateway.queue(node).len() > older.len();
            match (self.is_lin(from), self.is_lin(node as u8)) {
                (false, true) if is_new => tally.met("LIN frames sent by a reception"),
                (true, true) if is_new => tally.met("LIN frames sent by a response"),
                (true, false) if is_new => tally.met("CAN frames sent by a response"),
                _ => {}
            }
            if is_new && older.iter().any(is_request) {
                tally.met("frames behind an older request");
            }
        }
    }

    /// After a tick. Answers the rows whose request it queued.
    pub fn tick(&mut self, tally: &mut Tally, gateway: &Gateway) -> Vec<usize> {
        let mut requests = Vec::new();
        for node in 0..self.plan.nodes.len() {
            if self.is_lin(node as u8) {
                requests.extend(self.joined(tally, gateway, node));
            }
        }
        for number in &requests {
            self.requested(tally, *number);
        }
        for (number, row) in self.plan.rx_frames.iter().enumerate() {
            let is_handled = self.tick_number.is_multiple_of(u64::from(row.prescaler));
            if self.is_lin(row.node) && is_handled && self.before.timers[number] == 1 {
                self.rows[number].passed_by.clear();
                if !requests.contains(&number) {
                    tally.met("expiries while the request waits");
                }
            }
        }
        self.tick_number += 1;
        self.before = Before::new(gateway);
        requests
    }

    /// What a tick put into the queue of a LIN node; answers the rows of the
    /// requests.
    fn joined(&self, tally: &mut Tally, gateway: &Gateway, node: usize) -> Vec<usize> {
        let older = &self.before.queues[node];
        let new = gateway.queue(node).iter().skip(older.len());
        let requests: Vec<usize> = new.clone().filter_map(requested_row).collect();
        let has_frames = new.clone().any(|waiting| !is_request(waiting));
        if has_frames {
            tally.met("LIN frames sent by a timer");
        }
        if has_frames && !requests.is_empty() {
            tally.met("requests after frames of one tick");
        }
        if requests.len() > 1 {
            tally.met("requests of one tick in number order");
        }
        if has_frames && older.iter().any(is_request) {
            tally.met("frames behind an older request");
        }
        if !requests.is_empty() && older.iter().any(|waiting| !is_request(waiting)) {
            tally.met("requests behind an older frame");
        }
        requests
    }

    /// A request that a tick queued.
    fn requested(&mut self, tally: &mut Tally, number: usize) {
        let row = &self.plan.rx_frames[number];
        let seen = &mut self.rows[number];
        tally.met(&by_timer_row(row.prescaler));
        if row.failure_enabled {
            tally.met(match self.before.failure_bits[number] {
                false => "requests that leave failure bit 0",
                true => "requests that leave failure bit 1",
            });
        }
        if seen.was_taken {
            tally.met("requests again after their take");
        }
        for what in mem::take(&mut seen.passed_by) {
            tally.met(&when_due_row(what));
        }
        seen.while_waiting.clear();
    }

    /// After a take on the node.
    pub fn take(&mut self, tally: &mut Tally, gateway: &Gateway, node: u8, taken: &Taken) {
        if !self.is_lin(node) {
            self.before = Before::new(gateway);
            return;
        }
        let queue = gateway.queue(node.into());
        match taken {
            Taken::Frame(frame) => {
                tally.met(&format!("takes of a LIN frame of {} bytes", frame.size));
                if queue.iter().any(is_request) {
                    tally.met("takes of a frame before a request");
                }
                if frame.waiting > 256 {
                    tally.met("takes that leave more than 256 waiting");
                }
            }
            Taken::Request(request) => {
                tally.met(&format!("takes of a request of {} bytes", request.size));
                if !queue.iter().all(is_request) {
                    tally.met("takes of a request before a frame");
                }
                let seen = &mut self.rows[request.rx_frame];
                for what in mem::take(&mut seen.while_waiting) {
                    tally.met(&stayed_row(what));
                }
                seen.was_taken = true;
                let timer = self.before.timers[request.rx_frame];
                if timer != 0 && timer != self.plan.rx_frames[request.rx_frame].reload {
                    seen.passed_by.insert("their take");
                }
            }
        }
        self.before = Before::new(gateway);
    }
}

/// What a reception or a response is to the row on a LIN node that it names.
fn passing_by(answer: Result<Answer, Refusal>) -> Option<&'static str> {
    let [accepted, too_short, wrong_checksum, too_long, not_of_this_node, _] = PASSING_BY;
    match answer {
        Ok(Answer::Accepted) => Some(accepted),
        Ok(Answer::TooShort) => Some(too_short),
        Ok(Answer::WrongChecksum) => Some(wrong_checksum),
        Err(Refusal::PayloadTooLong) => Some(too_long),
        Err(Refusal::NotOfThisNode) => Some(not_of_this_node),
        _ => None,
    }
}

fn is_request(waiting: &Waiting) -> bool {
    matches!(waiting, Waiting::Request(_))
}

fn requested_row(waiting: &Waiting) -> Option<usize> {
    match waiting {
        Waiting::Request(rx_number) => Some(*rx_number),
        Waiting::Frame(_) => None,
    }
}
