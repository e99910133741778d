//! The gateway: open, receive, tick, take and fullness. The calls for LIN nodes
//! are in `responses`.

use std::collections::VecDeque;

use crate::bits;
use crate::id::Id;
use crate::lin;
use crate::parse;
use crate::plan::{NodeType, Plan};
use crate::refusal::{require, PlanRefusal, Refusal};
use crate::taken::{OnLin, Taken, TakenFrame, TakenRequest};

pub struct Gateway {
    plan: Plan,
    tx_states: Vec<TxState>,
    rx_states: Vec<RxState>,
    /// "one first-in, first-out queue per node", the oldest in front.
    queues: Vec<VecDeque<Waiting>>,
    /// How many ticks there have been, so the number of the coming one.
    tick_number: u64,
}

struct TxState {
    /// The kept payload.
    payload: [u8; 8],
    timer: Timer,
}

struct RxState {
    timer: Timer,
    long_counter: u8,
}

/// What waits in a queue: a Tx frame, or the request for an Rx frame.
#[derive(Clone, Copy, Debug, PartialEq, Eq)]
pub enum Waiting {
    Frame(usize),
    Request(usize),
}

/// "Each timer is one small record of reload and count".
struct Timer {
    reload: u8,
    count: u8,
}

impl Timer {
    fn reload(&mut self) {
        self.count = self.reload;
    }

    /// One handling; answers whether the timer expired.
    ///
    /// "A timer holding 0 is left so. Otherwise it falls by one; at 0 it has
    /// expired and takes its reload value."
    fn handle(&mut self) -> bool {
        if self.count == 0 {
            return false;
        }
        self.count -= 1;
        let expired = self.count == 0;
        if expired {
            self.reload();
        }
        expired
    }
}

/// What a reception answers.
#[derive(Clone, Copy, Debug, PartialEq, Eq)]
pub enum Answer {
    Accepted,
    /// Ticket 4: "Answer 1 carries this number", the place.
    NoMatchingRow {
        place: usize,
    },
    TooShort,
    /// Of a response.
    WrongChecksum,
}

impl Answer {
    pub fn number(self) -> u8 {
        match self {
            Answer::Accepted => 0,
            Answer::NoMatchingRow { .. } => 1,
            Answer::TooShort => 2,
            Answer::WrongChecksum => 3,
        }
    }
}

impl Gateway {
    /// Opening: "payloads and timers initial, long counters at the long count,
    /// queues empty, tick counter 0".
    pub fn open(plan: &[u8]) -> Result<Gateway, PlanRefusal> {
        let plan = parse::parse(plan)?;
        let mut tx_states = Vec::new();
        for tx_frame in &plan.tx_frames {
            tx_states.push(TxState {
                payload: tx_frame.initial_payload,
                timer: Timer {
                    reload: tx_frame.reload,
                    count: tx_frame.initial_timer,
                },
            });
        }
        let mut rx_states = Vec::new();
        for rx_frame in &plan.rx_frames {
            rx_states.push(RxState {
                timer: Timer {
                    reload: rx_frame.reload,
                    count: rx_frame.initial_timer,
                },
                long_counter: rx_frame.long_count,
            });
        }
        Ok(Gateway {
            queues: vec![VecDeque::new(); plan.nodes.len()],
            plan,
            tx_states,
            rx_states,
            tick_number: 0,
        })
    }

    pub fn plan(&self) -> &Plan {
        &self.plan
    }

    /// Whether the Tx frame waits in its node's queue.
    pub fn is_waiting(&self, tx_number: usize) -> bool {
        let node = self.plan.tx_frames[tx_number].node;
        self.queues[usize::from(node)].contains(&Waiting::Frame(tx_number))
    }

    /// Whether a request for the Rx frame waits in its node's queue.
    pub fn is_requested(&self, rx_number: usize) -> bool {
        let node = self.plan.rx_frames[rx_number].node;
        self.queues[usize::from(node)].contains(&Waiting::Request(rx_number))
    }

    /// What waits on a node, the oldest in front.
    pub fn queue(&self, node: usize) -> &VecDeque<Waiting> {
        &self.queues[node]
    }

    /// What a Tx timer holds.
    pub fn tx_timer(&self, tx_number: usize) -> u8 {
        self.tx_states[tx_number].timer.count
    }

    /// What an Rx timer holds.
    pub fn rx_timer(&self, rx_number: usize) -> u8 {
        self.rx_states[rx_number].timer.count
    }

    /// A bit of the kept payload of a Tx frame.
    pub fn kept_bit(&self, tx_number: usize, position: usize) -> bool {
        let payload = &self.tx_states[tx_number].payload;
        bits::get(self.plan.order, payload, position)
    }

    /// "Reception takes node, ID and payload." Ticket 6: "A reception and a take
    /// say which format".
    pub fn receive(
        &mut self,
        node: u8,
        id: impl Into<Id>,
        payload: &[u8],
    ) -> Result<Answer, Refusal> {
        let id = id.into();
        self.require_node(node)?;
        // Ticket 2: "the old reception gives 16 on a LIN node, after 12." So does
        // that of a 29-bit ID.
        require(self.is_of_type(node, NodeType::Can), Refusal::NotOfThisNode)?;
        require(payload.len() <= 8, Refusal::PayloadTooLong)?;

        // "A frame with no matching row is not processed further: answer 1,
        // nothing changes; an ID above 2047 is such a frame." So is a 29-bit ID
        // above 536,870,911.
        let Some(rx_number) = self.find_row(node, id) else {
            let place = self.place(node, id);
            return Ok(Answer::NoMatchingRow { place });
        };
        if self.is_too_short(rx_number, payload) {
            return Ok(Answer::TooShort);
        }
        // "the Rx timer takes its reload value"
        self.rx_states[rx_number].timer.reload();
        self.accept(rx_number, payload);
        Ok(Answer::Accepted)
    }

    /// "A payload shorter than the row's size: answer 2, nothing changes."
    pub(crate) fn is_too_short(&self, rx_number: usize, payload: &[u8]) -> bool {
        payload.len() < self.plan.rx_frames[rx_number].size
    }

    /// "Then in order: the Rx timer takes its reload value; an enabled failure
    /// bit becomes 0; signals are copied in plan order, each to its
    /// destinations in order." All but the timer, which is a CAN row's.
    pub(crate) fn accept(&mut self, rx_number: usize, payload: &[u8]) {
        let row = self.plan.rx_frames[rx_number].clone();
        // Ticket 1: "The long counter must start again at every accepted
        // reception, so that a long timeout means that many expiries in a row."
        self.rx_states[rx_number].long_counter = row.long_count;
        self.put_failure_bit(rx_number, false);
        for signal in &row.signals {
            for destination in &signal.destinations {
                let differed = bits::copy(
                    self.plan.order,
                    payload,
                    signal.position,
                    signal.size,
                    &mut self.tx_states[destination.tx_frame].payload,
                    destination.position,
                );
                // "At each destination the Tx frame is scheduled if flag 1 is
                // set, or flag 2 is set and any destination bit differed from
                // the kept one."
                let tx_frame = &self.plan.tx_frames[destination.tx_frame];
                if tx_frame.send_on_reception || (tx_frame.send_on_change && differed) {
                    self.schedule(destination.tx_frame);
                }
            }
        }
    }

    /// "Lookup searches that node's rows only". At most one row matches, since
    /// rows rise, so the way of searching cannot be seen from outside. Ticket 6:
    /// "ID 32 in one format is not ID 32 in the other."
    pub(crate) fn find_row(&self, node: u8, id: Id) -> Option<usize> {
        let rows = &self.plan.rx_frames;
        rows.iter().position(|row| row.node == node && row.id == id)
    }

    /// Ticket 4: "how many of that node's rows have a smaller ID". Ticket 6:
    /// "Within a node 11-bit rows come before 29-bit ones, each in ascending
    /// order, and the place of Ticket 4 counts in that order."
    fn place(&self, node: u8, id: Id) -> usize {
        let rows = self.plan.rx_frames.iter();
        rows.filter(|row| row.node == node && row.id < id).count()
    }

    /// "A change of a failure bit schedules nothing."
    fn put_failure_bit(&mut self, rx_number: usize, value: bool) {
        if let Some((tx_number, position)) = self.plan.rx_frames[rx_number].failure_bit() {
            let payload = &mut self.tx_states[tx_number].payload;
            bits::put(self.plan.order, payload, position, value);
        }
    }

    /// "Scheduling a frame already waiting changes nothing. Otherwise the
    /// frame joins its node's queue at the end and its Tx timer takes its
    /// reload value."
    fn schedule(&mut self, tx_number: usize) {
        if self.is_waiting(tx_number) {
            return;
        }
        let node = self.plan.tx_frames[tx_number].node;
        self.queues[usize::from(node)].push_back(Waiting::Frame(tx_number));
        self.tx_states[tx_number].timer.reload();
    }

    /// Ticket 2: "expiry queues a request, once while it waits; bit and long
    /// counter stay."
    fn request(&mut self, rx_number: usize) {
        if self.is_requested(rx_number) {
            return;
        }
        let node = self.plan.rx_frames[rx_number].node;
        self.queues[usize::from(node)].push_back(Waiting::Request(rx_number));
    }

    /// "The report gets one byte per Rx frame in order: 0 nothing, 1 short,
    /// 2 long; its further bytes stay."
    pub fn tick(&mut self, report: &mut [u8]) -> Result<(), Refusal> {
        let rx_count = self.plan.rx_frames.len();
        require(report.len() >= rx_count, Refusal::ReportTooShort)?;

        // "Tx timers go first, in number order: expiry reloads and schedules."
        for tx_number in 0..self.plan.tx_frames.len() {
            let handled = self.is_handled(self.plan.tx_frames[tx_number].prescaler);
            if handled && self.tx_states[tx_number].timer.handle() {
                self.schedule(tx_number);
            }
        }
        // "Rx timers follow, in number order".
        for (rx_number, report_byte) in report.iter_mut().take(rx_count).enumerate() {
            let handled = self.is_handled(self.plan.rx_frames[rx_number].prescaler);
            *report_byte = 0;
            if handled && self.rx_states[rx_number].timer.handle() {
                *report_byte = self.expiry(rx_number);
            }
        }
        // "The counter moves on last."
        self.tick_number += 1;
        Ok(())
    }

    /// The expiry of an Rx timer. Answers the report byte. Ticket 2: "a request
    /// is none, its report byte 0."
    fn expiry(&mut self, rx_number: usize) -> u8 {
        if self.plan.is_on_lin(&self.plan.rx_frames[rx_number]) {
            self.request(rx_number);
            return 0;
        }
        self.time_out(rx_number)
    }

    /// "expiry sets the enabled failure bit and lowers the long counter if it
    /// is above 0; falling to 0 is a long timeout and the counter takes the
    /// long count again." Answers the report byte.
    pub(crate) fn time_out(&mut self, rx_number: usize) -> u8 {
        self.put_failure_bit(rx_number, true);
        let long_counter = &mut self.rx_states[rx_number].long_counter;
        if *long_counter > 0 {
            *long_counter -= 1;
            if *long_counter == 0 {
                *long_counter = self.plan.rx_frames[rx_number].long_count;
                return 2;
            }
        }
        1
    }

    /// A timer is handled "at ticks numbered from 0 that the prescaler
    /// divides".
    fn is_handled(&self, prescaler: u8) -> bool {
        self.tick_number.is_multiple_of(u64::from(prescaler))
    }

    /// "The two-digit tick counter is a byte: low nibble 0–9, carrying into
    /// the high; after F9 it is 00." It is not needed for the answers here; it
    /// is given so that the sentence can be tested against `is_handled`.
    pub fn tick_counter(&self) -> u8 {
        let in_round = (self.tick_number % 160) as u8;
        (in_round / 10) * 16 + in_round % 10
    }

    /// "Take on a node: "none", or the oldest waiting frame, which then waits
    /// no more", or the oldest waiting request. The payload is the kept one at
    /// this moment.
    pub fn take(&mut self, node: u8) -> Result<Option<Taken>, Refusal> {
        self.require_node(node)?;
        let queue = &mut self.queues[usize::from(node)];
        let Some(oldest) = queue.pop_front() else {
            return Ok(None);
        };
        let waiting = queue.len();
        Ok(Some(match oldest {
            Waiting::Frame(tx_number) => Taken::Frame(self.taken_frame(tx_number, waiting)),
            Waiting::Request(rx_number) => Taken::Request(self.taken_request(rx_number, waiting)),
        }))
    }

    fn taken_frame(&self, tx_number: usize, waiting: usize) -> TakenFrame {
        let tx_frame = &self.plan.tx_frames[tx_number];
        let payload = self.tx_states[tx_number].payload[..tx_frame.size].to_vec();
        let on_lin = self
            .is_of_type(tx_frame.node, NodeType::Lin)
            .then(|| OnLin {
                protected_identifier: lin::protected_identifier(lin::plain(tx_frame.id)),
                checksum: lin::enhanced_checksum(lin::plain(tx_frame.id), &payload),
            });
        TakenFrame {
            tx_frame: tx_number,
            id: tx_frame.id,
            size: tx_frame.size,
            waiting,
            payload,
            on_lin,
        }
    }

    fn taken_request(&self, rx_number: usize, waiting: usize) -> TakenRequest {
        let rx_frame = &self.plan.rx_frames[rx_number];
        TakenRequest {
            rx_frame: rx_number,
            id: lin::plain(rx_frame.id),
            size: rx_frame.size,
            waiting,
            protected_identifier: lin::protected_identifier(lin::plain(rx_frame.id)),
        }
    }

    /// "Fullness of a Tx frame answers how many of its bits have an owner,
    /// 0 to 64."
    pub fn fullness(&self, tx_number: usize) -> Result<usize, Refusal> {
        let Some(tx_frame) = self.plan.tx_frames.get(tx_number) else {
            return Err(Refusal::NoSuchTxFrame);
        };
        Ok(tx_frame.owned.iter().filter(|owned| **owned).count())
    }

    /// "no such node"
    pub(crate) fn require_node(&self, node: u8) -> Result<(), Refusal> {
        let exists = self.plan.node_type(node).is_some();
        require(exists, Refusal::NoSuchNode)
    }

    pub(crate) fn is_of_type(&self, node: u8, node_type: NodeType) -> bool {
        self.plan.node_type(node) == Some(node_type)
    }
}
