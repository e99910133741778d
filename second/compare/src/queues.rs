//! What the takes of a program say of its queues, and Ticket 14's sentences of
//! them.
//!
//! Ticket 14: "a node's queue never holds more than the frames and requests
//! which can be scheduled on it"; "a frame with n ahead of it leaves at the
//! (n + 1)-th unrefused take on its node, whatever else but an opening is called
//! between."

use second::gateway::Waiting;
use second::id::Id;
use second::plan::{Plan, TxFrame};

use crate::broken::Broken;

pub struct Queues<'p> {
    plan: &'p Plan,
    /// The unrefused ticks since opening.
    ticks: u64,
    /// What a timer alone schedules, in the order in which a tick does.
    timed: Vec<(Waiting, Timer)>,
    nodes: Vec<Node>,
    /// By Tx number, and by Rx number.
    frames: Vec<Seen>,
    requests: Vec<Seen>,
}

/// A timer that nothing loads but its own expiry.
struct Timer {
    prescaler: u64,
    reload: u64,
    initial: u64,
}

struct Node {
    /// The frames and requests which can be scheduled on it.
    room: usize,
    /// Those of them whose scheduling is not always seen.
    unseen: usize,
    /// The unrefused takes.
    takes: usize,
    /// How many the last of them left waiting.
    left: usize,
    /// Those that surely wait, in the order in which they were seen to be
    /// scheduled.
    known: Vec<Known>,
}

#[derive(Clone, Copy)]
struct Known {
    waiting: Waiting,
    /// Whether it joined then, and not before.
    is_seen: bool,
    /// The unrefused takes on its node before.
    takes: usize,
}

/// What was seen of a frame or a request.
#[derive(Clone, Default)]
struct Seen {
    is_known: bool,
    /// The takes when it left, with its own, and how many it left waiting.
    left: Option<(usize, usize)>,
}

impl<'p> Queues<'p> {
    /// After opening.
    pub fn new(plan: &'p Plan) -> Queues<'p> {
        let node = |node: usize| {
            let frames = plan.tx_frames.iter();
            let frames = frames.filter(|tx| usize::from(tx.node) == node);
            let rows = plan.rx_frames.iter().filter(|row| plan.is_on_lin(row));
            let requests = rows.filter(|row| usize::from(row.node) == node);
            Node {
                room: frames.clone().count() + requests.count(),
                unseen: frames.filter(|tx| !is_seen(tx)).count(),
                takes: 0,
                left: 0,
                known: Vec::new(),
            }
        };
        Queues {
            plan,
            ticks: 0,
            timed: timed(plan),
            nodes: (0..plan.nodes.len()).map(node).collect(),
            frames: vec![Seen::default(); plan.tx_frames.len()],
            requests: vec![Seen::default(); plan.rx_frames.len()],
        }
    }

    /// A reception or a response was accepted: "At each destination the Tx frame
    /// is scheduled if flag 1 is set".
    pub fn accept(&mut self, node: u8, id: Id) {
        let mut rows = self.plan.rx_frames.iter();
        let Some(row) = rows.find(|row| (row.node, row.id) == (node, id)) else {
            return;
        };
        for to in row.signals.iter().flat_map(|s| &s.destinations) {
            if self.plan.tx_frames[to.tx_frame].send_on_reception {
                self.scheduled(Waiting::Frame(to.tx_frame));
            }
        }
    }

    /// An unrefused tick.
    pub fn tick(&mut self) {
        for place in 0..self.timed.len() {
            let (waiting, timer) = &self.timed[place];
            if timer.expires(self.ticks) {
                self.scheduled(*waiting);
            }
        }
        self.ticks += 1;
    }

    fn scheduled(&mut self, waiting: Waiting) {
        let seen = match waiting {
            Waiting::Frame(tx_number) => &mut self.frames[tx_number],
            Waiting::Request(rx_number) => &mut self.requests[rx_number],
        };
        if seen.is_known {
            return;
        }
        seen.is_known = true;
        let is_seen = self.is_seen(waiting);
        if let Some(node) = self.node_of(waiting) {
            let of_node = &mut self.nodes[node];
            of_node.known.push(Known {
                waiting,
                is_seen,
                takes: of_node.takes,
            });
        }
    }

    /// The node that the frame or the request can be scheduled on.
    fn node_of(&self, waiting: Waiting) -> Option<usize> {
        let node = match waiting {
            Waiting::Frame(tx_number) => self.plan.tx_frames.get(tx_number)?.node,
            Waiting::Request(rx_number) => {
                let row = self.plan.rx_frames.get(rx_number)?;
                self.plan.is_on_lin(row).then_some(row.node)?
            }
        };
        Some(usize::from(node))
    }

    /// An unrefused take on the node: none, or what it handed back and how many
    /// still wait. Answers how it breaks the sentences, if it does.
    pub fn take(&mut self, node: u8, taken: Option<(Waiting, usize)>) -> Option<Broken> {
        let number = usize::from(node);
        let of_node = self.nodes.get_mut(number)?;
        of_node.takes += 1;
        let Some((entry, waiting)) = taken else {
            return of_node.none();
        };
        if self.node_of(entry) != Some(number) {
            return Some(Broken::NotOfTheNode(entry));
        }
        let is_seen = self.is_seen(entry);
        let of_node = &mut self.nodes[number];
        let seen = match entry {
            Waiting::Frame(tx_number) => &mut self.frames[tx_number],
            Waiting::Request(rx_number) => &mut self.requests[rx_number],
        };
        seen.is_known = false;
        let left = seen.left.replace((of_node.takes, waiting));
        let broken = [
            of_node.too_soon(left),
            of_node.out_of_turn(entry, is_seen),
            of_node.too_many(waiting, is_seen),
            of_node.too_few(waiting),
        ];
        of_node.left = waiting;
        broken.into_iter().flatten().next()
    }

    fn is_seen(&self, waiting: Waiting) -> bool {
        match waiting {
            Waiting::Frame(tx_number) => is_seen(&self.plan.tx_frames[tx_number]),
            Waiting::Request(_) => true,
        }
    }
}

/// Whether all that can schedule the frame is seen, so that it joins when it is
/// seen to be scheduled and not before: its timer alone, or receptions alone.
fn is_seen(tx: &TxFrame) -> bool {
    let is_stopped = tx.initial_timer == 0 && tx.reload == 0;
    is_timed(tx) || tx.send_on_reception && is_stopped
}

/// The Tx frames that no reception schedules, and the requests.
fn timed(plan: &Plan) -> Vec<(Waiting, Timer)> {
    let mut timed = Vec::new();
    for (number, tx) in plan.tx_frames.iter().enumerate() {
        if is_timed(tx) {
            let timer = Timer::new(tx.prescaler, tx.reload, tx.initial_timer);
            timed.push((Waiting::Frame(number), timer));
        }
    }
    for (number, row) in plan.rx_frames.iter().enumerate() {
        if plan.is_on_lin(row) {
            let timer = Timer::new(row.prescaler, row.reload, row.initial_timer);
            timed.push((Waiting::Request(number), timer));
        }
    }
    timed.retain(|(_, timer)| timer.initial > 0);
    timed
}

fn is_timed(tx: &TxFrame) -> bool {
    !tx.send_on_reception && !tx.send_on_change
}

impl Timer {
    fn new(prescaler: u8, reload: u8, initial: u8) -> Timer {
        let [prescaler, reload, initial] = [prescaler, reload, initial].map(u64::from);
        Timer {
            prescaler,
            reload,
            initial,
        }
    }

    /// "a timer loaded with v above 0 expires at its v-th handling", and then
    /// takes its reload value.
    fn expires(&self, tick_number: u64) -> bool {
        if !tick_number.is_multiple_of(self.prescaler) {
            return false;
        }
        let handlings = tick_number / self.prescaler + 1;
        match handlings.checked_sub(self.initial) {
            None => false,
            Some(0) => true,
            Some(more) => self.reload > 0 && more.is_multiple_of(self.reload),
        }
    }
}

impl Node {
    /// A take answered none.
    fn none(&mut self) -> Option<Broken> {
        let left = std::mem::take(&mut self.left);
        if left > 0 {
            return Some(Broken::NoneLeft { left });
        }
        let known = self.known.first()?.waiting;
        Some(Broken::NoneKnown { known })
    }

    /// It joined again behind those that it left waiting.
    fn too_soon(&self, left: Option<(usize, usize)>) -> Option<Broken> {
        let (takes, left) = left?;
        let takes = self.takes - takes;
        (takes <= left).then_some(Broken::TooSoon { takes, left })
    }

    /// Those that are known to wait joined in their order, if not before.
    fn out_of_turn(&mut self, entry: Waiting, is_seen: bool) -> Option<Broken> {
        let mut known = self.known.iter();
        let Some(place) = known.position(|known| known.waiting == entry) else {
            return is_seen.then_some(Broken::NotScheduled);
        };
        let before = self.known[0].waiting;
        self.known.remove(place);
        (is_seen && place > 0).then_some(Broken::OutOfTurn { before })
    }

    /// With the one that was taken, one more waited. Besides those that are
    /// known to wait, others can whose scheduling is not always seen.
    fn too_many(&self, waiting: usize, is_seen: bool) -> Option<Broken> {
        let room = self.room;
        if waiting >= room {
            return Some(Broken::NoRoom { waiting, room });
        }
        let known = self.known.iter().filter(|known| known.is_seen).count();
        let most = known + self.unseen - usize::from(!is_seen);
        (waiting > most).then_some(Broken::MoreThanCan { waiting, most })
    }

    /// None leaves but at its take, which comes after at most all others.
    fn too_few(&self, waiting: usize) -> Option<Broken> {
        let (left, known, room) = (self.left, self.known.len(), self.room);
        if waiting + 1 < left {
            return Some(Broken::FewerLeft { waiting, left });
        }
        if waiting < known {
            return Some(Broken::FewerKnown { waiting, known });
        }
        let Known { waiting, takes, .. } = *self.known.first()?;
        let is_late = self.takes - takes >= room;
        is_late.then_some(Broken::TooLate {
            known: waiting,
            room,
        })
    }
}
