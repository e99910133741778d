//! Good plans of many shapes.

use std::collections::BTreeSet;

use second::id::Id;

use crate::rng::Rng;
use crate::spec::{Destination, Plan, Rx, Signal, Tx};
use crate::widen::widen;

/// The node and the ID of each row.
pub type Keys = BTreeSet<(u8, Id)>;

/// How large a plan is to be.
#[derive(Clone, Copy, Debug)]
pub struct Measure {
    pub nodes: usize,
    /// How many of the nodes are LIN nodes.
    pub lin: usize,
    pub tx: usize,
    pub rx: usize,
    /// At most so many signals in a frame.
    pub signals: usize,
    /// At most so many destinations for a signal.
    pub destinations: usize,
}

/// Which bits of each Tx frame have an owner.
pub struct Owners {
    owned: Vec<[bool; 64]>,
}

impl Owners {
    pub fn new(tx_count: usize) -> Owners {
        Owners {
            owned: vec![[false; 64]; tx_count],
        }
    }

    fn is_free(&self, tx: usize, position: usize, size: usize) -> bool {
        (position..position + size).all(|bit| !self.owned[tx][bit])
    }

    fn own(&mut self, tx: usize, position: usize, size: usize) {
        for bit in position..position + size {
            self.owned[tx][bit] = true;
        }
    }

    /// A free place in the Tx frame: the first, the last or any, so that many
    /// destinations touch each other and many cross bytes.
    fn free_place(&self, rng: &mut Rng, tx: usize, tx_size: u8, size: usize) -> Option<usize> {
        let bits = 8 * usize::from(tx_size);
        let free: Vec<usize> = (0..=63)
            .filter(|p| p + size <= bits && self.is_free(tx, *p, size))
            .collect();
        match rng.below(4) {
            0 => free.first().copied(),
            1 => free.last().copied(),
            _ if free.is_empty() => None,
            _ => Some(rng.pick(&free)),
        }
    }

    /// A free place, which then has an owner.
    pub fn place(&mut self, rng: &mut Rng, tx: usize, tx_size: u8, size: usize) -> Option<usize> {
        let position = self.free_place(rng, tx, tx_size, size)?;
        self.own(tx, position, size);
        Some(position)
    }
}

/// A timer value: "reloads and timers from 0, 1, 2, 3, 255 or any".
pub fn timer_value(rng: &mut Rng) -> u8 {
    match rng.below(10) {
        0 | 1 => 0,
        2 | 3 => 1,
        4 | 5 => 2,
        6 | 7 => 3,
        8 => 255,
        _ => rng.byte(),
    }
}

pub fn prescaler(rng: &mut Rng) -> u8 {
    rng.pick(&[1, 1, 1, 2, 2, 10, 20])
}

/// A payload whose bytes past the size are zero.
pub fn payload_of_size(rng: &mut Rng, size: u8) -> [u8; 8] {
    let mut payload = match rng.below(4) {
        0 => [0; 8],
        1 => [0xFF; 8],
        _ => rng.payload(),
    };
    payload[usize::from(size)..].fill(0);
    payload
}

/// None in most plans, else any number of them.
pub fn some_lin(rng: &mut Rng, nodes: usize) -> usize {
    match nodes > 0 && rng.once_in(4) {
        true => rng.from_to(1, nodes),
        false => 0,
    }
}

impl Measure {
    fn is_lin(&self, node: u8) -> bool {
        usize::from(node) >= self.nodes - self.lin
    }
}

/// An ID of a LIN node: at the ends, or anywhere.
fn lin_id(rng: &mut Rng) -> Id {
    let any = rng.below(60) as u16;
    Id::Bits11(rng.pick(&[0, 59, any, any, any, any]))
}

/// Ticket 2: "sizes 1 to 8" on a LIN node.
fn frame_size(rng: &mut Rng, is_lin: bool) -> u8 {
    match rng.below(8) {
        0 if is_lin => 1,
        0 => 0,
        1 | 2 => 8,
        _ => rng.from_to(1, 8) as u8,
    }
}

fn tx_frame(rng: &mut Rng, measure: Measure) -> Tx {
    let node = rng.below(measure.nodes) as u8;
    let is_lin = measure.is_lin(node);
    let size = frame_size(rng, is_lin);
    Tx {
        node,
        id: match is_lin {
            true => lin_id(rng),
            false => Id::Bits11(rng.below(2048) as u16),
        },
        size,
        prescaler: prescaler(rng),
        reload: timer_value(rng),
        timer: timer_value(rng),
        flags: rng.below(4) as u8,
        payload: payload_of_size(rng, size),
    }
}

/// Rising (node, ID) keys: IDs near each other, at the ends, or anywhere.
pub fn keys(rng: &mut Rng, nodes: usize, lin: usize, count: usize) -> Keys {
    let mut keys = Keys::new();
    let base = rng.below(2048);
    let style = rng.below(4);
    while keys.len() < count {
        let node = rng.below(nodes) as u8;
        let id = match style {
            0 => rng.below(2048),
            1 => (base + rng.below(2 * count + 2)) % 2048,
            2 => {
                let any = rng.below(2048);
                rng.pick(&[0, 1, 2, 2045, 2046, 2047, any])
            }
            _ => (base + 256 * rng.below(8) + rng.below(count)) % 2048,
        };
        let id = match usize::from(node) >= nodes - lin {
            true => lin_id(rng),
            false => Id::Bits11(id as u16),
        };
        keys.insert((node, id));
    }
    keys
}

fn rx_frame(rng: &mut Rng, node: u8, id: Id, is_lin: bool) -> Rx {
    let any_count = rng.below(16) as u8;
    Rx {
        node,
        id,
        size: frame_size(rng, is_lin),
        prescaler: prescaler(rng),
        reload: timer_value(rng),
        timer: timer_value(rng),
        enable: 0,
        failure_position: rng.below(64) as u8,
        long_count: rng.pick(&[0, 1, 2, 3, 15, any_count]),
        signals: Vec::new(),
    }
}

/// A signal that fits into a frame of so many bits (at least one).
pub fn signal(rng: &mut Rng, bits: usize) -> Signal {
    let size = match rng.below(6) {
        0 => bits,
        1 => rng.from_to(1, bits),
        2 => bits.min(8),
        _ => rng.from_to(1, bits.min(7)),
    };
    Signal {
        position: rng.from_to(0, bits - size) as u8,
        size: size as u8,
        destinations: Vec::new(),
    }
}

/// A good plan of the given measure, many of them with both formats.
pub fn plan(rng: &mut Rng, measure: Measure) -> Plan {
    let mut plan = plan_of_11_bits(rng, measure);
    widen_some(rng, &mut plan);
    plan
}

/// Gives half of the plans 29-bit IDs beside their 11-bit ones. Others have none on
/// purpose, so that of all plans about a third have both.
pub fn widen_some(rng: &mut Rng, plan: &mut Plan) {
    if rng.once_in(2) {
        widen(rng, plan);
    }
}

/// Without nodes there are no frames.
fn plan_of_11_bits(rng: &mut Rng, mut measure: Measure) -> Plan {
    if measure.nodes == 0 {
        measure.tx = 0;
        measure.rx = 0;
    }
    let keys = keys(rng, measure.nodes, measure.lin, measure.rx);
    plan_with_rows(rng, measure, keys)
}

/// A good plan with rows of these keys, otherwise of the given measure.
/// Destinations that find no free place are left out.
pub fn plan_with_rows(rng: &mut Rng, measure: Measure, keys: Keys) -> Plan {
    let mut plan = Plan {
        order: rng.below(2) as u8,
        nodes: measure.nodes,
        lin: measure.lin,
        ..Plan::default()
    };
    plan.tx = (0..measure.tx).map(|_| tx_frame(rng, measure)).collect();
    let mut owners = Owners::new(measure.tx);
    for (node, id) in keys {
        let mut rx = rx_frame(rng, node, id, measure.is_lin(node));
        let signals = match rx.size {
            0 => 0,
            _ => rng.from_to(0, measure.signals),
        };
        for _ in 0..signals {
            let signal = signal(rng, 8 * usize::from(rx.size));
            rx.signals.push(signal);
            let wanted = rng.from_to(0, measure.destinations);
            for _ in 0..wanted {
                add_destination(rng, &plan.tx, &mut owners, &mut rx);
            }
        }
        plan.rx.push(rx);
    }
    plan
}

/// Gives the last signal of the frame one more destination, if there is a
/// place; with the first one of the frame's first signal, perhaps an enabled
/// indicator.
pub fn add_destination(rng: &mut Rng, txs: &[Tx], owners: &mut Owners, rx: &mut Rx) {
    let is_first_signal = rx.signals.len() == 1;
    let Some(signal) = rx.signals.last_mut() else {
        return;
    };
    let size = usize::from(signal.size);
    for _ in 0..4 {
        if txs.is_empty() {
            return;
        }
        let tx = rng.below(txs.len());
        let Some(position) = owners.place(rng, tx, txs[tx].size, size) else {
            continue;
        };
        signal.destinations.push(Destination {
            tx: tx as u16,
            position: position as u8,
        });
        if is_first_signal && signal.destinations.len() == 1 && !rng.once_in(3) {
            if let Some(bit) = owners.place(rng, tx, txs[tx].size, 1) {
                rx.enable = 1;
                rx.failure_position = bit as u8;
            }
        }
        return;
    }
}

/// A small good plan of some size in every table.
pub fn small_plan(rng: &mut Rng) -> Plan {
    let nodes = rng.from_to(1, 4);
    let measure = Measure {
        nodes,
        lin: some_lin(rng, nodes),
        tx: rng.from_to(1, 6),
        rx: rng.from_to(1, 6),
        signals: 3,
        destinations: 3,
    };
    plan(rng, measure)
}

/// A small good plan that surely has two nodes, two destinations, a row with an
/// enabled indicator, and of 11 bits two Tx frames and two rows. Half of them have
/// Tx frames and rows of 29 bits too.
pub fn rich_plan(rng: &mut Rng) -> Plan {
    match rng.once_in(2) {
        true => rich_plan_of_both(rng),
        false => loop {
            let nodes = rng.from_to(2, 4);
            let lin = some_lin(rng, nodes);
            let plan = rich_plan_of(rng, nodes, lin);
            if !watched_rows(&plan).is_empty() && destination_count(&plan) >= 2 {
                return plan;
            }
        },
    }
}

/// The same, surely of both formats, with an enabled indicator in a row of each,
/// and perhaps LIN nodes.
pub fn rich_plan_of_both(rng: &mut Rng) -> Plan {
    loop {
        let nodes = rng.from_to(2, 4);
        let lin = some_lin(rng, nodes);
        let mut plan = rich_plan_of(rng, nodes, lin);
        widen(rng, &mut plan);
        let watched = watched_rows(&plan).into_iter();
        let watched: Vec<bool> = watched.map(|row| plan.rx[row].id.is_29_bits()).collect();
        let frames = plan.tx.iter().filter(|tx| !tx.id.is_29_bits()).count();
        let rows = plan.rx.iter().filter(|rx| !rx.id.is_29_bits()).count();
        let is_rich = frames >= 2 && rows >= 2 && frames < plan.tx.len();
        let has_watched = watched.contains(&true) && watched.contains(&false);
        if is_rich && has_watched && destination_count(&plan) >= 2 {
            return plan;
        }
    }
}

/// The same, and both a CAN and a LIN node, each with a Tx frame and a row; on
/// the LIN node is one with an enabled indicator.
pub fn rich_lin_plan(rng: &mut Rng) -> Plan {
    loop {
        let nodes = rng.from_to(2, 4);
        let lin = rng.from_to(1, nodes - 1);
        let mut plan = rich_plan_of(rng, nodes, lin);
        let has_tx = |lin| plan.tx.iter().any(|tx| plan.is_lin(tx.node) == lin);
        let has_rx = |lin| plan.rx.iter().any(|rx| plan.is_lin(rx.node) == lin);
        let has_all = [true, false]
            .into_iter()
            .all(|lin| has_tx(lin) && has_rx(lin));
        let watched = watched_rows(&plan).into_iter();
        let has_watched = watched
            .map(|row| plan.rx[row].node)
            .any(|node| plan.is_lin(node));
        if has_all && has_watched && destination_count(&plan) >= 2 {
            widen_some(rng, &mut plan);
            return plan;
        }
    }
}

fn rich_plan_of(rng: &mut Rng, nodes: usize, lin: usize) -> Plan {
    let measure = Measure {
        nodes,
        lin,
        tx: rng.from_to(2, 6),
        rx: rng.from_to(2, 6),
        signals: 4,
        destinations: 3,
    };
    plan_of_11_bits(rng, measure)
}

/// The numbers of the rows with an enabled indicator.
pub fn watched_rows(plan: &Plan) -> Vec<usize> {
    (0..plan.rx.len())
        .filter(|row| plan.rx[*row].enable == 1)
        .collect()
}

pub fn destination_count(plan: &Plan) -> usize {
    let signals = plan.rx.iter().flat_map(|rx| &rx.signals);
    signals.map(|signal| signal.destinations.len()).sum()
}
