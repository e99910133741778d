//! Event streams for a plan, biased to hit its rows and its timers.

use second::bench::handed_on;
use second::id::Id;
use second::lin::enhanced_checksum;

use crate::ids;
use crate::rng::Rng;
use crate::spec::{id_bytes, Plan};

/// How often each kind of event comes, as weights.
#[derive(Clone, Copy, Debug)]
pub struct Mix {
    /// Receptions meant for a row.
    pub hits: usize,
    /// Receptions meant for no row.
    pub misses: usize,
    pub ticks: usize,
    /// At most so many ticks at once.
    pub burst: usize,
    pub takes: usize,
}

pub const EVEN: Mix = Mix {
    hits: 6,
    misses: 1,
    ticks: 4,
    burst: 4,
    takes: 4,
};

/// The stream so far.
pub struct Events<'p> {
    plan: &'p Plan,
    pub bytes: Vec<u8>,
    /// The data last sent to each row.
    last_data: Vec<[u8; 8]>,
}

impl<'p> Events<'p> {
    pub fn new(plan: &'p Plan) -> Events<'p> {
        Events {
            plan,
            bytes: Vec::new(),
            last_data: vec![[0; 8]; plan.rx.len()],
        }
    }

    /// Event 16 or 19, as the format of the ID wants it.
    pub fn reception(&mut self, node: u8, id: impl Into<Id>, length: u8, data: [u8; 8]) {
        let id = id.into();
        self.bytes.push(if id.is_29_bits() { 19 } else { 16 });
        self.bytes.push(node);
        self.bytes.extend(id_bytes(id));
        self.bytes.push(length);
        self.bytes.extend(data);
    }

    /// A LIN response. Of a 29-bit ID it has the low two bytes.
    pub fn response(
        &mut self,
        node: u8,
        id: impl Into<Id>,
        length: u8,
        data: [u8; 8],
        checksum: u8,
    ) {
        let [high, low] = two_bytes(id).to_be_bytes();
        self.bytes.extend([20, node, high, low, length]);
        self.bytes.extend(data);
        self.bytes.push(checksum);
    }

    pub fn no_response(&mut self, node: u8, id: impl Into<Id>) {
        let [high, low] = two_bytes(id).to_be_bytes();
        self.bytes.extend([21, node, high, low]);
    }

    /// A reception, or a response with its right checksum, as the node's type
    /// wants it.
    pub fn received(&mut self, node: u8, id: impl Into<Id>, length: u8, data: [u8; 8]) {
        let id = id.into();
        match self.plan.is_lin(node) {
            true => self.response(node, id, length, data, right_checksum(id, length, &data)),
            false => self.reception(node, id, length, data),
        }
    }

    pub fn ticks(&mut self, count: usize) {
        self.bytes.resize(self.bytes.len() + count, 17);
    }

    pub fn take(&mut self, node: u8) {
        self.bytes.extend([18, node]);
    }

    /// So many events by the mix.
    pub fn some(&mut self, rng: &mut Rng, count: usize, mix: Mix) {
        let all = mix.hits + mix.misses + mix.ticks + mix.takes;
        for _ in 0..count {
            let choice = rng.below(all);
            if choice < mix.hits {
                self.hit(rng);
            } else if choice < mix.hits + mix.misses {
                self.miss(rng);
            } else if choice < mix.hits + mix.misses + mix.ticks {
                let count = rng.from_to(1, mix.burst);
                self.ticks(count);
            } else {
                self.any_take(rng);
            }
        }
    }

    /// A reception for a row, its length around the row's size.
    pub fn hit(&mut self, rng: &mut Rng) {
        if self.plan.rx.is_empty() {
            return self.miss(rng);
        }
        let row = rng.below(self.plan.rx.len());
        if self.plan.is_lin(self.plan.rx[row].node) && rng.once_in(4) {
            return self.silence_or_wrong_checksum(rng, row);
        }
        let size = self.plan.rx[row].size;
        let length = match rng.below(12) {
            0 => 8,
            1 | 2 => size + 1,
            3 => size.saturating_sub(1),
            4 => rng.below(13) as u8,
            _ => size,
        };
        let data = self.data_for(rng, row);
        self.received(self.plan.rx[row].node, self.plan.rx[row].id, length, data);
    }

    /// A reception that the row accepts: of the row's size, or longer.
    pub fn accepted(&mut self, rng: &mut Rng, row: usize) {
        let rx = &self.plan.rx[row];
        let length = match rng.below(3) {
            0 => 8,
            1 => rng.from_to(usize::from(rx.size), 8) as u8,
            _ => rx.size,
        };
        let data = self.data_for(rng, row);
        self.received(rx.node, rx.id, length, data);
    }

    /// A reception of the row's size with the data sent to it before.
    pub fn repeat(&mut self, row: usize) {
        let rx = &self.plan.rx[row];
        self.received(rx.node, rx.id, rx.size, self.last_data[row]);
    }

    /// For a row on a LIN node: no response, or one with any checksum.
    fn silence_or_wrong_checksum(&mut self, rng: &mut Rng, row: usize) {
        let rx = &self.plan.rx[row];
        match rng.once_in(2) {
            true => self.no_response(rx.node, rx.id),
            false => self.response(rx.node, rx.id, rx.size, rng.payload(), rng.byte()),
        }
    }

    /// The same data as before, one bit of it changed, or new data.
    fn data_for(&mut self, rng: &mut Rng, row: usize) -> [u8; 8] {
        let mut data = self.last_data[row];
        match rng.below(4) {
            0 => {}
            1 => data[rng.below(8)] ^= 1 << rng.below(8),
            _ => data = rng.payload(),
        }
        self.last_data[row] = data;
        data
    }

    /// A reception that should find no row, or is refused.
    pub fn miss(&mut self, rng: &mut Rng) {
        let mut node = rng.below(self.plan.nodes + 1) as u8;
        let mut id = ids::some_id(rng);
        let mut length = rng.below(9) as u8;
        if !self.plan.rx.is_empty() {
            let rx = &self.plan.rx[rng.below(self.plan.rx.len())];
            node = rx.node;
            id = rx.id;
            length = rx.size;
        }
        match rng.below(12) {
            0..=2 => node = rng.below(self.plan.nodes + 1) as u8,
            3 => node = rng.pick(&[self.plan.nodes as u8, 16, 128, 255]),
            4 => id = ids::next_id(id, 1),
            5 => id = ids::next_id(id, -1),
            6 => id = ids::past_the_range(rng, id),
            7 => id = ids::strange_id(rng, id),
            8..=10 => (node, id) = self.stranger(rng),
            _ => length = rng.pick(&[9, 10, 11, 12, 128, 255]),
        }
        let data = rng.payload();
        // Each call on either type of node.
        match self.plan.lin > 0 && rng.once_in(2) {
            true if rng.once_in(2) => self.no_response(node, id),
            true => self.response(node, id, length, data, right_checksum(id, length, &data)),
            false => self.reception(node, id, length, data),
        }
    }

    /// A node and an ID that none of its rows has, each run of such IDs as
    /// often as the others.
    fn stranger(&self, rng: &mut Rng) -> (u8, Id) {
        let node = rng.below(self.plan.nodes) as u8;
        let mut runs = ids::unlisted(self.plan, node);
        // On plans of 11-bit IDs few are of 29 bits.
        if self.plan.has_29_bits() || rng.once_in(8) {
            runs.extend(ids::unlisted_29(self.plan, node));
        }
        let run = rng.pick(&runs);
        let ids = ids::some_of(rng, run);
        (node, rng.pick(&ids))
    }

    fn any_take(&mut self, rng: &mut Rng) {
        let node = match rng.below(20) {
            0 => rng.pick(&[self.plan.nodes as u8, 16, 255]),
            _ => rng.below(self.plan.nodes) as u8,
        };
        self.take(node);
    }

    /// Takes on every node until nothing waits there.
    pub fn drain(&mut self) {
        for node in 0..self.plan.nodes {
            self.drain_node(node as u8);
        }
    }

    /// One take for each frame and each request of the node, and one more.
    pub fn drain_node(&mut self, node: u8) {
        let frames = self.plan.tx.iter().filter(|tx| tx.node == node).count();
        let requests = match self.plan.is_lin(node) {
            true => self.plan.rx.iter().filter(|rx| rx.node == node).count(),
            false => 0,
        };
        for _ in 0..=frames + requests {
            self.take(node);
        }
    }

    /// Ticks that make most periodic frames due, then a drain, so that what
    /// the frames hold is seen.
    pub fn show_all(&mut self, rng: &mut Rng) {
        let count = rng.from_to(3, 6);
        self.ticks(count);
        self.drain();
    }
}

/// The checksum of the bytes that a response of this length hands on.
pub fn right_checksum(id: impl Into<Id>, length: u8, data: &[u8; 8]) -> u8 {
    enhanced_checksum(two_bytes(id), &handed_on(length, data))
}

/// The ID of a LIN call.
fn two_bytes(id: impl Into<Id>) -> u16 {
    id.into().number() as u16
}

/// An ordinary stream: some events of each kind, then everything is shown.
pub fn ordinary(rng: &mut Rng, plan: &Plan, count: usize) -> Vec<u8> {
    let mut events = Events::new(plan);
    events.some(rng, count, EVEN);
    events.show_all(rng);
    events.bytes
}
