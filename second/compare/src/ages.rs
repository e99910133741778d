//! The age of each fix that a take hands back, and Ticket 8's sentence of it.
//!
//! Ticket 8: "For a CAN source with its indicator enabled and reload r above 0,
//! prescaler p: if a take hands back a kept payload whose failure bit is 0, and
//! that source was accepted at least once since opening, then fewer than r
//! times p unrefused ticks have passed since the last acceptance, and the
//! frame's bits from that source are those of that acceptance."

use second::bits;
use second::id::Id;
use second::plan::{Plan, RxFrame};

pub struct Ages<'p> {
    plan: &'p Plan,
    /// The unrefused ticks since opening.
    ticks: u64,
    /// The last acceptance of each row.
    acceptances: Vec<Option<Acceptance>>,
}

#[derive(Clone, Copy)]
struct Acceptance {
    /// The unrefused ticks from opening to it.
    ticks: u64,
    data: [u8; 8],
}

/// What a taken frame says of a row that has a destination in it.
pub struct Fix<'p> {
    pub number: usize,
    pub row: &'p RxFrame,
    /// The sentence is of CAN sources.
    pub is_on_lin: bool,
    /// The unrefused ticks since the last acceptance; none if there was none.
    pub ticks: Option<u64>,
    /// The failure bit, if it is enabled and stands in this frame.
    pub failure_bit: Option<bool>,
    /// A bit of the frame that is not that of the last acceptance.
    pub stale: Option<Stale>,
}

#[derive(Debug)]
pub struct Stale {
    pub source_bit: usize,
    pub destination_bit: usize,
}

impl<'p> Ages<'p> {
    /// After opening.
    pub fn new(plan: &'p Plan) -> Ages<'p> {
        Ages {
            plan,
            ticks: 0,
            acceptances: vec![None; plan.rx_frames.len()],
        }
    }

    pub fn accept(&mut self, node: u8, id: Id, data: [u8; 8]) {
        for (row, acceptance) in self.plan.rx_frames.iter().zip(&mut self.acceptances) {
            if (row.node, row.id) == (node, id) {
                let ticks = self.ticks;
                *acceptance = Some(Acceptance { ticks, data });
            }
        }
    }

    /// An unrefused tick.
    pub fn tick(&mut self) {
        self.ticks += 1;
    }

    /// What the take of this Tx frame with this payload says, row by row.
    pub fn take(&self, tx_number: usize, payload: [u8; 8]) -> Vec<Fix<'p>> {
        let mut fixes = Vec::new();
        for (number, row) in self.plan.rx_frames.iter().enumerate() {
            let destinations = row.signals.iter().flat_map(|s| &s.destinations);
            if destinations.into_iter().all(|to| to.tx_frame != tx_number) {
                continue;
            }
            let failure_bit = row.failure_bit().filter(|(tx, _)| *tx == tx_number);
            let acceptance = self.acceptances[number];
            fixes.push(Fix {
                number,
                row,
                is_on_lin: self.plan.is_on_lin(row),
                ticks: acceptance.map(|a| self.ticks - a.ticks),
                failure_bit: failure_bit.map(|(_, at)| bits::get(self.plan.order, &payload, at)),
                stale: acceptance.and_then(|a| stale(self.plan, row, &a.data, tx_number, &payload)),
            });
        }
        fixes
    }
}

/// The first bit from the row in this Tx frame that is not the one of the data:
/// "A copy puts source bit p + k at destination bit q + k for each k below s."
pub fn stale(
    plan: &Plan,
    row: &RxFrame,
    data: &[u8; 8],
    tx_number: usize,
    payload: &[u8; 8],
) -> Option<Stale> {
    for signal in &row.signals {
        let here = signal.destinations.iter();
        for to in here.filter(|to| to.tx_frame == tx_number) {
            for k in 0..signal.size {
                let (source_bit, destination_bit) = (signal.position + k, to.position + k);
                let source = bits::get(plan.order, data, source_bit);
                if bits::get(plan.order, payload, destination_bit) != source {
                    return Some(Stale {
                        source_bit,
                        destination_bit,
                    });
                }
            }
        }
    }
    None
}

impl Fix<'_> {
    /// "r times p".
    pub fn bound(&self) -> u64 {
        u64::from(self.row.reload) * u64::from(self.row.prescaler)
    }

    /// How the fix breaks the sentence, if it does.
    pub fn broken(&self) -> Option<String> {
        let ticks = self.ticks?;
        if self.is_on_lin || self.failure_bit != Some(false) || self.row.reload == 0 {
            return None;
        }
        if ticks >= self.bound() {
            return Some(format!(
                "failure bit 0 at {ticks} ticks since its last acceptance, reload {} prescaler {}",
                self.row.reload, self.row.prescaler
            ));
        }
        let stale = self.stale.as_ref()?;
        Some(format!(
            "failure bit 0, but bit {} is not bit {} of its last acceptance, {ticks} ticks ago",
            stale.destination_bit, stale.source_bit
        ))
    }
}
