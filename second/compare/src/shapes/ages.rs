//! Takes around the expiry of a source: the last that can find its failure bit
//! 0, and the first that finds it 1.

use super::restarts::{add_other, Other, OTHERS};
use super::Shape;
use crate::events::Events;
use crate::good::{self, Owners};
use crate::rng::Rng;
use crate::spec::{Destination, Plan, Rx, Signal, Tx};
use crate::tally::{PRESCALERS, RELOADS};

pub fn shapes() -> Vec<Shape> {
    let mut shapes = Vec::new();
    for prescaler in PRESCALERS {
        let name = format!("ages: reloads of prescaler {prescaler}");
        shapes.push(Shape::new(&name, move |rng| reloads(rng, prescaler)));
    }
    for (order, name) in [(0, "big"), (1, "little")] {
        let name = format!("ages: every phase, {name} order");
        shapes.push(Shape::new(&name, move |rng| phases(rng, order)));
    }
    shapes
}

/// A row, and the number of the tick that it is accepted before.
#[derive(Clone, Copy)]
struct Source {
    prescaler: u8,
    reload: u8,
    enable: u8,
    accepted_before: Option<usize>,
}

impl Source {
    fn watched(prescaler: u8, reload: u8, accepted_before: usize) -> Source {
        Source {
            prescaler,
            reload,
            enable: 1,
            accepted_before: Some(accepted_before),
        }
    }

    /// The numbers of the ticks that handle its timer first and last, if that
    /// sets a failure bit: "a timer loaded with v above 0 expires at its v-th
    /// handling".
    fn first_and_last_handling(&self) -> Option<(usize, usize)> {
        if self.enable == 0 || self.reload == 0 {
            return None;
        }
        let prescaler = usize::from(self.prescaler);
        let first = self.accepted_before?.next_multiple_of(prescaler);
        Some((first, first + prescaler * (usize::from(self.reload) - 1)))
    }

    /// Whether it may be accepted at any time.
    fn is_another(&self) -> bool {
        self.enable == 0 && self.accepted_before.is_none()
    }
}

/// Acceptances just after a handled tick, where the fix can become oldest.
fn reloads(rng: &mut Rng, prescaler: u8) -> Vec<u8> {
    let order = rng.below(2) as u8;
    let sources = RELOADS.map(|reload| {
        let accepted_before = 1 + usize::from(prescaler) * rng.from_to(1, 9);
        Source::watched(prescaler, reload, accepted_before)
    });
    around_expiries(rng, order, sources.to_vec())
}

/// An acceptance before each of the ticks from a handled one to the next.
fn phases(rng: &mut Rng, order: u8) -> Vec<u8> {
    let mut sources = Vec::new();
    for prescaler in PRESCALERS {
        for phase in 0..prescaler {
            let reload = rng.from_to(1, 4) as u8;
            // Each prescaler divides 20; the tick counter goes on to 160.
            let accepted_before = usize::from(phase) + 20 * rng.from_to(1, 9);
            sources.push(Source::watched(prescaler, reload, accepted_before));
        }
    }
    around_expiries(rng, order, sources)
}

/// Sources of which Ticket 8 says nothing: the indicator off, a reload of 0, and
/// never accepted. The last is another row.
fn others(rng: &mut Rng) -> [Source; 4] {
    let mut source = |accepted_before| Source {
        prescaler: rng.pick(&PRESCALERS),
        reload: rng.from_to(1, 3) as u8,
        enable: 0,
        accepted_before,
    };
    let indicator_off = source(Some(0));
    let stopped = Source {
        reload: 0,
        enable: 1,
        ..source(Some(0))
    };
    let never_accepted = Source {
        enable: 1,
        ..source(None)
    };
    [indicator_off, stopped, never_accepted, source(None)]
}

fn around_expiries(rng: &mut Rng, order: u8, mut sources: Vec<Source>) -> Vec<u8> {
    sources.extend(others(rng));
    rng.shuffle(&mut sources);
    let plan = loop {
        if let Some(plan) = plan(rng, order, &sources) {
            break plan;
        }
    };
    let events = stream(rng, &plan, &sources);
    plan.input(&events)
}

/// A row for each source, four of them in a Tx frame. Each Tx frame is due at
/// every tick on a node of its own, so that it can be taken whenever wanted.
/// None if a destination finds no free place.
fn plan(rng: &mut Rng, order: u8, sources: &[Source]) -> Option<Plan> {
    let frames = sources.len().div_ceil(4);
    let tx = (0..frames).map(|node| Tx {
        reload: 1,
        timer: 1,
        flags: rng.below(4) as u8,
        ..Tx::quiet(node as u8, rng.below(2048) as u16, 8)
    });
    let mut plan = Plan {
        order,
        nodes: frames,
        tx: tx.collect(),
        ..Plan::default()
    };
    let mut owners = Owners::new(frames);
    let keys = good::keys(rng, frames, 0, sources.len());
    for (number, ((node, id), source)) in keys.into_iter().zip(sources).enumerate() {
        let own_frame = number % frames;
        let next_frame = (number + 1) % frames;
        let size = rng.from_to(1, 8);
        let signal_size = rng.from_to(1, 6);
        // An indicator that is off owns nothing.
        let mut place = |frame: usize, size| {
            let position = owners.place(rng, frame, 8, size)?;
            Some(Destination {
                tx: frame as u16,
                position: position as u8,
            })
        };
        let failure_bit = place(own_frame, source.enable.into())?;
        let destinations = vec![
            place(own_frame, signal_size)?,
            place(next_frame, signal_size)?,
        ];
        let signal = Signal {
            position: rng.from_to(0, 8 * size - signal_size) as u8,
            size: signal_size as u8,
            destinations,
        };
        plan.rx.push(Rx {
            prescaler: source.prescaler,
            reload: source.reload,
            timer: source.accepted_before.map_or(0, |_| good::timer_value(rng)),
            enable: source.enable,
            failure_position: failure_bit.position,
            long_count: rng.below(16) as u8,
            signals: vec![signal],
            ..Rx::quiet(node, id, size as u8)
        });
    }
    good::widen_some(rng, &mut plan);
    Some(plan)
}

enum Step {
    Accepted(usize),
    /// What is no acceptance of the row.
    Other(usize, Other),
    Take(u8),
}

/// The steps with the number of the tick that they come before: for each source
/// two acceptances; for a watched one takes just before its expiry, just after
/// it and once more, and something that is no acceptance both while its timer is
/// under way and between the last two takes.
fn timetable(rng: &mut Rng, plan: &Plan, sources: &[Source]) -> Vec<(usize, Step)> {
    let mut steps = Vec::new();
    for (row, source) in sources.iter().enumerate() {
        if let Some(tick) = source.accepted_before {
            steps.push((rng.from_to(0, tick), Step::Accepted(row)));
            steps.push((tick, Step::Accepted(row)));
        }
    }
    let mut others = OTHERS.into_iter().cycle();
    for (row, source) in sources.iter().enumerate() {
        let Some((first, last)) = source.first_and_last_handling() else {
            continue;
        };
        let mut ticks = vec![last + 2];
        if first < last {
            ticks.push(rng.from_to(first + 1, last));
        }
        for (tick, other) in ticks.into_iter().zip(&mut others) {
            steps.push((tick, Step::Other(row, other)));
        }
        let node = plan.rx[row].signals[0].destinations[0].tx as u8;
        steps.extend((last..=last + 2).map(|tick| (tick, Step::Take(node))));
    }
    // Steps before the same tick stay in this order.
    steps.sort_by_key(|(tick, _)| *tick);
    steps
}

fn stream(rng: &mut Rng, plan: &Plan, sources: &[Source]) -> Vec<u8> {
    let another = sources.iter().position(Source::is_another).unwrap_or(0);
    let mut events = Events::new(plan);
    let mut ticks = 0;
    for (tick, step) in timetable(rng, plan, sources) {
        events.ticks(tick - ticks);
        ticks = tick;
        match step {
            Step::Accepted(row) => events.accepted(rng, row),
            Step::Other(_, Other::AnotherRow) => events.accepted(rng, another),
            Step::Other(row, other) => add_other(rng, &mut events, plan, row, other),
            Step::Take(node) => events.take(node),
        }
    }
    events.drain();
    events.bytes
}
