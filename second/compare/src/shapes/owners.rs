//! Bits with two owners, and failure positions past the data.

use super::Shape;
use crate::events::ordinary;
use crate::good::{self, destination_count};
use crate::rng::Rng;
use crate::spec::{Destination, Plan, Rx, Signal, Tx};

pub fn shapes() -> Vec<Shape> {
    vec![
        Shape::new("owners: a destination over another", over_another),
        Shape::new("owners: touching", |rng| pair(rng, 0)),
        Shape::new("owners: one bit in common", |rng| pair(rng, 1)),
        Shape::new("owners: failure bit past the data", |rng| {
            watched(rng, |rng, plan| {
                let bits = 8 * plan.tx[0].size;
                plan.rx[0].failure_position = rng.pick(&[bits, bits, 63]);
            })
        }),
        Shape::new("owners: failure bit at the last bit", |rng| {
            watched(rng, |_, plan| {
                plan.rx[0].failure_position = 8 * plan.tx[0].size - 1;
            })
        }),
        Shape::new("owners: failure bit on its own destination", |rng| {
            watched(rng, |rng, plan| {
                let signal = &plan.rx[0].signals[0];
                let inside = rng.below(usize::from(signal.size)) as u8;
                plan.rx[0].failure_position = signal.destinations[0].position + inside;
            })
        }),
        Shape::new("owners: failure bit beside its own destination", |rng| {
            watched(rng, |_, plan| {
                let signal = &plan.rx[0].signals[0];
                plan.rx[0].failure_position = signal.destinations[0].position + signal.size;
            })
        }),
        Shape::new("owners: failure bit on an earlier destination", |rng| {
            watched(rng, |_, plan| {
                plan.rx[1].failure_position = plan.rx[0].signals[0].destinations[0].position;
            })
        }),
        Shape::new("owners: two failure bits", |rng| {
            watched(rng, |_, plan| {
                plan.rx[1].failure_position = plan.rx[0].failure_position;
            })
        }),
        Shape::new("owners: a later destination on a failure bit", |rng| {
            watched(rng, |rng, plan| {
                let position = plan.rx[0].failure_position;
                let row = rng.below(2);
                let signal = Signal {
                    position: 0,
                    size: 1,
                    destinations: vec![Destination { tx: 0, position }],
                };
                plan.rx[row].signals.push(signal);
            })
        }),
        Shape::new("owners: failure bit of a disabled indicator", |rng| {
            watched(rng, |rng, plan| {
                plan.rx[0].enable = 0;
                plan.rx[0].failure_position = rng.below(64) as u8;
            })
        }),
        Shape::new(
            "owners: failure bit in the second destination's frame",
            |rng| {
                watched(rng, |_, plan| {
                    let position = plan.rx[0].failure_position;
                    let other = Destination { tx: 1, position };
                    plan.rx[0].signals[0].destinations.push(other);
                })
            },
        ),
    ]
}

/// Two rows with indicators and two frames of 3 to 7 bytes. The first row's
/// signal goes to bits 0 to 3 of frame 0, its failure bit is bit 10; the
/// second row's signal goes to bits 12 to 15, its failure bit is bit 20.
fn watched_plan(rng: &mut Rng) -> Plan {
    let mut plan = Plan {
        order: rng.below(2) as u8,
        nodes: 1,
        ..Plan::default()
    };
    for id in 0..2 {
        let mut tx = Tx::quiet(0, id, rng.from_to(3, 7) as u8);
        tx.flags = rng.below(4) as u8;
        tx.reload = 1;
        tx.timer = 1;
        plan.tx.push(tx);
    }
    for (id, position, failure_position) in [(1, 0, 10), (2, 12, 20)] {
        let mut rx = Rx::watched(0, id, 1, failure_position);
        rx.reload = rng.from_to(1, 3) as u8;
        rx.timer = rng.from_to(1, 3) as u8;
        rx.long_count = rng.below(4) as u8;
        rx.signals.push(Signal {
            position: rng.below(5) as u8,
            size: 4,
            destinations: vec![Destination { tx: 0, position }],
        });
        plan.rx.push(rx);
    }
    plan
}

fn watched(rng: &mut Rng, change: impl Fn(&mut Rng, &mut Plan)) -> Vec<u8> {
    let mut plan = watched_plan(rng);
    change(rng, &mut plan);
    plan.input(&ordinary(rng, &plan, 30))
}

/// Two destinations of random sizes, the second so many bits into the first,
/// from below or from above.
fn pair(rng: &mut Rng, common: usize) -> Vec<u8> {
    let sizes = [rng.from_to(2, 20), rng.from_to(2, 20)];
    let low = rng.below(8);
    let high = low + sizes[0] - common;
    let mut places = [(low, sizes[0]), (high, sizes[1])];
    if rng.once_in(2) {
        places.swap(0, 1);
    }
    let mut tx = Tx::quiet(0, 9, 8);
    tx.flags = 1;
    tx.payload = rng.payload();
    let mut rx = Rx::quiet(0, 1, 8);
    for (position, size) in places {
        rx.signals.push(Signal {
            position: rng.below(64 - size) as u8,
            size: size as u8,
            destinations: vec![Destination {
                tx: 0,
                position: position as u8,
            }],
        });
    }
    let plan = Plan {
        order: rng.below(2) as u8,
        nodes: 1,
        lin: 0,
        tx: vec![tx],
        rx: vec![rx],
    };
    plan.input(&ordinary(rng, &plan, 10))
}

/// A later destination of a rich plan is moved onto an earlier one.
fn over_another(rng: &mut Rng) -> Vec<u8> {
    let mut plan = good::rich_plan(rng);
    let count = destination_count(&plan);
    let later = rng.from_to(1, count - 1);
    let earlier = rng.below(later);
    let mut number = 0;
    let mut target = Destination { tx: 0, position: 0 };
    for rx in &mut plan.rx {
        for signal in &mut rx.signals {
            for destination in &mut signal.destinations {
                if number == earlier {
                    target = *destination;
                }
                if number == later {
                    let back = rng.below(usize::from(signal.size)) as u8;
                    destination.tx = target.tx;
                    destination.position = target.position.saturating_sub(back);
                }
                number += 1;
            }
        }
    }
    plan.input(&ordinary(rng, &plan, 10))
}
