//! Plans at each limit and one past it.

use super::Shape;
use crate::events::ordinary;
use crate::good;
use crate::ids;
use crate::rng::Rng;
use crate::spec::{Destination, Plan, Rx, Signal, Tx};

/// The counts of a plan: nodes, Tx frames, and for each Rx frame the number of
/// destinations of each of its signals.
#[derive(Clone, Debug)]
pub struct Counts {
    pub nodes: usize,
    pub tx: usize,
    pub rows: Vec<Vec<usize>>,
}

pub fn shapes() -> Vec<Shape> {
    type Make = fn(&mut Rng, usize) -> Counts;
    let limits: [(&str, Make, usize); 7] = [
        ("nodes", nodes, 16),
        ("Tx frames", tx_frames, 256),
        ("Rx frames", rx_frames, 256),
        ("signals", signals, 1024),
        ("signals in a frame", signals_in_a_frame, 64),
        ("destinations", destinations, 2048),
        ("destinations for a signal", destinations_for_a_signal, 15),
    ];
    let mut shapes = Vec::new();
    for (what, make, limit) in limits {
        for count in [limit - 1, limit, limit + 1] {
            shapes.push(Shape::new(&format!("limit: {count} {what}"), move |rng| {
                let counts = make(rng, count);
                let mut plan = layout(rng, &counts);
                good::widen_some(rng, &mut plan);
                plan.input(&ordinary(rng, &plan, 30))
            }));
        }
    }
    shapes.push(Shape::new("limit: every one at once", |rng| {
        let counts = Counts {
            nodes: 16,
            tx: 256,
            rows: vec![vec![2; 4]; 256],
        };
        let mut plan = layout(rng, &counts);
        good::widen_some(rng, &mut plan);
        plan.input(&ordinary(rng, &plan, 40))
    }));
    shapes
}

pub fn nodes(_: &mut Rng, count: usize) -> Counts {
    Counts {
        nodes: count,
        tx: 8,
        rows: vec![vec![1]; 8],
    }
}

pub fn tx_frames(rng: &mut Rng, count: usize) -> Counts {
    Counts {
        nodes: rng.from_to(1, 16),
        tx: count,
        rows: vec![vec![15]; 8],
    }
}

pub fn rx_frames(rng: &mut Rng, count: usize) -> Counts {
    Counts {
        nodes: rng.from_to(1, 16),
        tx: 40,
        rows: vec![vec![1]; count],
    }
}

pub fn signals(rng: &mut Rng, count: usize) -> Counts {
    let rows = rng.from_to(17, 60);
    let in_rows = rng.spread(count, rows, 64);
    Counts {
        nodes: rng.from_to(1, 16),
        tx: 40,
        rows: in_rows
            .iter()
            .map(|n| vec![usize::from(*n > 20); *n])
            .collect(),
    }
}

pub fn signals_in_a_frame(rng: &mut Rng, count: usize) -> Counts {
    let mut rows = vec![vec![1]; rng.from_to(1, 4)];
    rows.push(vec![1; count]);
    rows.push(vec![1]);
    Counts {
        nodes: rng.from_to(1, 4),
        tx: 20,
        rows,
    }
}

pub fn destinations(rng: &mut Rng, count: usize) -> Counts {
    let signals = rng.from_to(140, 400);
    let for_signals = rng.spread(count, signals, 15);
    let in_a_row = rng.from_to(4, 64);
    Counts {
        nodes: rng.from_to(1, 16),
        tx: 256,
        rows: for_signals
            .chunks(in_a_row)
            .map(<[usize]>::to_vec)
            .collect(),
    }
}

pub fn destinations_for_a_signal(rng: &mut Rng, count: usize) -> Counts {
    let mut row = vec![1; rng.from_to(0, 3)];
    row.push(count);
    row.push(1);
    Counts {
        nodes: rng.from_to(1, 4),
        tx: 8,
        rows: vec![vec![1], row, vec![2]],
    }
}

/// A plan of exactly these counts, good but for the counts: frames of eight
/// bytes, signals of one or two bits, destinations on free bits.
pub fn layout(rng: &mut Rng, counts: &Counts) -> Plan {
    let mut plan = Plan {
        order: rng.below(2) as u8,
        nodes: counts.nodes,
        ..Plan::default()
    };
    for _ in 0..counts.tx {
        plan.tx.push(Tx {
            node: rng.below(counts.nodes.min(16)) as u8,
            id: ids::some_id(rng),
            size: 8,
            prescaler: good::prescaler(rng),
            reload: good::timer_value(rng),
            timer: good::timer_value(rng),
            flags: rng.below(4) as u8,
            payload: rng.payload(),
        });
    }
    // How many bits of each Tx frame have an owner: always the first ones.
    let mut used = vec![0; counts.tx];
    let mut turn = rng.below(counts.tx);
    for (number, signals) in counts.rows.iter().enumerate() {
        let node = number * counts.nodes.min(16) / counts.rows.len();
        let mut rx = Rx::quiet(node as u8, (3 * number + rng.below(3)) as u16, 8);
        rx.prescaler = good::prescaler(rng);
        rx.reload = good::timer_value(rng);
        rx.timer = good::timer_value(rng);
        rx.long_count = rng.below(16) as u8;
        for destinations in signals {
            let size = rng.from_to(1, 2);
            let mut signal = Signal {
                position: rng.below(65 - size) as u8,
                size: size as u8,
                destinations: Vec::new(),
            };
            for _ in 0..*destinations {
                while used[turn] + 3 > 64 {
                    turn = (turn + 1) % counts.tx;
                }
                signal.destinations.push(Destination {
                    tx: turn as u16,
                    position: used[turn] as u8,
                });
                used[turn] += size;
                if rx.signals.is_empty() && signal.destinations.len() == 1 && rng.once_in(2) {
                    rx.enable = 1;
                    rx.failure_position = used[turn] as u8;
                    used[turn] += 1;
                }
                turn = (turn + 1) % counts.tx;
            }
            rx.signals.push(signal);
        }
        plan.rx.push(rx);
    }
    plan
}
