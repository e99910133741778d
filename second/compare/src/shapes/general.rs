//! Good plans with ordinary streams, in several styles.

use super::Shape;
use crate::events::{ordinary, Events, Mix, EVEN};
use crate::good::{self, Measure};
use crate::rng::Rng;
use crate::spec::{Plan, Rx, Tx};

pub fn shapes() -> Vec<Shape> {
    vec![
        Shape::new("small plan", |rng| {
            let plan = good::small_plan(rng);
            let count = rng.from_to(5, 40);
            plan.input(&ordinary(rng, &plan, count))
        }),
        Shape::new("rich plan", |rng| {
            let plan = good::rich_plan(rng);
            let count = rng.from_to(20, 80);
            plan.input(&ordinary(rng, &plan, count))
        }),
        Shape::new("timeouts", timeouts),
        Shape::new("one row, busy", busy_row),
        Shape::new("past the counter's wrap", past_the_wrap),
        Shape::new("periodic frames", periodic),
        Shape::new("many rows", many_rows),
        Shape::new("whole payloads", whole_payloads),
        Shape::new("waiting frames", waiting_frames),
        Shape::new("empty tables", empty_tables),
        Shape::new("middling plan", middling),
        Shape::new("LIN nodes", |rng| {
            let plan = good::rich_lin_plan(rng);
            let count = rng.from_to(20, 80);
            plan.input(&ordinary(rng, &plan, count))
        }),
        Shape::new("LIN nodes, busy", lin_nodes),
    ]
}

/// Rows that time out often, and frames that show their failure bits.
fn timeouts(rng: &mut Rng) -> Vec<u8> {
    let mut plan = good::rich_plan(rng);
    for rx in &mut plan.rx {
        rx.prescaler = rng.pick(&[1, 1, 2]);
        rx.reload = rng.from_to(1, 3) as u8;
        rx.timer = rng.from_to(1, 3) as u8;
        rx.long_count = rng.from_to(0, 3) as u8;
    }
    for tx in &mut plan.tx {
        tx.flags |= 1;
        tx.reload = rng.from_to(1, 2) as u8;
        tx.timer = 1;
        tx.prescaler = 1;
    }
    let mix = Mix {
        hits: 4,
        misses: 1,
        ticks: 8,
        burst: 3,
        takes: 5,
    };
    with_mix(rng, &plan, 60, mix)
}

/// Requests, frames and responses on LIN nodes beside CAN nodes.
fn lin_nodes(rng: &mut Rng) -> Vec<u8> {
    let mut plan = good::rich_lin_plan(rng);
    for rx in &mut plan.rx {
        rx.prescaler = rng.pick(&[1, 1, 2]);
        rx.reload = rng.from_to(1, 4) as u8;
        rx.timer = rng.from_to(1, 3) as u8;
        rx.long_count = rng.from_to(0, 3) as u8;
    }
    for tx in &mut plan.tx {
        tx.reload = rng.from_to(1, 4) as u8;
        tx.timer = rng.from_to(1, 3) as u8;
        tx.prescaler = rng.pick(&[1, 1, 2]);
    }
    let mix = Mix {
        hits: 8,
        misses: 2,
        ticks: 6,
        burst: 3,
        takes: 8,
    };
    with_mix(rng, &plan, 80, mix)
}

/// Few rows and many receptions, so that changes and repeats come often.
fn busy_row(rng: &mut Rng) -> Vec<u8> {
    let nodes = rng.from_to(1, 2);
    let measure = Measure {
        nodes,
        lin: good::some_lin(rng, nodes),
        tx: rng.from_to(1, 3),
        rx: rng.from_to(1, 2),
        signals: 4,
        destinations: 4,
    };
    let plan = good::plan(rng, measure);
    let mix = Mix {
        hits: 12,
        misses: 1,
        ticks: 2,
        burst: 2,
        takes: 6,
    };
    with_mix(rng, &plan, 80, mix)
}

/// Ticks far past 160, every prescaler, takes between the bursts.
fn past_the_wrap(rng: &mut Rng) -> Vec<u8> {
    let mut plan = good::rich_plan(rng);
    for tx in &mut plan.tx {
        tx.prescaler = rng.pick(&[1, 2, 10, 20]);
        tx.reload = rng.pick(&[1, 2, 3, 7, 255]);
    }
    for rx in &mut plan.rx {
        rx.prescaler = rng.pick(&[1, 2, 10, 20]);
        rx.reload = rng.pick(&[1, 2, 3, 7, 255]);
    }
    let mut events = Events::new(&plan);
    let mut ticks = 0;
    while ticks <= 330 {
        let burst = rng.from_to(1, 12);
        events.ticks(burst);
        ticks += burst;
        events.some(rng, 2, EVEN);
        if rng.once_in(4) {
            events.drain();
        }
    }
    events.show_all(rng);
    plan.input(&events.bytes)
}

/// Sending by period only, tick by tick.
fn periodic(rng: &mut Rng) -> Vec<u8> {
    let mut plan = good::small_plan(rng);
    for tx in &mut plan.tx {
        tx.reload = rng.from_to(0, 4) as u8;
        tx.timer = rng.from_to(0, 4) as u8;
    }
    let mut events = Events::new(&plan);
    for _ in 0..rng.from_to(20, 60) {
        events.ticks(1);
        if rng.once_in(3) {
            events.some(rng, 1, EVEN);
        }
        if !rng.once_in(3) {
            events.take(rng.below(plan.nodes) as u8);
        }
    }
    events.drain();
    plan.input(&events.bytes)
}

/// Many rows near each other on a few nodes: the lookup.
fn many_rows(rng: &mut Rng) -> Vec<u8> {
    let nodes = rng.from_to(1, 5);
    let measure = Measure {
        nodes,
        lin: good::some_lin(rng, nodes),
        tx: rng.from_to(1, 4),
        rx: rng.from_to(10, 60),
        signals: 1,
        destinations: 1,
    };
    let plan = good::plan(rng, measure);
    let mix = Mix {
        hits: 8,
        misses: 8,
        ticks: 1,
        burst: 2,
        takes: 2,
    };
    with_mix(rng, &plan, 80, mix)
}

/// Rows and frames of eight bytes with wide signals.
fn whole_payloads(rng: &mut Rng) -> Vec<u8> {
    let nodes = rng.from_to(1, 3);
    let mut plan = Plan {
        order: rng.below(2) as u8,
        nodes,
        ..Plan::default()
    };
    let mut owners = good::Owners::new(4);
    for _ in 0..4 {
        let mut tx = Tx::quiet(rng.below(nodes) as u8, rng.below(2048) as u16, 8);
        tx.flags = rng.from_to(1, 3) as u8;
        tx.payload = good::payload_of_size(rng, 8);
        plan.tx.push(tx);
    }
    for id in 0..3 {
        let mut rx = Rx::quiet(0, 100 + id, 8);
        for _ in 0..rng.from_to(1, 3) {
            let mut signal = good::signal(rng, 64);
            signal.size = signal.size.max(rng.from_to(1, 64) as u8);
            signal.position = rng.from_to(0, 64 - usize::from(signal.size)) as u8;
            rx.signals.push(signal);
            good::add_destination(rng, &plan.tx, &mut owners, &mut rx);
            good::add_destination(rng, &plan.tx, &mut owners, &mut rx);
        }
        plan.rx.push(rx);
    }
    good::widen_some(rng, &mut plan);
    let mix = Mix {
        hits: 6,
        misses: 0,
        ticks: 1,
        burst: 1,
        takes: 6,
    };
    with_mix(rng, &plan, 40, mix)
}

/// Receptions that find their frames waiting, with periods running.
fn waiting_frames(rng: &mut Rng) -> Vec<u8> {
    let mut plan = good::rich_plan(rng);
    for tx in &mut plan.tx {
        tx.flags = rng.from_to(1, 3) as u8;
        tx.prescaler = rng.pick(&[1, 1, 2]);
        tx.reload = rng.from_to(2, 5) as u8;
        tx.timer = rng.from_to(0, 5) as u8;
    }
    let mut events = Events::new(&plan);
    for _ in 0..rng.from_to(10, 25) {
        for _ in 0..rng.from_to(1, 4) {
            events.hit(rng);
        }
        let ticks = rng.from_to(1, 4);
        events.ticks(ticks);
        if rng.once_in(2) {
            events.drain();
        }
    }
    events.show_all(rng);
    plan.input(&events.bytes)
}

/// None is a lawful count of each.
fn empty_tables(rng: &mut Rng) -> Vec<u8> {
    let nodes = rng.below(3);
    let measure = Measure {
        nodes,
        lin: good::some_lin(rng, nodes),
        tx: rng.below(2) * rng.below(4),
        rx: rng.below(2) * rng.below(4),
        signals: rng.below(2),
        destinations: rng.below(2),
    };
    let plan = good::plan(rng, measure);
    plan.input(&ordinary(rng, &plan, 20))
}

/// A plan of some tens in every table.
fn middling(rng: &mut Rng) -> Vec<u8> {
    let nodes = rng.from_to(2, 16);
    let measure = Measure {
        nodes,
        lin: good::some_lin(rng, nodes),
        tx: rng.from_to(10, 60),
        rx: rng.from_to(10, 60),
        signals: 6,
        destinations: 4,
    };
    let plan = good::plan(rng, measure);
    plan.input(&ordinary(rng, &plan, 60))
}

fn with_mix(rng: &mut Rng, plan: &Plan, count: usize, mix: Mix) -> Vec<u8> {
    let mut events = Events::new(plan);
    events.some(rng, count, mix);
    events.show_all(rng);
    plan.input(&events.bytes)
}
