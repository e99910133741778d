//! Cases that meet each answer for certain, once in each order of bits.

use super::Shape;
use crate::events::{Events, EVEN};
use crate::rng::Rng;
use crate::spec::{Destination, Plan, Rx, Signal, Tx};

pub fn shapes() -> Vec<Shape> {
    vec![
        Shape::new("showcase, big", |rng| showcase(rng, 0)),
        Shape::new("showcase, little", |rng| showcase(rng, 1)),
        Shape::new("more than 100 waiting, by ticks", |rng| {
            let count = rng.from_to(110, 200);
            waiting_by_ticks(rng, count)
        }),
        Shape::new("more than 100 waiting, by receptions", |rng| {
            let count = rng.from_to(110, 200);
            waiting_by_receptions(rng, count)
        }),
        Shape::new("all 256 waiting, by ticks", |rng| {
            waiting_by_ticks(rng, 256)
        }),
        Shape::new("all 256 waiting, by receptions", |rng| {
            waiting_by_receptions(rng, 256)
        }),
    ]
}

/// Two nodes; a frame that is sent on reception, one on change, and two by
/// period; a row of one byte for the first two, with an indicator that times
/// out at each tick.
fn showcase_plan(rng: &mut Rng, order: u8) -> Plan {
    let mut on_reception = Tx::quiet(0, rng.below(2048) as u16, 2);
    on_reception.flags = 1;
    let mut on_change = Tx::quiet(0, rng.below(2048) as u16, 2);
    on_change.flags = 2;
    on_change.prescaler = 10;
    on_change.reload = 255;
    let mut slow = Tx::quiet(1, rng.below(2048) as u16, 0);
    slow.prescaler = 20;
    slow.reload = 1;
    slow.timer = 1;
    let mut quick = Tx::quiet(1, rng.below(2048) as u16, 1);
    quick.prescaler = 2;
    quick.reload = 1;
    quick.timer = 1;
    quick.payload[0] = rng.byte();

    let mut row = Rx::watched(0, rng.below(2047) as u16, 1, 15);
    row.reload = 1;
    row.timer = 1;
    row.long_count = 2;
    let position = rng.below(7) as u8;
    row.signals = vec![Signal {
        position: 0,
        size: 8,
        destinations: vec![
            Destination { tx: 0, position },
            Destination { tx: 1, position },
        ],
    }];
    let mut other = Rx::quiet(1, row.id, 0);
    other.prescaler = 20;
    Plan {
        order,
        nodes: 2,
        lin: 0,
        tx: vec![on_reception, on_change, slow, quick],
        rx: vec![row, other],
    }
}

fn showcase(rng: &mut Rng, order: u8) -> Vec<u8> {
    let plan = showcase_plan(rng, order);
    let id = plan.rx[0].id.number() as u16;
    let mut events = Events::new(&plan);
    let value = rng.from_to(1, 255) as u8;
    let data = [value, 1, 2, 3, 4, 5, 6, 7];
    events.take(0);
    // A change, then none, then a change again.
    events.reception(0, id, 1, data);
    events.drain();
    events.reception(0, id, 1, data);
    events.drain();
    // Short and long timeouts set the bit, a reception clears it.
    events.ticks(1);
    events.reception(0, id, 1, data);
    events.drain();
    events.ticks(2);
    events.reception(0, id, 1, [!value; 8]);
    events.drain();
    events.ticks(3);
    events.drain();
    for length in 0..=12 {
        events.reception(0, id, length, rng.payload());
        events.take(0);
    }
    events.reception(0, id + 1, 1, data);
    events.reception(0, id + 2048, 1, data);
    events.reception(2, id, 1, data);
    events.take(2);
    events.some(rng, 20, EVEN);
    events.ticks(170);
    events.drain();
    plan.input(&events.bytes)
}

/// More than 100 frames of one node that all fall due at the first tick.
fn waiting_by_ticks(rng: &mut Rng, count: usize) -> Vec<u8> {
    let mut plan = Plan {
        nodes: 2,
        ..Plan::default()
    };
    for number in 0..count {
        let mut tx = Tx::quiet(1, (7 * number % 2048) as u16, 1);
        tx.payload[0] = rng.byte();
        tx.timer = 1;
        tx.reload = rng.from_to(0, 3) as u8;
        plan.tx.push(tx);
    }
    let mut events = Events::new(&plan);
    events.ticks(1);
    for _ in 0..rng.from_to(2, 60) {
        events.take(1);
        if rng.once_in(4) {
            events.ticks(1);
        }
    }
    events.drain();
    plan.input(&events.bytes)
}

/// More than 100 frames of one node that one reception schedules, in the order
/// of the destinations.
fn waiting_by_receptions(rng: &mut Rng, count: usize) -> Vec<u8> {
    let mut plan = Plan {
        nodes: 1,
        ..Plan::default()
    };
    for number in 0..count {
        let mut tx = Tx::quiet(0, number as u16, 1);
        tx.flags = rng.pick(&[1, 3]);
        plan.tx.push(tx);
    }
    let mut order: Vec<u16> = (0..count as u16).collect();
    rng.shuffle(&mut order);
    let mut row = Rx::quiet(0, 5, 1);
    for part in order.chunks(rng.from_to(5, 15)) {
        let position = rng.below(8) as u8;
        let to = part.iter().map(|tx| Destination {
            tx: *tx,
            position: 3,
        });
        row.signals.push(Signal {
            position,
            size: 1,
            destinations: to.collect(),
        });
    }
    plan.rx.push(row);
    let mut events = Events::new(&plan);
    events.reception(0, 5, 1, rng.payload());
    events.take(0);
    events.take(0);
    events.hit(rng);
    events.repeat(0);
    events.drain();
    plan.input(&events.bytes)
}
