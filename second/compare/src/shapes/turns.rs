//! Whatever can come while frames and requests wait for their turn.

use super::queues::plan_of;
use super::Shape;
use crate::events::{right_checksum, Events};
use crate::ids;
use crate::rng::Rng;
use crate::spec::{Destination, Plan, Signal};

pub fn shapes() -> Vec<Shape> {
    vec![Shape::new("queues: whatever comes between", between)]
}

/// The nodes: the source's, one of CAN frames, one without room, and LIN nodes
/// of frames, of requests, and of both in turn.
const SOURCE: u8 = 0;
const CAN: u8 = 1;
const NO_ROOM: u8 = 2;
const FRAMES: u8 = 3;
const REQUESTS: u8 = 4;
const BOTH: u8 = 5;

/// Of each kind there are so many, of which the last joins behind the others.
const MANY: usize = 17;

fn between_plan(rng: &mut Rng) -> Plan {
    let nodes = [(2, 2), (MANY, 0), (0, 0), (MANY, 0), (0, MANY), (9, 9)];
    let mut plan = plan_of(rng, &nodes, 3);
    let mut reload = |timer| (timer, rng.from_to(1, 3) as u8);
    for node in [CAN, FRAMES, BOTH] {
        let of_node = plan.tx.iter_mut().filter(|tx| tx.node == node);
        for (number, tx) in of_node.enumerate() {
            (tx.timer, tx.reload) = reload(timer(node, number));
        }
    }
    for node in [REQUESTS, BOTH] {
        let of_node = plan.rx.iter_mut().filter(|rx| rx.node == node);
        for (number, rx) in of_node.enumerate() {
            (rx.timer, rx.reload) = reload(timer(node, number));
        }
    }
    // A frame that is due at the same tick as a request goes first.
    let first = rng.below(2) as u8;
    let of_both = plan.tx.iter_mut().filter(|tx| tx.node == BOTH);
    of_both.for_each(|tx| tx.timer += first);
    for tx in &mut plan.tx {
        tx.flags = match tx.node {
            CAN => rng.pick(&[1, 3]),
            BOTH => rng.below(4) as u8,
            _ => 0,
        };
    }
    let scheduled = (0..).zip(&plan.tx).filter(|(_, tx)| tx.flags > 0);
    let destinations: Vec<Destination> = scheduled
        .map(|(tx, _)| Destination { tx, position: 0 })
        .collect();
    plan.rx[0].signals = destinations
        .chunks(15)
        .map(|some| Signal {
            position: rng.below(8) as u8,
            size: 1,
            destinations: some.to_vec(),
        })
        .collect();
    plan
}

/// When the frame or the request of this number on the node is due first: all
/// but the last at once, or one after the other.
fn timer(node: u8, number: usize) -> u8 {
    match node {
        BOTH => 2 * number as u8 + 1,
        _ => 1 + u8::from(number + 1 == MANY),
    }
}

/// How many kinds of events `add` has.
const OTHERS: usize = 15;

/// All of them while everything waits, and some between the takes.
fn between(rng: &mut Rng) -> Vec<u8> {
    let plan = between_plan(rng);
    let mut events = Events::new(&plan);
    events.ticks(20);
    let mut others: Vec<usize> = (0..OTHERS).collect();
    rng.shuffle(&mut others);
    for other in others {
        add(rng, &mut events, &plan, other);
    }
    let mut left = [CAN, FRAMES, REQUESTS, BOTH]
        .map(|node| vec![node; MANY + 1])
        .concat();
    rng.shuffle(&mut left);
    for node in left {
        events.take(node);
        if rng.once_in(4) {
            let other = rng.below(OTHERS);
            add(rng, &mut events, &plan, other);
        }
    }
    events.drain();
    plan.input(&events.bytes)
}

fn add(rng: &mut Rng, events: &mut Events, plan: &Plan, other: usize) {
    let data = rng.payload();
    let source = &plan.rx[0];
    let asked = plan.rx.iter().find(|rx| rx.node == REQUESTS);
    let asked = asked.unwrap_or(source);
    let right = right_checksum(asked.id, asked.size, &data);
    match other {
        0 => events.ticks(1),
        1 => events.reception(SOURCE, source.id, source.size, data),
        2 => events.reception(
            SOURCE,
            ids::past_the_range(rng, source.id),
            source.size,
            data,
        ),
        3 => events.reception(SOURCE, source.id, source.size - 1, data),
        4 => events.reception(SOURCE, source.id, 9, data),
        5 => events.reception(NO_ROOM, source.id, 9, data),
        6 => events.reception(16, source.id, source.size, data),
        7 => events.response(REQUESTS, asked.id, asked.size, data, right),
        8 => events.response(REQUESTS, asked.id, asked.size, data, right ^ 1),
        9 => events.response(NO_ROOM, asked.id, asked.size, data, right),
        10 => events.no_response(REQUESTS, asked.id),
        11 => events.no_response(SOURCE, asked.id),
        12 => events.no_response(16, asked.id),
        13 => [NO_ROOM, SOURCE]
            .into_iter()
            .for_each(|node| events.take(node)),
        _ => events.take(16),
    }
}
