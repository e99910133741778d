//! Queues that are filled, wrapped and drained, of every room.

use super::Shape;
use crate::events::{Events, EVEN};
use crate::good;
use crate::rng::Rng;
use crate::spec::{Plan, Rx, Tx};

pub fn shapes() -> Vec<Shape> {
    let mut shapes = Vec::new();
    for (kind, name) in [
        (Kind::Can, "CAN nodes"),
        (Kind::Frames, "LIN nodes of frames"),
        (Kind::Requests, "LIN nodes of requests"),
        (Kind::Both, "LIN nodes of both"),
    ] {
        let name = format!("queues: rooms of 0 to 15, {name}");
        shapes.push(Shape::new(&name, move |rng| rooms(rng, kind)));
    }
    shapes.extend([
        Shape::new("queues: 256 frames on a node", largest),
        Shape::new("queues: 256 frames and 256 requests", all_at_once),
        Shape::new("queues: wrapped many times", many_times),
    ]);
    shapes
}

/// What can be scheduled on the nodes.
#[derive(Clone, Copy)]
enum Kind {
    Can,
    Frames,
    Requests,
    Both,
}

/// A Tx frame that is due at every tick.
fn due(rng: &mut Rng, node: u8) -> Tx {
    let size = rng.from_to(1, 8) as u8;
    Tx {
        timer: 1,
        reload: 1,
        payload: good::payload_of_size(rng, size),
        ..Tx::quiet(node, rng.below(60) as u16, size)
    }
}

/// Rows that expire at every tick: on a LIN node they ask.
fn asking(rng: &mut Rng, node: u8, count: usize) -> Vec<Rx> {
    let mut ids: Vec<u16> = (0..60).collect();
    rng.shuffle(&mut ids);
    ids.truncate(count);
    ids.sort_unstable();
    let row = |id| Rx {
        timer: 1,
        reload: 1,
        ..Rx::quiet(node, id, rng.from_to(1, 8) as u8)
    };
    ids.into_iter().map(row).collect()
}

/// A plan whose nodes have so many frames and requests, the numbers of the
/// frames in any order.
pub fn plan_of(rng: &mut Rng, nodes: &[(usize, usize)], lin: usize) -> Plan {
    let mut plan = Plan {
        order: rng.below(2) as u8,
        nodes: nodes.len(),
        lin,
        ..Plan::default()
    };
    for (node, (frames, requests)) in (0..).zip(nodes) {
        plan.tx.extend((0..*frames).map(|_| due(rng, node)));
        plan.rx.extend(asking(rng, node, *requests));
    }
    rng.shuffle(&mut plan.tx);
    good::widen_some(rng, &mut plan);
    plan
}

/// Sixteen nodes of unlike rooms, the one without room between two others. Each
/// queue is full with its oldest at each place of the ring; then one is filled
/// after the other; then they are drained partly, and wholly.
fn rooms(rng: &mut Rng, kind: Kind) -> Vec<u8> {
    let mut rooms: Vec<usize> = (1..=15).collect();
    rng.shuffle(&mut rooms);
    rooms.insert(rng.from_to(1, 14), 0);
    let mut nodes = Vec::new();
    for room in rooms {
        let requests = match kind {
            Kind::Can | Kind::Frames => 0,
            Kind::Requests => room,
            Kind::Both if room > 1 => rng.from_to(1, room - 1),
            Kind::Both => rng.from_to(0, room),
        };
        nodes.push((room - requests, requests));
    }
    let lin = if matches!(kind, Kind::Can) { 0 } else { 16 };
    let plan = plan_of(rng, &nodes, lin);
    let mut order: Vec<u8> = (0..16).collect();
    let mut events = Events::new(&plan);
    events.ticks(1);
    for _ in 0..14 {
        rng.shuffle(&mut order);
        order.iter().for_each(|node| events.take(*node));
        events.ticks(1);
    }
    for node in order {
        events.take(node);
        events.ticks(1);
    }
    for _ in 0..40 {
        events.take(rng.below(16) as u8);
    }
    events.ticks(1);
    events.drain();
    plan.input(&events.bytes)
}

/// The largest room of frames, between nodes without room, and the largest of
/// requests.
fn largest(rng: &mut Rng) -> Vec<u8> {
    let mut plan = plan_of(rng, &[(0, 0), (256, 0), (0, 3), (0, 60)], 1);
    for tx in &mut plan.tx {
        tx.size = 0;
        tx.payload = [0; 8];
    }
    let mut events = Events::new(&plan);
    events.ticks(1);
    for node in [1, 3] {
        for _ in 0..rng.from_to(1, 40) {
            events.take(node);
        }
    }
    events.ticks(1);
    events.drain();
    plan.input(&events.bytes)
}

/// All frames and requests that a plan can have, on 16 nodes.
fn all_at_once(rng: &mut Rng) -> Vec<u8> {
    let frames = rng.spread(256, 16, 256).into_iter();
    let requests = rng.spread(240, 16, 59).into_iter();
    // None is without room.
    let nodes: Vec<(usize, usize)> = frames.zip(requests.map(|count| count + 1)).collect();
    let plan = plan_of(rng, &nodes, 16);
    let mut events = Events::new(&plan);
    events.ticks(1);
    for _ in 0..40 {
        events.take(rng.below(16) as u8);
    }
    events.ticks(1);
    for _ in 0..100 {
        events.take(rng.below(16) as u8);
    }
    plan.input(&events.bytes)
}

/// Small rings that are gone round more than ten times, with any events between.
fn many_times(rng: &mut Rng) -> Vec<u8> {
    let nodes = [0, 1, 2, 3].map(|node| match node {
        0 => (rng.from_to(2, 4), 0),
        1 => (rng.from_to(0, 1), rng.from_to(0, 2)),
        2 => (rng.from_to(1, 2), rng.from_to(1, 2)),
        _ => (rng.from_to(0, 2), rng.from_to(0, 2)),
    });
    let plan = plan_of(rng, &nodes, 2);
    let mut events = Events::new(&plan);
    events.ticks(1);
    // At most 4 entries, of which one leaves and joins again each time.
    for _ in 0..41 {
        for (node, (frames, requests)) in (0..).zip(nodes) {
            for _ in 0..rng.from_to(1, 1 + frames + requests) {
                events.take(node);
            }
        }
        if rng.once_in(3) {
            events.some(rng, 2, EVEN);
        }
        events.ticks(1);
    }
    events.drain();
    plan.input(&events.bytes)
}
