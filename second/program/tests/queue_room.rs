//! The room of a queue, and the order in which frames and requests leave it.
//!
//! Ticket 14: "a node's queue never holds more than the frames and requests
//! which can be scheduled on it"; "a frame with n ahead of it leaves at the
//! (n + 1)-th unrefused take on its node, whatever else but an opening is called
//! between."

mod common;

use std::collections::BTreeSet;

use common::{
    destination, join, lines, reception, rx, signal, take, tx, BIG, LIN_NODE, NODE, TICK,
};
use second::gateway::{Gateway, Waiting};
use second::lin::enhanced_checksum;
use second::refusal::Refusal;
use second::taken::Taken;

/// Nodes 0 to 2 are CAN nodes, 3 and 4 LIN nodes. Node 2 has no frames.
const NODES: usize = 5;

/// Frames and requests of many periods, and sources that send some of the frames.
fn plan() -> Vec<u8> {
    let mut records = vec![BIG.to_vec(), join(&[NODE; 3]), join(&[LIN_NODE; 2])];
    for (number, node) in (0..).zip([0, 3, 1, 0, 3, 1, 4, 0, 3, 0]) {
        let (prescaler, reload) = ([1, 2, 1, 10][number % 4], number as u8 % 4);
        let flags = [0, 1, 2, 3][number % 4];
        records.push(tx(node, 5, 1, prescaler, reload, 1, flags, [0; 8]));
    }
    for (node, id) in [(0, 7), (2, 7), (3, 7), (3, 9), (3, 12), (4, 7)] {
        let reload = (id % 3) as u8 + 1;
        records.push(rx(node, id, 1, 1, reload, 1, 0, 0, 0));
        if id == 7 {
            // Each source has bits of its own in each frame.
            records.push(signal(0, 1));
            records.extend((0..10).map(|frame| destination(frame, node)));
        }
    }
    join(&records)
}

/// How many frames and requests can be scheduled on the node.
fn room(gateway: &Gateway, node: usize) -> usize {
    let plan = gateway.plan();
    let frames = plan.tx_frames.iter();
    let rows = plan.rx_frames.iter().filter(|row| plan.is_on_lin(row));
    frames.filter(|tx| usize::from(tx.node) == node).count()
        + rows.filter(|row| usize::from(row.node) == node).count()
}

/// Numbers that are the same at each run.
struct Numbers(u64);

impl Numbers {
    fn below(&mut self, limit: u64) -> u64 {
        self.0 = self.0.wrapping_mul(6_364_136_223_846_793_005);
        self.0 = self.0.wrapping_add(1_442_695_040_888_963_407);
        (self.0 >> 33) % limit
    }
}

fn taken(answer: Result<Option<Taken>, Refusal>) -> Option<Waiting> {
    match answer.ok()?? {
        Taken::Frame(frame) => Some(Waiting::Frame(frame.tx_frame)),
        Taken::Request(request) => Some(Waiting::Request(request.rx_frame)),
    }
}

/// Any call but an opening; some are refused. Answers the node of a take that is
/// not, and what it handed back.
fn call(gateway: &mut Gateway, numbers: &mut Numbers) -> Option<(usize, Option<Waiting>)> {
    let node = numbers.below(NODES as u64 + 1) as u8;
    let id = [7, 9, 12, 13][numbers.below(4) as usize];
    let payload = vec![numbers.below(256) as u8; [0, 1, 1, 2, 9][numbers.below(5) as usize]];
    match numbers.below(8) {
        0 => gateway.tick(&mut [0; 6]).expect("a long enough report"),
        1 => assert!(gateway.tick(&mut [0; 5]).is_err()),
        2 => {
            gateway.receive(node, id, &payload).ok();
        }
        3 => {
            let wrong = u8::from(numbers.below(3) == 0);
            let checksum = enhanced_checksum(id, &payload) ^ wrong;
            gateway.response(node, id, &payload, checksum).ok();
        }
        4 => {
            gateway.no_response(node, id).ok();
        }
        5 => {
            gateway.fullness(id.into()).ok();
        }
        _ => {
            let answer = gateway.take(node);
            let is_node = usize::from(node) < NODES;
            assert_eq!(answer.is_ok(), is_node);
            return is_node.then(|| (node.into(), taken(answer)));
        }
    }
    None
}

#[test]
fn a_queue_never_holds_more_than_can_be_scheduled_on_its_node() {
    let mut gateway = Gateway::open(&plan()).expect("a good plan");
    let rooms: Vec<usize> = (0..NODES).map(|node| room(&gateway, node)).collect();
    assert_eq!(rooms, [4, 2, 0, 6, 2]);
    let mut numbers = Numbers(14);
    let mut filled = BTreeSet::new();
    for _ in 0..20_000 {
        call(&mut gateway, &mut numbers);
        for (node, room) in rooms.iter().enumerate() {
            let waiting = gateway.queue(node).len();
            assert!(waiting <= *room, "node {node}");
            if waiting == *room {
                filled.insert(node);
            }
        }
    }
    // None has room to spare.
    assert_eq!(filled.len(), NODES);
}

#[test]
fn with_n_ahead_it_leaves_at_take_n_plus_1() {
    let mut gateway = Gateway::open(&plan()).expect("a good plan");
    let mut numbers = Numbers(15);
    // What waits, with its node and the takes until it leaves.
    let mut due: Vec<(usize, Waiting, usize)> = Vec::new();
    let mut left = BTreeSet::new();
    for _ in 0..20_000 {
        if let Some((node, taken)) = call(&mut gateway, &mut numbers) {
            for (_, _, takes) in due.iter_mut().filter(|(of, ..)| *of == node) {
                *takes -= 1;
            }
            let now = due.iter().position(|(_, _, takes)| *takes == 0);
            assert_eq!(taken, now.map(|place| due.remove(place).1));
        }
        for node in 0..NODES {
            for (ahead, waiting) in gateway.queue(node).iter().enumerate() {
                if due.iter().all(|(_, other, _)| other != waiting) {
                    due.push((node, *waiting, ahead + 1));
                    left.insert(ahead);
                }
            }
        }
    }
    assert_eq!(left, BTreeSet::from([0, 1, 2, 3, 4, 5]));
}

#[test]
fn all_of_a_node_wait_at_once() {
    let frame = |node| tx(node, 5, 1, 1, 1, 1, 0, [0; 8]);
    let mut records = vec![BIG.to_vec(), NODE.to_vec(), LIN_NODE.to_vec()];
    records.extend([0, 1, 0, 1].map(frame));
    // The row of the CAN node cannot be scheduled.
    records.extend([(0, 7), (1, 7), (1, 9)].map(|(node, id)| rx(node, id, 1, 1, 1, 1, 0, 0, 0)));
    let mut gateway = Gateway::open(&join(&records)).expect("a good plan");
    for _ in 0..3 {
        gateway.tick(&mut [0; 3]).expect("a long enough report");
        assert_eq!([gateway.queue(0).len(), gateway.queue(1).len()], [2, 4]);
    }
}

#[test]
fn a_frame_scheduled_while_it_waits_keeps_its_turn() {
    // Frame 0 is due once, and a source sends it; frame 1 is due once.
    let plan = join(&[
        join(&[BIG, NODE, NODE]),
        tx(0, 5, 1, 1, 0, 1, 1, [0; 8]),
        tx(0, 6, 1, 1, 0, 1, 0, [0; 8]),
        rx(0, 7, 1, 1, 0, 0, 0, 0, 0),
        signal(0, 8),
        destination(0, 0),
    ]);
    let events = join(&[
        TICK.to_vec(),
        take(1),
        reception(0, 7, &[0xAB]),
        take(2),
        take(0),
        reception(0, 7, &[0xCD]),
        take(0),
        take(0),
        take(0),
    ]);
    let expected = [
        "plan ok 2 2 1",
        "tick 0",
        "take none",
        "rx 0",
        "take refused 12",
        "take 0 5 1 ab 1",
        "rx 0",
        "take 1 6 1 00 1",
        "take 0 5 1 cd 0",
        "take none",
    ];
    assert_eq!(lines(&plan, &events), expected);
}
