//! Ticket 14's sentences: lines that break them are found, no others are, and
//! the table counts the queues that were met.

mod common;

use common::{assert_met_by, case_of, cases, met_of, once, tally_of, Add};
use compare::events::{right_checksum, Events};
use compare::leaving_rows::{self, LEAVING_PAIRS};
use compare::lines::out_of_turn;
use compare::room_rows::{self, ROOM_PAIRS};
use compare::run::faults;
use compare::shapes::Shapes;
use compare::spec::{Destination, Plan, Rx, Signal, Tx};

#[test]
fn a_round_meets_the_rows_of_queues_by_its_own_shapes() {
    let mut rows = room_rows::rows();
    rows.extend(leaving_rows::rows());
    // The largest room of both kinds is met by a shape of LIN nodes.
    assert_met_by(&["queues: ", "lin: 256 frames"], &rows);
}

/// A Tx frame of one byte that is due at this tick, from 1, and at every one
/// after it.
fn frame(node: u8, timer: u8) -> Tx {
    Tx {
        timer,
        reload: 1,
        ..Tx::quiet(node, 5, 1)
    }
}

/// The same for a row.
fn row(node: u8, id: u16, timer: u8) -> Rx {
    Rx {
        timer,
        reload: 1,
        ..Rx::quiet(node, id, 1)
    }
}

/// So many nodes, of which the last ones are LIN nodes.
fn plan(nodes: usize, lin: usize, tx: &[Tx], rx: &[Rx]) -> Plan {
    Plan {
        nodes,
        lin,
        tx: tx.to_vec(),
        rx: rx.to_vec(),
        ..Plan::default()
    }
}

/// Adds ticks and takes: `t` is a tick, a digit a take on that node.
fn add(events: &mut Events, steps: &str) {
    for step in steps.chars() {
        match step.to_digit(10) {
            Some(node) => events.take(node as u8),
            None => events.ticks(1),
        }
    }
}

/// The rows of the room that these steps meet, without those of pairs.
fn room(plan: &Plan, steps: &str) -> Vec<(String, u64)> {
    let mut events = Events::new(plan);
    add(&mut events, steps);
    let is_of_pairs = |row: &String| ROOM_PAIRS.iter().any(|(of_pairs, _)| row == of_pairs);
    let rows = room_rows::rows()
        .into_iter()
        .filter(|row| !is_of_pairs(row));
    met_of(rows.collect(), &tally_of([case_of(plan, &events)]))
}

/// Those of them that begin in this way.
fn room_of(start: &str, plan: &Plan, steps: &str) -> Vec<(String, u64)> {
    let rows = room(plan, steps).into_iter();
    rows.filter(|(row, _)| row.starts_with(start)).collect()
}

#[test]
fn full_queues_are_counted_by_what_can_be_scheduled() {
    // A row of a CAN node cannot.
    let can = plan(1, 0, &[frame(0, 1), frame(0, 3)], &[row(0, 7, 1)]);
    assert_eq!(room_of("full", &can, "tt"), once(&[]));
    assert_eq!(room_of("full", &can, "ttt"), once(&["full: CAN node"]));
    // It stays full.
    assert_eq!(room_of("full", &can, "ttttt"), once(&["full: CAN node"]));
    let lin = plan(1, 1, &[frame(0, 1)], &[]);
    let full = ["full: LIN node, frames only", "full: room 1"];
    assert_eq!(room_of("full", &lin, "t"), once(&full));
    let lin = plan(1, 1, &[], &[row(0, 7, 1)]);
    let full = ["full: LIN node, requests only", "full: room 1"];
    assert_eq!(room_of("full", &lin, "t"), once(&full));
    let lin = plan(1, 1, &[frame(0, 2)], &[row(0, 7, 1)]);
    assert_eq!(room_of("full", &lin, "t"), once(&[]));
    assert_eq!(room_of("full", &lin, "tt"), once(&["full: LIN node, both"]));
}

#[test]
fn the_largest_rooms_are_counted() {
    let largest = |frames, requests| {
        let tx = vec![frame(0, 1); frames];
        let rx: Vec<Rx> = (0..requests).map(|id| row(0, id, 1)).collect();
        let rows = room_of("full: ", &plan(1, 1, &tx, &rx), "t").into_iter();
        let rows = rows.map(|(row, _)| row);
        rows.filter(|row| !row.starts_with("full: LIN node"))
            .collect::<Vec<String>>()
    };
    assert_eq!(largest(256, 0), ["full: 256 frames"]);
    assert_eq!(largest(0, 60), ["full: 60 requests"]);
    assert_eq!(largest(256, 60), ["full: 256 frames and 60 requests"]);
    assert_eq!(largest(255, 0), Vec::<String>::new());
    assert_eq!(largest(196, 60), Vec::<String>::new());
}

#[test]
fn the_places_of_a_ring_are_counted() {
    let three = plan(1, 0, &vec![frame(0, 1); 3], &[]);
    let count = |steps: &str, row: &str| {
        let rows = room(&three, steps);
        let found = rows.iter().find(|(met, _)| met == row);
        found.map_or(0, |(_, count)| *count)
    };
    let last = "joined at the last place, frames only";
    let again = "joined at the first place again, frames only";
    let wrapped = "full and wrapped, frames only";
    let across = "takes across the ring's end, frames only";
    assert_eq!([count("t", last), count("t", again)], [1, 0]);
    // Places 0, 1 and 2, and each once more.
    assert_eq!([count("t0t", again), count("t0t0t", again)], [1, 1]);
    assert_eq!([count("t0t0t", last), count("t0t0t0t", last)], [1, 2]);
    assert_eq!([count("t0t", wrapped), count("t00t", wrapped)], [1, 1]);
    assert_eq!([count("t", wrapped), count("t000t", wrapped)], [0, 0]);
    // The oldest stands at place 1, then at 2.
    assert_eq!([count("t0t0", across), count("t0t00", across)], [0, 1]);
    assert_eq!(count("t000", across), 0);
    let ten = "gone round ten times, frames only";
    let rounds = |joins: usize| format!("t{}", "0t".repeat(joins - 3));
    assert_eq!(count(&rounds(30), ten), 0);
    assert_eq!(count(&rounds(31), ten), 1);
    assert_eq!(count(&rounds(61), ten), 1);
}

#[test]
fn the_places_of_requests_are_counted() {
    let both = plan(1, 1, &[frame(0, 1)], &[row(0, 7, 1)]);
    let rows = [
        "joined at the last place, with requests",
        "requests joined at the last place",
    ];
    assert_eq!(room_of("joined", &both, "t"), once(&rows[..1]));
    assert_eq!(room_of("requests", &both, "t"), once(&rows[1..]));
    // The frame joins at the first place again; then the request does at its.
    let again = "joined at the first place again, with requests";
    assert_eq!(room_of("joined", &both, "t0t"), once(&[rows[0], again]));
    assert_eq!(room_of("requests", &both, "t0t"), once(&rows[1..]));
    // A ring of one place has no other.
    let one = plan(1, 1, &[], &[row(0, 7, 1)]);
    assert_eq!(room_of("joined", &one, "t0t0t"), once(&[]));
}

#[test]
fn pairs_of_rooms_are_counted_once() {
    let pairs = |steps: &str| {
        let plan = plan(2, 1, &vec![frame(0, 1); 3], &[row(1, 7, 1), row(1, 9, 1)]);
        let mut events = Events::new(&plan);
        add(&mut events, steps);
        let tally = tally_of([case_of(&plan, &events)]);
        ROOM_PAIRS.map(|(row, _)| tally.count(row))
    };
    assert_eq!(pairs("t"), [2, 1, 1]);
    assert_eq!(pairs("t0t0t0t0t"), [2, 3, 1]);
    assert_eq!(pairs("t0t1t1t"), [2, 2, 2]);
}

#[test]
fn full_neighbours_are_counted() {
    let neighbours = |timers: [u8; 2]| {
        let plan = plan(2, 1, &[frame(0, timers[0]), frame(1, timers[1])], &[]);
        room_of("neighbours", &plan, "tt")
    };
    assert_eq!(neighbours([1, 1]), once(&["neighbours full at once"]));
    let lower = ["neighbours full, the lower one last"];
    assert_eq!(neighbours([2, 1]), once(&lower));
    let upper = ["neighbours full, the upper one last"];
    assert_eq!(neighbours([1, 2]), once(&upper));
    assert_eq!(neighbours([1, 3]), once(&[]));
    let sixteen: Vec<Tx> = (0..16).map(|node| frame(node, 1)).collect();
    let at_once = room_of("full: 16", &plan(16, 0, &sixteen, &[]), "t");
    assert_eq!(at_once, once(&["full: 16 nodes at once"]));
    let fifteen = plan(16, 0, &sixteen[1..], &[]);
    assert_eq!(room_of("full: 16", &fifteen, "t"), once(&[]));
}

#[test]
fn nodes_without_room_are_counted() {
    let beside = |timers: &[(u8, u8)]| {
        let frames: Vec<Tx> = timers.iter().map(|(node, t)| frame(*node, *t)).collect();
        let rows = room(&plan(3, 0, &frames, &[row(1, 7, 1)]), "tt").into_iter();
        rows.map(|(row, _)| row)
            .filter(|row| row.contains("without room"))
            .collect::<Vec<String>>()
    };
    let below = "full below a node without room";
    let above = "full above a node without room";
    let both = "full on both sides of a node without room";
    assert_eq!(beside(&[(0, 1)]), [below]);
    assert_eq!(beside(&[(2, 1)]), [above]);
    for timers in [[1, 1], [1, 2], [2, 1]] {
        let [lower, upper] = timers;
        assert_eq!(beside(&[(0, lower), (2, upper)]), [below, above, both]);
    }
    let none = |plan: Plan| room_of("take none", &plan, "0t0");
    let with_rows = "take none, no room, CAN node with rows".to_string();
    assert_eq!(none(plan(1, 0, &[], &[row(0, 7, 1)])), [(with_rows, 2)]);
    let without_rows = "take none, no room, CAN node without rows".to_string();
    assert_eq!(none(plan(1, 0, &[], &[])), [(without_rows, 2)]);
    let on_lin = "take none, no room, LIN node".to_string();
    assert_eq!(none(plan(1, 1, &[], &[])), [(on_lin, 2)]);
    assert_eq!(none(plan(1, 1, &[], &[row(0, 7, 1)])), once(&[]));
}

const DATA: [u8; 8] = [0; 8];

/// CAN node 0 with row 7, node 1 with three frames, of which two are due at tick
/// 1, node 2 with a frame, and LIN node 3 with row 9.
fn waiting_plan() -> Plan {
    let frame = |node, timer, reload| Tx {
        timer,
        reload,
        ..Tx::quiet(node, 5, 1)
    };
    let frames = [
        frame(1, 1, 0),
        frame(1, 1, 0),
        frame(1, 2, 0),
        frame(2, 1, 0),
    ];
    let rows = [Rx::quiet(0, 7, 1), Rx::quiet(3, 9, 1)];
    plan(4, 1, &frames, &rows)
}

/// The rows of the leaving order that are met if this comes while two frames
/// wait, without those of pairs; and the pairs of what came.
fn between(plan: &Plan, come: Add) -> (Vec<(String, u64)>, u64) {
    let mut events = Events::new(plan);
    events.ticks(1);
    come(&mut events);
    add(&mut events, "11");
    let tally = tally_of([case_of(plan, &events)]);
    let [what_left, what_came] = LEAVING_PAIRS.map(|(row, _)| row);
    assert_eq!(tally.count(what_left), 2);
    let mut rows = leaving_rows::rows();
    rows.retain(|row| row != what_left && row != what_came);
    (met_of(rows, &tally), tally.count(what_came))
}

#[test]
fn what_comes_while_a_frame_waits_is_counted() {
    let plan = waiting_plan();
    let right = right_checksum(9, 1, &DATA);
    assert_eq!(right, 0xB6);
    let others: [(&str, Add); 14] = [
        ("rx 0", |e| e.reception(0, 7, 1, DATA)),
        ("rx 0", |e| e.response(3, 9, 1, DATA, 0xB6)),
        ("rx 1", |e| e.reception(0, 8, 1, DATA)),
        ("rx 2", |e| e.reception(0, 7, 0, DATA)),
        ("rx 3", |e| e.response(3, 9, 1, DATA, 0xB7)),
        ("rx refused 12", |e| e.reception(4, 7, 1, DATA)),
        ("rx refused 13", |e| e.reception(0, 7, 9, DATA)),
        ("rx refused 16", |e| e.reception(3, 9, 1, DATA)),
        ("silent", |e| e.no_response(3, 9)),
        ("silent refused 12", |e| e.no_response(4, 9)),
        ("silent refused 16", |e| e.no_response(0, 7)),
        ("take none", |e| e.take(0)),
        ("take refused 12", |e| e.take(4)),
        ("a take on another node", |e| e.take(2)),
    ];
    for (what, come) in others {
        // One had another ahead of it; the pairs are of both.
        let row = format!("left in turn despite {what}");
        assert_eq!(between(&plan, come), (once(&[&row]), 2), "{what}");
    }
    assert_eq!(between(&plan, |_| {}), (once(&[]), 0));
    let tick_and_join = [
        "left in turn despite a tick",
        "left in turn despite one that joined behind it",
    ];
    assert_eq!(between(&plan, |e| e.ticks(1)), (once(&tick_and_join), 4));
}

#[test]
fn a_scheduling_while_a_frame_waits_is_counted() {
    let mut plan = waiting_plan();
    plan.tx.truncate(2);
    plan.tx[1].reload = 2;
    let tick = "left in turn despite a tick";
    let expiry = "left in turn despite its own expiry";
    assert_eq!(between(&plan, |e| e.ticks(1)), (once(&[tick]), 2));
    assert_eq!(between(&plan, |e| e.ticks(2)), (once(&[tick, expiry]), 3));
    plan.rx[0].signals = vec![Signal {
        position: 0,
        size: 1,
        destinations: vec![Destination { tx: 1, position: 0 }],
    }];
    let reception: Add = |e| e.reception(0, 7, 1, [0xFF; 8]);
    let rx_0 = "left in turn despite rx 0";
    // With flag 2 a change is not told from none.
    for flags in [0, 2] {
        plan.tx[1].flags = flags;
        assert_eq!(between(&plan, reception), (once(&[rx_0]), 2));
    }
    let scheduled = "left in turn despite its scheduling by a reception";
    for flags in [1, 3] {
        plan.tx[1].flags = flags;
        assert_eq!(between(&plan, reception), (once(&[rx_0, scheduled]), 3));
    }
}

#[test]
fn what_is_ahead_is_counted() {
    let ahead = |plan: &Plan, steps: &str| {
        let mut events = Events::new(plan);
        add(&mut events, steps);
        let tally = tally_of([case_of(plan, &events)]);
        let mut rows = leaving_rows::rows();
        rows.retain(|row| row.starts_with("left in turn, "));
        let met = met_of(rows, &tally).into_iter();
        met.map(|(row, count)| (row["left in turn, ".len()..].to_string(), count))
            .collect::<Vec<(String, u64)>>()
    };
    let of = |frame_timer, row_timer| {
        let plan = plan(1, 1, &[frame(0, frame_timer)], &[row(0, 7, row_timer)]);
        ahead(&plan, "tt00")
    };
    assert_eq!(of(1, 2), once(&["a request behind a frame"]));
    assert_eq!(of(1, 1), once(&["a request behind a frame"]));
    assert_eq!(of(2, 1), once(&["a frame behind a request"]));
    let frames = plan(1, 0, &vec![frame(0, 1); 102], &[]);
    let steps = format!("t{}", "0".repeat(102));
    let hundred = "100 or more ahead, frames only".to_string();
    assert_eq!(ahead(&frames, &steps[..101]), once(&[]));
    assert_eq!(ahead(&frames, &steps), [(hundred, 2)]);
    let both = plan(1, 1, &vec![frame(0, 1); 100], &[row(0, 7, 1)]);
    let of_both = [
        "a request behind a frame",
        "100 or more ahead, with requests",
    ];
    assert_eq!(ahead(&both, &steps), once(&of_both));
}

/// What is said of these lines for these steps, but the line itself.
fn said(plan: &Plan, steps: &str, lines: &[&str]) -> Option<String> {
    let mut events = Events::new(plan);
    add(&mut events, steps);
    let input = plan.input(&events.bytes);
    let output = format!("plan ok\n{}\n", lines.join("\n"));
    let said = out_of_turn(&input, output.as_bytes())?;
    said.lines().nth(1).map(|how| how.trim().to_string())
}

fn assert_said(plan: &Plan, steps: &str, lines: &[&str], how: &str) {
    assert_eq!(said(plan, steps, lines).as_deref(), Some(how));
}

/// Two frames of node 0 and one of node 1 that are due at every tick.
fn due() -> Plan {
    let frames = [frame(0, 1), frame(0, 1), frame(1, 1)];
    plan(2, 1, &frames, &[row(0, 7, 1), row(1, 9, 1)])
}

#[test]
fn lines_that_hold_more_than_can_be_scheduled_are_found() {
    let plan = due();
    let lines = ["tick", "take 0 5 1 00 1", "take 1 5 1 00 0", "take none"];
    assert_eq!(said(&plan, "t000", &lines), None);
    let how = "node 0: 3 waited, and 2 can be scheduled on it";
    assert_said(&plan, "t0", &["tick", "take 0 5 1 00 2"], how);
    let how = "node 0: 1 wait, but at most 0 can by then";
    let lines = ["tick", "take 0 5 1 00 1", "take 1 5 1 00 1"];
    assert_said(&plan, "t00", &lines, how);
    // On a LIN node requests wait too.
    assert_eq!(said(&plan, "t1", &["tick", "take 2 5 1 00 1"]), None);
    let how = "node 1: 3 waited, and 2 can be scheduled on it";
    assert_said(&plan, "t1", &["tick", "take 2 5 1 00 2"], how);
    let how = "node 0: Tx frame 2 cannot be scheduled on it";
    assert_said(&plan, "t0", &["tick", "take 2 5 1 00 0"], how);
    let how = "node 0: the request for Rx frame 0 cannot be scheduled on it";
    assert_said(&plan, "t0", &["tick", "take request 0 7 1 0"], how);
    let how = "node 1: Tx frame 9 cannot be scheduled on it";
    assert_said(&plan, "t1", &["tick", "take 9 5 1 00 0"], how);
}

#[test]
fn lines_that_lose_what_waits_are_found() {
    let plan = due();
    let how = "node 0: none, but Tx frame 0 waits";
    assert_said(&plan, "t0", &["tick", "take none"], how);
    let how = "node 0: none, but the last take left 1";
    assert_said(&plan, "t00", &["tick", "take 0 5 1 00 1", "take none"], how);
    let how = "node 0: 0 wait, but 1 were scheduled and not taken";
    assert_said(&plan, "t0", &["tick", "take 0 5 1 00 0"], how);
    let how = "node 1: none, but the request for Rx frame 1 waits";
    let lines = ["tick", "take 2 5 1 00 0", "take none"];
    let how_before = "node 1: 0 wait, but 1 were scheduled and not taken";
    assert_said(&plan, "t11", &lines, how_before);
    let stopped = Plan {
        tx: vec![frame(0, 1), frame(0, 1), Tx::quiet(1, 5, 1)],
        ..plan
    };
    assert_said(&stopped, "t1", &["tick", "take none"], how);
}

#[test]
fn lines_out_of_turn_are_found() {
    let plan = due();
    let how = "node 0: Tx frame 0 joined before it";
    assert_said(&plan, "t0", &["tick", "take 1 5 1 00 1"], how);
    // The request of a tick joins behind its frames.
    let how = "node 1: Tx frame 2 joined before it";
    assert_said(&plan, "t1", &["tick", "take request 1 9 1 1"], how);
    let how = "node 0: again after 1 takes, but it left 1 waiting";
    let lines = ["tick", "take 0 5 1 00 1", "tick", "take 0 5 1 00 1"];
    assert_said(&plan, "t0t0", &lines, how);
    let lines = ["tick", "take 0 5 1 00 1", "tick", "take 1 5 1 00 1"];
    assert_eq!(said(&plan, "t0t0", &lines), None);
    let how = "node 0: it was not scheduled since it left";
    let lines = ["take 0 5 1 00 0"];
    assert_said(&plan, "0", &lines, how);
    let lines = [
        "tick",
        "take 0 5 1 00 1",
        "take 1 5 1 00 0",
        "take 0 5 1 00 0",
    ];
    assert_said(&plan, "t000", &lines, how);
}

/// Three frames of node 0 that are sent on change, and that a row may send.
fn on_change() -> Plan {
    let frame = Tx {
        flags: 2,
        ..Tx::quiet(0, 5, 1)
    };
    plan(1, 0, &[frame.clone(), frame.clone(), frame], &[])
}

#[test]
fn lines_of_frames_whose_scheduling_is_not_seen_are_held_to_each_other() {
    let plan = on_change();
    let takes = |takes: &[&str]| said(&plan, &"0".repeat(takes.len()), takes);
    let [a, b, c] = ["take 0 5 1 00 2", "take 1 5 1 00 1", "take 2 5 1 00 0"];
    assert_eq!(takes(&[a, b, c, "take none"]), None);
    assert_eq!(
        takes(&["take none", a, "take 2 5 1 00 2", b, c]),
        Some("node 0: again after 2 takes, but it left 2 waiting".to_string())
    );
    let lost = "node 0: 0 wait, but the last take left 2".to_string();
    assert_eq!(takes(&[a, c]), Some(lost));
    let again = "node 0: again after 2 takes, but it left 2 waiting".to_string();
    assert_eq!(takes(&[a, b, "take 0 5 1 00 1"]), Some(again));
    assert_eq!(takes(&[a, b, "take 2 5 1 00 1", "take 0 5 1 00 1"]), None);
    let gone = "node 0: none, but the last take left 1".to_string();
    assert_eq!(takes(&[a, b, "take none"]), Some(gone));
}

#[test]
fn a_frame_that_a_reception_schedules_leaves_in_as_many_takes_as_there_is_room() {
    let mut plan = on_change();
    plan.tx[2].flags = 1;
    let mut source = Rx::quiet(0, 7, 1);
    source.signals = vec![Signal {
        position: 0,
        size: 1,
        destinations: vec![Destination { tx: 2, position: 0 }],
    }];
    plan.rx.push(source);
    let said = |answer: &str, takes: &[&str]| {
        let mut events = Events::new(&plan);
        events.reception(0, 7, 1, DATA);
        takes.iter().for_each(|_| events.take(0));
        let output = format!("plan ok\n{answer}\n{}\n", takes.join("\n"));
        let said = out_of_turn(&plan.input(&events.bytes), output.as_bytes())?;
        said.lines().nth(1).map(|how| how.trim().to_string())
    };
    let [a, b] = ["take 0 5 1 00 1", "take 1 5 1 00 1"];
    assert_eq!(said("rx 0", &[a, b, "take 2 5 1 00 1"]), None);
    let late = "node 0: Tx frame 2 waits after 3 takes, its room".to_string();
    assert_eq!(said("rx 0", &[a, b, a]), Some(late));
    // Not accepted, so not scheduled.
    assert_eq!(said("rx 2", &[a, b, a]), None);
    let none = "node 0: none, but Tx frame 2 waits".to_string();
    assert_eq!(said("rx 0", &["take none"]), Some(none));
}

#[test]
fn refused_takes_and_other_lines_are_passed_over() {
    let plan = due();
    let lines = [
        "tick",
        "take refused 12",
        "take 0 5 1 00 1",
        "take refused 12",
        "rx 0",
        "take 1 5 1 00 0",
    ];
    assert_eq!(said(&plan, "t90900", &lines), None);
    // A refused tick schedules nothing.
    assert_eq!(said(&plan, "t0", &["tick refused 14", "take none"]), None);
    assert_eq!(said(&plan, "tt00", &["tick"]), None);
}

#[test]
fn the_line_and_what_is_wrong_with_it_are_said() {
    let plan = due();
    let mut events = Events::new(&plan);
    add(&mut events, "t0");
    let input = plan.input(&events.bytes);
    let expected = b"plan ok 2 3 2\ntick 1 0\ntake 0 5 1 00 1\n";
    assert_eq!(second::run(&input).as_bytes(), expected);
    let output = b"plan ok 2 3 2\ntick 1 0\ntake 1 5 1 00 1\n";
    let said = "first differing line: 3\n  second : take 0 5 1 00 1\n  command: take 1 5 1 00 1\n\
        queue room, line 3: take 1 5 1 00 1\n  node 0: Tx frame 0 joined before it\n";
    assert_eq!(faults(&input, expected, output).as_deref(), Some(said));
    // Also if both programs say it.
    let said = "queue room, line 3: take 1 5 1 00 1\n  node 0: Tx frame 0 joined before it\n";
    assert_eq!(faults(&input, output, output).as_deref(), Some(said));
}

#[test]
fn the_second_program_breaks_no_sentence() {
    let shapes = Shapes::all();
    for case in cases(&shapes, 14, 0..2 * shapes.count()) {
        let output = second::run(&case.input);
        let said = out_of_turn(&case.input, output.as_bytes());
        assert_eq!(said, None, "{}", case.shape);
    }
}

/// Where every scheduling is seen, so is every other count.
#[test]
fn every_altered_count_of_full_queues_is_found() {
    let shapes = Shapes::all();
    let names: Vec<&str> = shapes.names().collect();
    let is_own = |index: &usize| names[*index].starts_with("queues: rooms");
    let own: Vec<usize> = (0..shapes.count()).filter(is_own).collect();
    for case in cases(&shapes, 3, own) {
        let output = second::run(&case.input);
        let lines: Vec<&str> = output.lines().collect();
        for (number, line) in lines.iter().enumerate() {
            let Some((start, waiting)) = line.rsplit_once(' ') else {
                continue;
            };
            let (true, Ok(waiting)) = (line.starts_with("take "), waiting.parse::<usize>()) else {
                continue;
            };
            let mut altered = vec!["take none".to_string()];
            altered.extend(waiting.checked_sub(1).map(|less| format!("{start} {less}")));
            altered.push(format!("{start} {}", waiting + 1));
            for line in altered {
                let mut lines = lines.clone();
                lines[number] = &line;
                let said = out_of_turn(&case.input, lines.join("\n").as_bytes());
                assert!(said.is_some(), "{}: line {number}: {line}", case.shape);
            }
        }
    }
}
