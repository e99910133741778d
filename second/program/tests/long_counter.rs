//! The long counter.
//!
//! Ticket 1: "The long counter must start again at every accepted reception, so
//! that a long timeout means that many expiries in a row."

mod common;

use common::{join, lines, reception, reception_of_length, rx, take, BIG, NODE, TICK};
use second::gateway::{Answer, Gateway};
use second::refusal::Refusal;

/// A row of one byte that expires at each tick.
fn row(node: u8, id: u16, long_count: u8) -> Vec<u8> {
    rx(node, id, 1, 1, 1, 1, 0, 0, long_count)
}

/// Two nodes and these rows.
fn plan(rows: &[Vec<u8>]) -> Vec<u8> {
    join(&[BIG.to_vec(), NODE.to_vec(), NODE.to_vec(), join(rows)])
}

fn tick() -> Vec<u8> {
    TICK.to_vec()
}

/// A reception that row (0, 5) accepts.
fn accepted() -> Vec<u8> {
    reception(0, 5, &[1])
}

/// The lines of these events, without that of the plan.
fn event_lines(rows: &[Vec<u8>], events: &[Vec<u8>]) -> Vec<String> {
    lines(&plan(rows), &join(events))[1..].to_vec()
}

#[test]
fn a_reception_between_two_expiries_puts_the_long_timeout_off() {
    let events = [tick(), tick(), accepted(), tick(), tick(), tick()];
    let expected = ["tick 1", "tick 1", "rx 0", "tick 1", "tick 1", "tick 2"];
    assert_eq!(event_lines(&[row(0, 5, 3)], &events), expected);
}

#[test]
fn short_gaps_do_not_add_up() {
    // "The position converter misses one frame every hour.": one expiry, then
    // a frame again, many times.
    let hours = 10;
    let events = vec![[tick(), accepted()].concat(); hours];
    let expected = vec!["tick 1\nrx 0"; hours].join("\n");
    assert_eq!(event_lines(&[row(0, 5, 3)], &events).join("\n"), expected);
}

#[test]
fn expiries_in_a_row_are_long_timeouts_again_and_again() {
    let events = vec![tick(); 9];
    let expected = ["tick 1", "tick 1", "tick 2"].repeat(3);
    assert_eq!(event_lines(&[row(0, 5, 3)], &events), expected);
}

#[test]
fn a_reception_after_a_long_timeout_begins_the_long_count_anew() {
    let mut events = vec![tick(); 4];
    events.push(accepted());
    events.extend(vec![tick(); 3]);
    let mut expected = vec!["tick 1", "tick 1", "tick 2", "tick 1"];
    expected.push("rx 0");
    expected.extend(["tick 1", "tick 1", "tick 2"]);
    assert_eq!(event_lines(&[row(0, 5, 3)], &events), expected);
}

#[test]
fn what_is_no_accepted_reception_does_not_put_a_long_timeout_off() {
    let others = [
        (reception(0, 5, &[]), "rx 2"),
        (reception(0, 6, &[1]), "rx 1 1"),
        (reception(1, 5, &[1]), "rx 1 0"),
        (reception(0, 2048 + 5, &[1]), "rx 1 1"),
        (reception(2, 5, &[1]), "rx refused 12"),
        (reception_of_length(0, 5, 9, [0; 8]), "rx refused 13"),
        (take(0), "take none"),
        (take(2), "take refused 12"),
    ];
    for (other, line) in others {
        let events = [tick(), other.clone(), tick(), other, tick()];
        let expected = ["tick 1", line, "tick 1", line, "tick 2"];
        assert_eq!(event_lines(&[row(0, 5, 3)], &events), expected);
    }
}

#[test]
fn a_tick_without_an_expiry_does_not_put_a_long_timeout_off() {
    // A row that expires at every second tick.
    let row = rx(0, 5, 1, 1, 2, 2, 0, 0, 2);
    let expected = ["tick 0", "tick 1", "tick 0", "tick 2"];
    assert_eq!(event_lines(&[row], &vec![tick(); 4]), expected);
}

#[test]
fn a_refused_tick_does_not_put_a_long_timeout_off() {
    let mut gateway = Gateway::open(&plan(&[row(0, 5, 2)])).expect("a good plan");
    let mut report = [0];
    assert_eq!(gateway.tick(&mut report), Ok(()));
    assert_eq!(gateway.tick(&mut []), Err(Refusal::ReportTooShort));
    assert_eq!(gateway.tick(&mut report), Ok(()));
    assert_eq!(report, [2]);
}

#[test]
fn a_reception_restarts_its_own_row_only() {
    let keys = [(0, 5), (0, 6), (1, 5)];
    let rows = keys.map(|(node, id)| row(node, id, 2));
    for (number, (node, id)) in keys.into_iter().enumerate() {
        let events = [tick(), reception(node, id, &[1]), tick()];
        let mut report = ["2"; 3];
        report[number] = "1";
        let last = format!("tick {}", report.join(" "));
        assert_eq!(event_lines(&rows, &events), ["tick 1 1 1", "rx 0", &last]);
    }
}

#[test]
fn a_row_restarts_at_its_own_long_count() {
    let rows = [row(0, 4, 2), row(0, 5, 3), row(0, 6, 4)];
    let events = [tick(), accepted(), tick(), tick(), tick()];
    let expected = [
        "tick 1 1 1",
        "rx 0",
        "tick 2 1 1",
        "tick 1 1 1",
        "tick 2 2 2",
    ];
    assert_eq!(event_lines(&rows, &events), expected);
}

#[test]
fn every_length_that_is_accepted_restarts() {
    for length in 1..=8 {
        let long = reception_of_length(0, 5, length, [1; 8]);
        let events = [tick(), long, tick(), tick()];
        let expected = ["tick 1", "rx 0", "tick 1", "tick 2"];
        assert_eq!(event_lines(&[row(0, 5, 2)], &events), expected);
    }
}

#[test]
fn with_long_count_1_each_expiry_is_long() {
    let events = [tick(), accepted(), tick(), tick(), accepted(), tick()];
    let expected = ["tick 2", "rx 0", "tick 2", "tick 2", "rx 0", "tick 2"];
    assert_eq!(event_lines(&[row(0, 5, 1)], &events), expected);
}

#[test]
fn with_long_count_0_no_expiry_is_long() {
    let events = [tick(), accepted(), tick(), tick(), accepted(), tick()];
    let expected = ["tick 1", "rx 0", "tick 1", "tick 1", "rx 0", "tick 1"];
    assert_eq!(event_lines(&[row(0, 5, 0)], &events), expected);
}

/// For each long count, an acceptance after 0, 1, 2, .. expiries in a row: an
/// expiry is long exactly if those since the last acceptance, or since opening,
/// are a multiple of the long count.
#[test]
fn each_long_count_counts_the_expiries_in_a_row() {
    for long_count in 0..=15 {
        let rows = [row(0, 5, long_count)];
        let mut gateway = Gateway::open(&plan(&rows)).expect("a good plan");
        for in_a_row in 0..=40 {
            for expiry in 1..=in_a_row {
                let is_long = long_count > 0 && expiry % long_count == 0;
                let mut report = [0];
                assert_eq!(gateway.tick(&mut report), Ok(()));
                assert_eq!(report, [1 + u8::from(is_long)]);
            }
            assert_eq!(gateway.receive(0, 5, &[1]), Ok(Answer::Accepted));
        }
    }
}
