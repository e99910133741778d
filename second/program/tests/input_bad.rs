//! Every case of `input bad`, and a search for inputs that make it panic.

mod common;

use common::{
    input, join, lines, no_response, reception, response, take, BIG, LIN_NODE, NODE, TICK,
};
use second::run;

fn one_node() -> Vec<u8> {
    join(&[BIG, NODE])
}

#[test]
fn input_too_short_for_the_length_or_the_plan() {
    assert_eq!(run(&[]), "input bad\n");
    assert_eq!(run(&[0]), "input bad\n");
    assert_eq!(run(&[0, 3, 1, 0]), "input bad\n");
    assert_eq!(run(&[0xFF, 0xFF, 1, 0]), "input bad\n");
    assert_eq!(run(&[0, 2, 1, 0]), "plan ok 0 0 0\n");
}

#[test]
fn input_over_65_536_bytes() {
    let mut bytes = input(&BIG, &[]);
    bytes.resize(65_536, 17);
    let output = run(&bytes);
    assert!(output.starts_with("plan ok 0 0 0\ntick\n"));
    assert_eq!(output.lines().count(), 65_536 - 4 + 1);
    bytes.push(17);
    assert_eq!(run(&bytes), "input bad\n");
}

#[test]
fn cut_event_records() {
    for whole in [reception(0, 1, &[]), response(0, 1, &[]), no_response(0, 1)] {
        for cut in 1..whole.len() {
            let events = join(&[take(0), whole[..cut].to_vec()]);
            let expected = ["plan ok 1 0 0", "take none", "input bad"];
            assert_eq!(lines(&one_node(), &events), expected);
        }
    }
    assert_eq!(lines(&one_node(), &[18]), ["plan ok 1 0 0", "input bad"]);
}

#[test]
fn unknown_event_records_end_it() {
    for kind in [0, 1, 15, 22, 255] {
        let events = join(&[TICK, [kind], TICK]);
        let expected = ["plan ok 1 0 0", "tick", "input bad"];
        assert_eq!(lines(&one_node(), &events), expected);
    }
}

#[test]
fn a_refused_plan_ends_it_before_any_event() {
    assert_eq!(lines(&[9], &[255]), ["plan refused 2 0"]);
}

/// A plain generator of bytes (xorshift).
struct Bytes(u64);

impl Bytes {
    fn next(&mut self) -> u64 {
        self.0 ^= self.0 << 13;
        self.0 ^= self.0 >> 7;
        self.0 ^= self.0 << 17;
        self.0
    }

    fn below(&mut self, limit: usize) -> usize {
        (self.next() % limit as u64) as usize
    }
}

fn assert_well_formed(output: &str) {
    let starts = ["input bad\n", "plan ok ", "plan refused "];
    assert!(starts.iter().any(|start| output.starts_with(start)));
    assert!(output.ends_with('\n'));
}

#[test]
fn random_bytes_never_panic() {
    let mut bytes = Bytes(0x5EC0_4D5E_C04D_5EC1);
    for _ in 0..20_000 {
        let plan: Vec<u8> = (0..bytes.below(40))
            .map(|_| bytes.next() as u8 % 10)
            .collect();
        let events: Vec<u8> = (0..bytes.below(60))
            .map(|_| bytes.next() as u8 % 24)
            .collect();
        assert_well_formed(&run(&input(&plan, &events)));
        let any: Vec<u8> = (0..bytes.below(80)).map(|_| bytes.next() as u8).collect();
        assert_well_formed(&run(&any));
    }
}

#[test]
fn damaged_inputs_never_panic() {
    let plan = join(&[
        one_node(),
        LIN_NODE.to_vec(),
        common::tx(0, 3, 2, 1, 2, 1, 3, [0; 8]),
        common::tx(1, 3, 2, 1, 2, 1, 3, [0; 8]),
        common::tx_29(0, 3, 2, 1, 2, 1, 3, [0; 8]),
        common::rx(0, 4, 2, 1, 2, 1, 1, 15, 2),
        common::signal(1, 9),
        common::destination(0, 2),
        common::rx_29(0, 4, 2, 1, 2, 1, 1, 15, 2),
        common::signal(1, 9),
        common::destination(2, 2),
        common::rx(1, 4, 2, 1, 2, 1, 1, 15, 2),
        common::signal(1, 9),
        common::destination(1, 2),
    ]);
    let events = join(&[
        reception(0, 4, &[0xA5, 0x5A]),
        common::reception_29(0, 4, &[0xA5, 0x5A]),
        response(1, 4, &[0xA5, 0x5A]),
        TICK.to_vec(),
        take(0),
        no_response(1, 4),
        TICK.to_vec(),
        take(1),
    ]);
    let good = input(&plan, &events);
    assert!(run(&good).starts_with("plan ok 2 3 3\nrx 0\nrx 0\nrx 0\n"));
    let mut bytes = Bytes(0x0D0C_0001_0D0C_0001);
    for place in 0..good.len() {
        for value in 0..=255 {
            let mut damaged = good.clone();
            damaged[place] = value;
            assert_well_formed(&run(&damaged));
            let other = bytes.below(damaged.len());
            damaged[other] = bytes.next() as u8;
            damaged.truncate(1 + bytes.below(good.len()));
            assert_well_formed(&run(&damaged));
        }
    }
}
