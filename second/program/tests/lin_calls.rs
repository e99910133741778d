//! The calls on LIN nodes: a response, no response, and the old reception.

mod common;

use common::{
    destination, join, lines, no_response, reception, reception_of_length, response,
    response_of_length, response_with, rx, signal, take, tx, BIG, LIN_NODE, NODE, TICK,
};
use second::gateway::{Answer, Gateway};
use second::lin::{enhanced_checksum, folded_sum};
use second::refusal::Refusal;

/// Node 0 is CAN with row 5, node 1 is LIN with rows 5 and 17; row 17 has two
/// bytes, of which the first goes to Tx frame 0 on node 0, with its failure bit
/// behind it, and a long count of 2.
fn plan() -> Vec<u8> {
    join(&[
        join(&[BIG, NODE, LIN_NODE]),
        tx(0, 256, 2, 1, 0, 0, 1, [0; 8]),
        rx(0, 5, 1, 1, 0, 0, 0, 0, 0),
        rx(1, 5, 1, 1, 0, 0, 0, 0, 0),
        rx(1, 17, 2, 1, 3, 3, 1, 15, 2),
        signal(0, 8),
        destination(0, 0),
    ])
}

/// The lines of these events, without that of the plan.
fn event_lines(events: &[Vec<u8>]) -> Vec<String> {
    lines(&plan(), &join(events))[1..].to_vec()
}

/// A checksum that is not the one of this response.
fn wrong(id: u16, payload: &[u8]) -> u8 {
    enhanced_checksum(id, payload) ^ 1
}

#[test]
fn a_response_with_its_checksum_is_accepted() {
    let events = [response(1, 17, &[0xAB, 0xCD]), take(0)];
    assert_eq!(event_lines(&events), ["rx 0", "take 0 256 2 ab00 0"]);
}

#[test]
fn a_wrong_checksum_is_answer_3_and_changes_nothing() {
    let data = [0xAB, 0xCD];
    let right = enhanced_checksum(17, &data);
    let mut gateway = Gateway::open(&plan()).expect("a good plan");
    assert_eq!(gateway.no_response(1, 17), Ok(1));
    for checksum in (0..=255).filter(|checksum| *checksum != right) {
        let answer = gateway.response(1, 17, &data, checksum);
        assert_eq!(answer, Ok(Answer::WrongChecksum));
    }
    assert_eq!(Answer::WrongChecksum.number(), 3);
    // No copy, no scheduling, no clearing of the bit, no restart.
    assert_eq!(gateway.take(0), Ok(None));
    assert!((0..15).all(|bit| !gateway.kept_bit(0, bit)));
    assert!(gateway.kept_bit(0, 15));
    assert_eq!(gateway.no_response(1, 17), Ok(2));
}

#[test]
fn the_checksum_includes_the_protected_identifier() {
    // ID 05 is 85 protected.
    let of_data = |bytes: &[u8]| response_with(1, 5, &[0xAB], !folded_sum(bytes));
    let events = [
        of_data(&[0xAB]),
        of_data(&[0x05, 0xAB]),
        of_data(&[0x85, 0xAB]),
    ];
    assert_eq!(event_lines(&events), ["rx 3", "rx 3", "rx 0"]);
    let not_inverted = folded_sum(&[0x85, 0xAB]);
    let events = [response_with(1, 5, &[0xAB], not_inverted)];
    assert_eq!(event_lines(&events), ["rx 3"]);
}

/// Ticket 2: "in a reception every byte handed in".
#[test]
fn the_checksum_includes_bytes_past_the_size() {
    let long = [0xAB, 0xCD, 0xEF, 0x01, 0x02];
    let of_the_size = enhanced_checksum(17, &long[..2]);
    let events = [
        response(1, 17, &long),
        take(0),
        response_with(1, 17, &long, of_the_size),
    ];
    assert_eq!(
        event_lines(&events),
        ["rx 0", "take 0 256 2 ab00 0", "rx 3"]
    );
    // Data bytes past the length are not handed in.
    let data = [0xAB, 0xCD, 9, 9, 9, 9, 9, 9];
    let events = [
        response_of_length(1, 17, 2, data, of_the_size),
        response_of_length(1, 17, 2, data, enhanced_checksum(17, &data)),
    ];
    assert_eq!(event_lines(&events), ["rx 0", "rx 3"]);
}

#[test]
fn answer_2_comes_before_answer_3() {
    let events = [
        response(1, 17, &[0xAB]),
        response_with(1, 17, &[0xAB], wrong(17, &[0xAB])),
        response(1, 17, &[]),
        take(0),
    ];
    assert_eq!(event_lines(&events), ["rx 2", "rx 2", "rx 2", "take none"]);
}

#[test]
fn responses_give_12_then_16_then_13() {
    let nine = |node, id| response_of_length(node, id, 9, [0; 8], 0);
    let events = [
        response(2, 17, &[1, 2]),
        nine(2, 17),
        // A CAN node, with and without that row.
        response(0, 5, &[1]),
        response(0, 17, &[1, 2]),
        nine(0, 5),
        // No such row; 60 and above; the protected identifier of row 17.
        response(1, 18, &[1, 2]),
        response(1, 60, &[1, 2]),
        response(1, 64 + 17, &[1, 2]),
        response(1, 0x8000 + 17, &[1, 2]),
        nine(1, 18),
        nine(1, 17),
        response_of_length(1, 17, 255, [0; 8], 0),
    ];
    let expected = ["12", "12", "16", "16", "16", "16", "16", "16", "16", "16"];
    let mut expected: Vec<String> = expected.map(|no| format!("rx refused {no}")).to_vec();
    expected.extend(["rx refused 13", "rx refused 13"].map(String::from));
    assert_eq!(event_lines(&events), expected);
}

#[test]
fn refusal_13_comes_before_the_checksum() {
    // Of the nine zero bytes the checksum is that of the identifier alone.
    let right = enhanced_checksum(17, &[0; 9]);
    for checksum in [right, right ^ 1] {
        let events = [response_of_length(1, 17, 9, [1; 8], checksum)];
        assert_eq!(event_lines(&events), ["rx refused 13"]);
    }
}

#[test]
fn no_response_gives_12_then_16() {
    let events = [
        no_response(2, 17),
        no_response(255, 17),
        no_response(0, 5),
        no_response(0, 17),
        no_response(1, 18),
        no_response(1, 60),
        no_response(1, 64 + 17),
    ];
    let refused = ["12", "12", "16", "16", "16", "16", "16"];
    let expected = refused.map(|no| format!("silent refused {no}"));
    assert_eq!(event_lines(&events), expected);
    assert_eq!(Refusal::NotOfThisNode.number(), 16);
}

#[test]
fn the_old_reception_gives_16_on_a_lin_node_after_12_and_before_13() {
    let events = [
        reception(1, 17, &[1, 2]),
        reception(1, 17, &[]),
        reception(1, 18, &[1]),
        reception(1, 2048, &[1]),
        reception_of_length(1, 17, 9, [0; 8]),
        reception_of_length(2, 17, 9, [0; 8]),
        reception(2, 17, &[1, 2]),
        reception(0, 5, &[1]),
        reception(0, 17, &[1]),
        take(0),
    ];
    let refused = ["16", "16", "16", "16", "16", "12", "12"];
    let mut expected: Vec<String> = refused.map(|no| format!("rx refused {no}")).to_vec();
    expected.extend(["rx 0", "rx 1 1", "take none"].map(String::from));
    assert_eq!(event_lines(&events), expected);
}

/// Ticket 2: "A driver call "no response" does to bit and long counter what a
/// CAN expiry does, answers 1 or 2 as the report would".
#[test]
fn no_response_sets_the_bit_and_lowers_the_long_counter() {
    let mut gateway = Gateway::open(&plan()).expect("a good plan");
    for answer in [1, 2, 1, 2] {
        assert_eq!(gateway.no_response(1, 17), Ok(answer));
        assert!(gateway.kept_bit(0, 15));
    }
    // "A change of a failure bit schedules nothing."
    assert_eq!(gateway.take(0), Ok(None));
}

#[test]
fn no_response_without_indicator_or_long_count_answers_1() {
    let mut gateway = Gateway::open(&plan()).expect("a good plan");
    for _ in 0..20 {
        assert_eq!(gateway.no_response(1, 5), Ok(1));
    }
    assert!((0..16).all(|bit| !gateway.kept_bit(0, bit)));
}

#[test]
fn a_response_clears_the_bit_and_restarts_the_long_counter() {
    let accepted = || response(1, 17, &[0xAB, 0xCD]);
    let silent = || no_response(1, 17);
    let events = [silent(), accepted(), take(0), silent(), silent(), silent()];
    let expected = [
        "silent 1",
        "rx 0",
        "take 0 256 2 ab00 0",
        "silent 1",
        "silent 2",
        "silent 1",
    ];
    assert_eq!(event_lines(&events), expected);
}

/// Each long count: a "no response" is long exactly if those since the last
/// acceptance, or since opening, are a multiple of it.
#[test]
fn each_long_count_counts_the_silences_in_a_row() {
    for long_count in 0..=15 {
        let row = rx(0, 17, 1, 1, 0, 0, 0, 0, long_count);
        let plan = join(&[BIG.to_vec(), LIN_NODE.to_vec(), row]);
        let mut gateway = Gateway::open(&plan).expect("a good plan");
        for in_a_row in 0..=40 {
            for silence in 1..=in_a_row {
                let is_long = long_count > 0 && silence % long_count == 0;
                let answer = 1 + u8::from(is_long);
                assert_eq!(gateway.no_response(0, 17), Ok(answer));
            }
            let checksum = enhanced_checksum(17, &[1]);
            let accepted = gateway.response(0, 17, &[1], checksum);
            assert_eq!(accepted, Ok(Answer::Accepted));
        }
    }
}

/// Ticket 2: "Reception does not reload a LIN timer." Nor does "no response".
#[test]
fn the_timer_goes_on_whatever_comes() {
    let others = [
        (response(1, 17, &[1, 2]), "rx 0"),
        (response_with(1, 17, &[1, 2], wrong(17, &[1, 2])), "rx 3"),
        (response(1, 17, &[1]), "rx 2"),
        (no_response(1, 17), "silent 1"),
        (reception(1, 17, &[1, 2]), "rx refused 16"),
        (take(1), "take none"),
    ];
    for (other, line) in others {
        let tick = TICK.to_vec();
        let events = [tick.clone(), tick.clone(), other, tick, take(1), take(1)];
        let expected = [
            "tick 0 0 0",
            "tick 0 0 0",
            line,
            "tick 0 0 0",
            "take request 2 17 2 0",
            "take none",
        ];
        assert_eq!(event_lines(&events), expected);
    }
}

#[test]
fn signals_go_between_can_and_lin_both_ways() {
    let plan = join(&[
        join(&[BIG, NODE, LIN_NODE]),
        tx(0, 256, 1, 1, 0, 0, 1, [0; 8]),
        tx(1, 9, 1, 1, 0, 0, 2, [0; 8]),
        rx(0, 5, 1, 1, 0, 0, 0, 0, 0),
        signal(0, 4),
        destination(1, 0),
        rx(1, 17, 1, 1, 0, 0, 0, 0, 0),
        signal(4, 4),
        destination(0, 0),
        destination(1, 4),
    ]);
    let events = [
        reception(0, 5, &[0xA0]),
        take(1),
        response(1, 17, &[0x0B]),
        take(0),
        take(1),
        response(1, 17, &[0x0B]),
        take(0),
        take(1),
    ];
    let expected = [
        "plan ok 2 2 2",
        "rx 0",
        "take 1 9 1 a0 0",
        "rx 0",
        "take 0 256 1 b0 0",
        "take 1 9 1 ab 0",
        "rx 0",
        "take 0 256 1 b0 0",
        "take none",
    ];
    assert_eq!(lines(&plan, &join(&events)), expected);
}
