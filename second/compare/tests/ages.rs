//! Ticket 8's sentence: lines that break it are found, no others are, and the
//! table counts the ages that were met.

mod common;

use common::{assert_met_by, case_of, cases, met_of, once, tally_of, OTHERS};
use compare::events::Events;
use compare::lines::too_old;
use compare::rng::Rng;
use compare::run::faults;
use compare::shapes::Shapes;
use compare::spec::{Destination, Plan, Rx, Signal, Tx};
use compare::tally::{ages, OLDEST, PRESCALERS, RELOADS};

const BIG: u8 = 0;
const LITTLE: u8 = 1;

/// A row whose four bits from position 2 go to position 6 of Tx frame 0.
fn source(id: u16, failure_position: u8, prescaler: u8, reload: u8) -> Rx {
    let signal = Signal {
        position: 2,
        size: 4,
        destinations: vec![Destination { tx: 0, position: 6 }],
    };
    Rx {
        prescaler,
        reload,
        signals: vec![signal],
        ..Rx::watched(0, id, 1, failure_position)
    }
}

/// Row (0, 7) with its failure bit at 15, row (0, 9), and a Tx frame of two
/// bytes that is due at every tick.
fn plan(order: u8, prescaler: u8, reload: u8) -> Plan {
    Plan {
        order,
        nodes: 1,
        tx: vec![Tx {
            reload: 1,
            timer: 1,
            ..Tx::quiet(0, 256, 2)
        }],
        rx: vec![source(7, 15, prescaler, reload), Rx::quiet(0, 9, 1)],
        ..Plan::default()
    }
}

/// Document 01 copies these bits of 2C to 02 C0 in big order, and to C0 02 in
/// little order.
const DATA: [u8; 8] = [0x2C; 8];

/// The input of a reception, so many ticks, and a take.
fn input(plan: &Plan, ticks: usize) -> Vec<u8> {
    let mut events = Events::new(plan);
    events.reception(0, 7, 1, DATA);
    events.ticks(ticks);
    events.take(0);
    plan.input(&events.bytes)
}

/// The lines for it, with this payload.
fn lines(ticks: usize, payload: &str) -> String {
    let ticks = "tick 0 0\n".repeat(ticks);
    format!("plan ok 1 1 2\nrx 0\n{ticks}take 0 256 2 {payload} 0\n")
}

fn is_too_old(input: &[u8], lines: &str) -> bool {
    too_old(input, lines.as_bytes()).is_some()
}

#[test]
fn a_fix_is_too_old_from_r_times_p_ticks_on() {
    for prescaler in PRESCALERS {
        for reload in RELOADS {
            let plan = plan(BIG, prescaler, reload);
            let bound = usize::from(prescaler) * usize::from(reload);
            let is_too_old =
                |ticks, payload| is_too_old(&input(&plan, ticks), &lines(ticks, payload));
            assert!(!is_too_old(bound - 1, "02c0"), "{prescaler}, {reload}");
            assert!(is_too_old(bound, "02c0"), "{prescaler}, {reload}");
            assert!(is_too_old(bound + 1, "02c0"), "{prescaler}, {reload}");
            assert!(!is_too_old(bound, "02c1"), "{prescaler}, {reload}");
        }
    }
}

#[test]
fn a_bit_that_is_not_of_the_last_acceptance_is_found() {
    for (order, payload) in [(BIG, 0x02C0u16), (LITTLE, 0xC002)] {
        let input = input(&plan(order, 2, 3), 5);
        for bit in 0..16 {
            let in_byte = if order == BIG { 7 - bit % 8 } else { bit % 8 };
            let altered = payload ^ 1 << (8 * (1 - bit / 8) + in_byte);
            let found = is_too_old(&input, &lines(5, &format!("{altered:04x}")));
            // With the failure bit, 15, at 1 nothing is promised.
            assert_eq!(found, (6..=9).contains(&bit), "order {order}, bit {bit}");
        }
        assert!(!is_too_old(&input, &lines(5, &format!("{payload:04x}"))));
    }
}

#[test]
fn the_line_and_what_is_wrong_with_it_are_said() {
    let plan = plan(BIG, 2, 3);
    let said = too_old(&input(&plan, 6), lines(6, "02c0").as_bytes());
    let at_the_bound = "age of a fix, line 9: take 0 256 2 02c0 0\n  \
        Rx frame 0: failure bit 0 at 6 ticks since its last acceptance, reload 3 prescaler 2\n";
    assert_eq!(said.as_deref(), Some(at_the_bound));
    let said = too_old(&input(&plan, 1), lines(1, "0280").as_bytes());
    let stale = "age of a fix, line 4: take 0 256 2 0280 0\n  \
        Rx frame 0: failure bit 0, but bit 9 is not bit 5 of its last acceptance, 1 ticks ago\n";
    assert_eq!(said.as_deref(), Some(stale));
}

#[test]
fn nothing_is_said_of_other_sources() {
    let watched = plan(BIG, 2, 3);
    let mut indicator_off = watched.clone();
    indicator_off.rx[0].enable = 0;
    let mut stopped = watched.clone();
    stopped.rx[0].reload = 0;
    let mut bit_elsewhere = watched.clone();
    bit_elsewhere.tx.push(Tx::quiet(0, 257, 2));
    let first = Destination { tx: 1, position: 6 };
    bit_elsewhere.rx[0].signals[0].destinations.insert(0, first);
    // Too old, and a wrong bit.
    for lines in [lines(6, "02c0"), lines(1, "0280")] {
        let ticks = lines.matches("tick").count();
        assert!(is_too_old(&input(&watched, ticks), &lines));
        for plan in [&indicator_off, &stopped, &bit_elsewhere] {
            assert!(!is_too_old(&input(plan, ticks), &lines));
        }
        for answer in ["rx 1 0", "rx 2", "rx refused 13"] {
            let never_accepted = lines.replace("rx 0", answer);
            assert!(!is_too_old(&input(&watched, ticks), &never_accepted));
        }
    }
}

/// The acceptance that counts is the last one of the row by its line.
#[test]
fn acceptances_are_told_from_the_lines() {
    let plan = plan(BIG, 2, 3);
    let is_too_old = |id, answer: &str| {
        let mut events = Events::new(&plan);
        events.reception(0, 7, 1, DATA);
        events.ticks(5);
        events.reception(0, id, 1, DATA);
        events.ticks(1);
        events.take(0);
        let ticks = "tick 0 0\n".repeat(5);
        let lines =
            format!("plan ok 1 1 2\nrx 0\n{ticks}{answer}\ntick 0 0\ntake 0 256 2 02c0 0\n");
        is_too_old(&plan.input(&events.bytes), &lines)
    };
    assert!(!is_too_old(7, "rx 0"));
    assert!(is_too_old(9, "rx 0"));
    for answer in ["rx 1 0", "rx 2", "rx refused 13"] {
        assert!(is_too_old(7, answer), "{answer}");
    }
}

#[test]
fn refused_ticks_do_not_count() {
    let input = input(&plan(BIG, 2, 3), 6);
    let one_refused = lines(6, "02c0").replacen("tick 0 0", "tick refused 14", 1);
    assert!(!is_too_old(&input, &one_refused));
}

/// Row (0, 7) and a row (0, 8) with its failure bit at 14 in the same frame.
fn two_sources(reload: u8, other_reload: u8) -> Plan {
    let mut plan = plan(BIG, 1, reload);
    let mut other = source(8, 14, 1, other_reload);
    other.signals[0].destinations[0].position = 0;
    plan.rx.insert(1, other);
    plan
}

fn accept_both(events: &mut Events) {
    events.reception(0, 7, 1, DATA);
    events.reception(0, 8, 1, [0; 8]);
}

#[test]
fn each_source_of_a_frame_has_its_own_bound() {
    let plan = two_sources(3, 5);
    let said = |ticks, payload: &str| {
        let mut events = Events::new(&plan);
        accept_both(&mut events);
        events.ticks(ticks);
        events.take(0);
        let lines = lines(ticks, payload).replacen("rx 0\n", "rx 0\nrx 0\n", 1);
        too_old(&plan.input(&events.bytes), lines.as_bytes()).unwrap_or_default()
    };
    assert_eq!(said(2, "02c0"), "");
    assert_eq!(said(4, "02c1"), "");
    assert!(said(4, "02c2").contains("Rx frame 0: failure bit 0 at 4 ticks"));
    assert!(said(5, "02c1").contains("Rx frame 1: failure bit 0 at 5 ticks"));
    assert_eq!(said(5, "02c3"), "");
    // The other row's bits, 0 to 3.
    assert!(said(4, "12c1").contains("Rx frame 1: failure bit 0, but bit 3 is not bit 5"));
}

#[test]
fn an_old_fix_is_a_fault_also_where_the_second_program_agrees() {
    let input = input(&plan(BIG, 2, 3), 6);
    let (good, old) = (lines(6, "02c1"), lines(6, "02c0"));
    let faults = |expected: &str, output: &str| {
        faults(&input, expected.as_bytes(), output.as_bytes()).unwrap_or_default()
    };
    assert_eq!(faults(&good, &good), "");
    assert!(faults(&old, &old).starts_with("age of a fix, line 9: "));
    let both = faults(&good, &old);
    assert!(both.starts_with("first differing line: 9\n"));
    assert!(both.contains("\nage of a fix, line 9: "));
}

#[test]
fn the_second_program_keeps_the_sentence() {
    let shapes = Shapes::all();
    for case in cases(&shapes, 6, 0..shapes.count()) {
        let output = second::run(&case.input);
        assert_eq!(too_old(&case.input, output.as_bytes()), None);
    }
}

#[test]
fn lines_that_cannot_be_read_are_passed_over() {
    let input = input(&plan(BIG, 2, 3), 6);
    let good = lines(6, "02c0");
    for payload in ["-", "0", "zz", "+1+2", "02c002c002c002c002c0", "", "é"] {
        // Whatever it says, it is no end of the run.
        too_old(&input, lines(6, payload).as_bytes());
    }
    for line in [
        "take none",
        "take refused 12",
        "take",
        "take x 256 2 02c0 0",
        "input bad",
    ] {
        assert!(!is_too_old(
            &input,
            &good.replace("take 0 256 2 02c0 0", line)
        ));
    }
    assert!(!is_too_old(&input, ""));
    assert!(!is_too_old(b"", &good));
    let mut rng = Rng::new(8);
    for _ in 0..2_000 {
        let mut damaged = good.clone().into_bytes();
        let place = rng.below(damaged.len());
        damaged[place] = rng.byte();
        too_old(&input, &damaged);
    }
}

/// The rows of the ages that are met by these events.
fn met(plan: &Plan, add: impl Fn(&mut Events)) -> Vec<(String, u64)> {
    let mut events = Events::new(plan);
    add(&mut events);
    met_of(ages(), &tally_of([case_of(plan, &events)]))
}

/// A reception, and a take after so many ticks, after the next one, and so on.
fn takes_from(events: &mut Events, ticks: usize, takes: usize) {
    events.reception(0, 7, 1, DATA);
    events.ticks(ticks);
    for _ in 1..takes {
        events.take(0);
        events.ticks(1);
    }
    events.take(0);
}

const BIT_0: &str = "fixes with bit 0";

#[test]
fn the_last_bit_0_and_the_first_bit_1_are_counted() {
    let [at_the_bound, phases] = OLDEST.map(|(row, _)| row);
    for prescaler in PRESCALERS {
        let plan = plan(BIG, prescaler, 3);
        let bound = 3 * usize::from(prescaler);
        // After tick 0, which is handled.
        let met = |ticks, takes| {
            met(&plan, |events| {
                events.ticks(1);
                takes_from(events, ticks, takes);
            })
        };
        let last_bit_0 = format!("bit 0 at r p - 1 ticks, prescaler {prescaler}");
        let first_bit_1 = format!("bit 1 at r p ticks, prescaler {prescaler}");
        let kept = "bit 1 kept despite a take";
        assert_eq!(met(bound - 2, 1), once(&[BIT_0]));
        assert_eq!(met(bound - 1, 1), once(&[&last_bit_0, BIT_0]));
        // Which tick set the bit was not seen.
        assert_eq!(met(bound, 2), once(&[]));
        let two_ticks_apart = self::met(&plan, |events| {
            events.ticks(1);
            events.reception(0, 7, 1, DATA);
            takes_from_now(events, &[bound - 2, 2]);
        });
        assert_eq!(two_ticks_apart, once(&[BIT_0]));
        let seen = [&last_bit_0, &first_bit_1, BIT_0, at_the_bound, phases];
        assert_eq!(met(bound - 1, 2), once(&seen));
        let seen = [&last_bit_0, &first_bit_1, kept, BIT_0, at_the_bound, phases];
        assert_eq!(met(bound - 1, 3), once(&seen));
    }
}

#[test]
fn the_phase_of_an_acceptance_is_counted() {
    let [_, phases] = OLDEST.map(|(row, _)| row);
    let plan = plan(BIG, 10, 2);
    let mut tally = tally_of([]);
    for phase in 0..10 {
        // After one handling at least, the other comes ten ticks later.
        let ticks = 10 + (10 - phase) % 10;
        let mut events = Events::new(&plan);
        events.ticks(phase);
        takes_from(&mut events, ticks, 2);
        tally.add(&tally_of([case_of(&plan, &events)]));
        tally.add(&tally_of([case_of(&plan, &events)]));
        assert_eq!(tally.count(phases), phase as u64 + 1);
    }
    // Only that of phase 1 was as old as can be.
    assert_eq!(tally.count("bit 1 at r p ticks, prescaler 10"), 2);
    assert!(tally.never_met().contains(&phases.to_string()));
}

#[test]
fn only_reloads_of_the_list_are_counted_as_such() {
    let [at_the_bound, phases] = OLDEST.map(|(row, _)| row);
    assert!(!RELOADS.contains(&4));
    let row = "bit 1 at r p ticks, prescaler 1";
    let last_bit_0 = "bit 0 at r p - 1 ticks, prescaler 1";
    let met = |reload: u8| {
        met(&plan(BIG, 1, reload), |events| {
            events.ticks(1);
            takes_from(events, usize::from(reload) - 1, 2);
        })
    };
    assert_eq!(met(4), once(&[last_bit_0, row, BIT_0, phases]));
    assert_eq!(
        met(5),
        once(&[last_bit_0, row, BIT_0, at_the_bound, phases])
    );
}

#[test]
fn what_is_no_acceptance_is_counted() {
    let plan = plan(BIG, 2, 3);
    for (what, add) in OTHERS {
        let met = |before, between| {
            let met = met(&plan, |events| {
                events.ticks(1);
                events.reception(0, 7, 1, DATA);
                events.ticks(before);
                add(events);
                takes_from_now(events, between);
            });
            let rows = met.into_iter().map(|(row, _)| row);
            rows.filter(|row| row.ends_with(what)).collect::<Vec<_>>()
        };
        let when_due = format!("bit 1 when due despite {what}");
        let kept = format!("bit 1 kept despite {what}");
        // Tick 2 is the first that is handled, tick 6 the third.
        assert_eq!(met(1, &[4, 1]), Vec::<String>::new(), "{what}");
        assert_eq!(met(2, &[3, 1]), [when_due.as_str()]);
        assert_eq!(met(5, &[0, 1]), [when_due.as_str()]);
        assert_eq!(met(6, &[0]), Vec::<String>::new(), "{what}");
        let after = |ticks| {
            met_after_expiry(&plan, add, ticks)
                .into_iter()
                .any(|(row, _)| row == kept)
        };
        // The next expiry is at tick 12.
        assert!(after(1) && after(5));
        assert!(!after(6));
    }
}

/// Takes after so many ticks each.
fn takes_from_now(events: &mut Events, ticks: &[usize]) {
    for ticks in ticks {
        events.ticks(*ticks);
        events.take(0);
    }
}

/// Takes around the expiry, the added event, and a take after so many ticks.
fn met_after_expiry(plan: &Plan, add: fn(&mut Events), ticks: usize) -> Vec<(String, u64)> {
    met(plan, |events| {
        events.ticks(1);
        takes_from(events, 5, 2);
        add(events);
        takes_from_now(events, &[ticks]);
    })
}

#[test]
fn sources_of_which_nothing_is_said_are_counted() {
    let watched = plan(BIG, 2, 3);
    let mut indicator_off = watched.clone();
    indicator_off.rx[0].enable = 0;
    let mut stopped = watched.clone();
    stopped.rx[0].reload = 0;
    for (plan, row) in [
        (&indicator_off, "5100 ticks old, indicator off"),
        (&stopped, "5100 ticks old, reload 0"),
    ] {
        let met = |ticks| met(plan, |events| takes_from(events, ticks, 1));
        assert_eq!(met(5_099), once(&[]));
        assert_eq!(met(5_100), once(&[row]));
    }
    let never_accepted = |ticks| met(&watched, |events| takes_from_now(events, &[ticks]));
    assert_eq!(never_accepted(5), once(&[]));
    let row = "never accepted, bit 0 after r p ticks";
    assert_eq!(never_accepted(6), once(&[row]));

    let mut bit_elsewhere = watched.clone();
    bit_elsewhere.tx.push(Tx::quiet(0, 257, 2));
    let first = Destination { tx: 1, position: 6 };
    bit_elsewhere.rx[0].signals[0].destinations.insert(0, first);
    let met = |ticks| met(&bit_elsewhere, |events| takes_from(events, ticks, 1));
    assert_eq!(met(5), once(&[]));
    assert_eq!(met(6), once(&["past the bound, failure bit elsewhere"]));
}

#[test]
fn sources_of_one_frame_are_counted() {
    let bits_0 = "bits 0 of unlike bounds in a frame";
    let past_another = "bit 0 past the bound of another source";
    let of_one_frame = |met: Vec<(String, u64)>| {
        let rows = met.into_iter().map(|(row, _)| row);
        rows.filter(|row| row == bits_0 || row == past_another)
            .collect::<Vec<_>>()
    };
    let met = |reload, other_reload, ticks| {
        of_one_frame(self::met(&two_sources(reload, other_reload), |events| {
            accept_both(events);
            takes_from_now(events, &[ticks]);
        }))
    };
    assert_eq!(met(3, 6, 2), [bits_0]);
    assert_eq!(met(3, 3, 2), Vec::<String>::new());
    assert_eq!(met(3, 6, 3), [past_another]);
    assert_eq!(met(6, 3, 5), [past_another]);
    assert_eq!(met(3, 6, 6), Vec::<String>::new());
    // The other is accepted when the first is too old, and is younger.
    let accepted_later = self::met(&two_sources(3, 6), |events| {
        events.reception(0, 7, 1, DATA);
        events.ticks(3);
        events.reception(0, 8, 1, DATA);
        takes_from_now(events, &[1]);
    });
    assert_eq!(of_one_frame(accepted_later), Vec::<String>::new());
}

#[test]
fn bits_that_an_acceptance_changed_are_counted() {
    for (order, row) in [
        (BIG, "bit 0, changed by the acceptance, big"),
        (LITTLE, "bit 0, changed by the acceptance, little"),
    ] {
        let met = |before| {
            met(&plan(order, 2, 3), |events| {
                events.reception(0, 7, 1, [before; 8]);
                takes_from(events, 1, 1);
            })
        };
        assert_eq!(met(DATA[0]), once(&[BIT_0]));
        // A bit beside the signal, then one of it.
        let (beside, within) = (DATA[0] ^ 0x80, DATA[0] ^ 0x10);
        assert_eq!(met(beside), once(&[BIT_0]));
        assert_eq!(met(within), once(&[BIT_0, row]));
    }
}

#[test]
fn a_round_meets_the_rows_of_the_ages_by_its_own_shapes() {
    let mut rows = ages();
    rows.retain(|row| !row.starts_with("LIN source, "));
    assert_met_by(&["ages: "], &rows);
}
