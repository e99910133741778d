//! The command line of the comparison and what it prints.

use std::fs;
use std::path::Path;
use std::process::{Command, Output};

use compare::args::Args;
use compare::run::first_difference;
use compare::shapes::Shapes;

fn compare(words: &[&str]) -> Output {
    Command::new(env!("CARGO_BIN_EXE_compare"))
        .args(words)
        .env("TMPDIR", env!("CARGO_TARGET_TMPDIR"))
        .output()
        .expect("the comparison")
}

fn words(line: &str) -> Vec<String> {
    line.split(' ').map(String::from).collect()
}

#[test]
fn words_are_read() {
    let args = Args::parse(words("--cases 5 --seed 7 --jobs 3 --partial -- a --seed b"));
    let args = args.expect("a good line");
    assert_eq!((args.cases, args.seed, args.jobs), (5, 7, 3));
    assert!(args.partial);
    assert_eq!(args.command, ["a", "--seed", "b"]);
    let one = Args::parse(words("--case-seed 9 -- a")).expect("a good line");
    assert_eq!((one.case_seed, one.dump), (Some(9), None));
}

#[test]
fn wrong_words_end_with_2() {
    for line in [
        "",
        "--cases",
        "--cases x -- a",
        "--cases 5",
        "--what -- a",
        "--",
    ] {
        assert!(Args::parse(words(line)).is_err(), "{line}");
    }
    assert_eq!(compare(&["--cases", "5"]).status.code(), Some(2));
}

#[test]
fn a_dump_is_the_input_of_the_case() {
    let shapes = Shapes::all();
    let seed = shapes.case_seed(1, 4);
    let output = compare(&["--dump", &seed.to_string()]);
    assert_eq!(output.status.code(), Some(0));
    assert_eq!(output.stdout, shapes.case(seed).input);
}

/// A command that ends with an error and says nothing that a case could
/// expect: the comparison itself without a command of its own.
#[test]
fn differences_are_printed_and_kept() {
    let silent = env!("CARGO_BIN_EXE_compare");
    let output = compare(&["--cases", "20", "--seed", "3", "--", silent]);
    assert_eq!(output.status.code(), Some(1));
    let said = String::from_utf8_lossy(&output.stdout);
    assert!(said.starts_with("seed 3, 20 cases of "));
    assert_eq!(said.matches("DIFFERENCE: case seed ").count(), 5);
    assert_eq!(said.matches("first differing line: 1\n").count(), 5);
    assert_eq!(said.matches("  command: (end of the output)\n").count(), 5);

    let first = said.split("DIFFERENCE: case seed ").nth(1).expect("one");
    let seed: u64 = first
        .split(' ')
        .next()
        .unwrap_or("")
        .parse()
        .expect("a seed");
    let path = Path::new(env!("CARGO_TARGET_TMPDIR")).join(format!("compare-{seed}.bin"));
    let kept = fs::read(path).expect("the kept input");
    assert_eq!(kept, Shapes::all().case(seed).input);
}

#[test]
fn a_command_that_cannot_be_started_is_a_difference() {
    let output = compare(&["--cases", "1", "--", "no-such-command-as-this"]);
    assert_eq!(output.status.code(), Some(1));
    let said = String::from_utf8_lossy(&output.stdout);
    assert!(said.contains("the command cannot be started"));
}

#[test]
fn the_first_differing_line_is_named() {
    let text = first_difference(
        b"plan ok 1 1 1\nrx 0\nrx 1 0\n",
        b"plan ok 1 1 1\nrx 0\nrx 1 1\n",
    );
    assert_eq!(
        text,
        "first differing line: 3\n  second : rx 1 0\n  command: rx 1 1\n"
    );
    let text = first_difference(b"rx 0\n", b"rx 0");
    assert_eq!(
        text,
        "first differing line: 1\n  second : rx 0\n  command: rx 0 (no line end)\n"
    );
    let text = first_difference(b"rx 0\n", b"rx 0\nrx 0\n");
    assert_eq!(
        text,
        "first differing line: 2\n  second : (end of the output)\n  command: rx 0\n"
    );
}
