//! Running the cases and comparing.

use std::fmt::Write;
use std::path::PathBuf;
use std::sync::atomic::{AtomicBool, AtomicU64, Ordering};
use std::sync::{Mutex, PoisonError};
use std::thread;

use crate::ask::ask;
use crate::lines::broken;
use crate::shapes::{Case, Shapes};
use crate::tally::Tally;

/// After so many differences the run stops.
const MOST_DIFFERENCES: usize = 5;

/// A case on which the two programs differ, or the command's lines cannot be.
pub struct Difference {
    pub case: Case,
    pub what: String,
}

pub struct Outcome {
    pub tally: Tally,
    pub cases: u64,
    pub differences: Vec<Difference>,
}

/// Runs the cases of a run, `jobs` at a time.
pub fn all(shapes: &Shapes, cases: u64, seed: u64, jobs: usize, command: &[String]) -> Outcome {
    let next = AtomicU64::new(0);
    let done = AtomicU64::new(0);
    let stop = AtomicBool::new(false);
    let tally = Mutex::new(Tally::new());
    let differences = Mutex::new(Vec::new());
    thread::scope(|scope| {
        for _ in 0..jobs.max(1) {
            scope.spawn(|| {
                let mut own_tally = Tally::new();
                while !stop.load(Ordering::Relaxed) {
                    let index = next.fetch_add(1, Ordering::Relaxed);
                    if index >= cases {
                        break;
                    }
                    let case = shapes.case(shapes.case_seed(seed, index));
                    own_tally.observe(&case);
                    done.fetch_add(1, Ordering::Relaxed);
                    if let Some(what) = differs(&case.input, command) {
                        let mut found = differences.lock().unwrap_or_else(PoisonError::into_inner);
                        if found.len() < MOST_DIFFERENCES {
                            found.push(Difference { case, what });
                        }
                        if found.len() == MOST_DIFFERENCES {
                            stop.store(true, Ordering::Relaxed);
                        }
                    }
                }
                let mut sum = tally.lock().unwrap_or_else(PoisonError::into_inner);
                sum.add(&own_tally);
            });
        }
    });
    Outcome {
        tally: tally.into_inner().unwrap_or_else(PoisonError::into_inner),
        cases: done.into_inner(),
        differences: differences
            .into_inner()
            .unwrap_or_else(PoisonError::into_inner),
    }
}

/// Runs the one case of this case seed.
pub fn one(shapes: &Shapes, case_seed: u64, command: &[String]) -> Outcome {
    let case = shapes.case(case_seed);
    let mut tally = Tally::new();
    tally.observe(&case);
    let what = differs(&case.input, command);
    let differences = what.map(|what| Difference { case, what });
    Outcome {
        tally,
        cases: 1,
        differences: differences.into_iter().collect(),
    }
}

/// What is wrong with the command's output, if anything.
fn differs(input: &[u8], command: &[String]) -> Option<String> {
    let expected = second::run(input).into_bytes();
    match ask(command, input) {
        Err(why) => Some(why),
        Ok(output) => faults(input, &expected, &output),
    }
}

/// How the output differs from the second program's, and where it breaks the
/// sentences of Tickets 8 and 14, also if the second program breaks them too.
pub fn faults(input: &[u8], expected: &[u8], output: &[u8]) -> Option<String> {
    let difference = (output != expected).then(|| first_difference(expected, output));
    let [too_old, out_of_turn] = broken(input, output);
    let faults = [difference, too_old, out_of_turn];
    let faults: Vec<String> = faults.into_iter().flatten().collect();
    (!faults.is_empty()).then(|| faults.concat())
}

/// The first line that differs, with its number from 1.
pub fn first_difference(expected: &[u8], output: &[u8]) -> String {
    let expected: Vec<&[u8]> = expected.split_inclusive(|b| *b == b'\n').collect();
    let output: Vec<&[u8]> = output.split_inclusive(|b| *b == b'\n').collect();
    let mut number = 0;
    while number < expected.len() && expected.get(number) == output.get(number) {
        number += 1;
    }
    let mut text = format!("first differing line: {}\n", number + 1);
    for (who, line) in [
        ("second ", expected.get(number)),
        ("command", output.get(number)),
    ] {
        writeln!(text, "  {who}: {}", shown(line)).ok();
    }
    text
}

/// A line with its end made visible, or word that there is none.
fn shown(line: Option<&&[u8]>) -> String {
    let Some(line) = line else {
        return "(end of the output)".to_string();
    };
    let text = String::from_utf8_lossy(line);
    let mut shown: String = text.escape_debug().take(300).collect();
    if shown.ends_with("\\n") {
        shown.truncate(shown.len() - 2);
    } else {
        shown.push_str(" (no line end)");
    }
    shown
}

/// Writes the input of a case to the system's temporary folder.
pub fn keep_input(case: &Case) -> std::io::Result<PathBuf> {
    let path = std::env::temp_dir().join(format!("compare-{}.bin", case.seed));
    std::fs::write(&path, &case.input)?;
    Ok(path)
}
