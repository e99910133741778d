//! The comparison must find planted mistakes.
//!
//! The second program itself stays clean: for each mistake its sources are
//! copied, the text of the copy is changed, the copy is built, and the
//! comparison must find a difference within 2,000 cases. Where the mistake
//! breaks a sentence of Ticket 8 or 14, that must be found too, by the cases that
//! are made for it. The unchanged copy must agree.
//!
//! `cargo test --offline --test mistakes -- --nocapture` prints the results.

mod ages;
mod format_plans;
mod formats;
mod lin;
mod list;
mod queues;

use std::fs;
use std::path::{Path, PathBuf};
use std::process::{Command, Output};

use ages::AGES;
use compare::shapes::Shapes;
use format_plans::FORMAT_PLANS;
use formats::FORMATS;
use lin::LIN;
use list::{Mistake, Sentence, MISTAKES};
use queues::QUEUES;

const SOURCES: [&str; 14] = [
    "Cargo.toml",
    "Cargo.lock",
    "src/main.rs",
    "src/lib.rs",
    "src/bench.rs",
    "src/bits.rs",
    "src/gateway.rs",
    "src/id.rs",
    "src/lin.rs",
    "src/parse.rs",
    "src/plan.rs",
    "src/refusal.rs",
    "src/responses.rs",
    "src/taken.rs",
];

/// Copies the second program to a folder of its own.
fn copy_second(name: &str) -> PathBuf {
    let from = Path::new(env!("CARGO_MANIFEST_DIR")).join("../program");
    let to = Path::new(env!("CARGO_TARGET_TMPDIR")).join(name);
    fs::create_dir_all(to.join("src")).expect("a folder for the copy");
    for file in SOURCES {
        let text = fs::read_to_string(from.join(file)).expect("a source of the second program");
        fs::write(to.join(file), text).expect("a source of the copy");
    }
    to
}

/// Makes the changes of a mistake. Each text must be there exactly once.
fn plant(copy: &Path, mistake: &Mistake) {
    for (file, old, new) in mistake.changes {
        let path = copy.join("src").join(file);
        let text = fs::read_to_string(&path).expect("a source of the copy");
        let found = text.matches(old).count();
        assert_eq!(found, 1, "{}: in {file}: {old}", mistake.name);
        fs::write(&path, text.replace(old, new)).expect("a changed source");
    }
}

/// Builds the copy and answers its program.
fn build(copy: &Path) -> PathBuf {
    let output = Command::new(env!("CARGO"))
        .args(["build", "--offline", "--quiet", "--target-dir", "target"])
        .current_dir(copy)
        .output()
        .expect("cargo");
    let said = String::from_utf8_lossy(&output.stderr);
    assert!(output.status.success(), "{}: {said}", copy.display());
    let name = format!("second{}", std::env::consts::EXE_SUFFIX);
    copy.join("target").join("debug").join(name)
}

/// Runs the comparison with these words and the program as the command.
fn compare(words: &[&str], program: &Path) -> Output {
    Command::new(env!("CARGO_BIN_EXE_compare"))
        .args(words)
        .arg("--")
        .arg(program)
        .env("TMPDIR", env!("CARGO_TARGET_TMPDIR"))
        .output()
        .expect("the comparison")
}

fn last_line(output: &Output) -> String {
    let said = String::from_utf8_lossy(&output.stdout);
    said.lines().last().unwrap_or("no output").to_string()
}

/// Whether a case of the shapes for the sentence breaks it.
fn is_broken(sentence: Sentence, shapes: &Shapes, program: &Path) -> bool {
    let starts = sentence.shapes;
    let is_own = |(_, name): &(u64, &str)| starts.iter().any(|start| name.starts_with(start));
    let mut own = (0..).zip(shapes.names()).filter(is_own);
    own.any(|(index, _)| {
        let seed = shapes.case_seed(1, index).to_string();
        let output = compare(&["--case-seed", &seed], program);
        String::from_utf8_lossy(&output.stdout).contains(sentence.said)
    })
}

#[test]
fn the_unchanged_program_agrees() {
    let program = build(&copy_second("unchanged"));
    let output = compare(&["--seed", "2"], &program);
    assert_eq!(last_line(&output), "the same output in all 2000 cases");
    assert_eq!(output.status.code(), Some(0));

    let output = compare(&["--case-seed", "65536"], &program);
    assert_eq!(last_line(&output), "the same output in all 1 cases");
    assert_eq!(output.status.code(), Some(0));

    // A few cases do not meet every row, which is a failure unless allowed.
    let output = compare(&["--cases", "3"], &program);
    assert!(last_line(&output).starts_with("FAILED: never met: "));
    assert_eq!(output.status.code(), Some(1));
    let output = compare(&["--cases", "3", "--partial"], &program);
    assert_eq!(last_line(&output), "the same output in all 3 cases");
    assert_eq!(output.status.code(), Some(0));
}

#[test]
fn every_planted_mistake_is_found() {
    find_all(MISTAKES.iter().chain(AGES).chain(LIN), "mistake");
}

#[test]
fn every_planted_mistake_of_formats_is_found() {
    find_all(FORMATS.iter().chain(FORMAT_PLANS), "formats");
}

#[test]
fn every_planted_mistake_of_queues_is_found() {
    find_all(QUEUES, "queues");
}

/// Plants the mistakes in copies of this name.
fn find_all<'m>(mistakes: impl IntoIterator<Item = &'m Mistake>, name: &str) {
    let shapes = Shapes::all();
    let mut missed = Vec::new();
    for (number, mistake) in mistakes.into_iter().enumerate() {
        let copy = copy_second(&format!("{name}-{number}"));
        plant(&copy, mistake);
        let program = build(&copy);
        let output = compare(&["--seed", "1"], &program);
        println!("{}: {}", mistake.name, last_line(&output));
        let said = String::from_utf8_lossy(&output.stdout);
        let found = output.status.code() == Some(1) && said.contains("DIFFERENCE");
        let is_broken = |sentence| is_broken(sentence, &shapes, &program);
        if !found || !mistake.breaks.is_none_or(is_broken) {
            missed.push(mistake.name);
        }
        fs::remove_dir_all(&copy).ok();
    }
    assert_eq!(missed, Vec::<&str>::new());
}
