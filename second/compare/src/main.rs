//! Compares a bench program with the second program. See `args::USAGE`.

use std::io::{self, Write};
use std::process::ExitCode;

use compare::args::{Args, USAGE};
use compare::run::{self, keep_input, Outcome};
use compare::shapes::Shapes;

fn main() -> ExitCode {
    let args = match Args::parse(std::env::args().skip(1)) {
        Ok(args) => args,
        Err(why) => {
            eprint!("{why}\n{USAGE}");
            return ExitCode::from(2);
        }
    };
    let shapes = Shapes::all();
    if let Some(seed) = args.dump {
        let input = shapes.case(seed).input;
        return match io::stdout().write_all(&input) {
            Ok(()) => ExitCode::SUCCESS,
            Err(_) => ExitCode::FAILURE,
        };
    }
    if let Some(seed) = args.case_seed {
        println!("case seed {seed}");
        let outcome = run::one(&shapes, seed, &args.command);
        return verdict(&outcome, true);
    }
    println!(
        "seed {}, {} cases of {} shapes, {} at a time",
        args.seed,
        args.cases,
        shapes.count(),
        args.jobs
    );
    let outcome = run::all(&shapes, args.cases, args.seed, args.jobs, &args.command);
    print!("{}", outcome.tally.table());
    verdict(&outcome, args.partial)
}

fn verdict(outcome: &Outcome, partial: bool) -> ExitCode {
    for difference in &outcome.differences {
        let case = &difference.case;
        println!("DIFFERENCE: case seed {} ({})", case.seed, case.shape);
        println!("{}", difference.what.trim_end());
        match keep_input(case) {
            Ok(path) => println!("  input: {}", path.display()),
            Err(error) => println!("  the input could not be written: {error}"),
        }
    }
    if !outcome.differences.is_empty() {
        println!(
            "FAILED: {} differences in {} cases",
            outcome.differences.len(),
            outcome.cases
        );
        return ExitCode::FAILURE;
    }
    let never_met = outcome.tally.never_met();
    if !partial && !never_met.is_empty() {
        println!("FAILED: never met: {}", never_met.join("; "));
        return ExitCode::FAILURE;
    }
    println!("the same output in all {} cases", outcome.cases);
    ExitCode::SUCCESS
}
