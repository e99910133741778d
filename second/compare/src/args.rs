//! The command line.

use crate::shapes::CASES;

pub const USAGE: &str = "\
usage: compare [--cases N] [--seed S] [--jobs J] [--partial] -- COMMAND [ARGS..]
       compare --case-seed X -- COMMAND [ARGS..]
       compare --dump X

  --cases N      how many cases (2000)
  --seed S       the seed of the run (1)
  --jobs J       how many cases at a time (2)
  --partial      a row of the table may stay at 0
  --case-seed X  run the one case of this case seed
  --dump X       write the input of this case seed to standard output
";

#[derive(Debug, PartialEq, Eq)]
pub struct Args {
    pub cases: u64,
    pub seed: u64,
    pub jobs: usize,
    pub partial: bool,
    pub case_seed: Option<u64>,
    pub dump: Option<u64>,
    pub command: Vec<String>,
}

impl Args {
    pub fn parse(words: impl IntoIterator<Item = String>) -> Result<Args, String> {
        let mut args = Args {
            cases: CASES,
            seed: 1,
            jobs: 2,
            partial: false,
            case_seed: None,
            dump: None,
            command: Vec::new(),
        };
        let mut words = words.into_iter();
        while let Some(word) = words.next() {
            match word.as_str() {
                "--cases" => args.cases = number(&word, words.next())?,
                "--seed" => args.seed = number(&word, words.next())?,
                "--jobs" => args.jobs = number(&word, words.next())? as usize,
                "--partial" => args.partial = true,
                "--case-seed" => args.case_seed = Some(number(&word, words.next())?),
                "--dump" => args.dump = Some(number(&word, words.next())?),
                "--" => args.command = words.by_ref().collect(),
                _ => return Err(format!("unknown word {word}")),
            }
        }
        if args.command.is_empty() && args.dump.is_none() {
            return Err("no command after --".to_string());
        }
        Ok(args)
    }
}

fn number(word: &str, value: Option<String>) -> Result<u64, String> {
    let value = value.ok_or(format!("{word} wants a number"))?;
    value
        .parse()
        .map_err(|_| format!("{word} wants a number, not {value}"))
}
