//! Cases made by hand, and what the table counts of them.
#![allow(dead_code)]

use compare::events::Events;
use compare::shapes::{Case, Shapes};
use compare::spec::Plan;
use compare::tally::Tally;

/// What these cases meet.
pub fn tally_of(cases: impl IntoIterator<Item = Case>) -> Tally {
    let mut tally = Tally::new();
    for case in cases {
        tally.observe(&case);
    }
    tally
}

/// The cases of these indices in a run.
pub fn cases<'s>(
    shapes: &'s Shapes,
    seed: u64,
    indices: impl IntoIterator<Item = usize> + 's,
) -> impl Iterator<Item = Case> + 's {
    let indices = indices.into_iter();
    indices.map(move |index| shapes.case(shapes.case_seed(seed, index as u64)))
}

/// A case of this plan and these events.
pub fn case_of(plan: &Plan, events: &Events) -> Case {
    Case {
        seed: 0,
        shape: "small plan".to_string(),
        input: plan.input(&events.bytes),
    }
}

/// In each round the shapes whose names begin in one of these ways meet these
/// rows without the others.
pub fn assert_met_by(starts: &[&str], rows: &[String]) {
    let shapes = Shapes::all();
    let names: Vec<&str> = shapes.names().collect();
    let is_own = |index: &usize| starts.iter().any(|start| names[*index].starts_with(start));
    for seed in 0..100 {
        let round = (0..shapes.count()).filter(is_own);
        let mut never_met = tally_of(cases(&shapes, seed, round)).never_met();
        never_met.retain(|row| rows.contains(row));
        assert_eq!(never_met, Vec::<String>::new(), "seed {seed}");
    }
}

/// Those of the rows that are met, with their counts.
pub fn met_of(rows: Vec<String>, tally: &Tally) -> Vec<(String, u64)> {
    let counted = rows.into_iter().map(|row| (tally.count(&row), row));
    let met = counted.filter(|(count, _)| *count > 0);
    met.map(|(count, row)| (row, count)).collect()
}

pub fn once(rows: &[&str]) -> Vec<(String, u64)> {
    rows.iter().map(|row| (row.to_string(), 1)).collect()
}

pub type Add = fn(&mut Events);

/// Receptions that row (0, 7) does not accept, beside row (0, 9), each with its
/// part of a row of the table.
pub const OTHERS: [(&str, Add); 5] = [
    ("rx 0 of another row", |e| e.reception(0, 9, 1, [0; 8])),
    ("rx 1", |e| e.reception(0, 6, 1, [0; 8])),
    ("rx 2", |e| e.reception(0, 7, 0, [0; 8])),
    ("rx refused 12", |e| e.reception(1, 7, 1, [0; 8])),
    ("rx refused 13", |e| e.reception(0, 7, 9, [0; 8])),
];
