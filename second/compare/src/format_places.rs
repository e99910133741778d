//! The places of strangers on nodes with rows of both formats, as the calls
//! answer them, and what of them the table counts.
//!
//! Ticket 6: "Within a node 11-bit rows come before 29-bit ones, each in ascending
//! order, and the place of Ticket 4 counts in that order."

use second::id::{Id, GREATEST_29};
use second::plan::{Plan, RxFrame};

use crate::format_calls::{format_of, other_format, FORMATS};
use crate::format_plans::low;
use crate::tally::Tally;

/// The rows of a node.
const NODES: [&str; 4] = ["no rows", "11-bit rows", "29-bit rows", "rows of both"];

const SIDES: [&str; 3] = ["before", "between", "after"];

/// Counts that could be taken for the place of a stranger of either format.
const OTHER_COUNTS: [&str; 3] = [
    "the smaller numbers of both",
    "29-bit rows counted first",
    "the place in the other format",
];

/// Of a 29-bit one.
const OTHER_COUNTS_29: [&str; 6] = [
    "the 29-bit rows alone",
    "the place of the low 11 bits",
    "the place of the low 16 bits",
    "the place of the low 28 bits",
    "the place of the low 29 bits",
    "the place of the ID with a sign",
];

pub fn rows() -> Vec<String> {
    let mut rows = Vec::new();
    for (number, format) in FORMATS.into_iter().enumerate() {
        for (of_node, what) in NODES.into_iter().enumerate() {
            // On a node with rows of its format a stranger has three sides.
            match of_node {
                3 => rows.extend(SIDES.map(|side| side_row(format, what, side))),
                _ if of_node == number + 1 => {
                    rows.extend(SIDES.map(|side| side_row(format, what, side)));
                }
                _ => rows.push(node_row(format, what)),
            }
            rows.push(beyond_row(format, what));
        }
        rows.extend(OTHER_COUNTS.map(|what| unlike_row(what, format)));
    }
    rows.extend(OTHER_COUNTS_29.map(|what| unlike_row(what, FORMATS[1])));
    rows.push("places of an 11-bit ID above 2047, unlike all rows".to_string());
    rows
}

fn node_row(format: &str, of_node: &str) -> String {
    format!("places, {format}, {of_node}")
}

/// Where the stranger stands among the rows of its format.
fn side_row(format: &str, of_node: &str, side: &str) -> String {
    format!("places, {format}, {of_node}, {side}")
}

/// For an ID past its range.
fn beyond_row(format: &str, of_node: &str) -> String {
    format!("places, {format}, {of_node}, past the range")
}

fn unlike_row(what: &str, format: &str) -> String {
    format!("unlike {what}, {format}")
}

impl Tally {
    /// A reception that found no row.
    pub fn format_stranger(&mut self, plan: &Plan, node: u8, id: Id, place: usize) {
        let rows = plan.rx_frames.iter().filter(|row| row.node == node);
        let rows: Vec<&RxFrame> = rows.collect();
        let (of_29, of_11): (Vec<Id>, Vec<Id>) = rows
            .iter()
            .map(|row| row.id)
            .partition(|id| id.is_29_bits());
        let of_node = usize::from(!of_11.is_empty()) + 2 * usize::from(!of_29.is_empty());
        let (format, of_node) = (format_of(id), NODES[of_node]);
        let own = if id.is_29_bits() { &of_29 } else { &of_11 };
        let below = own.iter().filter(|row| **row < id).count();
        self.met(&match below {
            _ if !id.is_in_range() => beyond_row(format, of_node),
            _ if own.is_empty() => node_row(format, of_node),
            0 => side_row(format, of_node, SIDES[0]),
            _ if below < own.len() => side_row(format, of_node, SIDES[1]),
            _ => side_row(format, of_node, SIDES[2]),
        });
        let others = OTHER_COUNTS.into_iter().zip(other_counts(&rows, id));
        let mut others: Vec<(&str, usize)> = others.collect();
        if let Id::Bits29(number) = id {
            others.extend(OTHER_COUNTS_29.into_iter().zip(counts_29(&rows, number)));
        }
        for (what, count) in others {
            if count != place {
                self.met(&unlike_row(what, format));
            }
        }
        let is_past_2047 = matches!(id, Id::Bits11(number) if number > 2047);
        if is_past_2047 && place != rows.len() {
            self.met("places of an 11-bit ID above 2047, unlike all rows");
        }
    }
}

/// In the order of `OTHER_COUNTS`.
fn other_counts(rows: &[&RxFrame], id: Id) -> [usize; 3] {
    let reversed = |id: Id| (!id.is_29_bits(), id.number());
    let other = other_format(id).unwrap_or(Id::Bits11(u16::MAX));
    [
        count(rows, |row| row.number() < id.number()),
        count(rows, |row| reversed(row) < reversed(id)),
        count(rows, |row| row < other),
    ]
}

/// In the order of `OTHER_COUNTS_29`.
fn counts_29(rows: &[&RxFrame], number: u32) -> [usize; 6] {
    let of_low = |bits| count(rows, |row| row < Id::Bits29(low(number, bits)));
    let of_29 = |row: Id| match row {
        Id::Bits29(number) => Some(number),
        Id::Bits11(_) => None,
    };
    let is_below = |row: u32| row < number;
    let is_below_signed = |row: u32| (row as i32) < number as i32;
    [
        count(rows, |row| of_29(row).is_some_and(is_below)),
        of_low(11),
        of_low(16),
        of_low(28),
        count(rows, |row| row < Id::Bits29(number & GREATEST_29)),
        count(rows, |row| of_29(row).is_none_or(is_below_signed)),
    ]
}

fn count(rows: &[&RxFrame], is_counted: impl Fn(Id) -> bool) -> usize {
    rows.iter().filter(|row| is_counted(row.id)).count()
}
