//! The places of strangers, as the calls answer them, and what of them the
//! table counts.
//!
//! Ticket 4: "A lookup that finds nothing should say how many of that node's
//! rows have a smaller ID."

use second::id::{Id, GREATEST_11};
use second::plan::{Plan, RxFrame};

use crate::ids::next_id;
use crate::tally::{unlike_row, Tally, OTHER_COUNTS, PLACES};

impl Tally {
    /// Counts a reception that found no row.
    pub fn stranger(&mut self, plan: &Plan, node: u8, id: Id, place: usize) {
        let rows = plan.rx_frames.iter();
        let rows: Vec<&RxFrame> = rows.filter(|row| row.node == node).collect();
        if matches!(id, Id::Bits11(number) if number > GREATEST_11) {
            self.met("rx 1 for an ID above 2047");
            self.met(match rows.is_empty() {
                true => "places of an ID above 2047, without rows",
                false => "places of an ID above 2047, with rows",
            });
        } else {
            self.side(plan, node, rows.len(), place);
            self.neighbours(plan, &rows, id);
        }
        if place > 255 {
            self.met("places above 255");
        }
        for (what, count) in OTHER_COUNTS.into_iter().zip(other_counts(plan, node, id)) {
            if count != place {
                self.met(&unlike_row(what));
            }
        }
    }

    /// The side of the node's rows that the place is on.
    fn side(&mut self, plan: &Plan, node: u8, rows: usize, place: usize) {
        let [of_few_rows, of_256_rows, sides] = PLACES.map(|(row, _)| row);
        if rows <= 15 {
            self.met_pair(of_few_rows, rows, place);
        }
        if rows == 256 {
            self.met_pair(of_256_rows, rows, place);
        }
        if rows == 0 {
            return self.met(match plan.rx_frames.is_empty() {
                true => "places in a plan without rows",
                false => "places on a node without rows",
            });
        }
        let (side, row) = match place {
            0 => (0, "places before the node's rows"),
            _ if place < rows => (1, "places between the node's rows"),
            _ => (2, "places after the node's rows"),
        };
        self.met(row);
        self.met_pair(sides, usize::from(node), side);
    }

    /// Rows whose ID is that of the stranger, or the next.
    fn neighbours(&mut self, plan: &Plan, rows_of_node: &[&RxFrame], id: Id) {
        if plan.rx_frames.iter().any(|row| row.id == id) {
            self.met("rx 1 for an ID that another node has");
        }
        if rows_of_node.iter().any(|row| next_id(row.id, 1) == id) {
            self.met("places one above a row's ID");
        }
        if rows_of_node.iter().any(|row| next_id(row.id, -1) == id) {
            self.met("places one below a row's ID");
        }
    }
}

/// Counts that could be taken for the place, in the order of `OTHER_COUNTS`.
fn other_counts(plan: &Plan, node: u8, id: Id) -> [usize; 6] {
    let rows = |is_counted: &dyn Fn(&RxFrame) -> bool| {
        let rows = plan.rx_frames.iter();
        rows.filter(|row| is_counted(row)).count()
    };
    let tx_frames = plan.tx_frames.iter();
    [
        rows(&|row| (row.node, row.id) < (node, id)),
        rows(&|row| row.id < id),
        rows(&|row| row.node == node && row.id > id),
        rows(&|row| row.node == node && row.id < low_11_bits(id)),
        rows(&|row| row.node == node && signed(row.id) < signed(id)),
        tx_frames.filter(|tx| tx.node == node && tx.id < id).count(),
    ]
}

/// The ID of the same format with the low 11 bits of its number.
fn low_11_bits(id: Id) -> Id {
    match id {
        Id::Bits11(number) => Id::Bits11(number % 2048),
        Id::Bits29(number) => Id::Bits29(number % 2048),
    }
}

/// The format and the number as one with a sign.
fn signed(id: Id) -> (bool, i32) {
    match id {
        Id::Bits11(number) => (false, i32::from(number as i16)),
        Id::Bits29(number) => (true, number as i32),
    }
}
