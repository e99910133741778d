//! What the cases met: a table of counts, each of which must be above 0, and
//! of pairs, all of which must be met: the positions and sizes of signals
//! copied, the places of strangers, the sources at their oldest, the IDs of
//! responses, the lengths of cut records, full queues, and those ahead in a
//! queue.

use std::collections::{BTreeMap, BTreeSet};

use crate::format_calls::{self, CUT_EVENT};
use crate::format_faults::{self, CUTS};
use crate::leaving_rows::{self, LEAVING_PAIRS};
use crate::room_rows::{self, ROOM_PAIRS};
use crate::shapes::Shapes;
use crate::{checksums, format_places, format_plans, format_rows};
use crate::{lin_orders, lin_plans, lin_rows};

pub struct Tally {
    counts: BTreeMap<String, u64>,
    /// The pairs of each row that counts pairs: those of `COPIED`, `PLACES`,
    /// `OLDEST`, `LIN_IDS`, `CUTS`, `CUT_EVENT`, `ROOM_PAIRS` and `LEAVING_PAIRS`.
    pairs: BTreeMap<&'static str, BTreeSet<(usize, usize)>>,
}

/// The limits of a plan: their names and values.
pub const LIMITS: [(&str, usize); 7] = [
    ("nodes", 16),
    ("Tx frames", 256),
    ("Rx frames", 256),
    ("signals", 1024),
    ("signals in a frame", 64),
    ("destinations", 2048),
    ("destinations for a signal", 15),
];

pub const PRESCALERS: [u8; 4] = [1, 2, 10, 20];

pub const INPUT_LENGTHS: [usize; 3] = [65_535, 65_536, 65_537];

/// The kinds of records, by their kind byte from 1.
pub const KINDS: [&str; 8] = [
    "head",
    "node",
    "Tx frame",
    "Rx frame",
    "signal",
    "destination",
    "29-bit Tx frame",
    "29-bit Rx frame",
];

/// The pairs of a position and a size whose sum is at most 64.
pub const PAIRS: u64 = 2080;

/// The rows that count such pairs, each pair once, in big and in little order:
/// of a source, of a destination, and of a destination whose source begins at
/// another bit of its byte.
pub const COPIED: [[&str; 3]; 2] = [
    [
        "pairs copied from, big order",
        "pairs copied to, big order",
        "pairs copied to another offset, big order",
    ],
    [
        "pairs copied from, little order",
        "pairs copied to, little order",
        "pairs copied to another offset, little order",
    ],
];

/// Where a stranger stands: each is counted in one of these rows.
pub const SIDES: [&str; 7] = [
    "places before the node's rows",
    "places between the node's rows",
    "places after the node's rows",
    "places on a node without rows",
    "places in a plan without rows",
    "places of an ID above 2047, with rows",
    "places of an ID above 2047, without rows",
];

/// The rows that count pairs of strangers up to ID 2047, each pair once, and
/// how many pairs there are: the number of the node's rows and the place, for
/// up to 15 rows and for 256; and a node and a side of its rows, which is before,
/// between or after them.
pub const PLACES: [(&str, u64); 3] = [
    ("places on nodes of 0 to 15 rows, of 136", 136),
    ("places on a node of 256 rows, of 257", 257),
    ("sides of the rows of 16 nodes, of 48", 48),
];

/// Counts that could be taken for the place of a stranger.
pub const OTHER_COUNTS: [&str; 6] = [
    "the place in the whole plan",
    "the smaller IDs of all nodes",
    "the greater IDs of the node",
    "the place of the low 11 bits",
    "the place of the ID with a sign",
    "the smaller IDs of Tx frames",
];

/// Receptions that a row does not accept.
pub const PASSING_BY: [&str; 5] = [
    "rx 0 of another row",
    "rx 1",
    "rx 2",
    "rx refused 12",
    "rx refused 13",
];

/// What comes between two silences of a row on a LIN node and is no restart.
pub const LIN_PASSING_BY: [&str; 11] = [
    "a tick",
    "a request",
    "rx 0 of another row",
    "rx 2",
    "rx 3",
    "rx refused 12",
    "rx refused 13",
    "rx refused 16",
    "silent of another row",
    "silent refused 12",
    "silent refused 16",
];

/// The row that counts the IDs of accepted responses, each once, and how many
/// there are.
pub const LIN_IDS: (&str, u64) = ("IDs of accepted responses, of 60", 60);

/// Reloads whose bound r times p is met to the tick, for each prescaler: both
/// ends, both sides of where r passes 127 and 10 r and 20 r pass 255, and some
/// between.
pub const RELOADS: [u8; 16] = [
    1, 2, 3, 5, 8, 12, 13, 25, 26, 64, 100, 127, 128, 200, 254, 255,
];

/// "255 times 20 is 5,100": no bound r times p is greater.
pub const GREATEST_BOUND: u64 = 5_100;

/// The rows that count pairs of a source whose failure bit was seen to be set by
/// a tick, each pair once, and how many pairs there are: the prescaler and the
/// reload, where that tick made the age r times p; and the prescaler and the
/// phase, which is what the number of the tick after the acceptance leaves over
/// if the prescaler divides it.
pub const OLDEST: [(&str, u64); 2] = [
    ("prescalers and reloads at r p ticks, of 64", 64),
    ("prescalers and phases at an expiry, of 33", 33),
];

/// The sections of the table: a heading, and the rows in their order.
fn sections() -> Vec<(&'static str, Vec<String>)> {
    vec![
        ("plan lines", plan_lines()),
        ("what a plan was refused for", causes()),
        ("event lines", event_lines()),
        ("plans", plans()),
        ("events", events()),
        ("long counters", long_counters()),
        ("long counters on LIN", lin_long_counters()),
        ("places of strangers", places()),
        ("age of a fix, reload r and prescaler p", ages()),
        ("LIN: good plans", lin_plans::good_rows()),
        (
            "LIN: what a plan was refused for",
            lin_plans::refused_rows(),
        ),
        ("LIN: calls", lin_orders::rows()),
        ("LIN: checksums", checksums::rows()),
        ("LIN: requests and frames", lin_rows::rows()),
        ("29-bit IDs: good plans", format_plans::rows()),
        (
            "29-bit IDs: what a plan was refused for",
            format_faults::rows(),
        ),
        ("29-bit IDs: receptions and takes", format_calls::rows()),
        ("29-bit IDs: places of strangers", format_places::rows()),
        ("29-bit IDs: the rest of the rules", format_rows::rows()),
        ("room of a queue", room_rows::rows()),
        ("leaving order of a queue", leaving_rows::rows()),
        (
            "pairs of a position and a size of a signal, of 2080",
            copied(),
        ),
        ("how the inputs were made", made()),
    ]
}

fn plan_lines() -> Vec<String> {
    let mut rows = vec!["plan ok".to_string()];
    rows.extend((1..=9).map(|number| format!("plan refused {number}")));
    rows
}

fn causes() -> Vec<String> {
    let mut rows = vec!["1: empty plan".to_string()];
    rows.extend(KINDS.map(|kind| format!("1: {kind} cut")));
    rows.extend(KINDS.map(|kind| format!("3: {kind}")));
    rows.extend(LIMITS.map(|(what, limit)| past_row(what, limit)));
    rows.extend(KINDS.map(|kind| format!("5: {kind}")));
    let others = [
        "7: signal past the data",
        "7: destination past the data",
        "7: no such Tx frame",
        "8: destination",
        "8: failure bit",
        "9: no signal",
        "9: no destination",
        "9: position past the Tx data",
    ];
    rows.extend(others.map(String::from));
    rows
}

fn event_lines() -> Vec<String> {
    let mut rows: Vec<String> = (0..=3).map(|answer| format!("rx {answer}")).collect();
    let others = [
        "rx refused 12",
        "rx refused 13",
        "rx refused 16",
        "tick with report byte 0",
        "tick with report byte 1",
        "tick with report byte 2",
        "tick with an empty report",
        "take none",
        "take of a frame",
        "take of a request",
        "take refused 12",
        "silent 1",
        "silent 2",
        "silent refused 12",
        "silent refused 16",
        "input bad alone",
        "input bad as the first event",
        "input bad after events",
    ];
    rows.extend(others.map(String::from));
    rows
}

fn plans() -> Vec<String> {
    let mut rows = ["plans in big order", "plans in little order"]
        .map(String::from)
        .to_vec();
    rows.extend(PRESCALERS.map(|p| format!("plans with prescaler {p}")));
    rows.extend([0, 1, 255].map(|value| format!("plans with timer value {value}")));
    rows.extend(LIMITS.map(|(what, limit)| format!("plans of {limit} {what}")));
    rows.extend(INPUT_LENGTHS.map(|length| format!("inputs of {length} bytes")));
    rows
}

fn events() -> Vec<String> {
    let mut rows: Vec<String> = (0..=12)
        .map(|n| format!("receptions of length {n}"))
        .collect();
    rows.extend((0..=8).map(|size| format!("takes of {size} bytes")));
    rows.extend(PRESCALERS.map(|p| format!("Tx frames sent by a timer of prescaler {p}")));
    rows.extend(PRESCALERS.map(|p| format!("timeouts by a timer of prescaler {p}")));
    let others = [
        "receptions of length above 12",
        "rx 1 for an ID above 2047",
        "rx 1 for an ID that another node has",
        "sent on reception",
        "sent on change, with a change",
        "sent on change, without a change",
        "scheduled while waiting",
        "failure bit set",
        "failure bit cleared",
        "takes that leave more than 100 waiting",
        "cases of more than 160 ticks",
    ];
    rows.extend(others.map(String::from));
    rows
}

/// Ticket 1: "The long counter must start again at every accepted reception".
pub fn long_counters() -> Vec<String> {
    let mut rows = [
        "restarts of a long counter under way",
        "long timeouts put off by a restart",
    ]
    .map(String::from)
    .to_vec();
    rows.push(despite_row("a tick without an expiry"));
    rows.extend(PASSING_BY.map(despite_row));
    rows.extend([0, 1].map(after_rx_0_row));
    rows.extend((2..=15).map(after_restart_row));
    rows
}

/// The same on LIN nodes, where the expiries are those that the driver calls.
pub fn lin_long_counters() -> Vec<String> {
    let mut rows = [
        "restarts of a long counter under way",
        "long timeouts put off by a restart",
    ]
    .map(String::from)
    .to_vec();
    rows.extend(LIN_PASSING_BY.map(despite_row));
    rows.extend([0, 1].map(after_rx_0_row));
    rows.extend((2..=15).map(after_restart_row));
    rows.into_iter().map(on_lin_row).collect()
}

/// The row of a long counter on a LIN node.
pub fn on_lin_row(row: String) -> String {
    format!("{row}, LIN")
}

/// Ticket 4: "how many of that node's rows have a smaller ID".
pub fn places() -> Vec<String> {
    let mut rows = SIDES.map(String::from).to_vec();
    let others = [
        "places one above a row's ID",
        "places one below a row's ID",
        "places above 255",
    ];
    rows.extend(others.map(String::from));
    rows.extend(OTHER_COUNTS.map(unlike_row));
    rows.extend(PLACES.map(|(row, _)| row.to_string()));
    rows
}

/// Ticket 8: "fewer than r times p unrefused ticks have passed since the last
/// acceptance, and the frame's bits from that source are those of that
/// acceptance."
pub fn ages() -> Vec<String> {
    let mut rows = PRESCALERS.map(last_bit_0_row).to_vec();
    rows.extend(PRESCALERS.map(first_bit_1_row));
    rows.extend(PASSING_BY.map(when_due_row));
    rows.push(kept_row("a take"));
    rows.extend(PASSING_BY.map(kept_row));
    let others = [
        "fixes with bit 0",
        "bits 0 of unlike bounds in a frame",
        "bit 0 past the bound of another source",
        "past the bound, failure bit elsewhere",
        "5100 ticks old, indicator off",
        "5100 ticks old, reload 0",
        "never accepted, bit 0 after r p ticks",
        "bit 0, changed by the acceptance, big",
        "bit 0, changed by the acceptance, little",
        "LIN source, bit 0 before r p ticks",
        "LIN source, bit 0 at r p ticks or more",
        "LIN source, bit 1 before r p ticks",
    ];
    rows.extend(others.map(String::from));
    rows.extend(OLDEST.map(|(row, _)| row.to_string()));
    rows
}

/// One order in each column.
fn copied() -> Vec<String> {
    COPIED.concat().into_iter().map(String::from).collect()
}

/// The row of each shape, each once.
fn made() -> Vec<String> {
    let mut rows: Vec<String> = Vec::new();
    for name in Shapes::all().names() {
        let row = made_row(name);
        if !rows.contains(&row) {
            rows.push(row);
        }
    }
    rows
}

/// The row for the inputs of a shape: for damaged records and inputs its own
/// name, for the others what they have in common.
pub fn made_row(shape: &str) -> String {
    let row = match shape.split_once(": ") {
        Some(("records", what)) if what.ends_with(" cut") => "records: one cut",
        Some(("records", what)) if what.starts_with("kind ") => "records: one inserted",
        Some(("input", what)) if what.starts_with("reception cut") => "input: reception cut",
        Some(("input", what)) if what.starts_with("29-bit reception cut") => {
            "input: 29-bit reception cut"
        }
        Some(("input", what)) if what.starts_with("response cut") => "input: response cut",
        Some(("input", what)) if what.starts_with("no response cut") => "input: no response cut",
        Some(("records" | "input", _)) => shape,
        Some(("copies", _)) => "signals of every position and size",
        Some(("restarts", _)) => "receptions between expiries of a long count",
        Some(("places", _)) => "strangers at every place of every node",
        Some(("ages", _)) => "takes around the expiry of a source",
        Some(("queues", _)) => "queues filled, wrapped and drained",
        Some(("lin", _)) => "LIN nodes, their calls and requests",
        Some(("formats", _)) => "IDs of both formats, their rows and frames",
        Some(("field", _)) => "a field at or past the end of its range",
        Some(("follower", _)) => "a missing or bad follower",
        Some(("owners", _)) => "bits with two owners, or nearly",
        Some(("order", _)) => "two faults at once",
        Some(("limit", _)) => "a count at its limit, one below or one past it",
        _ => "a good plan and a stream for it",
    };
    row.to_string()
}

fn rows() -> Vec<String> {
    sections().into_iter().flat_map(|(_, rows)| rows).collect()
}

/// How often a row must be met. That a source of another offset comes to each
/// destination is left to chance.
fn least_count(row: &str) -> u64 {
    let copied = COPIED.iter().flat_map(|[from, to, _]| [from, to]);
    let copied = copied.map(|side| (*side, PAIRS));
    let of_queues = ROOM_PAIRS.into_iter().chain(LEAVING_PAIRS);
    let others = PLACES.into_iter().chain(OLDEST).chain([LIN_IDS]);
    let others = others.chain(CUTS).chain([CUT_EVENT]);
    let mut all_pairs = copied.chain(others).chain(of_queues);
    let of_row = all_pairs.find(|(name, _)| *name == row);
    of_row.map_or(1, |(_, pairs)| pairs)
}

pub fn past_row(what: &str, limit: usize) -> String {
    format!("4: {} {what}", limit + 1)
}

/// For a long timeout that came when due although this came between two of its
/// expiries.
pub fn despite_row(what: &str) -> String {
    format!("long timeouts despite {what}")
}

/// For a take at the oldest age that a fix can have.
pub fn last_bit_0_row(prescaler: u8) -> String {
    format!("bit 0 at r p - 1 ticks, prescaler {prescaler}")
}

/// For the take after the next tick.
pub fn first_bit_1_row(prescaler: u8) -> String {
    format!("bit 1 at r p ticks, prescaler {prescaler}")
}

/// For a failure bit that was set when due although this came while the timer
/// was under way.
pub fn when_due_row(what: &str) -> String {
    format!("bit 1 when due despite {what}")
}

/// For a failure bit that was set, and still is after this.
pub fn kept_row(what: &str) -> String {
    format!("bit 1 kept despite {what}")
}

/// For a place that this count would not give.
pub fn unlike_row(count: &str) -> String {
    format!("places unlike {count}")
}

/// For the expiries of a row after an acceptance, where no restart can be seen.
pub fn after_rx_0_row(long_count: u32) -> String {
    format!("timeouts after rx 0, long count {long_count}")
}

/// For a long timeout after a restart and then exactly the long count of
/// expiries in a row.
pub fn after_restart_row(long_count: u32) -> String {
    format!("long timeouts after a restart, long count {long_count}")
}

impl Default for Tally {
    fn default() -> Tally {
        Tally::new()
    }
}

impl Tally {
    pub fn new() -> Tally {
        Tally {
            counts: rows().into_iter().map(|row| (row, 0)).collect(),
            pairs: BTreeMap::new(),
        }
    }

    /// Counts one for the row. A row that is not in the table is a mistake of
    /// this program.
    pub fn met(&mut self, row: &str) {
        self.met_times(row, 1);
    }

    pub fn met_times(&mut self, row: &str, times: u64) {
        match self.counts.get_mut(row) {
            Some(count) => *count += times,
            None => panic!("no row {row:?} in the table"),
        }
    }

    /// Counts the pair for a row that counts pairs, where it counts once.
    pub fn met_pair(&mut self, row: &'static str, one: usize, other: usize) {
        self.pairs.entry(row).or_default().insert((one, other));
    }

    pub fn count(&self, row: &str) -> u64 {
        match self.pairs.get(row) {
            Some(pairs) => pairs.len() as u64,
            None => self.counts.get(row).copied().unwrap_or(0),
        }
    }

    pub fn add(&mut self, other: &Tally) {
        for (row, count) in &other.counts {
            *self.counts.entry(row.clone()).or_insert(0) += count;
        }
        for (row, pairs) in &other.pairs {
            self.pairs.entry(row).or_default().extend(pairs);
        }
    }

    /// The rows that were never met, and those that lack one of their pairs.
    pub fn never_met(&self) -> Vec<String> {
        let rows = rows().into_iter();
        rows.filter(|row| self.count(row) < least_count(row))
            .collect()
    }

    /// The sections, each in two columns.
    pub fn table(&self) -> String {
        let mut table = String::new();
        for (heading, rows) in sections() {
            table.push_str(&format!("{heading}\n"));
            let half = rows.len().div_ceil(2);
            for (place, left) in rows[..half].iter().enumerate() {
                let mut line = format!("{:>8}  {left:<46}", self.count(left));
                if let Some(right) = rows.get(half + place) {
                    line.push_str(&format!("{:>8}  {right}", self.count(right)));
                }
                table.push_str(&format!("{}\n", line.trim_end()));
            }
        }
        table
    }
}
