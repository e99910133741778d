//! The comparison of a bench program with the second program.
//!
//! `shapes` makes the inputs (from `good` plans, `ids` and `events`, written by
//! `spec`), `ask` puts them to the command, `tally` is the table of what they
//! met and `observe` fills it, with `refused_plans` for the causes,
//! `long_counters` for the long timeouts, `places` for the strangers, `age_rows`
//! for the age of a fix, `lin_plans`, `lin_orders`, `checksums` and `lin_rows`
//! for LIN nodes, `format_plans`, `format_faults`, `format_calls`,
//! `format_places` and `format_rows` for 29-bit IDs (`widen` gives them to plans),
//! and `queue_rows`, `room_rows` and `leaving_rows` for queues,
//! `lines` looks in the command's lines for a fix that is too old, told by
//! `ages`, and for a take that cannot be, told by `queues` as `broken` has it, and
//! `run` puts these together.

mod age_rows;
mod ages;
pub mod args;
pub mod ask;
mod broken;
pub mod checksums;
pub mod events;
pub mod format_calls;
pub mod format_faults;
pub mod format_places;
pub mod format_plans;
pub mod format_rows;
pub mod good;
pub mod ids;
pub mod leaving_rows;
pub mod lin_orders;
pub mod lin_plans;
pub mod lin_rows;
pub mod lines;
mod long_counters;
mod observe;
mod places;
mod queue_rows;
mod queues;
mod refused_plans;
pub mod rng;
pub mod room_rows;
pub mod run;
pub mod shapes;
pub mod spec;
pub mod tally;
mod widen;
