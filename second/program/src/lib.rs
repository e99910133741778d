//! The gateway of documents 01 and 02 and its bench program.
//!
//! [`run`] is the whole program: all of the input in, all of the lines out.
//! In the comments, quotation marks hold words of document 01, and after the
//! name of a ticket those of document 02.

pub mod bench;
pub mod bits;
pub mod gateway;
pub mod id;
pub mod lin;
pub mod parse;
pub mod plan;
pub mod refusal;
mod responses;
pub mod taken;

pub use bench::run;
