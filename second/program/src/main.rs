//! The second program: the bench program of document 01, with Tickets 1, 2, 4
//! and 6 of document 02.
//!
//! How it was kept apart: this package was written from these documents and the
//! team's decisions on what they leave open, without the Rattle sources, their
//! design or their specifications; README.md of the folder above says more. The
//! readings taken are listed in NOTES.md. If the two programs differ, that is a
//! question about the documents first; neither is changed to look like the
//! other.
//!
//! It is written to be obvious, not fast: plain structs and vectors, one small
//! module per topic, and comments that quote the sentence they state.

use std::io::{self, Read, Write};

fn main() -> io::Result<()> {
    let mut input = Vec::new();
    io::stdin().read_to_end(&mut input)?;
    io::stdout().write_all(second::run(&input).as_bytes())
}
