//! Reads a trace from standard input and prints its listing.
//!
//! This is a second program of docs/RULES.md, written from that page alone. Section numbers in comments are its sections.

mod bottom;
mod level;
mod memory;
mod player;
mod port;
mod rule;
mod trace;

use std::io::{self, BufWriter, Read, Write};

/// How many bytes of standard input are the trace.
const TRACE_LIMIT: u64 = 32_768;

fn main() -> io::Result<()> {
    let mut trace = Vec::new();
    io::stdin().lock().take(TRACE_LIMIT).read_to_end(&mut trace)?;
    let mut out = BufWriter::new(io::stdout().lock());
    player::play(&trace, &mut out)?;
    out.flush()
}
