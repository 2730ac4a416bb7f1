//! Plays a rehearsal of the market from standard input to standard output.
//!
//! A plain model of the rules, to check the engine against and to measure it by.

mod book;
mod chained;
mod command;
mod form;
mod market;
mod matching;
mod packed;
mod refusal;
mod rehearsal;
mod side;
mod trade;

use std::io::{self, BufRead, BufReader, BufWriter, Write};

use rehearsal::{malformed, Rehearsal};

fn main() -> io::Result<()> {
    let mut input = BufReader::with_capacity(1 << 16, io::stdin().lock());
    let mut out = BufWriter::with_capacity(1 << 16, io::stdout().lock());
    let mut rehearsal = Rehearsal::new();
    let mut line = Vec::new();
    while input.read_until(b'\n', &mut line)? > 0 {
        match line.strip_suffix(b"\n") {
            Some(whole) => rehearsal.play(whole, &mut out)?,
            // A line that was cut off is not played, a comment neither.
            None => malformed(&mut out)?,
        }
        line.clear();
    }
    out.flush()
}
