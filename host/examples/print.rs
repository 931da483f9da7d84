//! Prints a trace file of any length as the trace program does, without holding it.
use amx::{ReadError, TraceReader, print_trace};
use std::io::{self, BufWriter, Write};

fn main() -> Result<(), ReadError> {
    let file = std::env::args_os().nth(1).ok_or_else(|| io::Error::other("expected the name of a trace file"))?;
    let mut output = BufWriter::new(io::stdout().lock());
    print_trace(TraceReader::open(file), &mut output)?;
    output.flush()?;
    Ok(())
}
