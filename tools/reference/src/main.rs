//! The bench program of document 01 on the reference implementation: standard input to standard
//! output.

use std::io::{self, BufReader, BufWriter};

const CHUNK_BYTES: usize = 1 << 16;

fn main() -> io::Result<()> {
    let input = BufReader::with_capacity(CHUNK_BYTES, io::stdin().lock());
    let output = BufWriter::with_capacity(CHUNK_BYTES, io::stdout().lock());
    reference::protocol::run(input, output)
}
