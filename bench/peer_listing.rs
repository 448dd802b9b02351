//! The peer of the listing program: a script on standard input, its listing on standard output.

use std::io::{self, BufReader, BufWriter};

const BUFFER: usize = 1 << 16;

fn main() -> io::Result<()> {
    let script = BufReader::with_capacity(BUFFER, io::stdin().lock());
    relay_peer::listing::list(script, BufWriter::with_capacity(BUFFER, io::stdout().lock()))
}
