//! The Arbiter's reference program: calls on standard input, a line for each call on standard output.

use reference::calls::replay;
use std::io::{stdin, stdout, BufWriter, Read, Write};

fn main() -> std::io::Result<()> {
    let mut bytes = Vec::new();
    stdin().lock().read_to_end(&mut bytes)?;
    let mut out = BufWriter::new(stdout().lock());
    let mut written = Ok(());
    replay(&bytes, |line| {
        if written.is_ok() {
            written = writeln!(out, "{line}");
        }
    });
    written?;
    out.flush()
}
