//! One random log: `generate SEED [COUNT [VERSION]] > log`. With a COUNT it is a walk of that many records and no
//! damage, by default of version 1; without, it is the log that the comparison uses for that seed.

use reference::log;
use std::io::{stdout, Write};
use std::process::exit;
use tools::generator::Walk;
use tools::random_logs::{random_log, USUAL};

fn main() {
    let numbers: Option<Vec<u64>> = std::env::args().skip(1).map(|word| word.parse().ok()).collect();
    let done = match numbers.as_deref() {
        Some([seed]) => stdout().write_all(&random_log(*seed, USUAL)),
        Some([seed, count]) => walk(*seed, *count, log::FIRST_VERSION),
        Some([seed, count, version @ 1..=2]) => walk(*seed, *count, *version as u8),
        _ => {
            eprintln!("generate SEED [COUNT [VERSION]]");
            exit(1)
        }
    };
    if let Err(error) = done {
        eprintln!("writing: {error}");
        exit(1);
    }
}

fn walk(seed: u64, count: u64, version: u8) -> std::io::Result<()> {
    let mut out = stdout().lock();
    let mut walk = Walk::new(seed, version);
    let mut bytes = vec![version];
    for _ in 0..count {
        log::write(&walk.step().0, &mut bytes);
        if bytes.len() > 1 << 16 {
            out.write_all(&bytes)?;
            bytes.clear();
        }
    }
    out.write_all(&bytes)
}
