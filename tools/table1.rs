//! One of the five conditions as a log: `table1 CONDITION ACTIONS [VERSION] > log`, by default of version 1.

use reference::log;
use std::io::{stdout, Write};
use std::process::exit;
use tools::conditions::{Bench, Condition, ALL};

/// Two ticks an action: this many stay far from the top of the clock.
const MOST: u64 = 400_000_000;

fn main() {
    let words: Vec<String> = std::env::args().skip(1).collect();
    let Some((condition, actions, version)) = asked(&words) else {
        let names: Vec<&str> = ALL.iter().map(|(_, name)| *name).collect();
        eprintln!("table1 CONDITION ACTIONS (at most {MOST}) [VERSION], the condition one of: {}", names.join(", "));
        exit(1);
    };
    let mut out = stdout().lock();
    let mut bytes = Vec::with_capacity(1 << 17);
    let mut bench = Bench::begin(condition, version, &mut bytes);
    for _ in 0..actions {
        bench.action(&mut bytes);
        if bytes.len() > 1 << 16 {
            write(&mut out, &bytes);
            bytes.clear();
        }
    }
    write(&mut out, &bytes);
}

fn asked(words: &[String]) -> Option<(Condition, u64, u8)> {
    let (name, actions, version) = match words {
        [name, actions] => (name, actions, log::FIRST_VERSION),
        [name, actions, version] => (name, actions, version.parse().ok()?),
        _ => return None,
    };
    let (condition, _) = ALL.iter().find(|(_, known)| known == name)?;
    let actions = actions.parse().ok().filter(|&actions| actions <= MOST)?;
    (log::FIRST_VERSION..=log::LAST_VERSION).contains(&version).then_some((*condition, actions, version))
}

fn write(out: &mut impl Write, bytes: &[u8]) {
    if let Err(error) = out.write_all(bytes) {
        eprintln!("writing: {error}");
        exit(1);
    }
}
