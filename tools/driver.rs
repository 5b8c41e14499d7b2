//! Holds a program against the reference: `driver COMMAND LOGS RUN..`
//!
//! Every named run, a short log of each condition in each version, logs cut at every one of their bytes, long logs
//! that come in pieces of odd sizes, and LOGS random logs, the seeds 1 to LOGS. Of the named runs every difference is
//! listed before it ends with 1; of the other logs the first ends it.

use reference::{log, replay::replay};
use std::process::exit;
use std::sync::Mutex;
use std::time::Duration;
use tools::conditions::{Bench, Condition, ALL};
use tools::holding::tried::Tried;
use tools::notation::{parse, LOG};
use tools::programs::{each, first_difference, named_runs, output_in_pieces};
use tools::random_logs::{chains, random_log, version_of, walk_log, USUAL};
use tools::written::there_and_back;

/// Random logs that are run one behind the other in one process, as far as they are well-formed: at most so many.
const UNIT: u64 = 50;

/// A log of version 2 in which node 0 gets a share, a pair of which one is fresh, and a pair that it commands with.
const PAIRS: &str = "version 2
    Start(1, 0, {2}, CLOSE, 100)
    Query(0, 100)
    Report(0, 100, CLOSE, 1)
    Report(0, 100, TRIP, 2)
    Deliver(2, 0, 100, TRIP, 99)
    Pair(2, 0, 100, TRIP, 102)
    Pair(2, 0, 100, TRIP, 100)";

fn main() {
    let words: Vec<String> = std::env::args().skip(1).collect();
    let (Some(program), Some(Ok(logs))) = (words.first(), words.get(1).map(|word| word.parse::<u64>())) else {
        eprintln!("driver COMMAND LOGS RUN..");
        exit(1);
    };
    let outcome = named_runs(program, &words[2..], parse, expected)
        .and_then(|_| conditions(program))
        .and_then(|_| cut_logs(program))
        .and_then(|_| long_logs(program))
        .and_then(|_| random_logs(program, logs));
    if let Err(difference) = outcome {
        println!("{difference}");
        exit(1);
    }
}

fn expected(bytes: &[u8]) -> String {
    let mut text = String::new();
    replay(bytes, |line| {
        text += &line;
        text.push('\n');
    });
    text
}

/// Compares byte for byte; a difference names the log and the first line that differs, and the log is kept. One without a
/// difference is written as a run and read again.
fn compare(program: &str, name: &str, bytes: &[u8], piece: usize) -> Result<String, String> {
    let expected = expected(bytes);
    let printed = output_in_pieces(program, bytes, piece, Duration::ZERO)?;
    let Some((_, difference)) = first_difference(&expected, &printed) else {
        return there_and_back(&LOG, bytes, &expected).map(|_| expected).map_err(|problem| format!("{name}: {problem}"));
    };
    let kept = "target/tools/differs.log";
    std::fs::write(kept, bytes).map_err(|error| format!("{kept}: {error}"))?;
    Err(format!("{name}: {difference}; the log is kept in {kept}"))
}

fn condition(condition: Condition, version: u8, actions: u64) -> Vec<u8> {
    let mut bytes = Vec::new();
    let mut bench = Bench::begin(condition, version, &mut bytes);
    for _ in 0..actions {
        bench.action(&mut bytes);
    }
    bytes
}

/// A short log of each condition in each version, in which every action must change the breaker.
fn conditions(program: &str) -> Result<(), String> {
    let actions = 50;
    let versions = log::FIRST_VERSION..=log::LAST_VERSION;
    let all = versions.flat_map(|version| ALL.map(|(which, name)| (which, version, name)));
    each(all, |(which, version, name)| {
        let name = format!("{name} in version {version}");
        let lines = compare(program, &name, &condition(which, version, actions), usize::MAX)?;
        let statuses: Vec<_> = lines.lines().map(|line| line.split(' ').nth(2)).collect();
        let changes = statuses.windows(2).filter(|next| next[0] != next[1]).count();
        match changes as u64 == actions {
            true => Ok(()),
            false => Err(format!("{name}: {actions} actions, but {changes} changes of the breaker")),
        }
    })?;
    println!("{} conditions in each version, {actions} actions each", ALL.len());
    Ok(())
}

fn cut_logs(program: &str) -> Result<(), String> {
    let front = condition(Condition::FaultFree, 1, 0);
    let logs = [front, walk_log(3, 15, 1), parse(PAIRS)?.bytes];
    let cuts: Vec<Vec<u8>> = logs.iter().flat_map(|log| (0..=log.len()).map(|end| log[..end].to_vec())).collect();
    let count = cuts.len();
    each(cuts.into_iter(), |cut| {
        compare(program, &format!("a log cut to {} bytes", cut.len()), &cut, usize::MAX).map(|_| ())
    })?;
    println!("{count} logs cut short");
    Ok(())
}

/// Logs of many blocks, whole and in pieces that end inside records and inside lengths.
fn long_logs(program: &str) -> Result<(), String> {
    let logs = [
        ("a long walk", walk_log(2, 40_000, 1)),
        ("a long walk with pairs", walk_log(8, 40_000, 2)),
        ("a long run under attack", condition(Condition::ByzantineRecovery, 1, 800)),
    ];
    let all = logs.iter().flat_map(|(name, bytes)| {
        let pieces = [(bytes.len(), bytes.len()), (bytes.len(), 4093), (bytes.len(), 13), (20_000, 1)];
        pieces.map(|(end, piece)| (format!("{name}, {end} bytes in pieces of {piece}"), &bytes[..end], piece))
    });
    each(all, |(name, bytes, piece)| compare(program, &name, bytes, piece).map(|_| ()))?;
    println!("long logs, whole and in pieces");
    Ok(())
}

fn random_logs(program: &str, logs: u64) -> Result<(), String> {
    let total = Mutex::new(Tried::default());
    let units = (0..logs).step_by(UNIT as usize).map(|first| first + 1..(first + UNIT).min(logs) + 1);
    each(units, |seeds| {
        for chain in chains(seeds) {
            let name = format!("the seeds {:?}, one behind the other", chain.seeds);
            match compare(program, &name, &chain.bytes, usize::MAX) {
                Ok(_) => total.lock().unwrap().count(&chain.bytes),
                Err(difference) => {
                    for seed in chain.seeds {
                        compare(program, &format!("seed {seed}"), &random_log(seed, USUAL), usize::MAX)?;
                    }
                    return Err(difference);
                }
            }
        }
        Ok(())
    })?;
    let second = (1..=logs).filter(|&seed| version_of(seed) == 2).count();
    println!("{logs} random logs, {second} of version 2, which have reached\n\n{}", total.into_inner().unwrap());
    Ok(())
}
