//! Holds a program against the Arbiter's reference: `arbiter_driver COMMAND SEQUENCES RUN..`
//!
//! Every named run, sequences of calls cut at every one of their bytes, a long one, short ones that come in pieces of odd
//! sizes, and SEQUENCES random ones, the seeds 1 to SEQUENCES. Of the named runs every difference is listed before it ends
//! with 1; of the others the first ends it.

mod arbiter_tally;

use arbiter_tally::Tally;
use reference::calls;
use std::process::exit;
use std::sync::Mutex;
use std::time::Duration;
use tools::arbiter_generator::{random_sequence, Walk, USUAL};
use tools::notation::{parse_calls, CALLS};
use tools::programs::{each, first_difference, named_runs, output, output_in_pieces};
use tools::written::there_and_back;

/// Random sequences that are run one behind the other in one process: at most so many.
const BATCH: usize = 50;

fn main() {
    let words: Vec<String> = std::env::args().skip(1).collect();
    let (Some(program), Some(Ok(sequences))) = (words.first(), words.get(1).map(|word| word.parse::<u64>())) else {
        eprintln!("arbiter_driver COMMAND SEQUENCES RUN..");
        exit(1);
    };
    let outcome = named_runs(program, &words[2..], parse_calls, |bytes| Tally::default().run(bytes))
        .and_then(|_| cut_sequences(program))
        .and_then(|_| pieces(program))
        .and_then(|_| random_sequences(program, sequences));
    if let Err(difference) = outcome {
        println!("{difference}");
        exit(1);
    }
}

/// Compares byte for byte.
fn compare(program: &str, name: &str, bytes: &[u8]) -> Result<Tally, String> {
    judge(name, bytes, &output(program, bytes)?)
}

/// A difference names the sequence, the first line that differs and its step, and the calls are kept. One without a
/// difference is written as a run and read again.
fn judge(name: &str, bytes: &[u8], printed: &str) -> Result<Tally, String> {
    let mut tally = Tally::default();
    let expected = tally.run(bytes);
    let Some((line, difference)) = first_difference(&expected, printed) else {
        return there_and_back(&CALLS, bytes, &expected).map(|_| tally).map_err(|problem| format!("{name}: {problem}"));
    };
    let step = bytes.chunks(calls::LENGTH).nth(line - 1).and_then(calls::read);
    let step = step.map_or("no step".to_string(), |step| format!("{step:?}"));
    let kept = "target/tools/differs.calls";
    std::fs::write(kept, bytes).map_err(|error| format!("{kept}: {error}"))?;
    Err(format!("{name}, line {line}, {step}: {difference}; the calls are kept in {kept}"))
}

fn walk(seed: u64, count: usize) -> Vec<u8> {
    let mut walk = Walk::new(seed);
    let mut bytes = Vec::new();
    for _ in 0..count {
        calls::write(&walk.step().0, &mut bytes);
    }
    bytes
}

/// All of a short sequence, and the last calls of longer ones, cut at every byte.
fn cut_sequences(program: &str) -> Result<(), String> {
    let mut cuts = Vec::new();
    for (calls, last) in [(walk(1, 3), 3), (walk(2, 60), 2), (walk(3, 300), 2)] {
        cuts.extend((calls.len() - last * calls::LENGTH..=calls.len()).map(|end| calls[..end].to_vec()));
    }
    let count = cuts.len();
    each(cuts.into_iter(), |cut| compare(program, &format!("calls cut to {} bytes", cut.len()), &cut).map(|_| ()))?;
    println!("{count} sequences cut short");
    Ok(())
}

/// A long sequence, and a short one in pieces that end inside calls.
fn pieces(program: &str) -> Result<(), String> {
    let bytes = walk(4, 10_000);
    compare(program, "a long sequence", &bytes)?;
    each([1, 5, 11, 13].into_iter(), |piece| {
        let bytes = &bytes[..60 * piece];
        let printed = output_in_pieces(program, bytes, piece, Duration::from_millis(4))?;
        judge(&format!("a sequence in pieces of {piece} bytes"), bytes, &printed).map(|_| ())
    })?;
    println!("a long sequence, and short ones in pieces");
    Ok(())
}

/// Random sequences one behind the other: all but the last are well-formed. A start replaces everything, so a sequence is
/// not troubled by those before it; what comes before its first start meets the site that they left.
struct Batch {
    bytes: Vec<u8>,
    seeds: Vec<u64>,
}

impl Batch {
    fn next(seeds: &mut impl Iterator<Item = u64>) -> Option<Batch> {
        let mut batch = Batch { bytes: Vec::new(), seeds: Vec::new() };
        for seed in seeds {
            let bytes = random_sequence(seed, USUAL);
            batch.seeds.push(seed);
            batch.bytes.extend(&bytes);
            let well_formed = bytes.chunks(calls::LENGTH).all(|call| calls::read(call).is_some());
            if !well_formed || batch.seeds.len() == BATCH {
                break;
            }
        }
        (!batch.seeds.is_empty()).then_some(batch)
    }
}

fn random_sequences(program: &str, sequences: u64) -> Result<(), String> {
    let total = Mutex::new(Tally::default());
    let mut seeds = 1..=sequences;
    each(std::iter::from_fn(|| Batch::next(&mut seeds)), |batch| {
        let name = format!("the seeds {:?}, one behind the other", batch.seeds);
        match compare(program, &name, &batch.bytes) {
            Ok(tally) => *total.lock().unwrap() += tally,
            Err(difference) => {
                for seed in batch.seeds {
                    compare(program, &format!("seed {seed}"), &random_sequence(seed, USUAL))?;
                }
                return Err(difference);
            }
        }
        Ok(())
    })?;
    print!("{sequences} random sequences, {}", total.into_inner().unwrap());
    Ok(())
}
