//! A program held against what it must print.

use crate::notation::Run;
use crate::printed::{differences, Difference};
use std::collections::BTreeMap;
use std::io::{Read, Write};
use std::process::{Command, Stdio};
use std::sync::Mutex;
use std::thread::sleep;
use std::time::Duration;

/// Does the work for every item, on all processors, until it fails.
pub fn each<T: Send>(
    items: impl Iterator<Item = T> + Send,
    work: impl Fn(T) -> Result<(), String> + Sync,
) -> Result<(), String> {
    let items = Mutex::new(items);
    let failure = Mutex::new(None);
    let worker = || loop {
        let item = items.lock().unwrap().next();
        let Some(item) = item.filter(|_| failure.lock().unwrap().is_none()) else { return };
        if let Err(problem) = work(item) {
            failure.lock().unwrap().get_or_insert(problem);
        }
    };
    std::thread::scope(|scope| {
        for _ in 0..std::thread::available_parallelism().map_or(1, |processors| processors.get()) {
            scope.spawn(worker);
        }
    });
    failure.into_inner().unwrap().map_or(Ok(()), Err)
}

/// What the program prints for an input.
pub fn output(program: &str, bytes: &[u8]) -> Result<String, String> {
    output_in_pieces(program, bytes, usize::MAX, Duration::ZERO)
}

/// The same for an input that is handed to it in pieces of this size, with a pause after each: a program that has
/// not come so far reads across pieces.
pub fn output_in_pieces(program: &str, bytes: &[u8], piece: usize, pause: Duration) -> Result<String, String> {
    let say = |error: std::io::Error| format!("{program}: {error}");
    let mut words = program.split_whitespace();
    let mut command = Command::new(words.next().unwrap_or_default());
    let mut child = command.args(words).stdin(Stdio::piped()).stdout(Stdio::piped()).spawn().map_err(say)?;
    let mut input = child.stdin.take().unwrap();
    let mut printed = Vec::new();
    std::thread::scope(|scope| {
        // The program may stop reading at what is malformed, so a broken pipe is no failure.
        scope.spawn(move || {
            bytes.chunks(piece).all(|piece| {
                let written = input.write_all(piece).is_ok();
                sleep(pause);
                written
            })
        });
        child.stdout.take().unwrap().read_to_end(&mut printed)
    })
    .map_err(say)?;
    let status = child.wait().map_err(say)?;
    if status.code().is_none() {
        return Err(format!("{program} was stopped: {status}"));
    }
    String::from_utf8(printed).map_err(|_| format!("{program} printed what is no text"))
}

/// The first line, counted from 1, in which the program differs from the reference.
pub fn first_difference(expected: &str, printed: &str) -> Option<(usize, String)> {
    let (mut ours, mut theirs) = (expected.split_inclusive('\n'), printed.split_inclusive('\n'));
    for line in 1.. {
        let (our, their) = (ours.next(), theirs.next());
        if our != their {
            let shown = |line: Option<&str>| line.map_or("(nothing)".to_string(), |line| format!("{line:?}"));
            return Some((line, format!("the reference prints {}, the program {}", shown(our), shown(their))));
        }
        our?;
    }
    None
}

/// Every difference between the lines of a run, the reference and the program.
fn named_run(file: &str, run: &Run, expected: &str, printed: &str) -> Vec<Difference> {
    let (by_reference, by_program) = (differences(file, run, expected), differences(file, run, printed));
    let mut found = Vec::new();
    for (who, these, others) in [("reference", &by_reference, &by_program), ("program", &by_program, &by_reference)] {
        for one in these.iter().filter(|one| !others.contains(one)) {
            found.push(Difference { text: format!("the {who}: {}", one.text), ..*one });
        }
    }
    found.extend(by_program.into_iter().filter(|one| by_reference.contains(one)));
    if found.is_empty() {
        // Where a step has left its line out, the two still have to agree.
        let differs = first_difference(expected, printed);
        found.extend(differs.map(|(_, text)| Difference::of_the_whole(format!("{file}: {text}"))));
    }
    found.sort_by_key(|one| one.line_in_file.unwrap_or(usize::MAX));
    found
}

/// Lists every difference in the named runs before it fails.
pub fn named_runs(
    program: &str,
    files: &[String],
    parse: fn(&str) -> Result<Run, String>,
    expected: fn(&[u8]) -> String,
) -> Result<(), String> {
    let found = Mutex::new(BTreeMap::new());
    each(files.iter(), |file| {
        let text = std::fs::read_to_string(file).map_err(|error| error.to_string());
        let differences = match text.and_then(|text| parse(&text)) {
            Ok(run) => named_run(file, &run, &expected(&run.bytes), &output(program, &run.bytes)?),
            Err(problem) => vec![Difference::of_the_whole(format!("{file}:{problem}"))],
        };
        if !differences.is_empty() {
            found.lock().unwrap().insert(file, differences);
        }
        Ok(())
    })?;
    let found = found.into_inner().unwrap();
    if found.is_empty() {
        println!("{} named runs", files.len());
        return Ok(());
    }
    let mut lines = 0;
    for differences in found.values() {
        for difference in differences {
            println!("{}", difference.text);
        }
        let mut of_file: Vec<usize> = differences.iter().filter_map(|one| one.line_in_file).collect();
        of_file.dedup();
        lines += of_file.len();
    }
    Err(format!("runs that differ: {} of {}; lines that differ: {lines}", found.len(), files.len()))
}
