//! What a program needs for a log.
//!
//!     measure time ROUNDS LOG COMMAND..   the best time of each in microseconds, taking turns
//!     measure pipe COMMAND < log          microseconds of processor time and peak memory in KB
//!
//! `pipe` hands its own input on, waits with the end until the program has taken everything, and then reads
//! what the system has counted for it; so the log can be made while it runs and be of any length.

use std::fs::File;
use std::io::{stdin, Error, Read, Write};
use std::process::{exit, Child, Command, Stdio};
use std::time::{Duration, Instant};

fn main() {
    let words: Vec<String> = std::env::args().skip(1).collect();
    let words: Vec<&str> = words.iter().map(String::as_str).collect();
    let outcome = match &words[..] {
        ["time", rounds, log, programs @ ..] if rounds.parse::<u32>().is_ok() && !programs.is_empty() => {
            time(rounds.parse().unwrap(), log, programs)
        }
        ["pipe", program] => pipe(program),
        _ => {
            eprintln!("measure time ROUNDS LOG COMMAND.. | measure pipe COMMAND < log");
            exit(1)
        }
    };
    if let Err(error) = outcome {
        eprintln!("measure: {error}");
        exit(1);
    }
}

/// A program and its words.
fn command(text: &str) -> Command {
    let mut words = text.split_whitespace();
    let mut command = Command::new(words.next().unwrap_or_default());
    command.args(words);
    command
}

fn time(rounds: u32, log: &str, programs: &[&str]) -> Result<(), Error> {
    let mut best = vec![Duration::MAX; programs.len()];
    for _ in 0..rounds {
        for (program, best) in programs.iter().zip(&mut best) {
            let mut command = command(program);
            command.stdin(File::open(log)?).stdout(Stdio::null());
            let begin = Instant::now();
            command.status()?;
            *best = begin.elapsed().min(*best);
        }
    }
    let best: Vec<String> = best.iter().map(|time| time.as_micros().to_string()).collect();
    println!("{}", best.join(" "));
    Ok(())
}

fn pipe(program: &str) -> Result<(), Error> {
    let mut child = command(program).stdin(Stdio::piped()).stdout(Stdio::null()).spawn()?;
    let mut into = child.stdin.take().unwrap();
    let mut input = stdin().lock();
    let mut block = vec![0; 1 << 16];
    loop {
        match input.read(&mut block)? {
            0 => break,
            count => into.write_all(&block[..count])?,
        }
    }
    let (time, memory) = settled(&child)?;
    drop(into);
    child.wait()?;
    println!("{time} {memory}");
    Ok(())
}

/// Processor time and peak memory once the program waits for more input: its time no longer grows.
fn settled(child: &Child) -> Result<(u64, u64), Error> {
    let mut before = u64::MAX;
    loop {
        std::thread::sleep(Duration::from_millis(30));
        let schedule = std::fs::read_to_string(format!("/proc/{}/schedstat", child.id()))?;
        let time: u64 = schedule.split(' ').next().and_then(|word| word.parse().ok()).unwrap_or(0);
        if time == before {
            let status = std::fs::read_to_string(format!("/proc/{}/status", child.id()))?;
            let peak = status.lines().find_map(|line| line.strip_prefix("VmHWM:"));
            let peak = peak.and_then(|line| line.split_whitespace().next()?.parse().ok());
            return Ok((time / 1000, peak.unwrap_or(0)));
        }
        before = time;
    }
}
