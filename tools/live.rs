//! Holds a program to this: every line comes before the next record is written. `live [--limit SECONDS] COMMAND RUN..`
//!
//! Every named run and some random logs are fed to the program record by record, byte by byte, and two records at a
//! time. Nothing more is written until the lines of what was written have come, each within the limit, and none may
//! come before its record's last byte. What is malformed is written whole, and then the input is closed. At the end the
//! round trips of a long walk are measured. The first line that is not the reference's, or does not come, ends it
//! with 1.

use reference::{log, replay::replay};
use std::fmt::{Display, Formatter};
use std::io::{BufRead, BufReader, Read, Write};
use std::process::{exit, Child, ChildStdin, Command, Stdio};
use std::sync::mpsc::{sync_channel, Receiver, RecvTimeoutError, TryRecvError};
use std::sync::Mutex;
use std::thread::{sleep, spawn};
use std::time::{Duration, Instant};
use tools::notation::parse;
use tools::programs::each;
use tools::random_logs::{random_log, walk_log};

/// For a line, and for the end.
const LIMIT: Duration = Duration::from_secs(10);
/// No more of a line is looked at; those of a right program are far shorter.
const LONGEST: u64 = 1000;
/// The random logs have the seeds 1 to this.
const SEEDS: u64 = 30;
const RECORDS: usize = 50;
/// How many records the long walk has, and its version.
const WALK: (usize, u8) = (20_000, 2);

fn main() {
    let mut words: Vec<String> = std::env::args().skip(1).collect();
    let mut limit = Some(LIMIT);
    if words.first().is_some_and(|word| word == "--limit") {
        let seconds = words.get(1).and_then(|word| word.parse().ok());
        limit = seconds.and_then(|seconds| Duration::try_from_secs_f64(seconds).ok());
        words.drain(..words.len().min(2));
    }
    let (Some(limit), Some((command, files))) = (limit, words.split_first()) else {
        eprintln!("live [--limit SECONDS] COMMAND RUN..");
        exit(1);
    };
    let program = Program { command, limit };
    if let Err(problem) = every_log(&program, files).and_then(|_| round_trips(&program)) {
        println!("{problem}");
        exit(1);
    }
}

fn every_log(program: &Program, files: &[String]) -> Result<(), String> {
    let mut logs = Vec::new();
    for file in files {
        let text = std::fs::read_to_string(file).map_err(|error| format!("{file}: {error}"))?;
        let run = parse(&text).map_err(|problem| format!("{file}: {problem}"))?;
        logs.push(Log::new(file.clone(), run.bytes));
    }
    logs.extend((1..=SEEDS).map(|seed| Log::new(format!("seed {seed}"), random_log(seed, RECORDS))));
    let records = Mutex::new([0; Feeding::ALL.len()]);
    each(logs.iter().flat_map(|log| Feeding::ALL.map(|feeding| (log, feeding))), |(log, feeding)| {
        program.feed(log, feeding, |_| ())?;
        records.lock().unwrap()[feeding as usize] += log.records.len();
        Ok(())
    })?;
    println!("{} logs, {} of them named runs: every line came before more was written", logs.len(), files.len());
    for (feeding, records) in Feeding::ALL.iter().zip(records.into_inner().unwrap()) {
        println!("    {records} records {feeding}");
    }
    Ok(())
}

/// From the write of a record to its line, with no other log beside it. The first has the program's start in it.
fn round_trips(program: &Program) -> Result<(), String> {
    let (count, version) = WALK;
    let mut times = Vec::new();
    let walk = Log::new("a long walk".to_string(), walk_log(8, count, version));
    program.feed(&walk, Feeding::Records, |time| times.push(time.as_nanos() as f64 / 1000.0))?;
    let first = times.remove(0);
    times.sort_by(f64::total_cmp);
    let (median, high, most) = (times[times.len() / 2], times[times.len() * 99 / 100], times[times.len() - 1]);
    println!(
        "from a record to its line, in microseconds: {first:.1} for the first, with the program's start; of {} more",
        times.len()
    );
    println!("    {median:.1} the median, {high:.1} the 99th percentile, {most:.1} the largest");
    Ok(())
}

/// A log cut into its records, with the lines that the reference prints for it.
struct Log {
    name: String,
    version: Option<u8>,
    records: Vec<Vec<u8>>,
    /// What is malformed: from the first such record on, or all of it where the version is none.
    rest: Vec<u8>,
    lines: Vec<String>,
}

impl Log {
    fn new(name: String, bytes: Vec<u8>) -> Log {
        let mut lines = Vec::new();
        replay(&bytes, |line| lines.push(line + "\n"));
        let Some((version, mut rest)) = log::open(&bytes) else {
            return Log { name, version: None, records: Vec::new(), rest: bytes, lines };
        };
        let mut records = Vec::new();
        while let Some((_, length)) = log::read(version, rest) {
            records.push(rest[..length].to_vec());
            rest = &rest[length..];
        }
        Log { name, version: Some(version), records, rest: rest.to_vec(), lines }
    }
}

#[derive(Clone, Copy, PartialEq)]
enum Feeding {
    Records,
    Bytes,
    Twos,
}

impl Feeding {
    const ALL: [Feeding; 3] = [Feeding::Records, Feeding::Bytes, Feeding::Twos];
}

impl Display for Feeding {
    fn fmt(&self, to: &mut Formatter) -> std::fmt::Result {
        to.write_str(match self {
            Feeding::Records => "one by one",
            Feeding::Bytes => "byte by byte",
            Feeding::Twos => "two at a time",
        })
    }
}

/// A command, and how long it is waited for.
struct Program<'a> {
    command: &'a str,
    limit: Duration,
}

impl Program<'_> {
    /// Feeds a log to the program and hands on how long each round trip took.
    fn feed(&self, log: &Log, feeding: Feeding, timed: impl FnMut(Duration)) -> Result<(), String> {
        let mut running = Running::start(self).map_err(|error| format!("{}: {error}", self.command))?;
        running.feed(log, feeding, timed).map_err(|problem| {
            let place = match log.lines.get(running.answered) {
                Some(line) => format!("expected for record {} is {line:?}", running.answered + 1),
                None => "expected is the end".to_string(),
            };
            format!("{}, fed {feeding}: {place}, but {problem}", log.name)
        })
    }
}

struct Running {
    child: Child,
    input: Option<ChildStdin>,
    /// Each with its end. Closed where the output has ended.
    lines: Receiver<String>,
    limit: Duration,
    /// How many right lines have come.
    answered: usize,
}

impl Running {
    fn start(program: &Program) -> std::io::Result<Running> {
        let mut words = program.command.split_whitespace();
        let mut command = Command::new(words.next().unwrap_or_default());
        let mut child = command.args(words).stdin(Stdio::piped()).stdout(Stdio::piped()).spawn()?;
        let (input, mut output) = (child.stdin.take(), BufReader::new(child.stdout.take().unwrap()));
        let (sender, lines) = sync_channel(16);
        spawn(move || loop {
            let mut line = Vec::new();
            let is_over = output.by_ref().take(LONGEST).read_until(b'\n', &mut line).map_or(true, |size| size == 0);
            if is_over || sender.send(String::from_utf8_lossy(&line).into_owned()).is_err() {
                return;
            }
        });
        Ok(Running { child, input, lines, limit: program.limit, answered: 0 })
    }

    fn feed(&mut self, log: &Log, feeding: Feeding, mut timed: impl FnMut(Duration)) -> Result<(), String> {
        self.write(log.version.as_slice())?;
        for records in log.records.chunks(if feeding == Feeding::Twos { 2 } else { 1 }) {
            let bytes = records.concat();
            let apart = if feeding == Feeding::Bytes { bytes.len() - 1 } else { 0 };
            for byte in &bytes[..apart] {
                self.write(&[*byte])?;
            }
            self.no_line_yet()?;
            let begun = Instant::now();
            self.write(&bytes[apart..])?;
            for _ in records {
                self.next_line_is(&log.lines[self.answered])?;
            }
            timed(begun.elapsed());
        }
        // A program may stop reading at what is malformed, so that a broken pipe is no failure here.
        let _ = self.write(&log.rest);
        self.input = None;
        for line in &log.lines[self.answered..] {
            self.next_line_is(line)?;
        }
        self.has_ended(log.lines.len() == log.records.len())
    }

    fn write(&mut self, bytes: &[u8]) -> Result<(), String> {
        let mut input = self.input.as_ref().unwrap();
        input.write_all(bytes).map_err(|error| format!("the record was not taken: {error}"))
    }

    fn no_line_yet(&self) -> Result<(), String> {
        match self.lines.try_recv() {
            Err(TryRecvError::Empty) => Ok(()),
            Err(TryRecvError::Disconnected) => Err("the output ended before the record was written".to_string()),
            Ok(line) => Err(format!("{line:?} came before the record's last byte was written")),
        }
    }

    fn next_line_is(&mut self, expected: &str) -> Result<(), String> {
        match self.lines.recv_timeout(self.limit) {
            Ok(line) if line == expected => {
                self.answered += 1;
                Ok(())
            }
            Ok(line) => Err(format!("{line:?} came")),
            Err(RecvTimeoutError::Timeout) => Err(format!("no line came within {:?}", self.limit)),
            Err(RecvTimeoutError::Disconnected) => Err("the output ended".to_string()),
        }
    }

    /// A program may end with another status than 0 where the log is malformed.
    fn has_ended(&mut self, is_well_formed: bool) -> Result<(), String> {
        let begun = Instant::now();
        match self.lines.recv_timeout(self.limit) {
            Err(RecvTimeoutError::Disconnected) => {}
            Err(RecvTimeoutError::Timeout) => return Err(format!("the output did not end within {:?}", self.limit)),
            Ok(line) => return Err(format!("{line:?} came")),
        }
        while begun.elapsed() <= self.limit {
            match self.child.try_wait().map_err(|error| error.to_string())? {
                Some(status) if status.success() || !is_well_formed && status.code().is_some() => return Ok(()),
                Some(status) => return Err(format!("the program did not end well: {status}")),
                None => sleep(Duration::from_micros(100)),
            }
        }
        Err(format!("the program did not end within {:?}", self.limit))
    }
}

impl Drop for Running {
    fn drop(&mut self) {
        // One that has ended already cannot be stopped, which is as well.
        let _ = self.child.kill();
        let _ = self.child.wait();
    }
}
