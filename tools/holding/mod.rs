//! A command that somebody else has written, held against what it must print: it may hang, crash, or print without end.

pub mod damage;
pub mod decides;
pub mod edges;
pub mod endings;
pub mod fields;
pub mod limits;
pub mod paths;
pub mod plainer;
pub mod scenes;
pub mod shrink;
pub mod tried;

use std::fmt::{Display, Formatter};
use std::io::{ErrorKind, Read, Write};
use std::os::unix::process::ExitStatusExt;
use std::process::{Child, Command, ExitStatus, Stdio};
use std::sync::atomic::{AtomicUsize, Ordering};
use std::sync::mpsc::{channel, RecvTimeoutError};
use std::sync::Mutex;
use std::time::{Duration, Instant};

/// So much more than was expected is looked at.
const MORE: usize = 1 << 12;

pub struct Program {
    pub words: Vec<String>,
    pub limit: Duration,
}

/// What a program printed, and how it ended: nothing where it was stopped, because it took too long or printed too much.
pub struct Ran {
    pub printed: Vec<u8>,
    pub ended: Option<ExitStatus>,
}

impl Program {
    pub fn of(command: &str, limit: Duration) -> Program {
        Program { words: command.split_whitespace().map(str::to_string).collect(), limit }
    }

    /// Hands it a log whole. A program may stop reading at what is malformed, so a broken pipe is no failure.
    pub fn run(&self, log: &[u8], most: usize) -> Result<Ran, String> {
        let failed = |error: std::io::Error| format!("{}: {error}", self.words.join(" "));
        let (program, words) = self.words.split_first().ok_or("expected a COMMAND, found none")?;
        let mut command = Command::new(program);
        command.args(words).stdin(Stdio::piped()).stdout(Stdio::piped()).stderr(Stdio::null());
        let mut child = command.spawn().map_err(failed)?;
        let (mut input, mut output) = (child.stdin.take().unwrap(), child.stdout.take().unwrap());
        let log = log.to_vec();
        std::thread::spawn(move || input.write_all(&log));
        let (blocks, printed) = channel();
        std::thread::spawn(move || {
            let mut block = [0; 1 << 14];
            loop {
                match output.read(&mut block) {
                    Ok(0) => return,
                    Ok(count) if blocks.send(block[..count].to_vec()).is_err() => return,
                    Ok(_) => {}
                    Err(error) if error.kind() == ErrorKind::Interrupted => {}
                    Err(_) => return,
                }
            }
        });
        let deadline = Instant::now() + self.limit;
        let mut ran = Ran { printed: Vec::new(), ended: None };
        let is_over = loop {
            match printed.recv_timeout(deadline.saturating_duration_since(Instant::now())) {
                Ok(block) => ran.printed.extend(block),
                Err(RecvTimeoutError::Disconnected) => break true,
                Err(RecvTimeoutError::Timeout) => break false,
            }
            if ran.printed.len() > most {
                break false;
            }
        };
        if is_over {
            ran.ended = ended_by(&mut child, deadline).map_err(failed)?;
        }
        if ran.ended.is_none() {
            let _ = child.kill();
            child.wait().map_err(failed)?;
        }
        Ok(ran)
    }
}

fn ended_by(child: &mut Child, deadline: Instant) -> std::io::Result<Option<ExitStatus>> {
    let mut pause = Duration::from_micros(50);
    loop {
        let ended = child.try_wait()?;
        if ended.is_some() || Instant::now() >= deadline {
            return Ok(ended);
        }
        std::thread::sleep(pause);
        pause = (pause * 2).min(Duration::from_millis(5));
    }
}

/// The first line that differs, counted from 1, with both lines, none where one prints nothing, and what is the matter.
#[derive(Clone)]
pub struct Difference {
    pub line: usize,
    pub model: Option<String>,
    pub program: Option<String>,
    pub matter: Matter,
}

#[derive(Clone, PartialEq)]
pub enum Matter {
    OtherLine,
    /// It ended, with this status, before it had printed all.
    TooFew(i32),
    TooMany,
    NoEnd,
    /// It printed no more within its limit, or it had printed all and did not end.
    Silent,
    DoesNotEnd,
    Crashed(i32),
}

impl Display for Matter {
    fn fmt(&self, out: &mut Formatter) -> std::fmt::Result {
        match self {
            Matter::OtherLine => write!(out, "it prints another line"),
            Matter::TooFew(status) => write!(out, "it ends, with status {status}, and has not printed this line"),
            Matter::TooMany => write!(out, "it prints a line too many"),
            Matter::NoEnd => write!(out, "its last line has no end"),
            Matter::Silent => write!(out, "it hangs: the line does not come within the limit"),
            Matter::DoesNotEnd => write!(out, "it hangs: every line is there, and it does not end within the limit"),
            Matter::Crashed(signal) => write!(out, "it crashes: signal {signal} ends it"),
        }
    }
}

/// The line with what cannot be seen in it written out.
fn visible(line: &str) -> String {
    line.chars().flat_map(|c| if c.is_control() { c.escape_debug().collect() } else { vec![c] }).collect()
}

/// Where a program does not print what the model does.
pub fn difference(expected: &str, ran: &Ran) -> Option<Difference> {
    let printed = String::from_utf8_lossy(&ran.printed);
    let (mut ours, mut theirs) = (expected.split_inclusive('\n'), printed.split_inclusive('\n'));
    let signal = ran.ended.and_then(|status| status.signal());
    for line in 1.. {
        let (model, program) = (ours.next(), theirs.next());
        if model.is_some() && model == program {
            continue;
        }
        let matter = match (model, program) {
            (None, None) if ran.ended.is_none() => Matter::DoesNotEnd,
            (None, None) => Matter::Crashed(signal?),
            (None, Some(_)) => Matter::TooMany,
            (Some(_), None) if ran.ended.is_none() => Matter::Silent,
            (Some(_), None) => signal.map_or(Matter::TooFew(ran.ended.and_then(|s| s.code()).unwrap_or(0)), Matter::Crashed),
            (Some(model), Some(program)) if model.trim_end() == program => Matter::NoEnd,
            (Some(_), Some(_)) => Matter::OtherLine,
        };
        let text = |line: Option<&str>| line.map(|line| visible(line.strip_suffix('\n').unwrap_or(line)));
        return Some(Difference { line, model: text(model), program: text(program), matter });
    }
    None
}

/// The model and the program that is held to it.
pub struct Pair {
    pub model: Program,
    pub program: Program,
}

impl Pair {
    /// What the model prints, or where the program differs from it.
    pub fn compare(&self, log: &[u8]) -> Result<Result<String, Difference>, String> {
        let expected = self.model.run(log, usize::MAX)?;
        if expected.ended.map_or(true, |status| !status.success()) {
            return Err("the model did not end well".to_string());
        }
        let expected = String::from_utf8(expected.printed).map_err(|error| error.to_string())?;
        let ran = self.program.run(log, expected.len() + MORE)?;
        Ok(match difference(&expected, &ran) {
            None => Ok(expected),
            Some(difference) => Err(difference),
        })
    }
}

/// Does the work for the items 0 to `count` on all processors, and gives the failure of the lowest item that fails: the same
/// whichever comes first.
pub fn first_failure<F: Send>(count: usize, work: impl Fn(usize) -> Result<(), F> + Sync) -> Result<(), F> {
    let next = AtomicUsize::new(0);
    let failure = Mutex::new(None);
    let worker = || loop {
        let item = next.fetch_add(1, Ordering::Relaxed);
        if item >= count || failure.lock().unwrap().as_ref().is_some_and(|(lowest, _)| item > *lowest) {
            return;
        }
        if let Err(problem) = work(item) {
            let mut failure = failure.lock().unwrap();
            if failure.as_ref().map_or(true, |(lowest, _)| item < *lowest) {
                *failure = Some((item, problem));
            }
        }
    };
    std::thread::scope(|scope| {
        for _ in 0..std::thread::available_parallelism().map_or(1, |processors| processors.get()) {
            scope.spawn(worker);
        }
    });
    failure.into_inner().unwrap().map_or(Ok(()), |(_, problem)| Err(problem))
}
