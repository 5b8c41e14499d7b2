//! A log, or calls, written as a run: each step beside the line that it prints, what is malformed as bytes.

use crate::notation::{parse_as, Form, Said};
use crate::printed::{differences, refusal};
use crate::rows;
use reference::log;
use reference::model::Step;
use std::io::{Read, Write};

/// So many rows share their columns: a long log is written as it is read.
const PAGE: usize = 1000;

/// Bytes in a row.
const ROW: usize = 16;

/// A step in the notation.
pub fn text_of(said: &Said) -> String {
    let named = |status: u8| match status {
        0 => "CLOSE".to_string(),
        1 => "TRIP".to_string(),
        other => other.to_string(),
    };
    let step = match said {
        Said::Step(step) => step,
        Said::Message(reference::arbiter::Step::Message { sender, t, status, stamp }) => {
            return format!("Message({sender}, {t}, {}, {stamp})", named(*status));
        }
        Said::Message(_) => unreachable!(),
    };
    match *step {
        Step::Start { f, k, set, status, g } => {
            let nodes: Vec<String> = (0..16).filter(|node| set >> node & 1 == 1).map(|node| node.to_string()).collect();
            format!("Start({f}, {k}, {{{}}}, {}, {g})", nodes.join(", "), named(status))
        }
        Step::Tick => "Tick".to_string(),
        Step::Report { node, t, status, number } => format!("Report({node}, {t}, {}, {number})", named(status)),
        Step::Deliver { sender, receiver, t, status, stamp } => {
            format!("Deliver({sender}, {receiver}, {t}, {}, {stamp})", named(status))
        }
        Step::ShareTimeout { node, t } => format!("ShareTimeout({node}, {t})"),
        Step::ResendTimeout { node, t } => format!("ResendTimeout({node}, {t})"),
        Step::Command { t, status, stamp } => format!("Command({t}, {}, {stamp})", named(status)),
        Step::Ack { node, t, back } => format!("Ack({node}, {t}, {back})"),
        Step::Query { node, t } => format!("Query({node}, {t})"),
        Step::Down { node } => format!("Down({node})"),
        Step::Up { node } => format!("Up({node})"),
        Step::Pair { sender, receiver, t, status, stamp } => {
            format!("Pair({sender}, {receiver}, {t}, {}, {stamp})", named(status))
        }
    }
}

fn bytes_row(bytes: &[u8]) -> String {
    bytes.iter().fold("bytes".to_string(), |row, byte| row + &format!(" {byte:02x}"))
}

/// Input that is taken from the front, as far as it is needed.
struct Front<'a> {
    input: &'a mut dyn Read,
    held: Vec<u8>,
    /// Of `held`, what has been taken; and of the whole input.
    at: usize,
    taken: u64,
}

impl Front<'_> {
    /// The next bytes: `count` of them, or more; fewer where the input ends.
    fn next(&mut self, count: usize) -> Result<&[u8], String> {
        if self.held.len() - self.at < count {
            self.held.drain(..self.at);
            self.at = 0;
        }
        let mut block = [0; 1 << 16];
        while self.held.len() - self.at < count {
            match self.input.read(&mut block) {
                Ok(0) => break,
                Ok(got) => self.held.extend(&block[..got]),
                Err(error) if error.kind() == std::io::ErrorKind::Interrupted => {}
                Err(error) => return Err(error.to_string()),
            }
        }
        Ok(&self.held[self.at..])
    }

    fn take(&mut self, count: usize) {
        self.at += count;
        self.taken += count as u64;
    }
}

/// A row of the run: what stands left of the bar, the line, and why.
struct Row {
    left: String,
    line: Option<String>,
    why: Option<String>,
}

/// Rows that are written in columns, a page at a time.
struct Pages<'a> {
    out: &'a mut dyn Write,
    rows: Vec<Row>,
}

impl Pages<'_> {
    fn row(&mut self, left: String, line: Option<String>, why: Option<String>) -> Result<(), String> {
        self.rows.push(Row { left, line, why });
        if self.rows.len() == PAGE { self.end() } else { Ok(()) }
    }

    fn end(&mut self) -> Result<(), String> {
        let width = |of: fn(&Row) -> Option<usize>| self.rows.iter().filter_map(of).max().unwrap_or(0);
        let left_width = width(|row| row.line.as_ref().map(|_| row.left.len()));
        let line_width = width(|row| row.line.as_ref().map(|line| line.len()));
        let mut text = String::new();
        for Row { left, line, why } in self.rows.drain(..) {
            let line = line.map_or("".to_string(), |line| format!(" | {line:<line_width$}"));
            let why = why.map_or("".to_string(), |why| format!("  # {why}"));
            text += format!("{left:<left_width$}{line}{why}").trim_end();
            text.push('\n');
        }
        self.out.write_all(text.as_bytes()).map_err(|error| error.to_string())
    }
}

/// Gives the line that a program prints next, until it has printed all.
pub type Lines<'a> = &'a mut dyn FnMut() -> Result<Option<String>, String>;

/// Writes what `input` holds as a run, each step beside the next of the lines.
pub fn write_run(form: &Form, input: &mut dyn Read, lines: Lines, out: &mut dyn Write) -> Result<(), String> {
    let front = Front { input, held: Vec::new(), at: 0, taken: 0 };
    let pages = Pages { out, rows: Vec::new() };
    let mut writing = Writing { form, front, lines, pages };
    let version = match form.version {
        None => Some(0),
        Some(_) => writing.version()?,
    };
    if let Some(version) = version {
        while writing.record(version)? {}
    }
    writing.tail()?;
    if form.version.is_none() && writing.front.taken == 0 {
        writing.pages.row("# Nothing.".to_string(), None, None)?;
    }
    writing.pages.end()?;
    match (writing.lines)()? {
        None => Ok(()),
        Some(_) => Err("the program has printed too many lines".to_string()),
    }
}

struct Writing<'a> {
    form: &'a Form,
    front: Front<'a>,
    lines: Lines<'a>,
    pages: Pages<'a>,
}

impl Writing<'_> {
    fn line(&mut self) -> Result<Option<String>, String> {
        (self.lines)()?.map(Some).ok_or_else(|| "the program has printed too few lines".to_string())
    }

    /// The version byte, and the version if it is one.
    fn version(&mut self) -> Result<Option<u8>, String> {
        let first = self.front.next(1)?.first().copied();
        let known = first.filter(|&version| log::open(&[version]).is_some());
        let text = first.map_or("version none".to_string(), |version| format!("version {version}"));
        if known.is_some() {
            self.pages.row(text, None, None)?;
        } else {
            let line = self.line()?;
            self.pages.row(text, line, Some("17: malformed log: no version byte, or a wrong one".to_string()))?;
        }
        self.front.take(first.iter().count());
        Ok(known)
    }

    /// One record; whether there may be another behind it.
    fn record(&mut self, version: u8) -> Result<bool, String> {
        let form = self.form;
        let place = self.front.taken;
        let length = (form.length)(self.front.next(2)?);
        let bytes = self.front.next(length)?;
        if bytes.is_empty() {
            return Ok(false);
        }
        let Some((said, length)) = (form.read)(version, bytes) else {
            let why = format!("17: malformed {}, at byte {place}", (form.malformed)(version, bytes));
            let row = bytes[..bytes.len().min(ROW)].to_vec();
            let line = self.line()?;
            self.pages.row(bytes_row(&row), line, Some(why))?;
            self.front.take(row.len());
            return Ok(false);
        };
        let text = in_notation(form, &said, &bytes[..length]);
        if place > 1 && text.starts_with("Start") {
            self.pages.row("".to_string(), None, None)?;
        }
        let line = self.line()?;
        let refused = line.as_deref().and_then(refusal).filter(|&refusal| refusal != "0");
        let why = refused.map(|refusal| format!("{refusal}: {}", rows::words(refusal, &said).unwrap_or("no refusal")));
        self.pages.row(text, line, why)?;
        self.front.take(length);
        Ok(true)
    }

    /// What is left behind a malformed record.
    fn tail(&mut self) -> Result<(), String> {
        loop {
            let bytes = self.front.next(ROW)?;
            let count = bytes.len().min(ROW);
            if count == 0 {
                return Ok(());
            }
            self.pages.row(bytes_row(&bytes[..count]), None, None)?;
            self.front.take(count);
        }
    }
}

/// The step in the notation where that stands for the same bytes, and otherwise the bytes: a call has some that are not
/// read.
fn in_notation(form: &Form, said: &Said, bytes: &[u8]) -> String {
    let mut written = Vec::new();
    (form.write)(said, &mut written);
    if written == bytes { text_of(said) } else { bytes_row(bytes) }
}

/// `write_run` for bytes and lines that are at hand.
pub fn written(form: &Form, mut bytes: &[u8], output: &str) -> Result<String, String> {
    let mut lines = output.lines().map(str::to_string);
    let mut out = Vec::new();
    write_run(form, &mut bytes, &mut || Ok(lines.next()), &mut out)?;
    String::from_utf8(out).map_err(|error| error.to_string())
}

/// Whether these bytes, written as a run with these lines, come back as they were, with every line as expected.
pub fn there_and_back(form: &Form, bytes: &[u8], output: &str) -> Result<(), String> {
    let text = written(form, bytes, output)?;
    let run = parse_as(form, &text).map_err(|slip| format!("written as a run it has a slip in line {slip}"))?;
    if run.bytes != bytes {
        return Err("written as a run it does not come back".to_string());
    }
    match differences("written as a run", &run, output).first() {
        None => Ok(()),
        Some(difference) => Err(difference.text.clone()),
    }
}
