//! Runs in the notation of docs/DESK.md: from their text to the bytes of a log, or of an Arbiter's calls, and the lines that
//! they must print.

use crate::rows;
use crate::words::Words;
use reference::model::Step;
use reference::{arbiter, calls, log};

/// What a run becomes.
pub struct Form {
    pub site: &'static str,
    /// The byte at the front, unless the run says another; where there is none, a run has no version.
    pub version: Option<u8>,
    /// The names of its steps, and how each is written.
    steps: &'static [(&'static str, &'static str)],
    /// Adds the bytes of a step, which is one of `steps`.
    pub write: fn(&Said, &mut Vec<u8>),
    /// The step at the front of the bytes and how many it takes, in a log of this version; nothing where it is malformed.
    pub read: fn(u8, &[u8]) -> Option<(Said, usize)>,
    /// How many bytes the record at the front takes, as far as these bytes tell.
    pub length: fn(&[u8]) -> usize,
    /// What makes the record at the front malformed.
    pub malformed: fn(u8, &[u8]) -> &'static str,
}

pub const LOG: Form = Form {
    site: "the Peer site",
    version: Some(log::FIRST_VERSION),
    steps: &[
        ("Start", "Start(f, k, {nodes}, status, g)"),
        ("Tick", "Tick"),
        ("Report", "Report(node, t, status, number)"),
        ("Deliver", "Deliver(sender, receiver, t, status, T)"),
        ("ShareTimeout", "ShareTimeout(node, t)"),
        ("ResendTimeout", "ResendTimeout(node, t)"),
        ("Command", "Command(t, status, T)"),
        ("Ack", "Ack(node, t, back)"),
        ("Query", "Query(node, t)"),
        ("Down", "Down(node)"),
        ("Up", "Up(node)"),
        ("Pair", "Pair(sender, receiver, t, status, T)"),
    ],
    write: |said, out| match said {
        Said::Step(step) => log::write(step, out),
        Said::Message(_) => unreachable!(),
    },
    read: |version, bytes| log::read(version, bytes).map(|(step, length)| (Said::Step(step), length)),
    length: |bytes| 2 + bytes.get(..2).map_or(0, |two| usize::from(u16::from_be_bytes([two[0], two[1]]))),
    malformed: rows::malformed,
};

pub const CALLS: Form = Form {
    site: "the Arbiter's site",
    version: None,
    steps: &[
        ("Start", "Start(f, k, {nodes}, status, g)"),
        ("Tick", "Tick"),
        ("Report", "Report(node, t, status, number)"),
        ("ShareTimeout", "ShareTimeout(node, t)"),
        ("Ack", "Ack(node, t, back)"),
        ("Query", "Query(node, t)"),
        ("Down", "Down(node)"),
        ("Up", "Up(node)"),
        ("Message", "Message(sender, t, status, T)"),
    ],
    write: |said, out| calls::write(&in_the_arbiter(said), out),
    read: |_, bytes| calls::read(bytes).map(|step| (of_the_arbiter(step), calls::LENGTH)),
    length: |_| calls::LENGTH,
    malformed: |_, bytes| rows::malformed_call(bytes),
};

/// A step as it is written down: the Peer site's, or a message to the Arbiter.
#[derive(Clone, Copy)]
pub enum Said {
    Step(Step),
    Message(arbiter::Step),
}

fn in_the_arbiter(said: &Said) -> arbiter::Step {
    match *said {
        Said::Message(message) => message,
        Said::Step(step) => match step {
            Step::Start { f, k, set, status, g } => arbiter::Step::Start { f, k, set, status, g },
            Step::Tick => arbiter::Step::Tick,
            Step::Report { node, t, status, number } => arbiter::Step::Report { node, t, status, number },
            Step::ShareTimeout { node, t } => arbiter::Step::ShareTimeout { node, t },
            Step::Ack { node, t, back } => arbiter::Step::Ack { node, t, back },
            Step::Query { node, t } => arbiter::Step::Query { node, t },
            Step::Down { node } => arbiter::Step::Down { node },
            Step::Up { node } => arbiter::Step::Up { node },
            Step::Deliver { .. } | Step::Pair { .. } | Step::ResendTimeout { .. } | Step::Command { .. } => {
                unreachable!()
            }
        },
    }
}

fn of_the_arbiter(step: arbiter::Step) -> Said {
    Said::Step(match step {
        arbiter::Step::Message { .. } => return Said::Message(step),
        arbiter::Step::Start { f, k, set, status, g } => Step::Start { f, k, set, status, g },
        arbiter::Step::Tick => Step::Tick,
        arbiter::Step::Report { node, t, status, number } => Step::Report { node, t, status, number },
        arbiter::Step::ShareTimeout { node, t } => Step::ShareTimeout { node, t },
        arbiter::Step::Ack { node, t, back } => Step::Ack { node, t, back },
        arbiter::Step::Query { node, t } => Step::Query { node, t },
        arbiter::Step::Down { node } => Step::Down { node },
        arbiter::Step::Up { node } => Step::Up { node },
    })
}

pub struct Run {
    pub bytes: Vec<u8>,
    pub expected: Vec<Expected>,
    /// How many steps the file writes down.
    pub steps: usize,
    /// For each line of the file that prints, the number of the (last) step that it stands for.
    pub numbers: Vec<Option<usize>>,
}

pub struct Expected {
    pub number: usize,
    /// The whole line, with its number also where the file leaves it out.
    pub text: String,
    /// Whether the file has the number.
    pub numbered: bool,
    /// Counted from 1.
    pub line_in_file: usize,
}

/// The part of a line before any comment, cut at the bar.
pub fn parts(line: &str) -> (&str, Option<&str>) {
    let line = line.split('#').next().unwrap();
    match line.split_once('|') {
        None => (line.trim(), None),
        Some((left, right)) => (left.trim(), Some(right.trim())),
    }
}

/// A run of the Peer site, as a log.
pub fn parse(text: &str) -> Result<Run, String> {
    parse_as(&LOG, text)
}

/// A run of the Arbiter's site, as calls.
pub fn parse_calls(text: &str) -> Result<Run, String> {
    parse_as(&CALLS, text)
}

/// A slip is told with the number of its line in front: put the name of the file and a colon before it.
pub fn parse_as(form: &Form, text: &str) -> Result<Run, String> {
    let mut run = Run { bytes: Vec::new(), expected: Vec::new(), steps: 0, numbers: Vec::new() };
    if text.trim().is_empty() {
        return Err(format!("1: expected {}, found nothing: the file is empty", form.may_stand(true)));
    }
    let mut begun = false;
    for (index, line) in text.lines().enumerate() {
        let (left, right) = parts(line);
        let at = |problem: String| format!("{}: {problem}", index + 1);
        if !begun && !left.is_empty() && left.split_whitespace().next() != Some("version") {
            run.bytes.extend(form.version);
        }
        let prints = match left {
            "" if right.is_some() => return Err(at(format!("expected {} before `|`", form.may_stand(!begun)))),
            "" => 0,
            _ => form.put(left, !begun, right.is_some(), &mut run.bytes).map_err(at)?,
        };
        begun |= !left.is_empty();
        run.steps += prints;
        run.numbers.push((prints > 0).then_some(run.steps));
        if let Some(text) = right {
            let (text, numbered) = expected_line(run.steps, text).map_err(at)?;
            run.expected.push(Expected { number: run.steps, text, numbered, line_in_file: index + 1 });
        }
    }
    if !begun {
        run.bytes.extend(form.version);
    }
    Ok(run)
}

/// A line that a run expects, with its number, and whether the file has it.
fn expected_line(number: usize, text: &str) -> Result<(String, bool), String> {
    let words: Vec<&str> = text.split_whitespace().collect();
    let digits = |word: &str| word.bytes().all(|byte| byte.is_ascii_digit());
    let has_form = |words: &[&str]| match words {
        [refusal, status, stamp, _] => digits(refusal) && ["C", "T", "-"].contains(status) && digits(stamp),
        _ => false,
    };
    match &words[..] {
        [_, _, _, _] if has_form(&words) => Ok((format!("{number} {}", words.join(" ")), false)),
        [first, rest @ ..] if digits(first) && has_form(rest) => Ok((words.join(" "), true)),
        _ => {
            let expected = "a step number (or none), a refusal, C, T or -, a stamp, and what is sent or -";
            Err(format!("expected {expected} behind `|`, found `{text}`"))
        }
    }
}

impl Form {
    /// What may stand in a line of a run, at its front or later.
    fn may_stand(&self, first: bool) -> String {
        let version = if first && self.version.is_some() { "`version`, " } else { "" };
        let names: Vec<&str> = self.steps.iter().map(|(name, _)| *name).collect();
        format!("{version}`bytes` or a step of {} ({})", self.site, names.join(", "))
    }

    /// Adds what one line of a run says, and tells how many lines it prints.
    fn put(&self, left: &str, first: bool, prints: bool, bytes: &mut Vec<u8>) -> Result<usize, String> {
        let (name, rest) = left.split_once(char::is_whitespace).unwrap_or((left, ""));
        match name {
            "version" if self.version.is_some() => {
                if !first {
                    return Err(format!("expected `version` at the front of a run, here {}", self.may_stand(false)));
                }
                bytes.extend(version(rest.trim())?);
                Ok(prints.into())
            }
            "bytes" => {
                for byte in rest.split_whitespace() {
                    bytes.push(hex(byte)?);
                }
                Ok(prints.into())
            }
            _ => {
                let (said, times) = self.step(left, first)?;
                for _ in 0..times {
                    (self.write)(&said, bytes);
                }
                Ok(times)
            }
        }
    }

    /// One step and how often it is repeated.
    fn step(&self, text: &str, first: bool) -> Result<(Said, usize), String> {
        let mut words = Words::of(text)?;
        let name = words.word("a step")?;
        let Some((_, written)) = self.steps.iter().find(|(step, _)| *step == name) else {
            return Err(format!("expected {}, found `{name}`", self.may_stand(first)));
        };
        self.fields(name, &mut words).map_err(|problem| format!("{problem}, in {written}"))
    }

    fn fields(&self, name: &str, words: &mut Words) -> Result<(Said, usize), String> {
        if name != "Tick" {
            words.mark("(")?;
        }
        let said = match name {
            "Message" => {
                let (sender, t, status) = (words.byte()?, words.then(Words::number)?, words.then(Words::status)?);
                Said::Message(arbiter::Step::Message { sender, t, status, stamp: words.then(Words::number)? })
            }
            _ => Said::Step(words.peer_step(name)?),
        };
        if name != "Tick" {
            words.mark(")")?;
        }
        Ok((said, words.times()?))
    }
}

fn version(word: &str) -> Result<Option<u8>, String> {
    let number = Some(word).filter(|word| word.bytes().all(|byte| byte.is_ascii_digit())).map(str::parse);
    match (word, number) {
        ("none", _) => Ok(None),
        (_, Some(Ok(number))) => Ok(Some(number)),
        _ => Err(format!("expected `none` or a number from 0 to 255 behind `version`, found `{word}`")),
    }
}

fn hex(word: &str) -> Result<u8, String> {
    let two = word.len() == 2 && word.bytes().all(|byte| byte.is_ascii_hexdigit());
    let byte = if two { u8::from_str_radix(word, 16).ok() } else { None };
    byte.ok_or_else(|| format!("expected bytes of two hexadecimal digits each, found `{word}`"))
}
