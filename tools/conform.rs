//! Holds a maker's program to the model; docs/CONFORM.md says what is tried and what comes of it. ./conform calls it.
//!
//!     conform MODEL COMMAND COUNT SEED VERSION LIMIT NAME ABOUT RUN..
//!
//! MODEL and COMMAND are commands with their words, COUNT random logs are tried from SEED on, VERSION is the last version of
//! logs that COMMAND knows, LIMIT is how many seconds a log may take, ABOUT tells the model's version. NAME.txt becomes the
//! acceptance record; where there is a difference, NAME.run and NAME.log show it made small.

use reference::log;
use reference::model::Step;
use std::fmt::Write;
use std::process::exit;
use std::sync::Mutex;
use std::time::{Duration, Instant};
use tools::conditions::{Bench, ALL};
use tools::holding::decides::{sentence, REPLACES};
use tools::holding::shrink::{shrink, Log};
use tools::holding::tried::Tried;
use tools::holding::{first_failure, limits, Difference, Matter, Pair, Program};
use tools::notation::{parse, Said, LOG};
use tools::printed::{fill, refusal};
use tools::random_logs::{chains, walk_log};
use tools::rows;
use tools::written::{text_of, written};

/// Random logs whose seeds stand beside one another and are run one behind the other, as far as they are well-formed.
const UNIT: u64 = 50;
/// For so many random logs one is deep: a walk of so many records.
const DEEP: (u64, usize) = (100, 20_000);
/// Actions of the breaker in a condition's log.
const ACTIONS: u64 = 200;
/// So many questions are asked to make a difference small; fewer of a program that hangs, and each for a shorter time.
const QUESTIONS: usize = 1500;
const QUESTIONS_OF_A_HANG: usize = 40;
const SHORT: Duration = Duration::from_millis(1000);
/// How long the model may take for a log.
const MODEL: Duration = Duration::from_secs(300);

struct Asked {
    command: String,
    count: u64,
    seed: u64,
    version: u8,
    limit: Duration,
    name: String,
    about: String,
    runs: Vec<String>,
    pair: Pair,
}

/// A log that shows a difference, and which try of its part it was.
struct Found {
    part: &'static str,
    item: usize,
    name: String,
    log: Vec<u8>,
    difference: Difference,
}

/// Why it stops: a difference, or something that keeps it from going on.
enum Stop {
    Found(Box<Found>),
    Failed(String),
}

fn main() {
    let words: Vec<String> = std::env::args().skip(1).collect();
    let Some(asked) = asked(&words) else {
        eprintln!("conform MODEL COMMAND COUNT SEED VERSION LIMIT NAME ABOUT RUN..");
        exit(2);
    };
    let mut holding = Holding { tried: Tried::default(), parts: String::new(), logs: 0, lines: 0 };
    let stop = holding.every_part(&asked).err();
    let written = match stop {
        None => holding.record(&asked, "no difference", None),
        Some(Stop::Found(found)) => holding.show(&asked, *found),
        Some(Stop::Failed(problem)) => Err(problem),
    };
    match written {
        Ok(true) => {}
        Ok(false) => exit(1),
        Err(problem) => {
            eprintln!("conform: {problem}");
            exit(2);
        }
    }
}

fn asked(words: &[String]) -> Option<Asked> {
    let [model, command, count, seed, version, limit, name, about, runs @ ..] = words else { return None };
    let limit = limit.parse().ok().and_then(|limit| Duration::try_from_secs_f64(limit).ok())?;
    let pair = Pair { model: Program::of(model, MODEL), program: Program::of(command, limit) };
    let (count, seed) = (count.parse().ok()?, seed.parse().ok()?);
    let version = version.parse().ok().filter(|version| log::open(&[*version]).is_some())?;
    let (command, name, about, runs) = (command.clone(), name.clone(), about.clone(), runs.to_vec());
    Some(Asked { command, count, seed, version, limit, name, about, runs, pair })
}

impl Asked {
    /// Whether it is a log of a version that the program does not know.
    fn is_later(&self, log: &[u8]) -> bool {
        log::open(log).is_some_and(|(version, _)| version > self.version)
    }
}

struct Holding {
    tried: Tried,
    /// What was tried, a line a part.
    parts: String,
    logs: usize,
    lines: usize,
}

type Logs = Vec<(String, Vec<u8>)>;

impl Holding {
    fn every_part(&mut self, asked: &Asked) -> Result<(), Stop> {
        let starts = limits::starts();
        self.part(asked, "many Starts in one process", |item| vec![starts[item].clone()], starts.len())?;
        let runs = named_runs(&asked.runs).map_err(Stop::Failed)?;
        self.part(asked, "named runs", |item| vec![runs[item].clone()], runs.len())?;
        let limits = limits::limits();
        self.part(asked, "limits of every number", |item| vec![limits[item].clone()], limits.len())?;
        let conditions = conditions();
        self.part(asked, "the five conditions", |item| vec![conditions[item].clone()], conditions.len())?;
        let cut = limits::cut();
        self.part(asked, "logs cut at every byte", |item| vec![cut[item].clone()], cut.len())?;
        let damaged = limits::damaged();
        self.part(asked, "damaged bytes", |item| vec![damaged[item].clone()], damaged.len())?;
        let units = asked.count.div_ceil(UNIT) as usize;
        self.part(asked, "random logs", |item| random_unit(asked, item as u64), units)?;
        let deep = asked.count.div_ceil(DEEP.0) as usize;
        self.part(asked, "deep logs", |item| vec![deep_log(asked.seed.wrapping_add(item as u64))], deep)
    }

    /// Tries `count` items, each some logs.
    fn part(
        &mut self,
        asked: &Asked,
        part: &'static str,
        logs: impl Fn(usize) -> Logs + Sync,
        count: usize,
    ) -> Result<(), Stop> {
        let begun = Instant::now();
        let total = Mutex::new((Tried::default(), 0, 0));
        first_failure(count, |item| {
            for (name, log) in logs(item).into_iter().filter(|(_, log)| !asked.is_later(log)) {
                match asked.pair.compare(&log) {
                    Err(problem) => return Err(Stop::Failed(format!("{name}: {problem}"))),
                    Ok(Err(difference)) => {
                        return Err(Stop::Found(Box::new(Found { part, item, name, log, difference })));
                    }
                    Ok(Ok(lines)) => {
                        let mut tried = Tried::default();
                        tried.count(&log);
                        let mut total = total.lock().unwrap();
                        total.0 += tried;
                        total.1 += 1;
                        total.2 += lines.lines().count();
                    }
                }
            }
            Ok(())
        })?;
        let (tried, logs, lines) = total.into_inner().unwrap();
        self.tried += tried;
        self.logs += logs;
        self.lines += lines;
        let _ = writeln!(self.parts, "  {part:<28}{logs:>8} logs{lines:>12} lines");
        eprintln!("{part}: {logs} logs, {lines} lines, {:.1} s", begun.elapsed().as_secs_f64());
        Ok(())
    }

    /// Makes the difference small, and shows it.
    fn show(&self, asked: &Asked, found: Found) -> Result<bool, String> {
        eprintln!("a difference in {}: {}; it is made small", found.name, found.difference.matter);
        let (log, difference, questions) = made_small(asked, &found)?;
        eprintln!("{questions} questions were asked");
        let lines = asked.pair.model.run(&log, usize::MAX)?.printed;
        let text = shown(&log, &String::from_utf8_lossy(&lines), &difference)?;
        write(&format!("{}.log", asked.name), &log)?;
        write(&format!("{}.run", asked.name), text.as_bytes())?;
        let Found { part, item, name, .. } = found;
        self.record(asked, &format!("a difference, at try {} of \"{part}\": {name}", item + 1), Some(&text))
    }

    /// Writes the acceptance record; whether there is no difference.
    fn record(&self, asked: &Asked, result: &str, shown: Option<&str>) -> Result<bool, String> {
        let Asked { command, count, seed, version, limit, about, name, .. } = asked;
        let mut text = format!("A program held to the model\n\ncommand  {command}\nmodel    {about}\n");
        let only = if *version < log::LAST_VERSION { format!("; no later version than {version}") } else { "".to_string() };
        text += &format!("asked    {count} random logs from seed {seed}; {} s for a log{only}\n", limit.as_secs_f64());
        let (logs, lines) = (self.logs, self.lines);
        text += &format!("result   {result}\n\nTried without a difference: {logs} logs, {lines} lines\n\n");
        text += &format!("{}\n{}", self.parts, self.tried);
        match (shown, self.tried.never()) {
            (Some(shown), _) => {
                text += &format!("\nThe difference, made small ({name}.run and {name}.log have it too):\n\n{shown}");
            }
            (None, never) if never.is_empty() => text += "\nEverything that the rules allow was reached.\n",
            (None, never) => text += &format!("\nNever reached:\n  {}\n", never.join("\n  ")),
        }
        write(&format!("{name}.txt"), text.as_bytes())?;
        println!("{result}; {logs} logs, {lines} lines without one; the record is {name}.txt");
        if let Some(shown) = shown {
            println!("\n{shown}");
        }
        Ok(shown.is_none())
    }
}

fn write(file: &str, bytes: &[u8]) -> Result<(), String> {
    std::fs::write(file, bytes).map_err(|error| format!("{file}: {error}"))
}

fn named_runs(files: &[String]) -> Result<Logs, String> {
    let read = |file: &String| {
        let text = std::fs::read_to_string(file).map_err(|error| format!("{file}: {error}"))?;
        let name = file.rsplit('/').next().unwrap_or(file);
        Ok((format!("the named run {name}"), parse(&text).map_err(|slip| format!("{file}:{slip}"))?.bytes))
    };
    files.iter().map(read).collect()
}

fn conditions() -> Logs {
    let log = |(condition, name), version| {
        let mut bytes = Vec::new();
        let mut bench = Bench::begin(condition, version, &mut bytes);
        for _ in 0..ACTIONS {
            bench.action(&mut bytes);
        }
        (format!("the condition {name}, version {version}"), bytes)
    };
    ALL.into_iter().flat_map(|one| [log(one, 1), log(one, 2)]).collect()
}

/// The random logs of a unit, in chains.
fn random_unit(asked: &Asked, unit: u64) -> Logs {
    let first = asked.seed.wrapping_add(unit * UNIT);
    let last = asked.seed.wrapping_add(asked.count.min((unit + 1) * UNIT));
    let name = |seeds: &[u64]| match seeds {
        [seed] => format!("the random log of seed {seed}"),
        seeds => format!("the random logs of the seeds {seeds:?}, one behind the other"),
    };
    chains(first..last).into_iter().map(|chain| (name(&chain.seeds), chain.bytes)).collect()
}

fn deep_log(seed: u64) -> (String, Vec<u8>) {
    let version = 1 + (seed % 2) as u8;
    (format!("the deep log of seed {seed}, version {version}"), walk_log(seed, DEEP.1, version))
}

/// The log made small, with the difference that is left, and how many questions that took.
fn made_small(asked: &Asked, found: &Found) -> Result<(Vec<u8>, Difference, usize), String> {
    let hangs = matches!(found.difference.matter, Matter::Silent | Matter::DoesNotEnd);
    let (most, limit) = if hangs { (QUESTIONS_OF_A_HANG, asked.limit.min(SHORT)) } else { (QUESTIONS, asked.limit) };
    let words = |program: &Program| program.words.clone();
    let model = Program { words: words(&asked.pair.model), limit: MODEL };
    let pair = Pair { model, program: Program { words: words(&asked.pair.program), limit } };
    let mut questions = 0;
    let small = shrink(Log::of(&found.log), most, &mut |log| {
        questions += 1;
        pair.compare(log).ok()?.err().map(|difference| difference.line)
    });
    let small = small.bytes();
    Ok(match asked.pair.compare(&small)? {
        Err(difference) => (small, difference, questions),
        Ok(_) => (found.log.clone(), found.difference.clone(), questions), // it was slow, and not hanging
    })
}

/// A run that shows the difference: what is the matter, both lines, and what decides, before the steps.
fn shown(log: &[u8], lines: &str, difference: &Difference) -> Result<String, String> {
    let Difference { line, model, program, matter } = difference;
    let log_of = Log::of(log);
    let said = log_of.steps.get(line - 1).map(|step| Said::Step(*step));
    let line_of = |line: &Option<String>| line.clone().unwrap_or("(nothing)".to_string());
    let mut text = format!("# At line {line} {matter}.\n#   the model:    {}\n", line_of(model));
    text += &format!("#   the program:  {}\n", line_of(program));
    for (who, line) in [("the model's", model), ("the program's", program)] {
        let number = line.as_deref().and_then(refusal).filter(|&number| number != "0");
        let words = number.and_then(|number| Some((number, rows::words(number, said.as_ref()?)?)));
        if let Some((number, words)) = words {
            text += &format!("# {who} refusal {number}: {words}\n");
        }
    }
    let mut decides = sentence(said.as_ref(), model.as_deref(), program.as_deref());
    if log_of.steps.iter().filter(|step| matches!(step, Step::Start { .. })).count() > 1 {
        decides = format!("{decides} {REPLACES}");
    }
    text += &comment(&format!("01: {decides}"));
    match log_of.tail.is_empty() && !log_of.steps.is_empty() {
        true => folded(&log_of, lines).map(|run| text + &run),
        false => written(&LOG, log, lines).map(|run| text + &run),
    }
}

/// The steps of a log beside their lines, with one row for a step that comes over and over.
fn folded(log: &Log, lines: &str) -> Result<String, String> {
    let mut text = log.version.map_or(String::new(), |version| format!("version {version}\n"));
    for same in log.steps.chunk_by(|one, other| one == other) {
        let times = if same.len() > 1 { format!(" x {}", same.len()) } else { String::new() };
        text += &format!("{}{times}\n", text_of(&Said::Step(same[0])));
    }
    Ok(fill(&text, &parse(&text)?, lines))
}

/// A comment of a run, in lines that are not too long.
fn comment(text: &str) -> String {
    let mut lines = vec!["#".to_string()];
    for word in text.split(' ') {
        if lines[lines.len() - 1].len() + word.len() > 110 {
            lines.push("#   ".to_string());
        }
        let line = lines.last_mut().unwrap();
        *line += &format!(" {word}");
    }
    lines.join("\n") + "\n"
}
