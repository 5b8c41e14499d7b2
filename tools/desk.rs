//! Logs and runs at the desk; docs/DESK.md says what comes of each. ./sitelog and ./arbiter call it.
//!
//!     desk NAME look FILE              says what is wrong with FILE, if something is
//!     desk NAME lines FILE COMMAND..   the lines that COMMAND prints for FILE; those of a run are compared with what it expects
//!     desk NAME run FILE COMMAND..     a log as a run, each step beside its line; a run with its lines filled in
//!     desk NAME log FILE               a run as a log
//!
//! NAME is sitelog or arbiter. A FILE whose name ends in .run is a run. `-` is standard input: a log, or for `log` a run.

use std::fs::File;
use std::io::{stdin, stdout, BufRead, BufReader, ErrorKind, IsTerminal, Read, Write};
use std::process::{exit, Child, ChildStdin, Command, Stdio};
use std::sync::mpsc::{channel, Sender};
use std::sync::Arc;
use tools::notation::{parse_as, Form, Run, CALLS, LOG};
use tools::printed::{differences, fill, refusal};
use tools::progress::Progress;
use tools::written::write_run;

/// Why it ends: with what was found in the log or run, or because nothing could be run.
enum End {
    Found(String),
    NotRun(String),
    /// Nobody reads what is printed.
    Closed,
}

type Done = Result<(), End>;

fn main() {
    let words: Vec<String> = std::env::args().skip(1).collect();
    let (form, done) = match &words[..] {
        [name, mode, file, command @ ..] if name == "sitelog" => (name, run(&LOG, mode, file, command)),
        [name, mode, file, command @ ..] if name == "arbiter" => (name, run(&CALLS, mode, file, command)),
        _ => (&"desk".to_string(), Err(End::NotRun("NAME look|lines|run|log FILE [COMMAND..]".to_string()))),
    };
    let (status, problem) = match done {
        Ok(()) => return,
        Err(End::Found(problem)) => (1, problem),
        Err(End::NotRun(problem)) => (2, problem),
        Err(End::Closed) => exit(1),
    };
    eprintln!("{form}: {problem}");
    exit(status)
}

fn run(form: &Form, mode: &str, file: &str, command: &[String]) -> Done {
    let input = Input::open(file)?;
    match (mode, input.is_run) {
        ("look", true) => input.parse(form).map(|_| ()),
        ("look", false) => Ok(()),
        ("lines", true) => compare(form, input, command),
        ("lines", false) => lines(input, command),
        ("run", true) => filled(form, input, command),
        ("run", false) => as_run(form, input, command),
        ("log", is_run) if is_run || file == "-" => as_log(form, input),
        ("log", _) => Err(End::NotRun(format!("{file}: expected a run, whose name ends in .run"))),
        _ => Err(End::NotRun(format!("expected look, lines, run or log, found {mode}"))),
    }
}

struct Input {
    name: String,
    is_run: bool,
    /// How many bytes it has, where that is known.
    total: Option<u64>,
    source: Box<dyn Read + Send>,
}

impl Input {
    fn open(file: &str) -> Result<Input, End> {
        if file == "-" {
            let name = "standard input".to_string();
            return Ok(Input { name, is_run: false, total: None, source: Box::new(stdin()) });
        }
        let unreadable = |error: std::io::Error| {
            End::NotRun(match error.kind() {
                ErrorKind::NotFound => format!("{file}: expected a log or a run, found no such file"),
                ErrorKind::PermissionDenied => format!("{file}: expected a log or a run, found one that may not be read"),
                _ => format!("{file}: {error}"),
            })
        };
        let source = File::open(file).map_err(unreadable)?;
        let about = source.metadata().map_err(unreadable)?;
        if about.is_dir() {
            return Err(End::NotRun(format!("{file}: expected a log or a run, found a directory")));
        }
        let total = about.is_file().then_some(about.len());
        Ok(Input { name: file.to_string(), is_run: file.ends_with(".run"), total, source: Box::new(source) })
    }

    /// The text of a run, and what it says.
    fn parse(mut self, form: &Form) -> Result<(String, String, Run), End> {
        let name = self.name;
        let mut bytes = Vec::new();
        self.source.read_to_end(&mut bytes).map_err(|error| End::NotRun(format!("{name}: {error}")))?;
        let text = String::from_utf8(bytes).map_err(|error| {
            let good = &error.as_bytes()[..error.utf8_error().valid_up_to()];
            let line = 1 + good.iter().filter(|&&byte| byte == b'\n').count();
            End::NotRun(format!("{name}:{line}: expected text, found the byte {:02x}", error.as_bytes()[good.len()]))
        })?;
        let text = text.strip_prefix('\u{feff}').unwrap_or(&text).to_string();
        match parse_as(form, &text) {
            Ok(run) => Ok((name, text, run)),
            Err(slip) => Err(End::NotRun(format!("{name}:{slip}"))),
        }
    }
}

fn not_run(problem: impl ToString) -> End {
    End::NotRun(problem.to_string())
}

/// Writes to standard output, which may have been closed.
fn print(bytes: &[u8]) -> Done {
    let written = stdout().write_all(bytes).and_then(|_| stdout().flush());
    written.map_err(output_failed)
}

fn output_failed(error: std::io::Error) -> End {
    match error.kind() {
        ErrorKind::BrokenPipe => End::Closed,
        _ => End::NotRun(format!("standard output: {error}")),
    }
}

fn start(command: &[String]) -> Result<Child, End> {
    let Some((program, words)) = command.split_first() else { return Err(not_run("expected a COMMAND")) };
    let started = Command::new(program).args(words).stdin(Stdio::piped()).stdout(Stdio::piped()).spawn();
    started.map_err(|error| not_run(format!("{program}: {error}")))
}

fn ended_well(mut child: Child) -> Done {
    match child.wait() {
        Ok(status) if status.success() => Ok(()),
        Ok(status) => Err(End::Found(format!("the program did not end well: {status}"))),
        Err(error) => Err(not_run(error)),
    }
}

/// What the program prints for bytes that are at hand. It may stop reading at what is malformed, so a broken pipe is no
/// failure.
fn output(command: &[String], bytes: &[u8]) -> Result<String, End> {
    let mut child = start(command)?;
    let mut to_program = child.stdin.take().unwrap();
    let mut printed = String::new();
    std::thread::scope(|scope| {
        scope.spawn(move || to_program.write_all(bytes));
        child.stdout.take().unwrap().read_to_string(&mut printed)
    })
    .map_err(not_run)?;
    ended_well(child).map(|_| printed)
}

/// The lines of a log, as they come. Where the program has ended, nothing more is read.
fn lines(input: Input, command: &[String]) -> Done {
    let progress = Arc::new(Progress::new(&input.name, input.total));
    let mut child = start(command)?;
    let to_program = child.stdin.take().unwrap();
    let mut from_program = BufReader::with_capacity(1 << 16, child.stdout.take().unwrap());
    let name = input.name.clone();
    let (failed, failure) = channel();
    let counting = progress.clone();
    std::thread::spawn(move || feed(input, to_program, &counting, failed));
    let mut last = Vec::new();
    let printed = print_lines(&mut from_program, &progress, &mut last);
    progress.clear();
    printed?;
    ended_well(child)?;
    if let Ok(problem) = failure.try_recv() {
        return Err(End::NotRun(problem));
    }
    if refusal(&String::from_utf8_lossy(&last)) == Some("17") {
        let number = progress.lines();
        let hint = if number == 1 { " (the name of a run in notation ends in .run)" } else { "" };
        return Err(End::Found(format!("{name}: malformed at record {number}; --run shows where and how{hint}")));
    }
    Ok(())
}

/// Hands the input to the program, block by block, as far as it reads.
fn feed(mut input: Input, mut to_program: ChildStdin, progress: &Progress, failed: Sender<String>) {
    let mut block = [0; 1 << 16];
    loop {
        match input.source.read(&mut block) {
            Ok(0) => return,
            Ok(count) if to_program.write_all(&block[..count]).is_err() => return,
            Ok(count) => progress.has_read(count),
            Err(error) if error.kind() == ErrorKind::Interrupted => {}
            Err(error) => {
                let _ = failed.send(format!("{}: {error}", input.name));
                return;
            }
        }
    }
}

/// Hands whole lines on as soon as they are there, and keeps the last.
fn print_lines(from_program: &mut impl BufRead, progress: &Progress, last: &mut Vec<u8>) -> Done {
    let mut rest = Vec::new();
    loop {
        let block = from_program.fill_buf().map_err(not_run)?;
        let count = block.len();
        if count == 0 {
            break;
        }
        rest.extend(block);
        from_program.consume(count);
        if let Some(end) = rest.iter().rposition(|&byte| byte == b'\n') {
            progress.print(&mut stdout(), &rest[..=end]).map_err(output_failed)?;
            *last = rest[..end].rsplit(|&byte| byte == b'\n').next().unwrap_or_default().to_vec();
            rest.drain(..=end);
        }
    }
    match rest.is_empty() {
        true => Ok(()),
        false => Err(End::Found("the program's last line has no end".to_string())),
    }
}

/// The lines of a run, those that differ marked with what was expected.
fn compare(form: &Form, input: Input, command: &[String]) -> Done {
    let (name, _, run) = input.parse(form)?;
    let printed = output(command, &run.bytes)?;
    let found = differences(&name, &run, &printed);
    let longest = printed.lines().map(str::len).max().unwrap_or(0);
    let mut text = String::new();
    let mut expected = run.expected.iter().peekable();
    let differs = |number| found.iter().any(|difference| difference.number == Some(number));
    for (number, line) in (1..).zip(printed.lines()) {
        match expected.next_if(|expected| expected.number == number) {
            Some(expected) if differs(number) => {
                text += &format!("{line:<longest$}  # {name}:{}: expected {}\n", expected.line_in_file, expected.text);
            }
            _ => text += &format!("{line}\n"),
        }
    }
    for expected in expected {
        text += &format!("{:<longest$}  # {name}:{}: expected {}\n", "", expected.line_in_file, expected.text);
    }
    print(text.as_bytes())?;
    let (of_lines, of_the_whole): (Vec<_>, Vec<_>) = found.iter().partition(|difference| difference.number.is_some());
    match (&of_lines[..], &of_the_whole[..]) {
        ([], []) => Ok(()),
        ([], [first, ..]) => Err(End::Found(first.text.clone())),
        _ => Err(End::Found(format!("{name}: lines that differ: {} of {}", of_lines.len(), run.expected.len()))),
    }
}

/// A run with the lines of the program beside its steps.
fn filled(form: &Form, input: Input, command: &[String]) -> Done {
    let (_, text, run) = input.parse(form)?;
    print(fill(&text, &run, &output(command, &run.bytes)?).as_bytes())
}

/// A log as a run. The program gets what is read as it is read.
fn as_run(form: &Form, input: Input, command: &[String]) -> Done {
    let progress = Progress::new(&input.name, input.total);
    let mut child = start(command)?;
    let mut to_program = child.stdin.take().unwrap();
    let mut from_program = BufReader::new(child.stdout.take().unwrap()).lines();
    let (copies, blocks) = channel::<Vec<u8>>();
    let written = std::thread::scope(|scope| {
        scope.spawn(move || blocks.iter().take_while(|block| !block.is_empty()).all(|block| to_program.write_all(&block).is_ok()));
        let mut copied = Copied { source: input.source, copies, progress: &progress };
        let mut lines = || from_program.next().transpose().map_err(|error| error.to_string());
        let mut out = Printing { progress: &progress, closed: false };
        let written = write_run(form, &mut copied, &mut lines, &mut out);
        written.map_err(|problem| if out.closed { End::Closed } else { End::Found(format!("{}: {problem}", input.name)) })
    });
    progress.clear();
    written?;
    ended_well(child)
}

/// What is read of the source, handed on as well; at its end nothing is, which closes the program's input.
struct Copied<'a> {
    source: Box<dyn Read + Send>,
    copies: Sender<Vec<u8>>,
    progress: &'a Progress,
}

impl Read for Copied<'_> {
    fn read(&mut self, block: &mut [u8]) -> std::io::Result<usize> {
        let count = self.source.read(block)?;
        let _ = self.copies.send(block[..count].to_vec());
        self.progress.has_read(count);
        Ok(count)
    }
}

struct Printing<'a> {
    progress: &'a Progress,
    closed: bool,
}

impl Write for Printing<'_> {
    fn write(&mut self, text: &[u8]) -> std::io::Result<usize> {
        let written = self.progress.print(&mut stdout(), text);
        self.closed = matches!(&written, Err(error) if error.kind() == ErrorKind::BrokenPipe);
        written.map(|_| text.len())
    }

    fn flush(&mut self) -> std::io::Result<()> {
        stdout().flush()
    }
}

fn as_log(form: &Form, input: Input) -> Done {
    let (_, _, run) = input.parse(form)?;
    if stdout().is_terminal() {
        return Err(not_run("a log is bytes, and standard output is a terminal: send it to a file"));
    }
    print(&run.bytes)
}
