//! How far a long log has been run, on standard error where that is a terminal.

use std::io::{stderr, stdout, IsTerminal, Write};
use std::sync::atomic::{AtomicU64, Ordering};
use std::sync::Mutex;
use std::time::{Duration, Instant};

/// Nothing is shown of what ends sooner.
const FIRST: Duration = Duration::from_millis(500);
const BETWEEN: Duration = Duration::from_millis(200);

pub struct Progress {
    name: String,
    /// How many bytes there are, where that is known.
    total: Option<u64>,
    bytes: AtomicU64,
    lines: AtomicU64,
    /// When the next is due, and whether one stands on the terminal; nothing where standard error is no terminal.
    shown: Option<Mutex<(Instant, bool)>>,
    over_the_lines: bool,
}

impl Progress {
    pub fn new(name: &str, total: Option<u64>) -> Progress {
        let shown = stderr().is_terminal().then(|| Mutex::new((Instant::now() + FIRST, false)));
        let (bytes, lines) = (AtomicU64::new(0), AtomicU64::new(0));
        Progress { name: name.to_string(), total, bytes, lines, shown, over_the_lines: stdout().is_terminal() }
    }

    pub fn has_read(&self, count: usize) {
        self.bytes.fetch_add(count as u64, Ordering::Relaxed);
    }

    pub fn lines(&self) -> u64 {
        self.lines.load(Ordering::Relaxed)
    }

    /// Writes some lines, and then shows how far it is, if that is due.
    pub fn print(&self, out: &mut dyn Write, text: &[u8]) -> std::io::Result<()> {
        self.lines.fetch_add(text.iter().filter(|&&byte| byte == b'\n').count() as u64, Ordering::Relaxed);
        if self.over_the_lines {
            self.clear();
        }
        out.write_all(text)?;
        let Some(shown) = &self.shown else { return Ok(()) };
        let mut shown = shown.lock().unwrap();
        if Instant::now() >= shown.0 {
            eprint!("\r{}\x1b[K", self.text());
            *shown = (Instant::now() + BETWEEN, true);
        }
        Ok(())
    }

    /// Takes away what is shown.
    pub fn clear(&self) {
        let Some(shown) = &self.shown else { return };
        let mut shown = shown.lock().unwrap();
        if shown.1 {
            eprint!("\r\x1b[K");
            shown.1 = false;
        }
    }

    fn text(&self) -> String {
        let (bytes, lines) = (self.bytes.load(Ordering::Relaxed), self.lines());
        match self.total {
            Some(total) if total > 0 => {
                format!("{}: {} % of {total} bytes, {lines} lines", self.name, bytes.min(total) * 100 / total)
            }
            _ => format!("{}: {bytes} bytes, {lines} lines", self.name),
        }
    }
}
