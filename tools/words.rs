//! The words and marks of one step in the notation, read from left to right. What is wrong is told as what was expected
//! and what was found.

use reference::model::Step;

pub struct Words<'a> {
    words: Vec<&'a str>,
    next: usize,
}

/// How often a step can be repeated by one line.
const MOST_TIMES: u32 = 1_000_000;

impl<'a> Words<'a> {
    pub fn of(text: &'a str) -> Result<Words<'a>, String> {
        let mut words = Vec::new();
        let mut rest = text.trim_start();
        while let Some(first) = rest.chars().next() {
            let length = match first {
                '(' | ')' | '{' | '}' | ',' => 1,
                _ => rest.find(|c: char| !c.is_ascii_alphanumeric() && c != '_').unwrap_or(rest.len()),
            };
            if length == 0 {
                return Err(format!("expected words, numbers, brackets and commas, found `{}`", first.escape_debug()));
            }
            words.push(&rest[..length]);
            rest = rest[length..].trim_start();
        }
        Ok(Words { words, next: 0 })
    }

    pub fn word(&mut self, expected: &str) -> Result<&'a str, String> {
        self.next += 1;
        let word = self.words.get(self.next - 1).copied();
        word.ok_or_else(|| format!("expected {expected}, found the end of the step"))
    }

    pub fn mark(&mut self, mark: &str) -> Result<(), String> {
        let expected = format!("`{mark}`");
        match self.word(&expected)? {
            word if word == mark => Ok(()),
            word => Err(format!("expected {expected}, found `{word}`")),
        }
    }

    fn up_to(&mut self, most: u32) -> Result<u32, String> {
        let expected = format!("a number from 0 to {most}");
        let word = self.word(&expected)?;
        let number = word.replace('_', "").parse().ok().filter(|&number| number <= most);
        number.ok_or_else(|| format!("expected {expected}, found `{word}`"))
    }

    pub fn number(&mut self) -> Result<u32, String> {
        self.up_to(u32::MAX)
    }

    pub fn byte(&mut self) -> Result<u8, String> {
        self.up_to(u8::MAX.into()).map(|number| number as u8)
    }

    pub fn status(&mut self) -> Result<u8, String> {
        match self.words.get(self.next) {
            Some(&"CLOSE") => self.word("").map(|_| 0),
            Some(&"TRIP") => self.word("").map(|_| 1),
            _ => self.byte().map_err(|problem| problem.replace("expected a number", "expected CLOSE, TRIP or a number")),
        }
    }

    fn set(&mut self) -> Result<u16, String> {
        let mut set = 0;
        self.mark("{")?;
        if self.words.get(self.next) == Some(&"}") {
            return self.mark("}").map(|_| 0);
        }
        loop {
            set |= 1 << self.up_to(15)?;
            match self.word("`,` or `}`")? {
                "," => {}
                "}" => return Ok(set),
                word => return Err(format!("expected `,` or `}}`, found `{word}`")),
            }
        }
    }

    /// A comma, then what follows it.
    pub fn then<T>(&mut self, read: impl Fn(&mut Self) -> Result<T, String>) -> Result<T, String> {
        self.mark(",")?;
        read(self)
    }

    /// How often the step is repeated: once, where nothing is said of it.
    pub fn times(&mut self) -> Result<usize, String> {
        if self.next == self.words.len() {
            return Ok(1);
        }
        self.mark("x")?;
        let times = match self.up_to(MOST_TIMES)? {
            0 => return Err(format!("expected a number from 1 to {MOST_TIMES}, found `0`")),
            times => times as usize,
        };
        match self.words.get(self.next) {
            None => Ok(times),
            Some(word) => Err(format!("expected the end of the step, found `{word}`")),
        }
    }

    /// The fields of the Peer site's step of that name.
    pub fn peer_step(&mut self, name: &str) -> Result<Step, String> {
        Ok(match name {
            "Start" => {
                let (f, k) = (self.byte()?, self.then(Self::byte)?);
                let (set, status) = (self.then(Self::set)?, self.then(Self::status)?);
                Step::Start { f, k, set, status, g: self.then(Self::number)? }
            }
            "Tick" => Step::Tick,
            "Report" => {
                let (node, t, status) = (self.byte()?, self.then(Self::number)?, self.then(Self::status)?);
                Step::Report { node, t, status, number: self.then(Self::number)? }
            }
            "Deliver" | "Pair" => {
                let (sender, receiver) = (self.byte()?, self.then(Self::byte)?);
                let (t, status) = (self.then(Self::number)?, self.then(Self::status)?);
                let stamp = self.then(Self::number)?;
                match name {
                    "Pair" => Step::Pair { sender, receiver, t, status, stamp },
                    _ => Step::Deliver { sender, receiver, t, status, stamp },
                }
            }
            "ShareTimeout" => Step::ShareTimeout { node: self.byte()?, t: self.then(Self::number)? },
            "ResendTimeout" => Step::ResendTimeout { node: self.byte()?, t: self.then(Self::number)? },
            "Command" => {
                let (t, status) = (self.number()?, self.then(Self::status)?);
                Step::Command { t, status, stamp: self.then(Self::number)? }
            }
            "Ack" => {
                let (node, t) = (self.byte()?, self.then(Self::number)?);
                Step::Ack { node, t, back: self.then(Self::byte)? }
            }
            "Query" => Step::Query { node: self.byte()?, t: self.then(Self::number)? },
            "Down" => Step::Down { node: self.byte()? },
            "Up" => Step::Up { node: self.byte()? },
            _ => unreachable!(),
        })
    }
}
