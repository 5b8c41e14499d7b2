//! What logs have tried: which answers each kind of step had, in which states steps found their node and left it, and
//! both sides of each edge. The reference is asked where a log leads; it judges nothing here.

use crate::holding::edges::{Edge, Moment, Side, OF_ACK, OF_COMMAND, OF_DELIVERIES, OF_KINDS, OF_OTHERS, OF_START};
use crate::holding::endings::{Turn, Was, OF_NODES};
use crate::rows;
use reference::log;
use reference::model::{Answer, Model, Record, Sent, Site, Starting, State, Status, Step};
use std::collections::BTreeMap;
use std::fmt::{Display, Formatter, Result};
use std::ops::AddAssign;

/// Kinds of step, and the answers that the rules can give to each.
pub const KINDS: [(&str, &[u8]); 12] = [
    ("Start", &[0, 1]),
    ("Tick", &[0, 15, 16]),
    ("Report", &[0, 2, 3, 4, 5, 6, 9, 16]),
    ("Deliver", &[0, 2, 3, 4, 5, 6, 7, 8, 16]),
    ("Pair", &[0, 2, 3, 4, 5, 6, 7, 8, 16]),
    ("ShareTimeout", &[0, 2, 3, 4, 5, 6, 12, 16]),
    ("ResendTimeout", &[0, 2, 3, 4, 5, 6, 12, 16]),
    ("Command", &[0, 2, 5, 6, 7, 8, 11, 16]),
    ("Ack", &[0, 2, 3, 4, 5, 6, 13, 16]),
    ("Query", &[0, 2, 3, 4, 5, 6, 16]),
    ("Down", &[0, 2, 3, 4, 14, 16]),
    ("Up", &[0, 2, 3, 4, 16]),
];

/// The kinds that act at a node.
const AT_NODES: [usize; 9] = [2, 3, 4, 5, 6, 8, 9, 10, 11];

/// The ways in which a log can be malformed.
const WAYS: [&str; 7] = [
    "no version byte",
    "an unknown version",
    "a length of 0",
    "an unknown kind",
    "a pair in version 1",
    "a length not its kind's",
    "an end inside a record",
];

/// The states of a node, the kinds of step that it takes there, and the states in which a step can leave it. Resend is
/// armed in Done only, since leaving Done disarms it.
const STATES: [(&str, &[usize], &[usize]); 14] = [
    ("no such node", &[], &[]),
    ("compromised", &[], &[]),
    ("down", &[11], &[3]),
    ("starting", &[2, 8, 9, 10], &[2, 4, 5]),
    ("starting, r", &[2, 8, 9, 10], &[2, 4, 6, 7, 10, 11, 12, 13]),
    ("starting, b", &[2, 8, 9, 10], &[2, 5, 6, 7, 10, 11]),
    ("Done CLOSE", &[2, 3, 4, 8, 10], &[2, 6, 8, 9, 10, 11, 13]),
    ("Done TRIP", &[2, 3, 4, 8, 10], &[2, 7, 8, 9, 10, 11, 12]),
    ("CLOSE, resend", &[2, 3, 4, 6, 8, 10], &[2, 6, 8, 9, 10, 11, 13]),
    ("TRIP, resend", &[2, 3, 4, 6, 8, 10], &[2, 7, 8, 9, 10, 11, 12]),
    ("Attempt CLOSE", &[2, 3, 4, 5, 8, 10], &[2, 6, 7, 8, 10, 13]),
    ("Attempt TRIP", &[2, 3, 4, 5, 8, 10], &[2, 6, 7, 9, 11, 12]),
    ("Wait CLOSE", &[2, 3, 4, 8, 10], &[2, 6, 7, 9, 11, 12]),
    ("Wait TRIP", &[2, 3, 4, 8, 10], &[2, 6, 7, 8, 10, 13]),
];

const DOWN: usize = 2;
const UP: usize = 11;

/// Edges by the step that they are about.
const EDGES: [(&str, &[Edge]); 5] = [
    ("Start", &OF_START),
    ("Command", &OF_COMMAND),
    ("Deliver, Pair", &OF_DELIVERIES),
    ("Ack", &OF_ACK),
    ("", &OF_OTHERS),
];

const TOTALS: [&str; 9] = [
    "logs",
    "lines",
    "steps accepted",
    "commands sent",
    "sent again",
    "changes of the breaker",
    "commands answered without a change",
    "pairs stored whole",
    "pairs of which one was stored",
];

#[derive(Clone, Copy, PartialEq, Eq, PartialOrd, Ord)]
enum Seen {
    Total(usize),
    Answer(usize, u8),
    Malformed(usize),
    Accepted(usize, usize),
    Refused(usize, usize),
    Moved(usize, usize),
    OfKind(usize, usize, Side),
    Edge(usize, usize, Side),
    OfNode(usize, Side),
}

#[derive(Default)]
pub struct Tried {
    seen: BTreeMap<Seen, u64>,
}

fn kind(step: &Step) -> usize {
    match step {
        Step::Start { .. } => 0,
        Step::Tick => 1,
        Step::Report { .. } => 2,
        Step::Deliver { .. } => 3,
        Step::Pair { .. } => 4,
        Step::ShareTimeout { .. } => 5,
        Step::ResendTimeout { .. } => 6,
        Step::Command { .. } => 7,
        Step::Ack { .. } => 8,
        Step::Query { .. } => 9,
        Step::Down { .. } => 10,
        Step::Up { .. } => 11,
    }
}

fn state(site: &Site, node: u8) -> usize {
    let of = |status: Status| usize::from(status.byte());
    match site.nodes.get(&node) {
        None => 0,
        Some(_) if site.compromised.contains(&node) => 1,
        Some(Record::Down) => DOWN,
        Some(Record::Starting(Starting { r: Some(_), .. })) => 4,
        Some(Record::Starting(Starting { b: Some(_), .. })) => 5,
        Some(Record::Starting(_)) => 3,
        Some(Record::Running(node)) => match node.state() {
            State::Done(status) if node.resend.is_none() => 6 + of(status),
            State::Done(status) => 8 + of(status),
            State::Attempt(status) => 10 + of(status),
            State::Wait(status) => 12 + of(status),
        },
    }
}

fn way(version: u8, bytes: &[u8]) -> usize {
    let is_pair = matches!(log::read(log::LAST_VERSION, bytes), Some((Step::Pair { .. }, _)));
    match rows::malformed(version, bytes) {
        "log: a length of 0" => 2,
        "log: an unknown kind" if is_pair => 4,
        "log: an unknown kind" => 3,
        "log: a length not its kind's" => 5,
        _ => 6,
    }
}

impl Tried {
    fn add(&mut self, seen: Seen) {
        *self.seen.entry(seen).or_default() += 1;
    }

    fn total(&mut self, which: usize, holds: bool) {
        if holds {
            self.add(Seen::Total(which));
        }
    }

    fn times(&self, seen: Seen) -> u64 {
        self.seen.get(&seen).copied().unwrap_or(0)
    }

    /// Adds one log.
    pub fn count(&mut self, bytes: &[u8]) {
        self.add(Seen::Total(0));
        let Some((version, mut rest)) = log::open(bytes) else {
            self.add(Seen::Total(1));
            return self.add(Seen::Malformed(usize::from(!bytes.is_empty())));
        };
        let (mut model, mut earlier) = (Model::default(), None);
        while !rest.is_empty() {
            self.add(Seen::Total(1));
            let Some((step, length)) = log::read(version, rest) else {
                return self.add(Seen::Malformed(way(version, rest)));
            };
            self.step(&mut model, &mut earlier, &step);
            rest = &rest[length..];
        }
    }

    /// Carries out one step and counts it. `earlier` is the site that the last accepted Start replaced.
    fn step(&mut self, model: &mut Model, earlier: &mut Option<Site>, step: &Step) {
        let answer = model.refusal(step);
        self.add(Seen::Answer(kind(step), answer));
        self.edges(&Moment { site: model.site.as_ref(), earlier: earlier.as_ref(), step, answer });
        let before = model.site.as_ref().zip(step.acting()).map(|(site, node)| state(site, node));
        if let Some(before) = before {
            let seen = if answer == 0 { Seen::Accepted } else { Seen::Refused };
            self.add(seen(before, kind(step)));
        }
        if answer != 0 {
            return;
        }
        let record = model.site.as_ref().zip(step.acting()).map(|(site, node)| &site.nodes[&node]);
        let was = match record {
            Some(Record::Running(node)) => Some(Was::of(node, step)),
            _ => None,
        };
        let status = model.site.as_ref().map(|site| site.breaker.status);
        if kind(step) == 0 {
            *earlier = model.site.take();
        }
        let answer = model.step(step);
        self.totals(step, &answer, status != model.site.as_ref().map(|site| site.breaker.status));
        if let Some((before, node)) = before.zip(step.acting()) {
            self.add(Seen::Moved(before, state(model.site.as_ref().unwrap(), node)));
        }
        let site = model.site.as_ref();
        if let Some(turn) = site.and_then(|site| Turn::of(site, earlier.as_ref(), step, was, &answer.sent)) {
            for (index, edge) in OF_NODES.iter().enumerate() {
                (edge.side)(&turn).into_iter().for_each(|side| self.add(Seen::OfNode(index, side)));
            }
        }
    }

    fn edges(&mut self, moment: &Moment) {
        for (index, (_, edge)) in OF_KINDS.iter().enumerate() {
            let side = (edge.side)(moment).into_iter();
            side.for_each(|side| self.add(Seen::OfKind(index, kind(moment.step), side)));
        }
        for (group, (_, edges)) in EDGES.iter().enumerate() {
            for (index, edge) in edges.iter().enumerate() {
                (edge.side)(moment).into_iter().for_each(|side| self.add(Seen::Edge(group, index, side)));
            }
        }
    }

    /// Counts what an accepted step has sent, and whether it has changed the breaker's status.
    fn totals(&mut self, step: &Step, answer: &Answer, has_changed: bool) {
        let commands = answer.sent.iter().any(|message| matches!(message, Sent::Command(_)));
        let is_command = matches!(step, Step::Command { .. });
        let again = matches!(step, Step::ResendTimeout { .. });
        let stored = if matches!(step, Step::Pair { .. }) { step.fresh_ones().len() } else { 0 };
        self.add(Seen::Total(2));
        self.total(3, commands);
        self.total(4, commands && again);
        self.total(5, is_command && has_changed);
        self.total(6, is_command && !has_changed);
        self.total(7, stored == 2);
        self.total(8, stored == 1);
    }
}

impl AddAssign for Tried {
    fn add_assign(&mut self, other: Tried) {
        for (seen, times) in other.seen {
            *self.seen.entry(seen).or_default() += times;
        }
    }
}

fn can_refuse(state: usize, kind: usize) -> bool {
    (state, kind) != (DOWN, UP)
}

const SIDES: [Side; 2] = [Side::One, Side::Other];

impl Tried {
    /// What the rules allow and no log has met.
    pub fn never(&self) -> Vec<String> {
        let possible = answers().into_iter().chain(in_states()).chain(at_edges());
        possible.filter(|(seen, _)| self.times(*seen) == 0).map(|(_, words)| words).collect()
    }
}

/// Every answer that a step can have, in words.
fn answers() -> Vec<(Seen, String)> {
    let mut all = Vec::new();
    for (kind, (name, answers)) in KINDS.iter().enumerate() {
        all.extend(
            answers.iter().map(|&answer| (Seen::Answer(kind, answer), format!("{name} answered with {answer}"))),
        );
    }
    all.extend(WAYS.iter().enumerate().map(|(way, words)| (Seen::Malformed(way), format!("malformed: {words}"))));
    all
}

/// Every state in which a step can find its node, and leave it.
fn in_states() -> Vec<(Seen, String)> {
    let mut all = Vec::new();
    for (from, (name, taken, left)) in STATES.iter().enumerate() {
        let accepted =
            taken.iter().map(|&kind| (Seen::Accepted(from, kind), format!("{} accepted: {name}", KINDS[kind].0)));
        all.extend(accepted);
        let refused = AT_NODES.into_iter().filter(|&kind| can_refuse(from, kind));
        all.extend(refused.map(|kind| (Seen::Refused(from, kind), format!("{} refused: {name}", KINDS[kind].0))));
        all.extend(left.iter().map(|&to| (Seen::Moved(from, to), format!("from {name} to {}", STATES[to].0))));
    }
    all
}

/// An edge in words, with its two sides.
type InWords = (String, [(Seen, &'static str); 2]);

/// The edges of one kind of step and those of what is left behind.
fn edges() -> Vec<InWords> {
    let mut all = Vec::new();
    for (group, (name, edges)) in EDGES.iter().enumerate() {
        for (index, edge) in edges.iter().enumerate() {
            let what = if name.is_empty() { edge.what.to_string() } else { format!("{name}: {}", edge.what) };
            let seen = |side| Seen::Edge(group, index, side);
            all.push((what, [(seen(Side::One), edge.one), (seen(Side::Other), edge.other)]));
        }
    }
    for (index, edge) in OF_NODES.iter().enumerate() {
        let seen = |side| Seen::OfNode(index, side);
        all.push((edge.what.to_string(), [(seen(Side::One), edge.one), (seen(Side::Other), edge.other)]));
    }
    all
}

/// The edges of a field, for each kind of step that has it.
fn edges_of_kinds() -> Vec<InWords> {
    let mut all = Vec::new();
    for (index, (kinds, edge)) in OF_KINDS.iter().enumerate() {
        for (kind, (name, _)) in KINDS.iter().enumerate().filter(|(_, (name, _))| kinds.contains(name)) {
            let seen = |side| Seen::OfKind(index, kind, side);
            let what = format!("{name}: {}", edge.what);
            all.push((what, [(seen(Side::One), edge.one), (seen(Side::Other), edge.other)]));
        }
    }
    all
}

/// Both sides of every edge.
fn at_edges() -> Vec<(Seen, String)> {
    let sides = |(what, sides): InWords| sides.map(|(seen, words)| (seen, format!("{what}: {words}")));
    edges_of_kinds().into_iter().chain(edges()).flat_map(sides).collect()
}

/// A count in at most six columns; from a hundred thousand on in thousands or millions.
fn short(times: u64) -> String {
    match times {
        0..=99_999 => times.to_string(),
        100_000..=99_999_999 => format!("{}k", times / 1000),
        _ => format!("{}M", times / 1_000_000),
    }
}

/// A count; a point where the rules allow none, and a mark should there be one all the same.
fn cell(possible: bool, times: u64) -> String {
    match (possible, times) {
        (true, times) => short(times),
        (false, 0) => ".".to_string(),
        (false, times) => format!("{}!", short(times)),
    }
}

/// A table with its columns to the right, each as wide as it must be.
fn table(out: &mut Formatter, title: &str, heads: &[String], rows: &[(String, Vec<String>)]) -> Result {
    writeln!(out, "\n{title}\n")?;
    let first = rows.iter().map(|(name, _)| name.chars().count()).max().unwrap_or(0);
    let width = |column: usize| rows.iter().map(|(_, cells)| cells[column].len()).chain([heads[column].len()]).max();
    let widths: Vec<usize> = (0..heads.len()).map(|column| width(column).unwrap_or(0)).collect();
    let mut line = |name: &str, cells: &[String]| {
        let cells: String = cells.iter().zip(&widths).map(|(cell, width)| format!("  {cell:>width$}")).collect();
        writeln!(out, "{}", format!("  {name:<first$}{cells}").trim_end())
    };
    line("", heads)?;
    rows.iter().try_for_each(|(name, cells)| line(name, cells))
}

impl Tried {
    fn write_answers(&self, out: &mut Formatter) -> Result {
        let heads: Vec<String> = (0..=17).map(|answer: u8| answer.to_string()).collect();
        let row = |(kind, (name, possible)): (usize, &(&str, &[u8]))| {
            let cells = (0..=17).map(|answer| cell(possible.contains(&answer), self.times(Seen::Answer(kind, answer))));
            (name.to_string(), cells.collect::<Vec<String>>())
        };
        let mut rows: Vec<_> = KINDS.iter().enumerate().map(row).collect();
        let malformed = (0..WAYS.len()).map(|way| self.times(Seen::Malformed(way))).sum();
        let cells = (0..=17).map(|answer| cell(answer == 17, if answer == 17 { malformed } else { 0 }));
        rows.push(("malformed".to_string(), cells.collect()));
        let title =
            "Answers: 0 is done, the others are refusals. A point: the rules never give it; k: thousands, M: millions.";
        table(out, title, &heads, &rows)?;
        writeln!(out, "\nMalformed by\n")?;
        let width = WAYS.iter().map(|words| words.len()).max().unwrap_or(0);
        let mut ways = WAYS.iter().enumerate();
        ways.try_for_each(|(way, words)| {
            writeln!(out, "  {words:<width$}  {}", short(self.times(Seen::Malformed(way))))
        })
    }

    fn write_states(&self, out: &mut Formatter) -> Result {
        let heads = AT_NODES.map(|kind| KINDS[kind].0.to_string());
        let rows = |first: usize, cells: &dyn Fn(usize, usize) -> String| -> Vec<(String, Vec<String>)> {
            let row = |state: usize| AT_NODES.iter().map(|&kind| cells(state, kind)).collect();
            (first..STATES.len()).map(|state| (STATES[state].0.to_string(), row(state))).collect()
        };
        let accepted =
            |state: usize, kind| cell(STATES[state].1.contains(&kind), self.times(Seen::Accepted(state, kind)));
        let refused = |state, kind| cell(can_refuse(state, kind), self.times(Seen::Refused(state, kind)));
        table(out, "Accepted steps, by the state in which they found their node", &heads, &rows(DOWN, &accepted))?;
        table(out, "Refused steps, by the state of the node that they name", &heads, &rows(0, &refused))?;
        let shorter = |name: &str| name.replace("starting", "st.").replace("CLOSE", "C").replace("TRIP", "T");
        let heads: Vec<String> = (DOWN..STATES.len()).map(|state| shorter(STATES[state].0)).collect();
        let row = |from: usize| {
            let cells =
                (DOWN..STATES.len()).map(|to| cell(STATES[from].2.contains(&to), self.times(Seen::Moved(from, to))));
            (STATES[from].0.to_string(), cells.collect::<Vec<String>>())
        };
        let rows: Vec<_> = (DOWN..STATES.len()).map(row).collect();
        table(out, "Accepted steps, from the state at the left to the one at the top", &heads, &rows)
    }

    fn write_edges_of_kinds(&self, out: &mut Formatter) -> Result {
        let heads = KINDS.map(|(name, _)| name.to_string());
        let mut rows = Vec::new();
        for (index, (kinds, edge)) in OF_KINDS.iter().enumerate() {
            for (side, words) in SIDES.into_iter().zip([edge.one, edge.other]) {
                let times = |kind| self.times(Seen::OfKind(index, kind, side));
                let cells = (0..KINDS.len()).map(|kind| cell(kinds.contains(&KINDS[kind].0), times(kind)));
                rows.push((format!("{} = {words}", edge.what), cells.collect()));
            }
        }
        let title = "Edges of fields: the first of two accepted, the second turned away for it";
        table(out, title, &heads, &rows)
    }

    fn write_edges(&self, out: &mut Formatter) -> Result {
        writeln!(out, "\nOther edges, both sides\n")?;
        let edges = edges();
        let first = edges.iter().map(|(what, _)| what.len()).max().unwrap_or(0);
        let width = |side: usize| edges.iter().map(|(_, sides)| sides[side].1.len()).max().unwrap_or(0);
        for (what, sides) in &edges {
            let side = |side: usize| {
                let (seen, words) = sides[side];
                format!("  {words:<width$} {:>6}", short(self.times(seen)), width = width(side))
            };
            writeln!(out, "  {what:<first$}{}{}", side(0), side(1))?;
        }
        Ok(())
    }
}

impl Display for Tried {
    fn fmt(&self, out: &mut Formatter) -> Result {
        let width = TOTALS.iter().map(|words| words.len()).max().unwrap_or(0);
        for (which, words) in TOTALS.iter().enumerate() {
            writeln!(out, "  {words:<width$}  {}", self.times(Seen::Total(which)))?;
        }
        self.write_answers(out)?;
        self.write_states(out)?;
        self.write_edges_of_kinds(out)?;
        self.write_edges(out)
    }
}
