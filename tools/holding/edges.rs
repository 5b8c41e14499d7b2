//! The edges of the rules: values side by side that the rules tell apart. A side is counted only where it decides the
//! answer or the state. Where an edge is between done and turned away, a step counts on the one side if it is accepted,
//! on the other if that is the first thing against it: a program whose limit lies one off differs at one of the two.

use reference::model::{Pair, Record, Running, Site, Status, Step, LAST_TICK};
use reference::refusals::start_fits;
use std::collections::BTreeSet;

#[derive(Clone, Copy, PartialEq, Eq, PartialOrd, Ord)]
pub enum Side {
    One,
    Other,
}

/// A step, before it is carried out.
pub struct Moment<'a> {
    pub site: Option<&'a Site>,
    /// The site that the last accepted Start replaced.
    pub earlier: Option<&'a Site>,
    pub step: &'a Step,
    pub answer: u8,
}

/// An edge of one kind of step, or of all that have the field.
pub struct Edge {
    pub what: &'static str,
    pub one: &'static str,
    pub other: &'static str,
    pub side: fn(&Moment) -> Option<Side>,
}

const fn edge(what: &'static str, one: &'static str, other: &'static str, side: fn(&Moment) -> Option<Side>) -> Edge {
    Edge { what, one, other, side }
}

pub fn side(one: bool, other: bool) -> Option<Side> {
    match (one, other) {
        (true, _) => Some(Side::One),
        (_, true) => Some(Side::Other),
        _ => None,
    }
}

impl Moment<'_> {
    /// The one side accepted, the other turned away with this number.
    fn decides(&self, refusal: u8, one: bool, other: bool) -> Option<Side> {
        side(one && self.answer == 0, other && self.answer == refusal)
    }

    fn limit<T: PartialEq>(&self, refusal: u8, value: T, one: T, other: T) -> Option<Side> {
        self.decides(refusal, value == one, value == other)
    }

    fn running(&self) -> Option<&Running> {
        match self.site?.nodes.get(&self.step.acting()?)? {
            Record::Running(node) => Some(node),
            _ => None,
        }
    }

    fn breaker_known(&self) -> Option<Pair> {
        match self.site?.nodes.get(&self.step.acting()?)? {
            Record::Down => None,
            Record::Starting(node) => node.b,
            Record::Running(node) => Some(node.b),
        }
    }

    /// The last number, if the node that acts has had one since it began to start up.
    fn last_number(&self) -> Option<Option<u32>> {
        match self.site?.nodes.get(&self.step.acting()?)? {
            Record::Down => None,
            Record::Starting(node) => Some(node.number),
            Record::Running(node) => Some(Some(node.number)),
        }
    }

    /// The change that an accepted ack speaks of.
    fn acknowledged(&self) -> Option<Pair> {
        match *self.step {
            Step::Ack { back, .. } if self.answer == 0 => self.site?.change(back),
            _ => None,
        }
    }

    /// The last accepted clock of the node that acts, or of the breaker.
    fn last_clock(&self) -> Option<u64> {
        let Some(node) = self.step.acting() else { return self.site?.breaker_clock };
        match self.site?.nodes.get(&node)? {
            Record::Down => None,
            Record::Starting(node) => node.clock,
            Record::Running(node) => Some(node.clock),
        }
    }
}

fn status(step: &Step) -> Option<u8> {
    match *step {
        Step::Start { status, .. }
        | Step::Report { status, .. }
        | Step::Deliver { status, .. }
        | Step::Pair { status, .. }
        | Step::Command { status, .. } => Some(status),
        _ => None,
    }
}

fn stamp(step: &Step) -> Option<u64> {
    match *step {
        Step::Deliver { stamp, .. } | Step::Pair { stamp, .. } | Step::Command { stamp, .. } => Some(stamp.into()),
        _ => None,
    }
}

pub fn sender(step: &Step) -> Option<u8> {
    match *step {
        Step::Deliver { sender, .. } | Step::Pair { sender, .. } => Some(sender),
        _ => None,
    }
}

/// How far T lies above t.
fn away(step: &Step) -> Option<i64> {
    Some(stamp(step)? as i64 - step.clock()? as i64)
}

/// Whether just one number of the step is out of its range, so that row 2 is about that one.
fn one_wrong_number(m: &Moment) -> bool {
    let Some(site) = m.site else { return false };
    let is_no_node = |node: Option<u8>| node.is_some_and(|node| node >= site.n);
    let status = status(m.step).is_some_and(|status| status > 1);
    let back = matches!(m.step, Step::Ack { back, .. } if *back > 7);
    let no_next = matches!(m.step, Step::Pair { stamp: u32::MAX, .. });
    let wrong = [is_no_node(m.step.acting()), is_no_node(sender(m.step)), status, back, no_next];
    wrong.into_iter().filter(|is_wrong| *is_wrong).count() == 1
}

const AT_NODES: &[&str] = &["Report", "Deliver", "Pair", "ShareTimeout", "ResendTimeout", "Ack", "Query", "Down", "Up"];
const TIMED: &[&str] = &["Report", "Deliver", "Pair", "ShareTimeout", "ResendTimeout", "Command", "Ack", "Query"];
const WITH_STATUS: &[&str] = &["Start", "Report", "Deliver", "Pair", "Command"];
const WITH_STAMP: &[&str] = &["Deliver", "Pair", "Command"];

/// Edges of fields that several kinds of step have, counted kind by kind.
pub const OF_KINDS: [(&[&str], Edge); 8] = [
    (AT_NODES, edge("node", "n - 1", "n", |m| number(m, m.step.acting()))),
    (&["Deliver", "Pair"], edge("sender", "n - 1", "n", |m| number(m, sender(m.step)))),
    (WITH_STATUS, edge("status", "1", "2", edge_of_status)),
    (TIMED, edge("t", "g", "g - 1", |m| m.limit(5, later(m)?, 0, -1))),
    (TIMED, edge("t", "g + 1", "g + 2", |m| m.limit(5, later(m)?, 1, 2))),
    (TIMED, edge("t", "the last clock", "one below it", edge_of_last_clock)),
    (WITH_STAMP, edge("T", "t - 2 (a pair's t - 3)", "t - 3 (a pair's t - 4)", edge_of_lowest)),
    (WITH_STAMP, edge("T", "t + 2", "t + 3", |m| m.limit(7, away(m.step)?, 2, 3))),
];

/// How far t lies above g.
fn later(m: &Moment) -> Option<i64> {
    Some(m.step.clock()? as i64 - m.site?.g as i64)
}

fn edge_of_last_clock(m: &Moment) -> Option<Side> {
    m.limit(6, m.step.clock()? + 1, m.last_clock()? + 1, m.last_clock()?)
}

fn edge_of_lowest(m: &Moment) -> Option<Side> {
    let lowest = if matches!(m.step, Step::Pair { .. }) { -3 } else { -2 };
    m.limit(7, away(m.step)?, lowest, lowest - 1)
}

fn number(m: &Moment, node: Option<u8>) -> Option<Side> {
    let (node, n) = (node?, m.site?.n);
    m.decides(2, node == n - 1, node == n && one_wrong_number(m))
}

fn edge_of_status(m: &Moment) -> Option<Side> {
    let status = status(m.step)?;
    match *m.step {
        Step::Start { f, k, set, g, .. } => m.decides(1, status == 1, status == 2 && start_fits(f, k, set, 1, g)),
        _ => m.decides(2, status == 1, status == 2 && one_wrong_number(m)),
    }
}

/// An edge of Start: outside it the Start fits but for that one number.
fn start(m: &Moment, test: fn(u8, u8, u16, u8, u32) -> (bool, bool)) -> Option<Side> {
    let Step::Start { f, k, set, status, g } = *m.step else { return None };
    let (one, other) = test(f, k, set, status, g);
    m.decides(1, one, other)
}

/// The site that an accepted Start replaces, with the f and the k of the new one.
fn replaced<'a>(m: &'a Moment) -> Option<(&'a Site, u8, u8)> {
    match *m.step {
        Step::Start { f, k, .. } if m.answer == 0 => Some((m.site?, f, k)),
        _ => None,
    }
}

fn compromised_number(f: u8, k: u8, set: u16, status: u8, g: u32) -> (bool, bool) {
    let n = 2 * u32::from(f) + u32::from(k) + 1;
    let without = |bit: u32| start_fits(f, k, set & !(1 << bit), status, g) && set.count_ones() <= f.into();
    (n <= 16 && set >> (n - 1) & 1 == 1, n < 16 && set >> n & 1 == 1 && without(n))
}

pub const OF_START: [Edge; 10] = [
    edge("f", "4", "5", |m| start(m, |f, k, c, s, g| (f == 4, f == 5 && start_fits(4, k, c, s, g)))),
    edge("k", "3", "4", |m| start(m, |f, k, c, s, g| (k == 3, k == 4 && start_fits(f, 3, c, s, g)))),
    edge("g", "2", "1", |m| start(m, |f, k, c, s, g| (g == 2, g == 1 && start_fits(f, k, c, s, 2)))),
    edge("g", "999,999,000", "999,999,001", |m| {
        start(m, |f, k, c, s, g| (g == 999_999_000, g == 999_999_001 && start_fits(f, k, c, s, 2)))
    }),
    edge("compromised nodes", "f", "f + 1", |m| {
        start(m, |f, k, c, s, g| {
            let count = c.count_ones();
            let fits_without_one = start_fits(f, k, c & c.wrapping_sub(1), s, g);
            (count == f.into(), count == u32::from(f) + 1 && fits_without_one && c >> (2 * f + k + 1) == 0)
        })
    }),
    edge("a compromised number", "n - 1", "n", |m| start(m, compromised_number)),
    edge("n", "1", "12", |m| match *m.step {
        Step::Start { f, k, .. } if m.answer == 0 => side(2 * f + k == 0, 2 * f + k == 11),
        _ => None,
    }),
    edge("Starts in one process", "the first", "a later one", |m| match *m.step {
        Step::Start { .. } if m.answer == 0 => side(m.site.is_none(), m.site.is_some()),
        _ => None,
    }),
    edge("f of a later Start", "grown", "fallen", |m| replaced(m).and_then(|(old, f, _)| side(f > old.f, f < old.f))),
    edge("k of a later Start", "grown", "fallen", |m| replaced(m).and_then(|(old, _, k)| side(k > old.k, k < old.k))),
];

/// An accepted or refused Report: its number, and the last that is known.
fn report(m: &Moment) -> Option<(u32, Option<u32>)> {
    match *m.step {
        Step::Report { number, .. } => Some((number, m.last_number()?)),
        _ => None,
    }
}

/// How far a report's number lies above the last, going round at 32 bits.
fn ahead(m: &Moment) -> Option<u32> {
    let (number, last) = report(m)?;
    Some(number.wrapping_sub(last?))
}

/// A command with a status that there is.
fn command(m: &Moment) -> Option<Pair> {
    match *m.step {
        Step::Command { status, stamp, .. } => Some(Pair { status: Status::of(status)?, stamp: stamp.into() }),
        _ => None,
    }
}

/// The same, if it would change the breaker.
fn change(m: &Moment) -> Option<Pair> {
    command(m).filter(|command| m.site.is_some_and(|site| command.status != site.breaker.status))
}

fn repeat(m: &Moment) -> Option<Pair> {
    command(m).filter(|command| m.site.is_some_and(|site| command.status == site.breaker.status))
}

/// The compromised nodes and those that have shared this since the Start.
fn signers(site: &Site, command: Pair) -> usize {
    let made: BTreeSet<u8> = site.made.get(&command).cloned().unwrap_or_default();
    site.compromised.union(&made).count()
}

fn edge_of_signers(m: &Moment, command: Pair) -> Option<Side> {
    let (site, f) = (m.site?, usize::from(m.site?.f));
    m.limit(8, signers(site, command), f + 1, f)
}

/// One that the threshold of the site before would have let pass, or held up.
fn signers_then(m: &Moment) -> Option<Side> {
    let (now, then) = (signers(m.site?, change(m)?), usize::from(m.earlier?.f) + 1);
    side(m.answer == 8 && now >= then, m.answer == 0 && now < then)
}

pub const OF_COMMAND: [Edge; 7] = [
    edge("signers of a change", "f + 1", "f", |m| edge_of_signers(m, change(m)?)),
    edge("signers of a repeat", "f + 1", "f", |m| edge_of_signers(m, repeat(m)?)),
    edge("signers, by the f before this Start", "enough then, too few now", "enough now, too few then", signers_then),
    edge("T of a change", "the breaker's stamp + 1", "the breaker's stamp", |m| {
        m.limit(11, change(m)?.stamp, m.site?.breaker.stamp + 1, m.site?.breaker.stamp)
    }),
    edge("T of an accepted change", "t + 1", "t - 1", |m| {
        change(m).and(side(m.answer == 0 && away(m.step)? == 1, m.answer == 0 && away(m.step)? == -1))
    }),
    edge("T of an accepted repeat", "the breaker's stamp + 1", "the breaker's stamp", |m| {
        let above = repeat(m).filter(|_| m.answer == 0)?.stamp.checked_sub(m.site?.breaker.stamp)?;
        side(above == 1, above == 0)
    }),
    edge("a command signed before this Start", "signed anew", "not since", |m| {
        let command = command(m).filter(|&command| m.earlier.is_some_and(|site| site.verdict(command)))?;
        m.decides(8, true, !m.site?.verdict(command))
    }),
];

/// A delivery's shares that are fresh, and whether its sender is correct and has made them.
fn shares(m: &Moment) -> Option<(u8, Vec<Pair>)> {
    let (site, sender) = (m.site?, sender(m.step)?);
    (sender < site.n && !site.compromised.contains(&sender)).then(|| (sender, m.step.fresh_ones()))
}

fn has_made(site: &Site, sender: u8, share: Pair) -> bool {
    site.made.get(&share).is_some_and(|makers| makers.contains(&sender))
}

fn beside(share: Pair) -> [Pair; 3] {
    let at = |stamp| Pair { stamp, ..share };
    [at(share.stamp + 1), at(share.stamp.saturating_sub(1)), Pair { status: share.status.other(), ..share }]
}

/// A pair, one of whose stamps is not fresh, or both are; how far T lies above t.
fn pair(m: &Moment) -> Option<i64> {
    matches!(m.step, Step::Pair { .. }).then(|| away(m.step))?
}

pub const OF_DELIVERIES: [Edge; 8] = [
    edge("a correct sender's share", "made", "only beside it, or of the other status", |m| {
        let (sender, shares) = shares(m)?;
        let near = shares.into_iter().flat_map(beside).any(|share| has_made(m.site.unwrap(), sender, share));
        m.decides(8, true, near)
    }),
    edge("a share made before this Start", "and since", "not since", |m| {
        let (sender, shares) = shares(m)?;
        let then = shares.into_iter().any(|share| has_made(m.earlier.unwrap_or(m.site.unwrap()), sender, share));
        m.earlier.and(m.decides(8, then, then))
    }),
    edge("sender of an accepted share", "down", "the receiver itself", |m| {
        let (sender, _) = shares(m).filter(|_| m.answer == 0)?;
        side(m.site?.down.contains(&sender), m.step.acting() == Some(sender))
    }),
    edge("T of a pair", "4,294,967,294", "4,294,967,295", |m| {
        let stamp = pair(m).and(stamp(m.step))?;
        let all = u64::from(u32::MAX);
        side(m.answer == 7 && stamp == all - 1, m.answer == 2 && stamp == all && one_wrong_number(m))
    }),
    edge("T of an accepted pair", "t - 2, both fresh", "t - 3, T + 1 alone", |m| {
        side(pair(m)? == -2 && m.answer == 0, pair(m)? == -3 && m.answer == 0)
    }),
    edge("T of an accepted pair", "t + 1, both fresh", "t + 2, T alone", |m| {
        side(pair(m)? == 1 && m.answer == 0, pair(m)? == 2 && m.answer == 0)
    }),
    edge("a pair, T made, T + 1 not", "T + 1 not fresh", "T + 1 fresh: refused", |m| half_made(m, 0, 1)),
    edge("a pair, T + 1 made, T not", "T not fresh", "T fresh: refused", |m| half_made(m, 1, 0)),
];

fn half_made(m: &Moment, made: u64, not_made: u64) -> Option<Side> {
    let (Step::Pair { sender, status, stamp, .. }, Some(site)) = (*m.step, m.site) else { return None };
    let status = Status::of(status)?;
    let has = |more| site.has_made(sender, Pair { status, stamp: u64::from(stamp) + more });
    m.decides(8, has(made) && !has(not_made), has(made) && !has(not_made))
}

/// How far the change of an accepted ack lies below the node's b.
fn below(m: &Moment, runs: bool) -> Option<u64> {
    let (change, b) = (m.acknowledged()?, m.breaker_known()?);
    let counts = if runs { m.running().is_some() && change.status != b.status } else { m.running().is_none() };
    b.stamp.checked_sub(change.stamp).filter(|_| counts)
}

/// An ack that is older than b: newer than what was acknowledged before, or not.
fn acknowledged_before(m: &Moment) -> Option<Side> {
    let (change, node) = (m.acknowledged()?, m.running()?);
    let older = change.stamp < node.b.stamp && node.heard.stamp < node.b.stamp;
    side(older && change.stamp > node.heard.stamp, older && change.stamp < node.heard.stamp)
}

/// An ack older than b where a command is being resent: of its status, which disarms, or of the other.
fn disarms(m: &Moment) -> Option<Side> {
    let (change, node) = (m.acknowledged()?, m.running()?);
    let older = change.stamp < node.b.stamp && node.resend.is_some();
    side(older && change.status == node.b.status, older && change.status != node.b.status)
}

fn back(m: &Moment) -> Option<(usize, usize)> {
    match *m.step {
        Step::Ack { back, .. } => Some((back.into(), m.site?.changes.len())),
        _ => None,
    }
}

pub const OF_ACK: [Edge; 7] = [
    edge("back", "7", "8", |m| back(m).and_then(|(back, _)| m.decides(2, back == 7, back == 8 && one_wrong_number(m)))),
    edge("changes made", "back + 1", "back", |m| {
        back(m).and_then(|(back, changes)| m.limit(13, changes, back + 1, back))
    }),
    edge("changes made where back is 7", "8", "9", |m| {
        let (_, changes) = back(m).filter(|&(back, _)| back == 7 && m.answer == 0)?;
        side(changes == 8, changes == 9)
    }),
    edge("stamp of the other status, node running", "b's: b becomes it", "one below: b stays", |m| {
        below(m, true).and_then(|below| side(below == 0, below == 1))
    }),
    edge("stamp, node starting up with b", "b's", "one below: b stays", |m| {
        below(m, false).and_then(|below| side(below == 0, below == 1))
    }),
    edge("older than b, against the last acknowledged", "newer: b may return to it", "older", acknowledged_before),
    edge("older than b, of a node that resends", "of b's status: disarms", "of the other", disarms),
];

pub const OF_OTHERS: [Edge; 8] = [
    edge("Tick: g", "999,999,999", "1,000,000,000", |m| {
        matches!(m.step, Step::Tick).then(|| m.limit(15, m.site?.g, LAST_TICK - 1, LAST_TICK))?
    }),
    edge("Report: number", "last + 1", "last", |m| m.limit(9, ahead(m)?, 1, 0)),
    edge("Report: number", "last + 2,147,483,647", "last + 2,147,483,648", |m| {
        m.limit(9, ahead(m)?, 2_147_483_647, 2_147_483_648)
    }),
    edge("Report: number going round", "below the last and new", "above it and not new", |m| {
        let (number, last) = report(m)?;
        m.decides(9, number < last?, number > last?)
    }),
    edge("Report: first number since start-up", "0", "4,294,967,295", |m| match report(m)? {
        (number, None) if m.answer == 0 => side(number == 0, number == u32::MAX),
        _ => None,
    }),
    edge("Report of the status that b has not: b's stamp", "t + 1: r's too", "t", |m| {
        let (Step::Report { status, t, .. }, Some(b), 0) = (*m.step, m.breaker_known(), m.answer) else {
            return None;
        };
        let differs = Status::of(status) != Some(b.status);
        side(differs && b.stamp == u64::from(t) + 1, differs && b.stamp == u64::from(t))
    }),
    edge("Down: correct nodes down", "k - 1", "k", |m| match m.step {
        Step::Down { .. } => m.limit(14, m.site?.down.len() + 1, m.site?.k.into(), usize::from(m.site?.k) + 1),
        _ => None,
    }),
    edge("ResendTimeout: the command's stamp", "t - 2: sent again", "t - 3: given up", |m| match *m.step {
        Step::ResendTimeout { t, .. } if m.answer == 0 => {
            let age = u64::from(t).saturating_sub(m.running()?.resend?);
            side(age == 2, age == 3)
        }
        _ => None,
    }),
];
