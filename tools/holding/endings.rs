//! The edges of what an accepted step leaves a running node with: how many senders are held, and what comes of it.

use crate::holding::edges::{sender, side, Side};
use reference::model::{fresh, Pair, Record, Running, Sent, Site, State, Step};
use std::collections::BTreeSet;

/// An edge of what an accepted step at a running node leaves behind.
pub struct Ending {
    pub what: &'static str,
    pub one: &'static str,
    pub other: &'static str,
    pub side: fn(&Turn) -> Option<Side>,
}

const fn ending(what: &'static str, one: &'static str, other: &'static str, side: fn(&Turn) -> Option<Side>) -> Ending {
    Ending { what, one, other, side }
}

/// What is kept of a running node while a step is carried out.
#[derive(Clone, Copy)]
pub struct Was {
    r: Pair,
    b: Pair,
    /// The stamp of the command that a resend timeout would send again now.
    again: Option<u64>,
    /// Whether all that the step delivers was held already.
    held: bool,
}

impl Was {
    pub fn of(node: &Running, step: &Step) -> Was {
        let is_held = |share: &Pair| {
            node.store.get(share).zip(sender(step)).is_some_and(|(senders, sender)| senders.contains(&sender))
        };
        let again = match step {
            Step::ResendTimeout { .. } => node.resend.filter(|&stamp| step.clock().is_some_and(|t| fresh(stamp, t))),
            _ => None,
        };
        let shares = step.fresh_ones();
        Was { r: node.r, b: node.b, again, held: !shares.is_empty() && shares.iter().all(is_held) }
    }
}

/// An accepted step at a node, which has left it running.
pub struct Turn<'a> {
    site: &'a Site,
    earlier: Option<&'a Site>,
    step: &'a Step,
    was: Option<Was>,
    node: &'a Running,
    /// The stamp of the command that it has sent for the first time.
    command: Option<u64>,
}

impl<'a> Turn<'a> {
    /// Nothing, where the step has left no node running. `site` is the one after the step.
    pub fn of(
        site: &'a Site,
        earlier: Option<&'a Site>,
        step: &'a Step,
        was: Option<Was>,
        sent: &[Sent],
    ) -> Option<Turn<'a>> {
        let Record::Running(node) = site.nodes.get(&step.acting()?)? else { return None };
        let stamp = |message: &Sent| match message {
            Sent::Command(command) => Some(command.stamp),
            _ => None,
        };
        let command = sent.iter().find_map(stamp).filter(|_| was.is_some_and(|was| was.again.is_none()));
        Some(Turn { site, earlier, step, was, node, command })
    }

    fn threshold(&self) -> usize {
        usize::from(self.site.f) + 1
    }

    /// The senders held at this stamp for what the relay reports.
    fn held(&self, stamp: u64) -> BTreeSet<u8> {
        self.node.store.get(&Pair { status: self.node.r.status, stamp }).cloned().unwrap_or_default()
    }

    /// The fresh stamps that could be commanded, if the node is in Attempt.
    fn attempted(&self) -> Option<Vec<u64>> {
        let clock = self.node.clock;
        let stamps = (clock.saturating_sub(2)..=clock + 2).filter(|&stamp| stamp > self.node.b.stamp);
        matches!(self.node.state(), State::Attempt(_)).then(|| stamps.collect())
    }

    /// In Attempt, how many senders are held at the stamp that has the most.
    fn most(&self) -> Option<usize> {
        self.attempted().map(|stamps| stamps.into_iter().map(|stamp| self.held(stamp).len()).max().unwrap_or(0))
    }

    /// Whether f + 1 are held at this stamp and the node attempts all the same.
    fn in_vain(&self, stamp: u64) -> bool {
        self.attempted().is_some() && self.held(stamp).len() >= self.threshold()
    }
}

fn neighbours(turn: &Turn) -> bool {
    let Some(stamps) = turn.attempted() else { return false };
    let both = |two: &[u64]| turn.held(two[0]).union(&turn.held(two[1])).count();
    stamps.windows(2).any(|two| both(two) >= turn.threshold())
}

/// Whether the step has moved r or b, by itself or because the node began to run.
fn has_learned(turn: &Turn) -> bool {
    turn.command.is_none() && turn.was.is_none_or(|was| (was.r, was.b) != (turn.node.r, turn.node.b))
}

pub const OF_NODES: [Ending; 9] = [
    ending("senders held at one stamp", "f + 1: command", "f: none", |turn| {
        let enough = turn.command.is_some_and(|stamp| turn.held(stamp).len() == turn.threshold());
        side(enough, turn.most().is_some_and(|most| most + 1 == turn.threshold()))
    }),
    ending(
        "senders held, by the f before this Start",
        "enough then, too few now",
        "enough now, too few then",
        |turn| {
            let then = usize::from(turn.earlier?.f) + 1;
            let fewer = turn.command.is_some_and(|stamp| turn.held(stamp).len() < then);
            side(turn.most().is_some_and(|most| most >= then), fewer)
        },
    ),
    ending("f + 1 senders", "at one stamp", "only over two neighbouring stamps", |turn| {
        side(turn.command.is_some(), neighbours(turn))
    }),
    ending("a share delivered where f are held", "a new sender's: command", "one of theirs again: none", |turn| {
        let (was, _) = (turn.was?, sender(turn.step)?);
        side(turn.command.is_some(), was.held && turn.most()? + 1 == turn.threshold())
    }),
    ending("f + 1 held at", "b's stamp + 1: command", "b's stamp: none", |turn| {
        let before = turn.was.filter(|was| was.b.status != turn.node.b.status);
        let next = turn.command.zip(before).is_some_and(|(stamp, was)| stamp == was.b.stamp + 1);
        side(next, fresh(turn.node.b.stamp, turn.node.clock) && turn.in_vain(turn.node.b.stamp))
    }),
    ending("f + 1 held at", "t - 2: command", "t - 3: forgotten", |turn| {
        let (t, b) = (turn.node.clock, turn.node.b.stamp);
        let old = t.checked_sub(3).filter(|&stamp| stamp > b);
        side(turn.command.is_some_and(|stamp| stamp + 2 == t), old.is_some_and(|stamp| turn.in_vain(stamp)))
    }),
    ending("a command at the earliest stamp", "t + 2", "a later one is held from f + 1 too", |turn| {
        let (t, stamp) = (turn.node.clock, turn.command?);
        let later = (stamp + 1..=t + 2).any(|later| turn.held(later).len() >= turn.threshold());
        side(stamp == t + 2, later)
    }),
    ending("r's stamp, of another status than b", "b's: Attempt", "one below: Wait", |turn| {
        let (r, b) = (turn.node.r, turn.node.b);
        let differs = has_learned(turn) && r.status != b.status;
        side(differs && r.stamp == b.stamp, differs && r.stamp + 1 == b.stamp)
    }),
    ending("a command given up", "and another sent at once", "b had its status before", |turn| {
        let given_up = matches!(turn.step, Step::ResendTimeout { .. }) && turn.was?.again.is_none();
        let done = matches!(turn.node.state(), State::Done(_));
        side(given_up && turn.command.is_some(), given_up && turn.command.is_none() && done)
    }),
];
