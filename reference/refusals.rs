//! When a step is turned away: the rows of the refusal table, asked in the paper's order.

use crate::model::{fresh, is_new, Model, Pair, Record, Site, State, Status, Step, LAST_TICK};
use std::collections::BTreeSet;

impl Model {
    /// The number of the first row that holds, or 0. (17 is the reader's; the caller's table always has
    /// twelve records, so no table is too short.)
    pub fn refusal(&self, step: &Step) -> u8 {
        match (step, &self.site) {
            (Step::Start { f, k, set, status, g }, _) => u8::from(!start_fits(*f, *k, *set, *status, *g)),
            (_, None) => 16,
            (_, Some(site)) => (2..=15).find(|&row| site.row(row, step)).unwrap_or(0),
        }
    }
}

/// What row 1 asks of a Start.
pub fn start_fits(f: u8, k: u8, set: u16, status: u8, g: u32) -> bool {
    if f > 4 || k > 3 || status > 1 || !(2..=999_999_000).contains(&g) {
        return false;
    }
    let n = 2 * f + k + 1;
    let compromised: Vec<u8> = (0..16).filter(|i| set >> i & 1 == 1).collect();
    compromised.iter().all(|&i| i < n) && compromised.len() <= usize::from(f)
}

impl Step {
    /// Every node that the step names.
    fn names(&self) -> Vec<u8> {
        match *self {
            Step::Deliver { sender, receiver, .. } | Step::Pair { sender, receiver, .. } => vec![sender, receiver],
            _ => self.acting().into_iter().collect(),
        }
    }

    /// The node that acts; for a delivery, the receiver.
    pub fn acting(&self) -> Option<u8> {
        match *self {
            Step::Start { .. } | Step::Tick | Step::Command { .. } => None,
            Step::Report { node, .. }
            | Step::Deliver { receiver: node, .. }
            | Step::Pair { receiver: node, .. }
            | Step::ShareTimeout { node, .. }
            | Step::ResendTimeout { node, .. }
            | Step::Ack { node, .. }
            | Step::Query { node, .. }
            | Step::Down { node }
            | Step::Up { node } => Some(node),
        }
    }

    /// The clock that the step names.
    pub fn clock(&self) -> Option<u64> {
        match *self {
            Step::Start { .. } | Step::Tick | Step::Down { .. } | Step::Up { .. } => None,
            Step::Report { t, .. }
            | Step::Deliver { t, .. }
            | Step::Pair { t, .. }
            | Step::ShareTimeout { t, .. }
            | Step::ResendTimeout { t, .. }
            | Step::Command { t, .. }
            | Step::Ack { t, .. }
            | Step::Query { t, .. } => Some(u64::from(t)),
        }
    }

    fn status(&self) -> Option<u8> {
        match *self {
            Step::Report { status, .. }
            | Step::Deliver { status, .. }
            | Step::Pair { status, .. }
            | Step::Command { status, .. } => Some(status),
            _ => None,
        }
    }

    /// The stamps that a delivery or a command speaks of.
    fn stamps(&self) -> Vec<u64> {
        match *self {
            Step::Deliver { stamp, .. } | Step::Command { stamp, .. } => vec![u64::from(stamp)],
            Step::Pair { stamp, .. } => vec![u64::from(stamp), u64::from(stamp) + 1],
            _ => Vec::new(),
        }
    }

    /// The action of a delivery or a command at those of its stamps that are fresh.
    pub fn fresh_ones(&self) -> Vec<Pair> {
        let Some((status, t)) = self.status().and_then(Status::of).zip(self.clock()) else { return Vec::new() };
        self.stamps().into_iter().filter(|&stamp| fresh(stamp, t)).map(|stamp| Pair { status, stamp }).collect()
    }
}

impl Site {
    /// The last accepted clock of the node that acts, or of the breaker, since it started.
    fn last_clock(&self, step: &Step) -> Option<u64> {
        match step.acting() {
            None => self.breaker_clock,
            Some(node) => match &self.nodes[&node] {
                Record::Down => None,
                Record::Starting(learned) => learned.clock,
                Record::Running(running) => Some(running.clock),
            },
        }
    }

    fn takes(&self, record: &Record, step: &Step) -> bool {
        match record {
            Record::Down => matches!(step, Step::Up { .. }),
            Record::Starting(_) => {
                matches!(step, Step::Report { .. } | Step::Ack { .. } | Step::Query { .. } | Step::Down { .. })
            }
            Record::Running(_) => !matches!(step, Step::Query { .. } | Step::Up { .. }),
        }
    }

    fn makers(&self, share: Pair) -> BTreeSet<u8> {
        self.made.get(&share).cloned().unwrap_or_default()
    }

    /// Whether a share can be delivered: a correct sender has made it; a compromised one may send any.
    pub fn has_made(&self, sender: u8, share: Pair) -> bool {
        self.compromised.contains(&sender) || self.makers(share).contains(&sender)
    }

    /// The signature verdict on a command.
    pub fn verdict(&self, command: Pair) -> bool {
        self.compromised.union(&self.makers(command)).count() >= usize::from(self.f) + 1
    }

    /// Whether this row of the table speaks against the step. A row is asked only when none before it did,
    /// so nodes are below n from row 3 on and statuses below 2.
    fn row(&self, row: u8, step: &Step) -> bool {
        match row {
            2 => {
                let back = matches!(step, Step::Ack { back, .. } if *back > 7);
                let no_next = matches!(step, Step::Pair { stamp: u32::MAX, .. });
                let status = step.status().is_some_and(|s| s > 1);
                step.names().iter().any(|&node| node >= self.n) || status || back || no_next
            }
            3 => step.acting().is_some_and(|node| self.compromised.contains(&node)),
            4 => step.acting().is_some_and(|node| !self.takes(&self.nodes[&node], step)),
            5 => step.clock().is_some_and(|t| t != self.g && t != self.g + 1),
            6 => step.clock().is_some_and(|t| self.last_clock(step).is_some_and(|last| t < last)),
            // Of a pair: 7 when neither is fresh, 8 when a fresh one was not made (request 6).
            7 => !step.stamps().is_empty() && step.fresh_ones().is_empty(),
            8 => match *step {
                Step::Deliver { sender, .. } | Step::Pair { sender, .. } => {
                    step.fresh_ones().into_iter().any(|share| !self.has_made(sender, share))
                }
                Step::Command { .. } => step.fresh_ones().into_iter().any(|command| !self.verdict(command)),
                _ => false,
            },
            9 => match *step {
                Step::Report { node, number, .. } => match &self.nodes[&node] {
                    Record::Down => false,
                    Record::Starting(learned) => !is_new(number, learned.number),
                    Record::Running(running) => !is_new(number, Some(running.number)),
                },
                _ => false,
            },
            // Row 10 is no step's, and row 11 speaks of commands that would change the status (request 4).
            11 => {
                let too_old = |it: &Pair| it.status != self.breaker.status && it.stamp <= self.breaker.stamp;
                matches!(step, Step::Command { .. }) && step.fresh_ones().iter().any(too_old)
            }
            12 => match (step, step.acting().map(|node| &self.nodes[&node])) {
                (Step::ShareTimeout { .. }, Some(Record::Running(node))) => !matches!(node.state(), State::Attempt(_)),
                (Step::ResendTimeout { .. }, Some(Record::Running(node))) => node.resend.is_none(),
                _ => false,
            },
            13 => matches!(*step, Step::Ack { back, .. } if self.change(back).is_none()),
            14 => matches!(step, Step::Down { .. }) && self.down.len() >= usize::from(self.k),
            15 => matches!(step, Step::Tick) && self.g == LAST_TICK,
            _ => false,
        }
    }
}
