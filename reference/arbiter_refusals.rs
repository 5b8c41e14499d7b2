//! When a step of the Arbiter's site is turned away: the rows of the refusal table, asked in the paper's order.

use crate::arbiter::{Model, Record, Site, Step};
use crate::model::{fresh, is_new, Pair, Status, LAST_TICK};
use crate::refusals::start_fits;

impl Model {
    /// The number of the first row that holds, or 0. (17 is the reader's; no table is lent.)
    pub fn refusal(&self, step: &Step) -> u8 {
        match (step, &self.site) {
            (Step::Start { f, k, set, status, g }, _) => u8::from(!start_fits(*f, *k, *set, *status, *g)),
            (_, None) => 16,
            (_, Some(site)) => (2..=15).find(|&row| site.row(row, step)).unwrap_or(0),
        }
    }
}

impl Step {
    /// The node that acts; for a message there is none.
    fn acting(&self) -> Option<u8> {
        match *self {
            Step::Start { .. } | Step::Tick | Step::Message { .. } => None,
            Step::Report { node, .. }
            | Step::ShareTimeout { node, .. }
            | Step::Ack { node, .. }
            | Step::Query { node, .. }
            | Step::Down { node }
            | Step::Up { node } => Some(node),
        }
    }

    /// The node or sender that the step names.
    fn named(&self) -> Option<u8> {
        match *self {
            Step::Message { sender, .. } => Some(sender),
            _ => self.acting(),
        }
    }

    /// The clock that the step names.
    fn clock(&self) -> Option<u64> {
        match *self {
            Step::Start { .. } | Step::Tick | Step::Down { .. } | Step::Up { .. } => None,
            Step::Report { t, .. }
            | Step::ShareTimeout { t, .. }
            | Step::Ack { t, .. }
            | Step::Query { t, .. }
            | Step::Message { t, .. } => Some(u64::from(t)),
        }
    }

    fn status(&self) -> Option<u8> {
        match *self {
            Step::Report { status, .. } | Step::Message { status, .. } => Some(status),
            _ => None,
        }
    }
}

impl Site {
    /// The last accepted clock of the node that acts, or of the breaker, since it started.
    fn last_clock(&self, step: &Step) -> Option<u64> {
        match step.acting().map(|node| &self.nodes[&node]) {
            None => self.breaker.clock,
            Some(Record::Down) => None,
            Some(Record::Starting(learned)) => learned.clock,
            Some(Record::Running(running)) => Some(running.clock),
        }
    }

    fn takes(&self, record: &Record, step: &Step) -> bool {
        match record {
            Record::Down => matches!(step, Step::Up { .. }),
            Record::Starting(_) => {
                matches!(step, Step::Report { .. } | Step::Ack { .. } | Step::Query { .. } | Step::Down { .. })
            }
            Record::Running(_) => {
                matches!(step, Step::Report { .. } | Step::ShareTimeout { .. } | Step::Ack { .. } | Step::Down { .. })
            }
        }
    }

    /// A compromised node may have sent anything; a correct one what it sent since the start.
    pub fn has_sent(&self, sender: u8, message: Pair) -> bool {
        self.compromised.contains(&sender) || self.sent.get(&message).is_some_and(|senders| senders.contains(&sender))
    }

    /// Whether this row of the table speaks against the step. A row is asked only when none before it did,
    /// so nodes are below n from row 3 on and statuses below 2.
    fn row(&self, row: u8, step: &Step) -> bool {
        match row {
            2 => {
                let back = matches!(step, Step::Ack { back, .. } if *back > 7);
                step.named().is_some_and(|node| node >= self.n) || step.status().is_some_and(|s| s > 1) || back
            }
            3 => step.acting().is_some_and(|node| self.compromised.contains(&node)),
            4 => step.acting().is_some_and(|node| !self.takes(&self.nodes[&node], step)),
            5 => step.clock().is_some_and(|t| t != self.g && t != self.g + 1),
            6 => step.clock().is_some_and(|t| self.last_clock(step).is_some_and(|last| t < last)),
            7 => matches!(*step, Step::Message { t, stamp, .. } if !fresh(u64::from(stamp), u64::from(t))),
            8 => match *step {
                Step::Message { sender, status, stamp, .. } => {
                    !self.has_sent(sender, Pair { status: Status::of(status).unwrap(), stamp: u64::from(stamp) })
                }
                _ => false,
            },
            9 => match *step {
                Step::Report { node, number, .. } => match &self.nodes[&node] {
                    Record::Down => false,
                    Record::Starting(learned) => !is_new(number, learned.number),
                    Record::Running(running) => !is_new(number, Some(running.number)),
                },
                _ => false,
            },
            // Rows 10 and 11 speak of commands, and there are none.
            12 => match *step {
                Step::ShareTimeout { node, .. } => {
                    !matches!(&self.nodes[&node], Record::Running(running) if running.attempts())
                }
                _ => false,
            },
            13 => matches!(*step, Step::Ack { back, .. } if self.breaker.change(back).is_none()),
            14 => matches!(step, Step::Down { .. }) && self.down.len() >= usize::from(self.k),
            15 => matches!(step, Step::Tick) && self.g == LAST_TICK,
            _ => false,
        }
    }
}
