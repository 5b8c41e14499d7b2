//! What sequences of calls came to in the reference, so that one sees how far the random ones go.

use reference::arbiter::{Breaker, Model, Sent, Site, Step};
use reference::calls;
use reference::model::{Pair, Status};
use std::collections::{BTreeMap, BTreeSet};
use std::fmt::{Display, Formatter, Result};

const KINDS: [&str; 10] =
    ["malformed", "Start", "Tick", "Report", "ShareTimeout", "Ack", "Query", "Down", "Up", "Message"];

fn kind(step: Option<&Step>) -> usize {
    match step {
        None => 0,
        Some(Step::Start { .. }) => 1,
        Some(Step::Tick) => 2,
        Some(Step::Report { .. }) => 3,
        Some(Step::ShareTimeout { .. }) => 4,
        Some(Step::Ack { .. }) => 5,
        Some(Step::Query { .. }) => 6,
        Some(Step::Down { .. }) => 7,
        Some(Step::Up { .. }) => 8,
        Some(Step::Message { .. }) => 9,
    }
}

#[derive(Default)]
pub struct Tally {
    answers: BTreeMap<(usize, u8), u64>,
    sent: u64,
    /// Accepted messages that were held already, and those for the status that the breaker has.
    repeats: u64,
    same_status: u64,
    changes: u64,
    /// Changes in which the stamps counted differ, and in which no one stamp has enough senders.
    several_stamps: u64,
    only_together: u64,
    /// Changes in which the new stamp is ahead of the breaker's clock, and for which enough was held before the message
    /// that made them.
    ahead: u64,
    held_before: u64,
}

impl Tally {
    /// Adds a sequence; hands back the lines that it must print.
    pub fn run(&mut self, bytes: &[u8]) -> String {
        let mut model = Model::default();
        let mut lines = String::new();
        for (number, call) in (1..).zip(bytes.chunks(calls::LENGTH)) {
            let step = calls::read(call);
            let (refusal, sent) = match &step {
                None => (17, None),
                Some(step) => self.take(&mut model, step),
            };
            *self.answers.entry((kind(step.as_ref()), refusal)).or_default() += 1;
            lines += &calls::line(number, refusal, &model, sent);
            lines.push('\n');
            if step.is_none() {
                break;
            }
        }
        lines
    }

    fn take(&mut self, model: &mut Model, step: &Step) -> (u8, Option<Sent>) {
        let held = model.site.as_ref().is_some_and(|site| holds(site, step));
        let before = model.site.as_ref().map(|site| site.breaker.now);
        let answer = model.step(step);
        if let (Step::Message { sender, t, status, stamp }, 0) = (*step, answer.refusal) {
            let (site, now) = (model.site.as_ref().unwrap(), before.unwrap());
            let message = Pair { status: Status::of(status).unwrap(), stamp: u64::from(stamp) };
            self.repeats += u64::from(held);
            self.same_status += u64::from(message.status == now.status);
            if answer.sent.is_some() {
                let mut breaker = Breaker { now, ..site.breaker.clone() };
                self.change(site, &breaker, u64::from(t));
                if !held {
                    breaker.held.get_mut(&message).unwrap().remove(&sender);
                }
                self.held_before += u64::from(senders(&breaker, u64::from(t)) > usize::from(site.f));
            }
        }
        self.sent += u64::from(matches!(answer.sent, Some(Sent::Message(..))));
        (answer.refusal, answer.sent)
    }

    /// A change, with the breaker as it was when it counted.
    fn change(&mut self, site: &Site, breaker: &Breaker, t: u64) {
        let counted = breaker.counted(t);
        self.changes += 1;
        self.several_stamps += u64::from(counted.len() > 1);
        self.only_together += u64::from(counted.values().all(|senders| senders.len() <= usize::from(site.f)));
        self.ahead += u64::from(site.breaker.now.stamp > t);
    }
}

fn senders(breaker: &Breaker, t: u64) -> usize {
    breaker.counted(t).values().copied().flatten().collect::<BTreeSet<_>>().len()
}

fn holds(site: &Site, step: &Step) -> bool {
    let Step::Message { sender, status, stamp, .. } = *step else { return false };
    let message = Status::of(status).map(|status| Pair { status, stamp: u64::from(stamp) });
    message.and_then(|message| site.breaker.held.get(&message)).is_some_and(|senders| senders.contains(&sender))
}

impl std::ops::AddAssign for Tally {
    fn add_assign(&mut self, other: Tally) {
        for (answer, times) in other.answers {
            *self.answers.entry(answer).or_default() += times;
        }
        self.sent += other.sent;
        self.repeats += other.repeats;
        self.same_status += other.same_status;
        self.changes += other.changes;
        self.several_stamps += other.several_stamps;
        self.only_together += other.only_together;
        self.ahead += other.ahead;
        self.held_before += other.held_before;
    }
}

impl Display for Tally {
    fn fmt(&self, out: &mut Formatter) -> Result {
        let lines: u64 = self.answers.values().sum();
        let accepted: u64 = self.answers.iter().filter(|((_, answer), _)| *answer == 0).map(|(_, times)| times).sum();
        writeln!(out, "{lines} lines, {accepted} steps accepted, {} messages sent", self.sent)?;
        writeln!(
            out,
            "accepted messages: {} that the breaker held already, {} for the status that it has",
            self.repeats, self.same_status
        )?;
        writeln!(
            out,
            "{} changes of the breaker: in {} the stamps counted differ, in {} no one stamp has enough senders, in {} the new stamp is ahead of its clock, in {} enough was held before the message that came",
            self.changes, self.several_stamps, self.only_together, self.ahead, self.held_before
        )?;
        writeln!(out, "answers and how often:")?;
        for (kind, name) in KINDS.iter().enumerate() {
            let answers = self.answers.iter().filter(|((of, _), _)| *of == kind);
            let answers: Vec<String> = answers.map(|((_, answer), times)| format!("{answer}: {times}")).collect();
            writeln!(out, "  {name:<13} {}", answers.join("  "))?;
        }
        Ok(())
    }
}
