//! The site of the Arbiter Protocol (request 3), in sets and maps like the Peer site of model.rs; what is the
//! same rule in both is used from there. Nothing is thrown away early here either: the breaker keeps every
//! message that it accepted since the start, the site every message that was sent, and freshness is asked when
//! it matters.

use crate::model::{fresh, report_pair, state, Pair, Starting, State, Status};
use std::collections::{BTreeMap, BTreeSet};

/// A step as a call has it: any values at all.
#[derive(Clone, Copy, PartialEq, Eq, Debug)]
pub enum Step {
    Start { f: u8, k: u8, set: u16, status: u8, g: u32 },
    Tick,
    Report { node: u8, t: u32, status: u8, number: u32 },
    ShareTimeout { node: u8, t: u32 },
    Ack { node: u8, t: u32, back: u8 },
    Query { node: u8, t: u32 },
    Down { node: u8 },
    Up { node: u8 },
    Message { sender: u8, t: u32, status: u8, stamp: u32 },
}

#[derive(Clone, Copy, PartialEq, Eq, Debug)]
pub enum Sent {
    /// From a node to the breaker.
    Message(u8, Pair),
    Ack(Pair),
}

#[derive(Clone, Copy, PartialEq, Eq, Debug)]
pub struct Answer {
    pub refusal: u8,
    /// No step sends more than one thing.
    pub sent: Option<Sent>,
}

/// A running node: it keeps no shares and has nothing to resend.
#[derive(Clone, Copy, Debug)]
pub struct Running {
    pub r: Pair,
    pub b: Pair,
    pub number: u32,
    pub clock: u64,
}

#[derive(Clone, Debug)]
pub enum Record {
    Down,
    Starting(Starting),
    Running(Running),
}

#[derive(Clone, Debug)]
pub struct Breaker {
    pub now: Pair,
    pub clock: Option<u64>,
    /// Changes since the start, oldest first.
    pub changes: Vec<Pair>,
    /// For each action and stamp, the senders whose message was accepted since the start.
    pub held: BTreeMap<Pair, BTreeSet<u8>>,
}

#[derive(Clone, Debug)]
pub struct Site {
    pub f: u8,
    pub k: u8,
    pub n: u8,
    pub compromised: BTreeSet<u8>,
    pub g: u64,
    pub breaker: Breaker,
    /// The correct nodes that are down.
    pub down: BTreeSet<u8>,
    /// For each action and stamp, the correct nodes that have sent it since the start.
    pub sent: BTreeMap<Pair, BTreeSet<u8>>,
    pub nodes: BTreeMap<u8, Record>,
}

#[derive(Clone, Default, Debug)]
pub struct Model {
    pub site: Option<Site>,
}

impl Running {
    pub fn state(&self) -> State {
        state(self.r, self.b)
    }

    pub fn attempts(&self) -> bool {
        matches!(self.state(), State::Attempt(_))
    }
}

impl Breaker {
    pub fn change(&self, back: u8) -> Option<Pair> {
        self.changes.iter().rev().take(8).nth(usize::from(back)).copied()
    }

    pub fn hold(&mut self, sender: u8, message: Pair) {
        self.held.entry(message).or_default().insert(sender);
    }

    /// What is counted at clock t: for the action that the breaker does not have, each fresh stamp above its own at
    /// which somebody is held, with those who are.
    pub fn counted(&self, t: u64) -> BTreeMap<u64, &BTreeSet<u8>> {
        let above = |stamp| stamp > self.now.stamp && fresh(stamp, t);
        let counts = |message: &Pair| message.status != self.now.status && above(message.stamp);
        self.held.iter().filter(|(message, _)| counts(message)).map(|(message, held)| (message.stamp, held)).collect()
    }

    /// The end of an accepted message: one change, if enough distinct senders are counted over all stamps together.
    fn decide(&mut self, t: u64, threshold: usize) -> Option<Sent> {
        let counted = self.counted(t);
        let senders: BTreeSet<u8> = counted.values().copied().flatten().copied().collect();
        if senders.len() < threshold {
            return None;
        }
        let stamp = counted.keys().copied().fold(t, u64::max);
        self.now = Pair { status: self.now.status.other(), stamp };
        self.changes.push(self.now);
        Some(Sent::Ack(self.now))
    }
}

impl Model {
    /// A refusal sends nothing and changes nothing.
    pub fn step(&mut self, step: &Step) -> Answer {
        match self.refusal(step) {
            0 => Answer { refusal: 0, sent: self.perform(step) },
            refusal => Answer { refusal, sent: None },
        }
    }

    /// An accepted step.
    fn perform(&mut self, step: &Step) -> Option<Sent> {
        if let Step::Start { f, k, set, status, g } = *step {
            self.site = Some(Site::begin(f, k, set, Status::of(status).unwrap(), u64::from(g)));
            return None;
        }
        let site = self.site.as_mut().unwrap();
        match *step {
            Step::Start { .. } => unreachable!(),
            Step::Tick => site.g += 1,
            Step::Message { sender, t, status, stamp } => {
                let message = Pair { status: Status::of(status).unwrap(), stamp: u64::from(stamp) };
                site.breaker.hold(sender, message);
                site.breaker.clock = Some(u64::from(t));
                return site.breaker.decide(u64::from(t), usize::from(site.f) + 1);
            }
            Step::Down { node } => {
                site.nodes.insert(node, Record::Down);
                site.down.insert(node);
            }
            Step::Up { node } => {
                site.nodes.insert(node, Record::Starting(Starting::default()));
                site.down.remove(&node);
            }
            Step::Report { node, t, .. }
            | Step::ShareTimeout { node, t }
            | Step::Ack { node, t, .. }
            | Step::Query { node, t } => return site.at_node(node, u64::from(t), step),
        }
        None
    }
}

impl Site {
    fn begin(f: u8, k: u8, set: u16, status: Status, g: u64) -> Site {
        let n = 2 * f + k + 1;
        let compromised: BTreeSet<u8> = (0..16).filter(|i| set >> i & 1 == 1).collect();
        let record = |i: u8| match compromised.contains(&i) {
            true => Record::Down,
            false => Record::Starting(Starting::default()),
        };
        let nodes = (0..n).map(|i| (i, record(i))).collect();
        let now = Pair { status, stamp: g };
        let breaker = Breaker { now, clock: None, changes: Vec::new(), held: BTreeMap::new() };
        Site { f, k, n, compromised, g, breaker, down: BTreeSet::new(), sent: BTreeMap::new(), nodes }
    }

    /// A timed step at one node; the site notes the message that it sends.
    fn at_node(&mut self, node: u8, t: u64, step: &Step) -> Option<Sent> {
        let (record, message) = match self.nodes.remove(&node).unwrap() {
            Record::Down => unreachable!(),
            Record::Starting(learned) => (self.learn(learned, t, step), None),
            Record::Running(running) => {
                let (after, message) = self.run(running, t, step);
                (Record::Running(after), message)
            }
        };
        self.nodes.insert(node, record);
        let message = message?;
        self.sent.entry(message).or_default().insert(node);
        Some(Sent::Message(node, message))
    }

    /// Report, Ack or Query at a starting node. It sends nothing, also where it begins to run.
    fn learn(&self, mut node: Starting, t: u64, step: &Step) -> Record {
        node.clock = Some(t);
        match *step {
            Step::Report { status, number, .. } => {
                node.r = Some(report_pair(status, t, node.b));
                node.number = Some(number);
            }
            Step::Ack { back, .. } => {
                let change = self.breaker.change(back).unwrap();
                if node.b.is_none_or(|b| change.stamp >= b.stamp) {
                    node.b = Some(change);
                }
            }
            Step::Query { .. } => node.b = Some(self.breaker.now),
            _ => unreachable!(),
        }
        match (node.r, node.b, node.number) {
            (Some(r), Some(b), Some(number)) => Record::Running(Running { r, b, number, clock: t }),
            _ => Record::Starting(node),
        }
    }

    /// Report, share timeout or Ack at a running node, and the message that it sends.
    fn run(&self, mut node: Running, t: u64, step: &Step) -> (Running, Option<Pair>) {
        let attempted = node.attempts();
        node.clock = t;
        let sends = match *step {
            Step::Report { status, number, .. } => {
                node.r = report_pair(status, t, Some(node.b));
                node.number = number;
                node.attempts() && !attempted
            }
            Step::ShareTimeout { .. } => true,
            Step::Ack { back, .. } => {
                let change = self.breaker.change(back).unwrap();
                if change.stamp >= node.b.stamp {
                    node.b = change;
                }
                false
            }
            _ => unreachable!(),
        };
        (node, sends.then_some(Pair { status: node.r.status, stamp: t }))
    }
}
