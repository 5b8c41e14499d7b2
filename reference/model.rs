//! The rules of the site as the rule paper states them, in sets and maps: meant to be read beside the
//! paper, not to be fast. Nothing is ever thrown away early: a store keeps every share delivered since the
//! node began running, the site every share made since the start, and freshness is asked when it matters.

use std::collections::{BTreeMap, BTreeSet};

pub const LAST_TICK: u64 = 1_000_000_000;

#[derive(Clone, Copy, PartialEq, Eq, PartialOrd, Ord, Debug)]
pub enum Status {
    Close,
    Trip,
}

impl Status {
    pub fn of(byte: u8) -> Option<Status> {
        match byte {
            0 => Some(Status::Close),
            1 => Some(Status::Trip),
            _ => None,
        }
    }
    pub fn byte(self) -> u8 {
        match self {
            Status::Close => 0,
            Status::Trip => 1,
        }
    }
    pub fn other(self) -> Status {
        match self {
            Status::Close => Status::Trip,
            Status::Trip => Status::Close,
        }
    }
}

/// A status and the stamp that goes with it: what a relay reported, what the breaker did, what a share says.
#[derive(Clone, Copy, PartialEq, Eq, PartialOrd, Ord, Debug)]
pub struct Pair {
    pub status: Status,
    pub stamp: u64,
}

/// A step as it stands in a log: any values at all. A Pair is one delivery, "standing for T and T+1" (request 6).
#[derive(Clone, Copy, PartialEq, Eq, Debug)]
pub enum Step {
    Start { f: u8, k: u8, set: u16, status: u8, g: u32 },
    Tick,
    Report { node: u8, t: u32, status: u8, number: u32 },
    Deliver { sender: u8, receiver: u8, t: u32, status: u8, stamp: u32 },
    Pair { sender: u8, receiver: u8, t: u32, status: u8, stamp: u32 },
    ShareTimeout { node: u8, t: u32 },
    ResendTimeout { node: u8, t: u32 },
    Command { t: u32, status: u8, stamp: u32 },
    Ack { node: u8, t: u32, back: u8 },
    Query { node: u8, t: u32 },
    Down { node: u8 },
    Up { node: u8 },
}

#[derive(Clone, Copy, PartialEq, Eq, Debug)]
pub enum Sent {
    Share(u8, Pair),
    Command(Pair),
    Ack(Pair),
}

#[derive(Clone, PartialEq, Eq, Debug)]
pub struct Answer {
    pub refusal: u8,
    pub sent: Vec<Sent>,
}

#[derive(Clone, Copy, PartialEq, Eq, Debug)]
pub enum State {
    Done(Status),
    Attempt(Status),
    Wait(Status),
}

/// What a starting node has learned so far.
#[derive(Clone, Default, Debug)]
pub struct Starting {
    pub r: Option<Pair>,
    pub b: Option<Pair>,
    /// "The breaker's status and stamp as acknowledged or queried. A query sets it, and so does an ack when there is
    /// none yet or its stamp is not below the pair's" (request 9). The Arbiter's nodes send no command and have none.
    pub heard: Option<Pair>,
    pub number: Option<u32>,
    pub clock: Option<u64>,
}

#[derive(Clone, Debug)]
pub struct Running {
    pub r: Pair,
    pub b: Pair,
    pub heard: Pair,
    pub number: u32,
    pub clock: u64,
    /// For each action and stamp, the senders whose share was delivered since the node began running.
    pub store: BTreeMap<Pair, BTreeSet<u8>>,
    pub resend: Option<u64>,
}

#[derive(Clone, Debug)]
pub enum Record {
    Down,
    Starting(Starting),
    Running(Running),
}

#[derive(Clone, Debug)]
pub struct Site {
    pub f: u8,
    pub k: u8,
    pub n: u8,
    pub compromised: BTreeSet<u8>,
    pub g: u64,
    pub breaker: Pair,
    pub breaker_clock: Option<u64>,
    /// Accepted changes since the start, oldest first.
    pub changes: Vec<Pair>,
    /// The correct nodes that are down.
    pub down: BTreeSet<u8>,
    /// For each action and stamp, the correct nodes that have shared it since the start.
    pub made: BTreeMap<Pair, BTreeSet<u8>>,
    pub nodes: BTreeMap<u8, Record>,
}

#[derive(Clone, Default, Debug)]
pub struct Model {
    pub site: Option<Site>,
}

pub fn fresh(stamp: u64, t: u64) -> bool {
    t <= stamp + 2 && stamp <= t + 2
}

/// New when none is known, or when it lies 1 to 2,147,483,647 after the last, going round at 32 bits.
pub fn is_new(number: u32, last: Option<u32>) -> bool {
    match last {
        None => true,
        Some(last) => {
            let ahead = (u64::from(number) + (1 << 32) - u64::from(last)) % (1 << 32);
            (1..=2_147_483_647).contains(&ahead)
        }
    }
}

/// A report at a node that knows b stamps r with the larger of t and b's stamp (request 1), at any other with t.
pub fn report_pair(status: u8, t: u64, b: Option<Pair>) -> Pair {
    Pair { status: Status::of(status).unwrap(), stamp: b.map_or(t, |b| t.max(b.stamp)) }
}

/// The state of a running node.
pub fn state(r: Pair, b: Pair) -> State {
    if r.status == b.status {
        State::Done(r.status)
    } else if r.stamp >= b.stamp {
        State::Attempt(r.status)
    } else {
        State::Wait(b.status)
    }
}

impl Running {
    pub fn state(&self) -> State {
        state(self.r, self.b)
    }

    fn hold(&mut self, sender: u8, share: Pair) {
        self.store.entry(share).or_default().insert(sender);
    }

    /// The earliest fresh stamp above b's that is held for `action` from at least `threshold` senders.
    fn enough(&self, action: Status, threshold: usize) -> Option<u64> {
        let held = |stamp: u64| self.store.get(&Pair { status: action, stamp }).map_or(0, BTreeSet::len);
        let window = self.clock.saturating_sub(2)..=self.clock + 2;
        window.into_iter().find(|&stamp| stamp > self.b.stamp && held(stamp) >= threshold)
    }
}

impl Model {
    /// A refusal sends nothing and changes nothing.
    pub fn step(&mut self, step: &Step) -> Answer {
        match self.refusal(step) {
            0 => Answer { refusal: 0, sent: self.perform(step) },
            refusal => Answer { refusal, sent: Vec::new() },
        }
    }

    /// An accepted step.
    fn perform(&mut self, step: &Step) -> Vec<Sent> {
        if let Step::Start { f, k, set, status, g } = *step {
            self.site = Some(Site::begin(f, k, set, Status::of(status).unwrap(), u64::from(g)));
            return Vec::new();
        }
        let site = self.site.as_mut().unwrap();
        match *step {
            Step::Start { .. } => unreachable!(),
            Step::Tick => site.g += 1,
            Step::Command { t, status, stamp } => {
                let status = Status::of(status).unwrap();
                site.breaker_clock = Some(u64::from(t));
                // A command for the status that the breaker has is answered and is no change (request 4).
                if status != site.breaker.status {
                    site.breaker = Pair { status, stamp: u64::from(stamp).max(u64::from(t)) };
                    site.changes.push(site.breaker);
                }
                return vec![Sent::Ack(site.breaker)];
            }
            Step::Down { node } => {
                site.nodes.insert(node, Record::Down);
                site.down.insert(node);
            }
            Step::Up { node } => {
                site.nodes.insert(node, Record::Starting(Starting::default()));
                site.down.remove(&node);
            }
            Step::Report { node, t, .. }
            | Step::Deliver { receiver: node, t, .. }
            | Step::Pair { receiver: node, t, .. }
            | Step::ShareTimeout { node, t }
            | Step::ResendTimeout { node, t }
            | Step::Ack { node, t, .. }
            | Step::Query { node, t } => return site.at_node(node, u64::from(t), step),
        }
        Vec::new()
    }
}

impl Site {
    fn begin(f: u8, k: u8, set: u16, status: Status, g: u64) -> Site {
        let n = 2 * f + k + 1;
        let compromised: BTreeSet<u8> = (0..16).filter(|i| set >> i & 1 == 1).collect();
        let record = |i: u8| match compromised.contains(&i) {
            true => Record::Down,
            false => Record::Starting(Starting::default()),
        };
        let nodes = (0..n).map(|i| (i, record(i))).collect();
        let (breaker, breaker_clock) = (Pair { status, stamp: g }, None);
        let (changes, down, made) = (Vec::new(), BTreeSet::new(), BTreeMap::new());
        Site { f, k, n, compromised, g, breaker, breaker_clock, changes, down, made, nodes }
    }

    pub fn change(&self, back: u8) -> Option<Pair> {
        self.changes.iter().rev().take(8).nth(usize::from(back)).copied()
    }

    /// A timed step at one node: its record goes in, the record it leaves comes out, and the site notes the
    /// shares that were made.
    fn at_node(&mut self, node: u8, t: u64, step: &Step) -> Vec<Sent> {
        let (record, sent) = match self.nodes.remove(&node).unwrap() {
            Record::Down => unreachable!(),
            Record::Starting(learned) => (self.learn(learned, t, step), Vec::new()),
            Record::Running(running) => {
                let (after, sent) = self.run(running, node, t, step);
                (Record::Running(after), sent)
            }
        };
        for message in &sent {
            if let Sent::Share(sharer, share) = message {
                self.made.entry(*share).or_default().insert(*sharer);
            }
        }
        self.nodes.insert(node, record);
        sent
    }

    /// Report, Ack or Query at a starting node. It shares nothing, and with an empty store it commands nothing.
    fn learn(&self, mut node: Starting, t: u64, step: &Step) -> Record {
        node.clock = Some(t);
        match *step {
            Step::Report { status, number, .. } => {
                node.r = Some(report_pair(status, t, node.b));
                node.number = Some(number);
            }
            Step::Ack { back, .. } => {
                let change = self.change(back).unwrap();
                if node.b.is_none_or(|b| change.stamp >= b.stamp) {
                    node.b = Some(change);
                }
                if node.heard.is_none_or(|heard| change.stamp >= heard.stamp) {
                    node.heard = Some(change);
                }
            }
            Step::Query { .. } => {
                node.b = Some(self.breaker);
                node.heard = Some(self.breaker);
            }
            _ => unreachable!(),
        }
        match (node.r, node.b, node.heard, node.number) {
            (Some(r), Some(b), Some(heard), Some(number)) => {
                Record::Running(Running { r, b, heard, number, clock: t, store: BTreeMap::new(), resend: None })
            }
            _ => Record::Starting(node),
        }
    }

    /// Report, Deliver, Pair, a timeout or Ack at a running node.
    fn run(&self, mut node: Running, me: u8, t: u64, step: &Step) -> (Running, Vec<Sent>) {
        let before = node.state();
        let mut sent = Vec::new();
        node.clock = t;
        match *step {
            Step::Report { status, number, .. } => {
                node.r = report_pair(status, t, Some(node.b));
                node.number = number;
                let attempts = |state| matches!(state, State::Attempt(_));
                if attempts(node.state()) && !attempts(before) {
                    sent.push(Sent::Share(me, Pair { status: node.r.status, stamp: t }));
                    sent.push(Sent::Share(me, Pair { status: node.r.status, stamp: t + 1 }));
                }
            }
            // "The fresh ones of the two are stored together, all else as Deliver" (request 6): what they make
            // possible is looked at once, at the end of the step.
            Step::Deliver { sender, .. } | Step::Pair { sender, .. } => {
                for share in step.fresh_ones() {
                    node.hold(sender, share);
                }
            }
            Step::ShareTimeout { .. } => sent.push(Sent::Share(me, Pair { status: node.r.status, stamp: t })),
            Step::ResendTimeout { .. } => {
                let stamp = node.resend.unwrap();
                if fresh(stamp, t) {
                    sent.push(Sent::Command(Pair { status: node.b.status, stamp }));
                } else {
                    // "When the stamp is no longer fresh, b returns to that pair, the old command is not sent, resend
                    // is disarmed, and the state is read afresh, with 01's combining rule at the end" (request 9).
                    node.b = node.heard;
                    node.resend = None;
                }
            }
            Step::Ack { back, .. } => {
                let change = self.change(back).unwrap();
                if change.status == node.b.status {
                    node.resend = None;
                }
                if change.stamp >= node.b.stamp {
                    node.b = change;
                }
                if change.stamp >= node.heard.stamp {
                    node.heard = change;
                }
            }
            _ => unreachable!(),
        }
        if matches!(before, State::Done(_)) && node.state() != before {
            node.resend = None;
        }
        // Its own shares count at once as delivered.
        for message in &sent {
            if let Sent::Share(_, share) = message {
                node.hold(me, *share);
            }
        }
        if let State::Attempt(action) = node.state() {
            if let Some(stamp) = node.enough(action, usize::from(self.f) + 1) {
                let command = Pair { status: action, stamp };
                sent.push(Sent::Command(command));
                node.b = command;
                node.resend = Some(stamp);
            }
        }
        (node, sent)
    }
}
