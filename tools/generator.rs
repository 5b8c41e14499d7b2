//! Random walks. A walk follows the reference's state, so that most of its steps are accepted and it gets
//! far into the protocol; some of its steps are then spoiled, at the limits for choice. A walk of version 1
//! delivers shares one by one; one of version 2 mixes in pairs, more or fewer or none.

use crate::random::Random;
use reference::model::{fresh, state, Answer, Model, Pair, Record, Running, Site, State, Status, Step};
use std::collections::BTreeSet;

pub struct Walk {
    random: Random,
    pub model: Model,
    /// How many of a hundred steps are ticks.
    ticks: u64,
    /// One step in so many is a start, is spoiled, is any step at all.
    restarts: u64,
    spoils: u64,
    wild: u64,
    /// How many of ten deliveries are pairs.
    pairs: u64,
    /// Ticks still to be made at once, on the way to the top of the clock.
    hurry: u64,
    pub top: bool,
}

const EDGES: [u32; 12] = [
    0,
    1,
    2,
    3,
    2_147_483_647,
    2_147_483_648,
    999_999_000,
    999_999_001,
    1_000_000_000,
    1_000_000_001,
    1_000_000_003,
    u32::MAX,
];

/// The nodes whose record fits.
fn nodes(site: &Site, fits: impl Fn(&Record) -> bool) -> Vec<u8> {
    let correct = site.nodes.iter().filter(|(node, _)| !site.compromised.contains(node));
    correct.filter(|(_, record)| fits(record)).map(|(node, _)| *node).collect()
}

fn running(record: &Record, fits: impl Fn(&Running) -> bool) -> bool {
    matches!(record, Record::Running(node) if fits(node))
}

/// Every sender's pairs around the window: at the lowest stamp and at the highest neither share is fresh, beside them one.
fn pairs_near(site: &Site, receiver: u8, t: u32) -> Vec<(u8, Step)> {
    let mut pairs = Vec::new();
    for (sender, status) in (0..site.n).flat_map(|sender| [(sender, 0), (sender, 1)]) {
        for stamp in t.saturating_sub(4)..=t + 3 {
            pairs.push((sender, Step::Pair { sender, receiver, t, status, stamp }));
        }
    }
    pairs
}

impl Walk {
    pub fn new(seed: u64, version: u8) -> Walk {
        let mut random = Random::new(seed);
        let ticks = random.pick(&[1, 2, 3, 5, 8, 15, 40]);
        let restarts = random.pick(&[30, 100, 300, 1000, 100_000]);
        let spoils = random.pick(&[4, 10, 20, 50]);
        let wild = random.pick(&[15, 60, 200]);
        let top = random.one_in(16);
        let pairs = if version == 1 { 0 } else { random.pick(&[0, 3, 6, 9, 10]) };
        Walk { random, model: Model::default(), ticks, restarts, spoils, wild, pairs, hurry: 0, top }
    }

    /// The next step, carried out on the reference as well.
    pub fn step(&mut self) -> (Step, Answer) {
        let step = self.choose();
        let answer = self.model.step(&step);
        (step, answer)
    }

    fn choose(&mut self) -> Step {
        if self.hurry > 0 {
            self.hurry -= 1;
            return Step::Tick;
        }
        if self.random.one_in(self.wild) {
            return self.any();
        }
        let Some(site) = self.model.site.take() else {
            return if self.random.one_in(6) { self.any() } else { self.start() };
        };
        let step = if self.random.one_in(self.restarts) { self.start() } else { self.sensible(&site) };
        let step = if self.random.one_in(self.spoils) { self.spoil(step, &site) } else { step };
        self.model.site = Some(site);
        step
    }

    fn start(&mut self) -> Step {
        let random = &mut self.random;
        let (f, k) = (random.pick(&[0, 0, 1, 1, 1, 2, 2, 3, 4]), random.below(4) as u8);
        let n = 2 * f + k + 1;
        let mut set = 0;
        for _ in 0..random.below(u64::from(f) + 1) {
            set |= 1 << random.below(u64::from(n));
        }
        let g = match random.below(5) {
            _ if self.top => 999_999_000,
            0 => 2 + random.below(4) as u32,
            1 => 999_999_000 - random.below(3) as u32,
            _ => 2 + random.below(999_998_999) as u32,
        };
        self.hurry = if self.top { 995 + random.below(7) } else { 0 };
        Step::Start { f, k, set, status: random.below(2) as u8, g }
    }

    /// g, or a quarter of the time g + 1, and seldom below the last clock.
    fn clock(&mut self, site: &Site, last: Option<u64>) -> u64 {
        let t = site.g + u64::from(self.random.one_in(4));
        let last = last.filter(|_| !self.random.one_in(20));
        last.map_or(t, |last| t.max(last))
    }

    fn node_clock(&mut self, site: &Site, node: u8) -> u32 {
        let last = match &site.nodes[&node] {
            Record::Down => None,
            Record::Starting(learned) => learned.clock,
            Record::Running(node) => Some(node.clock),
        };
        self.clock(site, last) as u32
    }

    fn sensible(&mut self, site: &Site) -> Step {
        let starting = nodes(site, |record| matches!(record, Record::Starting(_)));
        if self.random.below(100) < self.ticks {
            return Step::Tick;
        }
        if !starting.is_empty() && self.random.one_in(2) {
            let node = self.random.pick(&starting);
            return match self.random.below(8) {
                0..=2 => Step::Query { node, t: self.node_clock(site, node) },
                3 => self.ack(site, node),
                _ => self.report(site, node),
            };
        }
        if self.random.one_in(2) {
            if let Some(step) = self.overtaken(site) {
                return step;
            }
        }
        let up = nodes(site, |record| running(record, |_| true));
        let attempting = nodes(site, |record| running(record, |node| matches!(node.state(), State::Attempt(_))));
        let armed = nodes(site, |record| running(record, |node| node.resend.is_some()));
        let down = nodes(site, |record| matches!(record, Record::Down));
        let some = |from: &[u8], random: &mut Random| match from.is_empty() {
            true => random.below(u64::from(site.n)) as u8,
            false => random.pick(from),
        };
        match self.random.below(100) {
            0..=21 => {
                let node = some(&up, &mut self.random);
                self.report(site, node)
            }
            22..=61 => {
                let wanting = match self.random.below(9) {
                    0..=2 => &up,
                    3..=4 if !armed.is_empty() => &armed,
                    _ => &attempting,
                };
                let receiver = some(wanting, &mut self.random);
                self.deliver(site, receiver)
            }
            62..=69 => {
                let node = some(&attempting, &mut self.random);
                Step::ShareTimeout { node, t: self.node_clock(site, node) }
            }
            70..=73 => {
                let node = some(&armed, &mut self.random);
                Step::ResendTimeout { node, t: self.node_clock(site, node) }
            }
            74..=83 => self.command(site),
            84..=93 => {
                let node = some(&up, &mut self.random);
                self.ack(site, node)
            }
            94..=96 if site.down.len() < usize::from(site.k) || self.random.one_in(4) => {
                Step::Down { node: some(&up, &mut self.random) }
            }
            _ if !down.is_empty() => Step::Up { node: self.random.pick(&down) },
            _ => Step::Query { node: some(&starting, &mut self.random), t: self.clock(site, None) as u32 },
        }
    }

    /// For a node that has missed the breaker's newest change, of the other status than its relay's report and later: the
    /// next step on the way to Wait. It sends its command, hears of that change, and gives the command up when it is old.
    fn overtaken(&mut self, site: &Site) -> Option<Step> {
        let newest = *site.changes.last()?;
        let missed = |node: &Running| {
            let attempts = matches!(node.state(), State::Attempt(_));
            let commanded = node.resend.is_some_and(|stamp| stamp > newest.stamp);
            state(node.r, newest) == State::Wait(newest.status) && (attempts || commanded)
        };
        let node = *nodes(site, |record| running(record, missed)).first()?;
        let Record::Running(record) = &site.nodes[&node] else { return None };
        let t = self.node_clock(site, node);
        Some(match record.resend {
            None if self.random.one_in(2) => self.deliver(site, node),
            None => Step::ShareTimeout { node, t },
            Some(_) if record.heard != newest => Step::Ack { node, t, back: 0 },
            Some(stamp) if fresh(stamp, u64::from(t)) => Step::Tick,
            Some(_) => Step::ResendTimeout { node, t },
        })
    }

    /// Mostly the action that the breaker has not, mostly with the next number.
    fn report(&mut self, site: &Site, node: u8) -> Step {
        let last = match &site.nodes[&node] {
            Record::Down => None,
            Record::Starting(learned) => learned.number,
            Record::Running(node) => Some(node.number),
        };
        let status = if self.random.below(10) < 7 { site.breaker.status.other() } else { site.breaker.status };
        let number = match (last, self.random.below(12)) {
            (None, choice) => [0, 1, 7, u32::MAX, u32::MAX - 1, self.random.next() as u32][choice as usize % 6],
            (Some(last), 0) => last.wrapping_add(2_147_483_647),
            (Some(last), 1) => last.wrapping_add(1 + self.random.below(1_000_000) as u32),
            (Some(last), _) => last.wrapping_add(1),
        };
        Step::Report { node, t: self.node_clock(site, node), status: status.byte(), number }
    }

    /// The shares and commands with a stamp that may be fresh now.
    fn window(&mut self, site: &Site, t: u64, fits: impl Fn(Pair) -> bool) -> Vec<Pair> {
        let stamps = t.saturating_sub(2)..=t + 2;
        let both = stamps.flat_map(|stamp| [Status::Close, Status::Trip].map(|status| Pair { status, stamp }));
        both.filter(|pair| fresh(pair.stamp, t) && pair.stamp <= site.g + 3 && fits(*pair)).collect()
    }

    /// What an attempting node lacks at the stamp that could have the most senders.
    fn missing(&mut self, site: &Site, receiver: u8, t: u64) -> Vec<(u8, Pair)> {
        let Record::Running(node) = &site.nodes[&receiver] else { return Vec::new() };
        let senders = |share: &Pair| -> BTreeSet<u8> {
            let made = site.made.get(share).into_iter().flatten();
            made.chain(&site.compromised).copied().collect()
        };
        let useful = self.window(site, t, |share| share.status == node.r.status && share.stamp > node.b.stamp);
        let best = useful.into_iter().max_by_key(|share| senders(share).len());
        let lacks = |share: &Pair, sender: &u8| !node.store.get(share).is_some_and(|held| held.contains(sender));
        let all = best.into_iter().flat_map(|share| senders(&share).into_iter().map(move |sender| (sender, share)));
        all.filter(|(sender, share)| lacks(share, sender)).collect()
    }

    /// A pair: mostly one that is taken, and for choice with a share that the receiver lacks.
    fn pair(&mut self, site: &Site, receiver: u8) -> Step {
        let t = self.node_clock(site, receiver);
        let missing = self.missing(site, receiver, u64::from(t));
        let near = pairs_near(site, receiver, t);
        let is_taken = |(sender, pair): &(u8, Step)| {
            let fresh = pair.fresh_ones();
            !fresh.is_empty() && fresh.into_iter().all(|share| site.has_made(*sender, share))
        };
        let taken: Vec<_> = near.iter().copied().filter(is_taken).collect();
        let brings = |(sender, pair): &(u8, Step)| {
            pair.fresh_ones().into_iter().any(|share| missing.contains(&(*sender, share)))
        };
        let wanted: Vec<_> = taken.iter().copied().filter(brings).collect();
        let (_, pair) = match self.random.below(12) {
            0..=7 if !wanted.is_empty() => self.random.pick(&wanted),
            0..=10 if !taken.is_empty() => self.random.pick(&taken),
            _ => self.random.pick(&near),
        };
        pair
    }

    fn deliver(&mut self, site: &Site, receiver: u8) -> Step {
        if self.pairs > 0 && self.random.below(10) < self.pairs {
            return self.pair(site, receiver);
        }
        let t = self.node_clock(site, receiver);
        let missing = self.missing(site, receiver, u64::from(t));
        if !missing.is_empty() && self.random.below(3) > 0 {
            let (sender, share) = self.random.pick(&missing);
            return Step::Deliver { sender, receiver, t, status: share.status.byte(), stamp: share.stamp as u32 };
        }
        let made = self.window(site, u64::from(t), |share| site.made.contains_key(&share));
        let compromised: Vec<u8> = site.compromised.iter().copied().collect();
        let wanted = site.breaker.status.other();
        let useful: Vec<Pair> = made.iter().copied().filter(|share| share.status == wanted).collect();
        let made = if useful.is_empty() || self.random.one_in(3) { made } else { useful };
        let (sender, share) = match self.random.below(16) {
            0 => {
                let share = self.window(site, u64::from(t), |_| true);
                (self.random.below(u64::from(site.n)) as u8, self.random.pick(&share))
            }
            1..=4 if !compromised.is_empty() => {
                let share = self.window(site, u64::from(t), |_| true);
                (self.random.pick(&compromised), self.random.pick(&share))
            }
            _ if !made.is_empty() => {
                let share = self.random.pick(&made);
                let makers: Vec<u8> = site.made[&share].iter().copied().collect();
                (self.random.pick(&makers), share)
            }
            _ => (self.random.below(u64::from(site.n)) as u8, site.breaker),
        };
        Step::Deliver { sender, receiver, t, status: share.status.byte(), stamp: share.stamp as u32 }
    }

    fn command(&mut self, site: &Site) -> Step {
        let t = self.clock(site, site.breaker_clock);
        let signed = self.window(site, t, |command| site.verdict(command));
        let (now, before) = (site.breaker.status, site.breaker.stamp);
        let wanted: Vec<Pair> = signed.iter().copied().filter(|c| c.status != now && c.stamp > before).collect();
        let command = match self.random.below(5) {
            0..=2 if !wanted.is_empty() => self.random.pick(&wanted),
            0..=3 if !signed.is_empty() => self.random.pick(&signed),
            _ => {
                let any = self.window(site, t, |_| true);
                self.random.pick(&any)
            }
        };
        Step::Command { t: t as u32, status: command.status.byte(), stamp: command.stamp as u32 }
    }

    fn ack(&mut self, site: &Site, node: u8) -> Step {
        let known = site.changes.len().clamp(1, 8) as u64;
        let back = if self.random.one_in(3) { self.random.below(known) as u8 } else { 0 };
        Step::Ack { node, t: self.node_clock(site, node), back }
    }

    /// One field of the step becomes another value, near its limit for choice.
    fn spoil(&mut self, mut step: Step, site: &Site) -> Step {
        let n = site.n;
        let random = &mut self.random;
        let (byte, edge, word) = (random_byte(random), random.pick(&EDGES), random.next());
        let node_now = random.pick(&[n - 1, n, 0, 11, 12, 16, 255, byte, byte % n]);
        let status_now = random.pick(&[0, 1, 2, 255]);
        let g = site.g as u32;
        let clock = random.pick(&[g - 1, g, g + 1, g + 2, g - 2, edge]);
        let around = (g + random.below(9) as u32).wrapping_sub(4);
        let breaker = site.breaker.stamp as u32;
        let stamp_now = random.pick(&[around, around, breaker, breaker + 1, edge]);
        let back_now = random.pick(&[7, 8, 255, site.changes.len() as u8, (site.changes.len() as u8).wrapping_sub(1)]);
        let which = random.below(5);
        match &mut step {
            Step::Start { f, k, set, status, g } => match which {
                0 => *f = random.pick(&[4, 5, 255, 0]),
                1 => *k = random.pick(&[3, 4, 255, 0]),
                2 => {
                    let n = 2 * *f + *k + 1;
                    *set = random.pick(&[1 << (n - 1), 1 << n, 3, 7, 0xf, 0x1f, 0x8000, word as u16]);
                }
                3 => *status = status_now,
                _ => *g = random.pick(&EDGES),
            },
            Step::Tick => {}
            Step::Report { node, t, status, number } => match which {
                0 => *node = node_now,
                1 => *t = clock,
                2 => *status = status_now,
                _ => {
                    let away = random.pick(&[0, 1, 2, 2_147_483_647, 2_147_483_648, 2_147_483_649, u32::MAX]);
                    *number = number.wrapping_sub(1).wrapping_add(away);
                }
            },
            Step::Deliver { sender, receiver, t, status, stamp } => match which {
                0 => *sender = node_now,
                1 => *receiver = node_now,
                2 => *t = clock,
                3 => *status = status_now,
                _ => *stamp = stamp_now,
            },
            Step::Pair { sender, receiver, t, status, stamp } => match which {
                0 => *sender = node_now,
                1 => *receiver = node_now,
                2 => *t = clock,
                3 => *status = status_now,
                _ => *stamp = random.pick(&[stamp_now, around, u32::MAX, u32::MAX - 1]),
            },
            Step::Command { t, status, stamp } => match which {
                0 => *t = clock,
                1 => *status = status_now,
                _ => *stamp = stamp_now,
            },
            Step::Ack { node, t, back } => match which {
                0 => *node = node_now,
                1 => *t = clock,
                _ => *back = back_now,
            },
            Step::ShareTimeout { node, t } | Step::ResendTimeout { node, t } | Step::Query { node, t } => match which {
                0..=1 => *node = node_now,
                _ => *t = clock,
            },
            Step::Down { node } | Step::Up { node } => *node = node_now,
        }
        step
    }

    /// Any step: every field by chance, small or at an edge or near the clock.
    fn any(&mut self) -> Step {
        let g = self.model.site.as_ref().map_or(100, |site| site.g as u32);
        let random = &mut self.random;
        let mut byte = || if random.one_in(12) { random_byte(random) } else { random.below(6) as u8 };
        let (a, b, c, d) = (byte(), byte(), byte() % 3, byte());
        let mut word = || if random.one_in(4) { random.pick(&EDGES) } else { g + random.below(3) as u32 };
        let (t, stamp) = (word(), word());
        match random.below(if self.pairs > 0 { 12 } else { 11 }) {
            0 => Step::Start { f: a, k: b, set: random.next() as u16 & random.next() as u16 & 0xff, status: c, g: t },
            1 => Step::Tick,
            2 => Step::Report { node: a, t, status: c, number: random.next() as u32 },
            3 => Step::Deliver { sender: a, receiver: b, t, status: c, stamp },
            4 => Step::ShareTimeout { node: a, t },
            5 => Step::ResendTimeout { node: a, t },
            6 => Step::Command { t, status: c, stamp },
            7 => Step::Ack { node: a, t, back: d },
            8 => Step::Query { node: a, t },
            9 => Step::Down { node: a },
            10 => Step::Up { node: a },
            _ => Step::Pair { sender: a, receiver: b, t, status: c, stamp },
        }
    }
}

pub fn random_byte(random: &mut Random) -> u8 {
    random.next() as u8
}
