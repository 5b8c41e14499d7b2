//! Random sequences of calls of the Arbiter. A walk follows the reference's state, so that most of its steps are
//! accepted and the breaker changes often; some of its steps are then spoiled, at the limits for choice.

use crate::random::Random;
use reference::arbiter::{Answer, Model, Record, Running, Site, Step};
use reference::calls;
use reference::model::{fresh, Pair, Status};

pub struct Walk {
    random: Random,
    pub model: Model,
    /// How many of a hundred steps are ticks, and how many lead towards the next change.
    ticks: u64,
    onward: u64,
    /// Whether messages for both actions come to be on their way at once.
    crosses: bool,
    /// One step in so many is a start, is spoiled, is any step at all.
    restarts: u64,
    spoils: u64,
    wild: u64,
    /// Ticks still to be made at once, on the way to the top of the clock.
    hurry: u64,
    top: bool,
    /// Steps that are still to come, the next one last.
    plan: Vec<Step>,
}

const EDGES: [u32; 12] = [
    0,
    1,
    2,
    3,
    2_147_483_647,
    2_147_483_648,
    999_999_000,
    999_999_001,
    1_000_000_000,
    1_000_000_001,
    1_000_000_003,
    u32::MAX,
];

/// The correct nodes whose record fits.
fn nodes(site: &Site, fits: impl Fn(&Record) -> bool) -> Vec<u8> {
    let correct = site.nodes.iter().filter(|(node, _)| !site.compromised.contains(node));
    correct.filter(|(_, record)| fits(record)).map(|(node, _)| *node).collect()
}

fn running(record: &Record, fits: impl Fn(&Running) -> bool) -> bool {
    matches!(record, Record::Running(node) if fits(node))
}

fn message(sender: u8, t: u64, message: Pair) -> Step {
    Step::Message { sender, t: t as u32, status: message.status.byte(), stamp: message.stamp as u32 }
}

fn next_report(node: u8, running: &Running, t: u32, status: Status) -> Step {
    Step::Report { node, t, status: status.byte(), number: running.number.wrapping_add(1) }
}

/// Every message that correct nodes have sent and that fits.
fn sent(site: &Site, fits: impl Fn(&Pair) -> bool) -> Vec<(u8, Pair)> {
    let all = site.sent.iter().filter(|(message, _)| fits(message));
    all.flat_map(|(message, senders)| senders.iter().map(|sender| (*sender, *message))).collect()
}

impl Walk {
    pub fn new(seed: u64) -> Walk {
        let mut random = Random::new(seed);
        let ticks = random.pick(&[1, 3, 5, 8, 15, 30]);
        let onward = random.pick(&[20, 40, 60, 80]);
        let crosses = random.one_in(3);
        let restarts = random.pick(&[12, 30, 60, 150, 100_000]);
        let spoils = random.pick(&[4, 10, 20, 50]);
        let wild = random.pick(&[15, 60, 200]);
        let top = random.one_in(30);
        let (model, plan) = (Model::default(), Vec::new());
        Walk { random, model, ticks, onward, crosses, restarts, spoils, wild, hurry: 0, top, plan }
    }

    /// The next step, carried out on the reference as well.
    pub fn step(&mut self) -> (Step, Answer) {
        let step = self.choose();
        let answer = self.model.step(&step);
        (step, answer)
    }

    fn choose(&mut self) -> Step {
        if self.hurry > 0 {
            self.hurry -= 1;
            return Step::Tick;
        }
        if self.random.one_in(self.wild) {
            return self.any();
        }
        let Some(site) = self.model.site.take() else {
            return if self.random.one_in(6) { self.any() } else { self.start() };
        };
        let step = if self.random.one_in(self.restarts) { self.start() } else { self.sensible(&site) };
        let step = if self.random.one_in(self.spoils) { self.spoil(step, &site) } else { step };
        self.model.site = Some(site);
        step
    }

    fn start(&mut self) -> Step {
        let random = &mut self.random;
        let (f, k) = (random.pick(&[0, 0, 1, 1, 1, 2, 2, 3, 4]), random.below(4) as u8);
        let n = 2 * f + k + 1;
        let mut set = 0;
        for _ in 0..random.below(u64::from(f) + 1) {
            set |= 1 << random.below(u64::from(n));
        }
        let g = match random.below(5) {
            _ if self.top => 999_999_000,
            0 => 2 + random.below(4) as u32,
            1 => 999_999_000 - random.below(3) as u32,
            _ => 2 + random.below(999_998_999) as u32,
        };
        self.hurry = if self.top { 995 + random.below(7) } else { 0 };
        self.plan.clear();
        Step::Start { f, k, set, status: random.below(2) as u8, g }
    }

    /// g, or a quarter of the time g + 1, and seldom below the last clock.
    fn clock(&mut self, site: &Site, last: Option<u64>) -> u64 {
        let t = site.g + u64::from(self.random.one_in(4));
        let last = last.filter(|_| !self.random.one_in(20));
        last.map_or(t, |last| t.max(last))
    }

    fn node_clock(&mut self, site: &Site, node: u8) -> u32 {
        let last = match &site.nodes[&node] {
            Record::Down => None,
            Record::Starting(learned) => learned.clock,
            Record::Running(node) => Some(node.clock),
        };
        self.clock(site, last) as u32
    }

    fn sensible(&mut self, site: &Site) -> Step {
        if let Some(step) = self.plan.pop() {
            return step;
        }
        if self.random.below(100) < self.ticks {
            return Step::Tick;
        }
        let starting = nodes(site, |record| matches!(record, Record::Starting(_)));
        if !starting.is_empty() && self.random.one_in(2) {
            let node = self.random.pick(&starting);
            return match self.random.below(8) {
                0..=2 => Step::Query { node, t: self.node_clock(site, node) },
                3 if !site.breaker.changes.is_empty() || self.random.one_in(4) => self.ack(site, node),
                _ => self.report(site, node),
            };
        }
        if self.crosses && self.random.one_in(10) {
            self.plan = self.crossing(site);
        }
        if self.random.below(100) < self.onward {
            let steps = self.onwards(site);
            if !steps.is_empty() {
                return self.random.pick(&steps);
            }
        }
        let up = nodes(site, |record| running(record, |_| true));
        let attempting = nodes(site, |record| running(record, Running::attempts));
        let down = nodes(site, |record| matches!(record, Record::Down));
        let some = |from: &[u8], random: &mut Random| match from.is_empty() {
            true => random.below(u64::from(site.n)) as u8,
            false => random.pick(from),
        };
        match self.random.below(100) {
            0..=19 => {
                let node = some(&up, &mut self.random);
                self.report(site, node)
            }
            20..=34 => {
                let node = some(if self.random.one_in(8) { &up } else { &attempting }, &mut self.random);
                Step::ShareTimeout { node, t: self.node_clock(site, node) }
            }
            35..=79 => self.message(site),
            80..=91 => {
                let node = some(&up, &mut self.random);
                self.ack(site, node)
            }
            92..=95 if site.down.len() < usize::from(site.k) || self.random.one_in(4) => {
                Step::Down { node: some(&up, &mut self.random) }
            }
            _ if !down.is_empty() => Step::Up { node: self.random.pick(&down) },
            _ => Step::Query { node: some(&starting, &mut self.random), t: self.clock(site, None) as u32 },
        }
    }

    /// What is missing for the breaker's next change: a message to be accepted, a message to be sent, a report, an ack.
    fn onwards(&mut self, site: &Site) -> Vec<Step> {
        let now = site.breaker.now;
        let wanted = now.status.other();
        let t = self.clock(site, site.breaker.clock);
        let held: Vec<u8> = site.breaker.counted(t).values().copied().flatten().copied().collect();
        let counts = |message: &Pair| message.status == wanted && message.stamp > now.stamp && fresh(message.stamp, t);
        let mut steps = Vec::new();
        for (sender, pair) in sent(site, counts).into_iter().filter(|(sender, _)| !held.contains(sender)) {
            steps.extend([message(sender, t, pair); 2]);
        }
        for sender in site.compromised.iter().filter(|sender| !held.contains(sender)) {
            let stamp = now.stamp.max(t - 2) + self.random.below(4);
            steps.push(message(*sender, t, Pair { status: wanted, stamp }));
        }
        for (&node, record) in &site.nodes {
            let Record::Running(running) = record else { continue };
            let clock = self.clock(site, Some(running.clock));
            let t = clock as u32;
            steps.push(match (running.b.status == now.status, running.attempts()) {
                (true, true) if clock > now.stamp => Step::ShareTimeout { node, t },
                (true, false) => next_report(node, running, t, wanted),
                (false, _) if !site.breaker.changes.is_empty() => Step::Ack { node, t, back: 0 },
                _ => Step::Tick,
            });
        }
        steps
    }

    /// A change that finds enough held for the next one: nodes that have not heard of the last change ask for what the
    /// breaker has, a clock ahead, the others for the other action at g. The last step first.
    fn crossing(&mut self, site: &Site) -> Vec<Step> {
        let now = site.breaker.now;
        let wanted = now.status.other();
        let ticks = (now.stamp + 1).saturating_sub(site.g);
        let g = site.g + ticks;
        let t = g as u32;
        let mut steps = vec![Step::Tick; ticks as usize];
        let (mut first, mut then) = (Vec::new(), Vec::new());
        for (&node, record) in &site.nodes {
            let Record::Running(running) = record else { continue };
            if running.b.status == wanted && self.random.one_in(2) {
                steps.push(next_report(node, running, t + 1, now.status));
                steps.push(Step::ShareTimeout { node, t: t + 1 });
                first.push(message(node, g, Pair { status: now.status, stamp: g + 1 }));
            } else {
                steps.push(Step::Ack { node, t, back: 0 });
                steps.push(next_report(node, running, t, wanted));
                steps.push(Step::ShareTimeout { node, t });
                then.push(message(node, g, Pair { status: wanted, stamp: g }));
            }
        }
        for &sender in &site.compromised {
            let ahead = g + 1 + self.random.below(2);
            first.push(message(sender, g, Pair { status: now.status, stamp: ahead }));
            then.push(message(sender, g, Pair { status: wanted, stamp: g }));
        }
        steps.extend(first.into_iter().chain(then));
        steps.reverse();
        steps
    }

    /// Mostly the action that the breaker has not, mostly with the next number.
    fn report(&mut self, site: &Site, node: u8) -> Step {
        let last = match &site.nodes[&node] {
            Record::Down => None,
            Record::Starting(learned) => learned.number,
            Record::Running(node) => Some(node.number),
        };
        let now = site.breaker.now.status;
        let status = if self.random.below(10) < 6 { now.other() } else { now };
        let number = match (last, self.random.below(12)) {
            (None, choice) => [0, 1, 7, u32::MAX, u32::MAX - 1, self.random.next() as u32][choice as usize % 6],
            (Some(last), 0) => last.wrapping_add(2_147_483_647),
            (Some(last), 1) => last.wrapping_add(1 + self.random.below(1_000_000) as u32),
            (Some(last), _) => last.wrapping_add(1),
        };
        Step::Report { node, t: self.node_clock(site, node), status: status.byte(), number }
    }

    /// Messages of correct nodes late, once more and out of order, those of compromised nodes at every stamp around
    /// the window, and now and then one that is out of date or was never sent.
    fn message(&mut self, site: &Site) -> Step {
        let t = self.clock(site, site.breaker.clock);
        let fresh_now = sent(site, |message| fresh(message.stamp, t));
        let gone = sent(site, |message| !fresh(message.stamp, t));
        let compromised: Vec<u8> = site.compromised.iter().copied().collect();
        let anyone = self.random.below(u64::from(site.n)) as u8;
        let status = self.random.pick(&[Status::Close, Status::Trip]);
        let around = Pair { status, stamp: (t + self.random.below(7)).saturating_sub(3) };
        match self.random.below(16) {
            0..=8 if !fresh_now.is_empty() => {
                let (sender, pair) = self.random.pick(&fresh_now);
                message(sender, t, pair)
            }
            9 if !gone.is_empty() => {
                let (sender, pair) = self.random.pick(&gone[gone.len().saturating_sub(4)..]);
                message(sender, t, pair)
            }
            10 => message(anyone, t, around),
            _ if !compromised.is_empty() => message(self.random.pick(&compromised), t, around),
            0..=12 => self.report(site, anyone),
            _ => message(anyone, t, site.breaker.now),
        }
    }

    fn ack(&mut self, site: &Site, node: u8) -> Step {
        let known = site.breaker.changes.len().clamp(1, 8) as u64;
        let back = if self.random.one_in(3) { self.random.below(known) as u8 } else { 0 };
        Step::Ack { node, t: self.node_clock(site, node), back }
    }

    /// One field of the step becomes another value, near its limit for choice.
    fn spoil(&mut self, mut step: Step, site: &Site) -> Step {
        let n = site.n;
        let random = &mut self.random;
        let (byte, edge, word) = (random_byte(random), random.pick(&EDGES), random.next());
        let node_now = random.pick(&[n - 1, n, 0, 11, 12, 15, 16, 255, byte, byte % n]);
        let status_now = random.pick(&[0, 1, 2, 255]);
        let g = site.g as u32;
        let clock = random.pick(&[g - 1, g, g + 1, g + 2, g - 2, edge]);
        let around = (g + random.below(9) as u32).wrapping_sub(4);
        let breaker = site.breaker.now.stamp as u32;
        let stamp_now = random.pick(&[around, around, breaker, breaker + 1, edge]);
        let changes = site.breaker.changes.len() as u8;
        let back_now = random.pick(&[7, 8, 255, changes, changes.wrapping_sub(1)]);
        let which = random.below(4);
        match &mut step {
            Step::Start { f, k, set, status, g } => match random.below(5) {
                0 => *f = random.pick(&[4, 5, 255, 0]),
                1 => *k = random.pick(&[3, 4, 255, 0]),
                2 => {
                    let n = 2 * *f + *k + 1;
                    *set = random.pick(&[1 << (n - 1), 1 << n, 3, 7, 0xf, 0x1f, 0x8000, word as u16]);
                }
                3 => *status = status_now,
                _ => *g = edge,
            },
            Step::Tick => {}
            Step::Report { node, t, status, number } => match which {
                0 => *node = node_now,
                1 => *t = clock,
                2 => *status = status_now,
                _ => {
                    let away = random.pick(&[0, 1, 2, 2_147_483_647, 2_147_483_648, 2_147_483_649, u32::MAX]);
                    *number = number.wrapping_sub(1).wrapping_add(away);
                }
            },
            Step::Message { sender, t, status, stamp } => match which {
                0 => *sender = node_now,
                1 => *t = clock,
                2 => *status = status_now,
                _ => *stamp = stamp_now,
            },
            Step::Ack { node, t, back } => match which {
                0 => *node = node_now,
                1 => *t = clock,
                _ => *back = back_now,
            },
            Step::ShareTimeout { node, t } | Step::Query { node, t } => match which {
                0..=1 => *node = node_now,
                _ => *t = clock,
            },
            Step::Down { node } | Step::Up { node } => *node = node_now,
        }
        step
    }

    /// Any step: every field by chance, small or at an edge or near the clock.
    fn any(&mut self) -> Step {
        let g = self.model.site.as_ref().map_or(100, |site| site.g as u32);
        let random = &mut self.random;
        let mut byte = || if random.one_in(12) { random_byte(random) } else { random.below(6) as u8 };
        let (a, b, c, d) = (byte(), byte(), byte() % 3, byte());
        let mut word = || if random.one_in(4) { random.pick(&EDGES) } else { g + random.below(3) as u32 };
        let (t, stamp) = (word(), word());
        match random.below(9) {
            0 => Step::Start { f: a, k: b, set: random.next() as u16 & random.next() as u16 & 0xff, status: c, g: t },
            1 => Step::Tick,
            2 => Step::Report { node: a, t, status: c, number: random.next() as u32 },
            3 => Step::Message { sender: a, t, status: c, stamp },
            4 => Step::ShareTimeout { node: a, t },
            5 => Step::Ack { node: a, t, back: d },
            6 => Step::Query { node: a, t },
            7 => Step::Down { node: a },
            _ => Step::Up { node: a },
        }
    }
}

fn random_byte(random: &mut Random) -> u8 {
    random.next() as u8
}

/// How many calls a sequence of the comparison has.
pub const USUAL: usize = 150;

/// A whole sequence for a seed. In one of four the bytes that are not read are anything, one in sixteen is damaged, and
/// one in a hundred is nothing but bytes. (What is malformed ends a process of the comparison.)
pub fn random_sequence(seed: u64, count: usize) -> Vec<u8> {
    let mut random = Random::new(!seed);
    if random.one_in(100) {
        let length = random.below(60);
        return (0..length).map(|_| if random.one_in(2) { 0 } else { random.pick(b"STRHAQDUMx") }).collect();
    }
    let mut walk = Walk::new(seed);
    let littered = random.one_in(4);
    let mut bytes = Vec::new();
    for _ in 0..count + if walk.top { 1000 } else { 0 } {
        calls::write(&walk.step().0, &mut bytes);
        if littered {
            let call = bytes.len() - calls::LENGTH;
            litter(&mut bytes[call..], &mut random);
        }
    }
    if random.one_in(16) {
        for _ in 0..1 + random.below(3) {
            damage(&mut bytes, &mut random);
        }
    }
    bytes
}

/// Fills the bytes of a call that its letter does not use.
fn litter(call: &mut [u8], random: &mut Random) {
    let unused: &[std::ops::Range<usize>] = match call[0] {
        b'S' => &[8..10],
        b'T' => &[1..12],
        b'R' | b'M' => &[3..4],
        b'A' => &[3..4, 8..12],
        b'H' | b'Q' => &[2..4, 8..12],
        _ => &[2..12],
    };
    for range in unused {
        call[range.clone()].fill_with(|| random_byte(random));
    }
}

fn damage(bytes: &mut Vec<u8>, random: &mut Random) {
    let size = bytes.len() as u64;
    if size == 0 {
        return;
    }
    let at = random.below(size) as usize;
    match random.below(12) {
        0..=3 => bytes[at] ^= 1 << random.below(8),
        4 => bytes[at] = random_byte(random),
        5 => bytes.truncate(at),
        6 => bytes.insert(at, random.pick(b"\0STRHAQDUM")),
        7 => {
            bytes.remove(at);
        }
        // Another letter, with the fields of this one.
        _ => bytes[at - at % calls::LENGTH] = random.pick(b"STRHAQDUM"),
    }
}
