//! The site in flat arrays, sender sets as masks, stamps in a ring of eight places.

/// The longest record, with its length.
pub const RECORD: usize = 14;

const DOWN: u8 = 0;
const STARTING: u8 = 1;
const RUNNING: u8 = 2;
const UP: u8 = 1 << STARTING | 1 << RUNNING;

/// Sender masks for each action and each of eight stamp places.
type Ring = [[u16; 8]; 2];

#[derive(Clone, Copy)]
struct Node {
    phase: u8,
    knows_r: bool,
    knows_b: bool,
    armed: bool,
    r_status: u8,
    b_status: u8,
    heard_status: u8,
    r: u32,
    b: u32,
    /// The breaker as acknowledged or queried, in a running node; in a starting one that is b.
    heard: u32,
    number: u32,
    /// 0 before the first.
    clock: u32,
    resend: u32,
    store: Ring,
}

const EMPTY: Node = Node {
    phase: DOWN,
    knows_r: false,
    knows_b: false,
    armed: false,
    r_status: 0,
    b_status: 0,
    heard_status: 0,
    r: 0,
    b: 0,
    heard: 0,
    number: 0,
    clock: 0,
    resend: 0,
    store: [[0; 8]; 2],
};

pub struct Site {
    pub started: bool,
    threshold: u32,
    k: u32,
    n: u8,
    compromised: u16,
    down: u16,
    g: u32,
    pub status: u8,
    pub stamp: u32,
    clock: u32,
    changes: [(u8, u32); 8],
    changed: u64,
    made: Ring,
    nodes: [Node; 12],
}

#[derive(Clone, Copy)]
pub struct Sent {
    pub letter: u8,
    pub node: u8,
    pub status: u8,
    pub stamp: u32,
}

/// What a step sends: at most two shares and a command.
pub struct Outbox {
    pub sent: [Sent; 3],
    pub count: usize,
}

impl Outbox {
    pub const EMPTY: Outbox = Outbox { sent: [Sent { letter: 0, node: 0, status: 0, stamp: 0 }; 3], count: 0 };

    fn push(&mut self, letter: u8, node: u8, status: u8, stamp: u32) {
        self.sent[self.count] = Sent { letter, node, status, stamp };
        self.count += 1;
    }
}

fn fresh(stamp: u32, t: u32) -> bool {
    stamp.wrapping_sub(t - 2) <= 4
}

fn place(stamp: u32) -> usize {
    (stamp & 7) as usize
}

impl Node {
    fn attempts(&self) -> bool {
        self.r_status != self.b_status && self.r >= self.b
    }

    /// Moves the clock on and clears the places of the stamps that come into the window.
    fn advance(&mut self, t: u32) {
        if t - self.clock >= 8 {
            self.store = [[0; 8]; 2];
        } else {
            for stamp in self.clock + 3..=t + 2 {
                self.store[0][place(stamp)] = 0;
                self.store[1][place(stamp)] = 0;
            }
        }
        self.clock = t;
    }

    /// After a step that leaves the node running: the earliest stamp with enough senders becomes a command.
    fn combine(&mut self, threshold: u32, out: &mut Outbox) {
        if !self.attempts() {
            return;
        }
        let masks = &self.store[usize::from(self.r_status & 1)];
        for stamp in (self.clock - 2).max(self.b + 1)..=self.clock + 2 {
            if masks[place(stamp)].count_ones() >= threshold {
                out.push(b'C', 0, self.r_status, stamp);
                self.b_status = self.r_status;
                self.b = stamp;
                self.resend = stamp;
                self.armed = true;
                return;
            }
        }
    }

    fn settle(&mut self, t: u32) {
        self.clock = t;
        if self.knows_r && self.knows_b {
            self.phase = RUNNING;
            self.armed = false;
            (self.heard_status, self.heard) = (self.b_status, self.b);
            self.store = [[0; 8]; 2];
        }
    }
}

impl Site {
    pub const NONE: Site = Site {
        started: false,
        threshold: 0,
        k: 0,
        n: 0,
        compromised: 0,
        down: 0,
        g: 0,
        status: 0,
        stamp: 0,
        clock: 0,
        changes: [(0, 0); 8],
        changed: 0,
        made: [[0; 8]; 2],
        nodes: [EMPTY; 12],
    };

    fn start(&mut self, f: u8, k: u8, set: u16, status: u8, g: u32) -> u8 {
        if f > 4 || k > 3 || status > 1 || !(2..=999_999_000).contains(&g) {
            return 1;
        }
        let n = 2 * f + k + 1;
        if set >> n != 0 || set.count_ones() > u32::from(f) {
            return 1;
        }
        for (index, node) in self.nodes.iter_mut().enumerate() {
            *node = EMPTY;
            node.phase = if set >> index & 1 == 1 { DOWN } else { STARTING };
        }
        (self.started, self.threshold, self.k, self.n) = (true, u32::from(f) + 1, u32::from(k), n);
        (self.compromised, self.down, self.g, self.status, self.stamp) = (set, 0, g, status, g);
        (self.clock, self.changed, self.made) = (0, 0, [[0; 8]; 2]);
        0
    }

    /// The checks 2 to 4 of a step at a node: `fine` is what else row 2 asks, `phases` has a bit for each phase.
    fn admit(&self, at: u8, fine: bool, phases: u8) -> u8 {
        if at >= self.n || !fine {
            2
        } else if self.compromised >> at & 1 == 1 {
            3
        } else if phases >> self.nodes[usize::from(at)].phase & 1 == 0 {
            4
        } else {
            0
        }
    }

    /// The checks 5 and 6.
    fn clocked(&self, t: u32, last: u32) -> u8 {
        if t.wrapping_sub(self.g) > 1 {
            5
        } else if t < last {
            6
        } else {
            0
        }
    }

    /// The checks 2 to 6 of a step at a node.
    fn admit_at(&self, at: u8, fine: bool, phases: u8, t: u32) -> u8 {
        match self.admit(at, fine, phases) {
            0 => self.clocked(t, self.nodes[usize::from(at)].clock),
            refusal => refusal,
        }
    }

    fn make(&mut self, node: u8, status: u8, stamp: u32, out: &mut Outbox) {
        let (action, bit) = (usize::from(status & 1), 1 << node);
        self.made[action][place(stamp)] |= bit;
        self.nodes[usize::from(node)].store[action][place(stamp)] |= bit;
        out.push(b'S', node, status, stamp);
    }

    fn report(&mut self, at: u8, t: u32, status: u8, number: u32, out: &mut Outbox) -> u8 {
        let refusal = self.admit_at(at, status <= 1, UP, t);
        if refusal != 0 {
            return refusal;
        }
        let node = &self.nodes[usize::from(at)];
        if node.knows_r && !(1..=2_147_483_647).contains(&number.wrapping_sub(node.number)) {
            return 9;
        }
        let node = &mut self.nodes[usize::from(at)];
        (node.number, node.knows_r) = (number, true);
        // A relay that reports before b's stamp is taken to speak after it.
        let stamp = if node.knows_b { t.max(node.b) } else { t };
        if node.phase == STARTING {
            (node.r_status, node.r) = (status, stamp);
            node.settle(t);
            return 0;
        }
        let before = node.attempts();
        let done = node.r_status == node.b_status;
        node.advance(t);
        (node.r_status, node.r) = (status, stamp);
        if done && status != node.b_status {
            node.armed = false;
        }
        if node.attempts() && !before {
            self.make(at, status, t, out);
            self.make(at, status, t + 1, out);
        }
        self.nodes[usize::from(at)].combine(self.threshold, out);
        0
    }

    fn deliver(&mut self, sender: u8, at: u8, t: u32, status: u8, stamp: u32, out: &mut Outbox) -> u8 {
        let refusal = self.admit_at(at, sender < self.n && status <= 1, 1 << RUNNING, t);
        if refusal != 0 {
            return refusal;
        }
        if !fresh(stamp, t) {
            return 7;
        }
        let (action, place) = (usize::from(status), place(stamp));
        if (self.compromised | self.made[action][place]) >> sender & 1 == 0 {
            return 8;
        }
        let node = &mut self.nodes[usize::from(at)];
        node.advance(t);
        node.store[action][place] |= 1 << sender;
        node.combine(self.threshold, out);
        0
    }

    /// The shares at a stamp and the next in one delivery: those that are fresh come in before the node looks at what
    /// it holds.
    fn pair(&mut self, sender: u8, at: u8, t: u32, status: u8, stamp: u32, out: &mut Outbox) -> u8 {
        let fine = sender < self.n && status <= 1 && stamp != u32::MAX;
        let refusal = self.admit_at(at, fine, 1 << RUNNING, t);
        if refusal != 0 {
            return refusal;
        }
        let stamps = [stamp, stamp + 1];
        let is_fresh = stamps.map(|stamp| fresh(stamp, t));
        if is_fresh == [false, false] {
            return 7;
        }
        let (action, bit) = (usize::from(status), 1 << sender);
        for (stamp, is_fresh) in stamps.into_iter().zip(is_fresh) {
            if is_fresh && (self.compromised | self.made[action][place(stamp)]) & bit == 0 {
                return 8;
            }
        }
        let node = &mut self.nodes[usize::from(at)];
        node.advance(t);
        for (stamp, is_fresh) in stamps.into_iter().zip(is_fresh) {
            if is_fresh {
                node.store[action][place(stamp)] |= bit;
            }
        }
        node.combine(self.threshold, out);
        0
    }

    fn timeout(&mut self, at: u8, t: u32, shares: bool, out: &mut Outbox) -> u8 {
        let refusal = self.admit_at(at, true, 1 << RUNNING, t);
        if refusal != 0 {
            return refusal;
        }
        let node = &self.nodes[usize::from(at)];
        if !(if shares { node.attempts() } else { node.armed }) {
            return 12;
        }
        let node = &mut self.nodes[usize::from(at)];
        node.advance(t);
        let (r_status, b_status, resend) = (node.r_status, node.b_status, node.resend);
        if shares {
            self.make(at, r_status, t, out);
        } else if fresh(resend, t) {
            out.push(b'C', 0, b_status, resend);
        } else {
            (node.b_status, node.b, node.armed) = (node.heard_status, node.heard, false);
        }
        self.nodes[usize::from(at)].combine(self.threshold, out);
        0
    }

    fn command(&mut self, t: u32, status: u8, stamp: u32, out: &mut Outbox) -> u8 {
        if status > 1 {
            return 2;
        }
        let clocked = self.clocked(t, self.clock);
        if clocked != 0 {
            return clocked;
        }
        if !fresh(stamp, t) {
            return 7;
        }
        let signers = self.compromised | self.made[usize::from(status)][place(stamp)];
        if signers.count_ones() < self.threshold {
            return 8;
        }
        if status != self.status {
            if stamp <= self.stamp {
                return 11;
            }
            (self.status, self.stamp) = (status, stamp.max(t));
            self.changes[(self.changed & 7) as usize] = (status, self.stamp);
            self.changed += 1;
        }
        self.clock = t;
        out.push(b'A', 0, self.status, self.stamp);
        0
    }

    fn ack(&mut self, at: u8, t: u32, back: u8, out: &mut Outbox) -> u8 {
        let refusal = self.admit_at(at, back <= 7, UP, t);
        if refusal != 0 {
            return refusal;
        }
        if self.changed <= u64::from(back) {
            return 13;
        }
        let node = &mut self.nodes[usize::from(at)];
        let (status, stamp) = self.changes[((self.changed - 1 - u64::from(back)) & 7) as usize];
        if node.phase == STARTING {
            if !node.knows_b || stamp >= node.b {
                (node.b_status, node.b, node.knows_b) = (status, stamp, true);
            }
            node.settle(t);
            return 0;
        }
        node.advance(t);
        if status == node.b_status {
            node.armed = false;
        }
        if stamp >= node.b {
            if node.r_status == node.b_status && status != node.b_status {
                node.armed = false;
            }
            (node.b_status, node.b) = (status, stamp);
        }
        if stamp >= node.heard {
            (node.heard_status, node.heard) = (status, stamp);
        }
        node.combine(self.threshold, out);
        0
    }

    fn query(&mut self, at: u8, t: u32) -> u8 {
        let refusal = self.admit_at(at, true, 1 << STARTING, t);
        if refusal != 0 {
            return refusal;
        }
        let node = &mut self.nodes[usize::from(at)];
        (node.b_status, node.b, node.knows_b) = (self.status, self.stamp, true);
        node.settle(t);
        0
    }

    fn down(&mut self, at: u8) -> u8 {
        let refusal = self.admit(at, true, UP);
        if refusal != 0 {
            return refusal;
        }
        if self.down.count_ones() >= self.k {
            return 14;
        }
        self.down |= 1 << at;
        self.nodes[usize::from(at)].phase = DOWN;
        0
    }

    fn up(&mut self, at: u8) -> u8 {
        let refusal = self.admit(at, true, 1 << DOWN);
        if refusal != 0 {
            return refusal;
        }
        self.down &= !(1 << at);
        self.nodes[usize::from(at)] = Node { phase: STARTING, ..EMPTY };
        0
    }

    fn tick(&mut self) -> u8 {
        if self.g == 1_000_000_000 {
            return 15;
        }
        self.g += 1;
        self.made[0][place(self.g + 3)] = 0;
        self.made[1][place(self.g + 3)] = 0;
        0
    }

    /// One well-formed record.
    pub fn step(&mut self, x: &[u8; RECORD], out: &mut Outbox) -> u8 {
        let four = |at: usize| u32::from_be_bytes([x[at], x[at + 1], x[at + 2], x[at + 3]]);
        if x[2] == 1 {
            return self.start(x[3], x[4], u16::from_be_bytes([x[5], x[6]]), x[7], four(8));
        }
        if !self.started {
            return 16;
        }
        match x[2] {
            2 => self.tick(),
            3 => self.report(x[3], four(4), x[8], four(9), out),
            4 => self.deliver(x[3], x[4], four(5), x[9], four(10), out),
            5 => self.timeout(x[3], four(4), true, out),
            6 => self.timeout(x[3], four(4), false, out),
            7 => self.command(four(3), x[7], four(8), out),
            8 => self.ack(x[3], four(4), x[8], out),
            9 => self.query(x[3], four(4)),
            10 => self.down(x[3]),
            11 => self.up(x[3]),
            _ => self.pair(x[3], x[4], four(5), x[9], four(10), out),
        }
    }
}
