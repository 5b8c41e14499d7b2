//! The five operating conditions of the paper's performance table, with four nodes (f = 1, k = 1), as logs
//! of any number of trip and close actions. Every action is carried out: relays report, each node that is up
//! sends both of its shares to every other, each sends the command, the first changes the breaker and the others
//! are answered, all get the ack. In a log of version 2 the two shares are delivered as one pair.

use reference::log;
use reference::model::{Status, Step};

#[derive(Clone, Copy, PartialEq, Eq, Debug)]
pub enum Condition {
    FaultFree,
    /// One correct node is down from the beginning to the end.
    FailStop,
    /// Node 3 is faulty and silent; at each action another node is down for its recovery, in turn.
    FailStopRecovery,
    /// Node 3 sends shares of the wrong action, the same share ten times, one that is out of date and one
    /// in another's name, to every node at every action.
    Byzantine,
    /// Both of it: node 3 as above, and at each action another node is down for its recovery, in turn.
    ByzantineRecovery,
}

pub const ALL: [(Condition, &str); 5] = [
    (Condition::FaultFree, "fault-free"),
    (Condition::FailStop, "fail-stop"),
    (Condition::FailStopRecovery, "fail-stop-recovery"),
    (Condition::Byzantine, "byzantine"),
    (Condition::ByzantineRecovery, "byzantine-recovery"),
];

const NODES: u8 = 4;
const FAULTY: u8 = 3;
const CLOCK: u32 = 100;

pub struct Bench {
    condition: Condition,
    version: u8,
    clock: u32,
    action: Status,
    actions: u64,
    numbers: [u32; NODES as usize],
}

impl Bench {
    /// Writes the version byte and all up to the first action: a start, every node running, those down that are.
    pub fn begin(condition: Condition, version: u8, out: &mut Vec<u8>) -> Bench {
        let mut bench = Bench { condition, version, clock: CLOCK, action: Status::Close, actions: 0, numbers: [0; 4] };
        let set = if bench.is_faulty(FAULTY) { 1 << FAULTY } else { 0 };
        out.push(version);
        log::write(&Step::Start { f: 1, k: 1, set, status: 0, g: CLOCK }, out);
        for node in 0..NODES {
            if !bench.is_faulty(node) {
                bench.join(node, out);
            }
        }
        if condition == Condition::FailStop {
            log::write(&Step::Down { node: FAULTY }, out);
        }
        bench.rest(out);
        bench
    }

    fn is_faulty(&self, node: u8) -> bool {
        let always_up = [Condition::FaultFree, Condition::FailStop];
        node == FAULTY && !always_up.contains(&self.condition)
    }

    fn report(&mut self, node: u8, out: &mut Vec<u8>) {
        let number = &mut self.numbers[usize::from(node)];
        *number = number.wrapping_add(1);
        log::write(&Step::Report { node, t: self.clock, status: self.action.byte(), number: *number }, out);
    }

    /// A starting node learns the breaker's state and its relay's.
    fn join(&mut self, node: u8, out: &mut Vec<u8>) {
        log::write(&Step::Query { node, t: self.clock }, out);
        self.report(node, out);
    }

    /// The clock moves on, past the stamp that the breaker has.
    fn rest(&mut self, out: &mut Vec<u8>) {
        for _ in 0..2 {
            log::write(&Step::Tick, out);
            self.clock += 1;
        }
    }

    fn deliver(&self, sender: u8, receiver: u8, action: Status, stamp: u32, out: &mut Vec<u8>) {
        log::write(&Step::Deliver { sender, receiver, t: self.clock, status: action.byte(), stamp }, out);
    }

    /// The shares at this stamp and the next.
    fn deliver_both(&self, sender: u8, receiver: u8, action: Status, stamp: u32, out: &mut Vec<u8>) {
        if self.version == 1 {
            self.deliver(sender, receiver, action, stamp, out);
            self.deliver(sender, receiver, action, stamp + 1, out);
        } else {
            log::write(&Step::Pair { sender, receiver, t: self.clock, status: action.byte(), stamp }, out);
        }
    }

    fn attack(&self, receiver: u8, out: &mut Vec<u8>) {
        let t = self.clock;
        self.deliver_both(FAULTY, receiver, self.action.other(), t, out);
        for _ in 0..10 {
            self.deliver(FAULTY, receiver, self.action, t + 2, out);
        }
        self.deliver(FAULTY, receiver, self.action, t - 3, out);
        self.deliver((receiver + 1) % FAULTY, receiver, self.action, t + 2, out);
    }

    /// Writes the next action.
    pub fn action(&mut self, out: &mut Vec<u8>) {
        use Condition::{Byzantine, ByzantineRecovery, FailStopRecovery};
        let recovers = matches!(self.condition, FailStopRecovery | ByzantineRecovery);
        let resting = if recovers { Some((self.actions % u64::from(FAULTY)) as u8) } else { None };
        let away = |node| self.is_faulty(node) || resting == Some(node);
        let stopped = |node| node == FAULTY && self.condition == Condition::FailStop;
        let up: Vec<u8> = (0..NODES).filter(|&node| !away(node) && !stopped(node)).collect();
        self.action = self.action.other();
        self.actions += 1;
        if let Some(node) = resting {
            log::write(&Step::Down { node }, out);
        }
        for &node in &up {
            self.report(node, out);
        }
        if matches!(self.condition, Byzantine | ByzantineRecovery) {
            for &node in &up {
                self.attack(node, out);
            }
        }
        for &receiver in &up {
            for &sender in up.iter().filter(|&&sender| sender != receiver) {
                self.deliver_both(sender, receiver, self.action, self.clock, out);
            }
        }
        for _ in &up {
            log::write(&Step::Command { t: self.clock, status: self.action.byte(), stamp: self.clock }, out);
        }
        for &node in &up {
            log::write(&Step::Ack { node, t: self.clock, back: 0 }, out);
        }
        if let Some(node) = resting {
            log::write(&Step::Up { node }, out);
            self.join(node, out);
        }
        self.rest(out);
    }
}
