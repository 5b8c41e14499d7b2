//! The numbers of a step by what they mean, and how plain they are.

use reference::model::Step;

/// The clock with which a plain run begins.
pub const PLAIN_CLOCK: u32 = 100;

#[derive(Default)]
pub struct Fields<'a> {
    /// For a delivery the sender, then the receiver.
    pub nodes: Vec<&'a mut u8>,
    /// t; of a Start, g.
    pub clock: Option<&'a mut u32>,
    pub status: Option<&'a mut u8>,
    pub stamp: Option<&'a mut u32>,
    pub number: Option<&'a mut u32>,
    pub back: Option<&'a mut u8>,
}

pub fn fields(step: &mut Step) -> Fields<'_> {
    let none = Fields::default();
    match step {
        Step::Tick => none,
        Step::Start { status, g, .. } => Fields { clock: Some(g), status: Some(status), ..none },
        Step::Report { node, t, status, number } => {
            Fields { nodes: vec![node], clock: Some(t), status: Some(status), number: Some(number), ..none }
        }
        Step::Deliver { sender, receiver, t, status, stamp } | Step::Pair { sender, receiver, t, status, stamp } => {
            Fields { nodes: vec![sender, receiver], clock: Some(t), status: Some(status), stamp: Some(stamp), ..none }
        }
        Step::ShareTimeout { node, t } | Step::ResendTimeout { node, t } | Step::Query { node, t } => {
            Fields { nodes: vec![node], clock: Some(t), ..none }
        }
        Step::Command { t, status, stamp } => {
            Fields { clock: Some(t), status: Some(status), stamp: Some(stamp), ..none }
        }
        Step::Ack { node, t, back } => Fields { nodes: vec![node], clock: Some(t), back: Some(back), ..none },
        Step::Down { node } | Step::Up { node } => Fields { nodes: vec![node], ..none },
    }
}

pub fn sender_of(step: &Step) -> Option<u8> {
    match *step {
        Step::Deliver { sender, .. } | Step::Pair { sender, .. } => Some(sender),
        _ => None,
    }
}

/// The members of a compromised set.
pub fn members(set: u16) -> impl Iterator<Item = u8> {
    (0..16).filter(move |node| set >> node & 1 == 1)
}

/// How far a step is from the plainest of its kind.
pub fn weight_of(step: &Step) -> u64 {
    let of_the_kind = match *step {
        Step::Start { f, k, set, status, .. } => {
            let of_set: u64 = members(set).map(|node| 10 + u64::from(node)).sum();
            50 * u64::from(f) + 20 * u64::from(k) + of_set + 20 * u64::from(status)
        }
        Step::Pair { .. } => 5,
        Step::Ack { .. } => 3,
        _ => 0,
    };
    let mut copy = *step;
    let fields = fields(&mut copy);
    let bytes = fields.nodes.into_iter().chain(fields.status).chain(fields.back).map(|byte| u64::from(*byte));
    let clocks = fields.clock.into_iter().chain(fields.stamp).map(|clock| u64::from(clock.abs_diff(PLAIN_CLOCK)));
    of_the_kind + bytes.chain(clocks).chain(fields.number.map(|number| u64::from(*number))).sum::<u64>()
}

/// One number of a step.
#[derive(Clone, Copy)]
pub enum Which {
    Clock,
    Stamp,
    Status,
    Number,
    Back,
    Node(usize),
}

pub const EACH: [Which; 7] =
    [Which::Clock, Which::Stamp, Which::Status, Which::Number, Which::Back, Which::Node(0), Which::Node(1)];

/// That number, if the step has it.
pub fn value(mut step: Step, which: Which) -> Option<u32> {
    let fields = fields(&mut step);
    let byte = |field: Option<&mut u8>| field.map(|byte| u32::from(*byte));
    match which {
        Which::Clock => fields.clock.map(|clock| *clock),
        Which::Stamp => fields.stamp.map(|stamp| *stamp),
        Which::Number => fields.number.map(|number| *number),
        Which::Status => byte(fields.status),
        Which::Back => byte(fields.back),
        Which::Node(place) => byte(fields.nodes.into_iter().nth(place)),
    }
}

/// The step with another value there.
pub fn with_value(mut step: Step, which: Which, value: u32) -> Step {
    let fields = fields(&mut step);
    let number = match which {
        Which::Clock => fields.clock,
        Which::Stamp => fields.stamp,
        Which::Number => fields.number,
        _ => None,
    };
    let byte = match which {
        Which::Status => fields.status,
        Which::Back => fields.back,
        Which::Node(place) => fields.nodes.into_iter().nth(place),
        _ => None,
    };
    number.into_iter().for_each(|number| *number = value);
    byte.into_iter().for_each(|byte| *byte = value as u8);
    step
}
