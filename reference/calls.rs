//! How steps reach the Arbiter's program: a call is twelve bytes, a letter, three bytes and two numbers of four
//! bytes, big-endian. Bytes that a letter does not use are not read, and written as 0.

use crate::arbiter::{Model, Sent, Step};
use crate::model::{Pair, Status};

pub const LENGTH: usize = 12;

/// The step of the call at the front of `bytes`; nothing if it is malformed.
pub fn read(bytes: &[u8]) -> Option<Step> {
    let call: [u8; LENGTH] = bytes.get(..LENGTH)?.try_into().unwrap();
    let [letter, a, b, c, x0, x1, x2, x3, y0, y1, y2, y3] = call;
    let (x, y) = (u32::from_be_bytes([x0, x1, x2, x3]), u32::from_be_bytes([y0, y1, y2, y3]));
    match letter {
        b'S' => Some(Step::Start { f: a, k: b, set: u16::from_be_bytes([y2, y3]), status: c, g: x }),
        b'T' => Some(Step::Tick),
        b'R' => Some(Step::Report { node: a, t: x, status: b, number: y }),
        b'H' => Some(Step::ShareTimeout { node: a, t: x }),
        b'A' => Some(Step::Ack { node: a, t: x, back: b }),
        b'Q' => Some(Step::Query { node: a, t: x }),
        b'D' => Some(Step::Down { node: a }),
        b'U' => Some(Step::Up { node: a }),
        b'M' => Some(Step::Message { sender: a, t: x, status: b, stamp: y }),
        _ => None,
    }
}

/// Adds the call of a step to `out`.
pub fn write(step: &Step, out: &mut Vec<u8>) {
    let (letter, [a, b, c], x, y) = match *step {
        Step::Start { f, k, set, status, g } => (b'S', [f, k, status], g, u32::from(set)),
        Step::Tick => (b'T', [0; 3], 0, 0),
        Step::Report { node, t, status, number } => (b'R', [node, status, 0], t, number),
        Step::ShareTimeout { node, t } => (b'H', [node, 0, 0], t, 0),
        Step::Ack { node, t, back } => (b'A', [node, back, 0], t, 0),
        Step::Query { node, t } => (b'Q', [node, 0, 0], t, 0),
        Step::Down { node } => (b'D', [node, 0, 0], 0, 0),
        Step::Up { node } => (b'U', [node, 0, 0], 0, 0),
        Step::Message { sender, t, status, stamp } => (b'M', [sender, status, 0], t, stamp),
    };
    out.extend([letter, a, b, c]);
    out.extend(x.to_be_bytes());
    out.extend(y.to_be_bytes());
}

fn letter(status: Status) -> char {
    match status {
        Status::Close => 'C',
        Status::Trip => 'T',
    }
}

/// One line, without its end: step number, refusal, the breaker as it stands, what was sent.
pub fn line(number: u64, refusal: u8, model: &Model, sent: Option<Sent>) -> String {
    let (status, stamp) = match &model.site {
        None => ('-', 0),
        Some(site) => (letter(site.breaker.now.status), site.breaker.now.stamp),
    };
    let pair = |p: Pair| format!("{}@{}", letter(p.status), p.stamp);
    let sent = match sent {
        None => "-".to_string(),
        Some(Sent::Message(node, message)) => format!("M{node}{}", pair(message)),
        Some(Sent::Ack(change)) => format!("A{}", pair(change)),
    };
    format!("{number} {refusal} {status} {stamp} {sent}")
}

/// Runs the calls and hands each line to `print`. A malformed call is the last line.
pub fn replay(bytes: &[u8], mut print: impl FnMut(String)) {
    let mut model = Model::default();
    for (number, call) in (1..).zip(bytes.chunks(LENGTH)) {
        let Some(step) = read(call) else {
            return print(line(number, 17, &model, None));
        };
        let answer = model.step(&step);
        print(line(number, answer.refusal, &model, answer.sent));
    }
}
