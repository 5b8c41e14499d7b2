//! The rows of the rule paper's table of refusals, in its words, as far as a log can meet them: a table that is too short
//! or a bad interval is no matter of a log.

use crate::notation::Said;
use reference::model::Step;
use reference::{calls, log};

/// Why a step was turned away with this number; nothing where the number is none of the table.
pub fn words(refusal: &str, said: &Said) -> Option<&'static str> {
    let is_pair = matches!(said, Said::Step(Step::Pair { .. }));
    Some(match refusal {
        "0" => "done",
        "1" => "Start: f, k, status or g out of range, a compromised number not below n, more than f compromised",
        "2" if is_pair => "node or sender ≥ n, status above 1, T equal to 4,294,967,295",
        "2" => "node or sender ≥ n, status above 1, back above 7",
        "3" => "the acting node (for Deliver, the receiver) is compromised",
        "4" => "the node's phase does not take this step (Down of a down node, Up of another)",
        "5" => "t is neither g nor g+1",
        "6" => "t is below that node's, or the breaker's, last accepted clock since it started",
        "7" if is_pair => "neither is fresh",
        "7" => "T not fresh at t",
        "8" if is_pair => "a fresh one wasn't made",
        "8" => "share not made by its correct sender; for Command, verdict no",
        "9" => "report not new",
        "10" => "breaker already has that status",
        "11" => "T ≤ breaker's stamp",
        "12" => "timeout not armed",
        "13" => "fewer changes than `back` + 1",
        "14" => "Down: already k correct nodes down, by the site's own count",
        "15" => "Tick when g is 1,000,000,000",
        "16" => "any step but Start: no site started yet",
        _ => return None,
    })
}

/// What of the rule paper's list makes the record at the front of these bytes malformed.
pub fn malformed(version: u8, bytes: &[u8]) -> &'static str {
    match *bytes {
        [0, 0, ..] => "log: a length of 0",
        [_, _, kind, ..] if log::length_of(version, kind).is_none() => "log: an unknown kind",
        [high, low, kind, ..] if log::length_of(version, kind) != Some(u16::from_be_bytes([high, low]).into()) => {
            "log: a length not its kind's"
        }
        _ => "log: an end inside a record",
    }
}

/// The same for a call of the Arbiter's site.
pub fn malformed_call(bytes: &[u8]) -> &'static str {
    match bytes.len() < calls::LENGTH {
        true => "call: an end inside it",
        false => "call: an unknown letter",
    }
}
