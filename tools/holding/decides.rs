//! The sentence of the rule paper that decides between two lines. One of a request that changed the paper has its § in
//! front. Which sentence it is can be open: here it is chosen by the kind of step and by what differs.

use crate::notation::Said;
use crate::rows;
use reference::model::{fresh, Step};

const ORDER: &str = "Checks run in this order: 17, 16, then 1 for Start, then 2 to 15.";
const REFUSED: &str = "Every refusal sends nothing and leaves site, table and clocks unchanged.";
const LINES: &str = "`sitelog` reads a log on standard input and prints a line a record, no header: step number \
    from 1, refusal number, breaker status (`C`, `T`, or `-` with no site), breaker stamp (0 with no site), then \
    what was sent, joined by commas, or `-`.";
const SENT_ORDER: &str = "Shares come first, by rising stamp, then a command.";
const SENT_FORM: &str = "A share is `S`, node, status, `@`, stamp; a command `C`, an ack `A`, each with status, \
    `@`, stamp.";
const MALFORMED: &str = "Malformed: a length of 0, an unknown kind, a length not its kind's, an end inside a record.";
const MALFORMED_LINE: &str = "A malformed record prints its line with 17 and ends the run; so does, as step 1, a \
    file with no version byte or a wrong one.";
const JUDGED: &str = "Field values are judged by the site, not here.";
const VERSIONS: &str = "§6: Add kind 12, a pair: sender, receiver, t, status, T, standing for T and T+1 (length \
    12), in logs of version 2.";
const OF_PAIRS: &str = "§6: Refusals: 7 when neither is fresh; 8 when a fresh one wasn't made; 2 also for T equal \
    to 4,294,967,295";
const FRESH: &str = "A stamp T is fresh at clock t when t−2 ≤ T ≤ t+2.";
const NEW: &str = "Old or repeated numbers are refused: a number is new when none is known since start-up, or when \
    number minus last, wrapping at 32 bits, is 1 to 2,147,483,647.";
const TAKES: &str = "A starting node takes Report, Ack, Query and Down.";
const MADE: &str = "A compromised node may deliver any share in its own name. A correct sender's share can be \
    delivered once made, any number of times, even when the sender is down.";
const VERDICT: &str = "Command (t, A, T): the signature verdict is yes exactly when the compromised nodes, together \
    with the correct nodes that have shared (A, T) since Start, number at least f+1.";
const CHANGED: &str = "Accepted, the breaker becomes (A, larger of T and t), sends the ack of that pair and \
    remembers it.";
const REPEATED: &str = "§4: A command for the status the breaker has, fresh and with verdict yes, is now done at \
    any T. It sends the ack of the breaker's present pair and changes nothing but the breaker's clock.";
const WOULD_CHANGE: &str = "§4: 10 is not given by Command from then on, and 11 only for a command that would \
    change the status.";
const START: &str = "Start gives f, k, the set of compromised nodes, breaker status and g.";
/// Decides too, where it takes more than one Start to show a difference.
pub const REPLACES: &str = "A later accepted Start replaces everything, as in a new process.";
const START_STAMP: &str = "The breaker's stamp is g, with no change remembered. A later accepted Start replaces \
    everything, as in a new process.";
const REPORT: &str = "If a running node was not in Attempt and now is, it shares (status, t) and (status, t+1).";
const REPORT_STAMP: &str = "§1: a report at a node that knows b stamps r with the larger of t and b's stamp, so no \
    report ends in Wait. Shares still carry t and t+1.";
const STARTED: &str = "When r and b are both known it runs, its store empty; that step shares nothing.";
const SHARE_TIMEOUT: &str = "Share timeout. Armed exactly in Attempt. Shares (r's status, t).";
const RESEND: &str = "Resend timeout. Armed after a command was sent. Sends that command (b's status, that stamp) \
    again.";
const GIVEN_UP: &str = "§9: On a resend timeout when the stamp is no longer fresh, b returns to that pair, the old \
    command is not sent, resend is disarmed, and the state is read afresh, with 01's combining rule at the end.";
const ACK: &str = "If its stamp ≥ b's stamp, b becomes that change; a later-arriving older one leaves b. An ack of \
    the status that b has beforehand disarms resend, older or not.";
const ACK_BACK: &str = "Delivers the breaker's change number `back` from the newest (0), of the last eight.";
const DOWN: &str = "Down loses the record. Up makes a down node a starting one, with no clock yet.";
const TICK: &str = "Tick adds 1 to g.";
const TOGETHER: &str = "§6: The fresh ones of the two are stored together, all else as Deliver.";
const COMBINING: &str = "At the end of each accepted step at a node (for Deliver, the receiver) that leaves it \
    running in Attempt of A: if some fresh stamp above b's stamp is held from at least f+1 senders for A, it takes \
    the earliest such T, sends command (A, T), sets b to (A, T), arms resend.";

/// A line in its parts.
struct Line<'a> {
    number: &'a str,
    refusal: &'a str,
    breaker: (&'a str, &'a str),
    sent: Vec<&'a str>,
}

impl<'a> Line<'a> {
    fn of(text: &'a str) -> Option<Line<'a>> {
        match text.split(' ').collect::<Vec<_>>()[..] {
            [number, refusal, status, stamp, sent] => {
                let sent = if sent == "-" { Vec::new() } else { sent.split(',').collect() };
                Some(Line { number, refusal, breaker: (status, stamp), sent })
            }
            _ => None,
        }
    }

    /// Of what was sent, that which begins with this letter.
    fn sent_as(&self, letter: char) -> Vec<&'a str> {
        self.sent.iter().copied().filter(|message| message.starts_with(letter)).collect()
    }

    /// The stamp of the command that was sent.
    fn commanded(&self) -> Option<u64> {
        self.sent_as('C').first().and_then(|command| command.split_once('@')).and_then(|(_, stamp)| stamp.parse().ok())
    }
}

/// What decides between the lines of the model and of a program where they first differ: for the step there, if there
/// is one that is well-formed, and with nothing for a line that is not printed.
pub fn sentence(said: Option<&Said>, model: Option<&str>, program: Option<&str>) -> String {
    let step = said.and_then(|said| match said {
        Said::Step(step) => Some(step),
        Said::Message(_) => None,
    });
    let is_malformed = |line: Option<&str>| line.and_then(Line::of).is_some_and(|line| line.refusal == "17");
    match (model, program) {
        _ if is_malformed(model) && !is_malformed(program) => format!("{MALFORMED} {MALFORMED_LINE}"),
        (None, _) if is_malformed(program) => MALFORMED.to_string(),
        (None, _) => format!("{LINES} {MALFORMED_LINE}"),
        (_, None) => LINES.to_string(),
        (Some(model), Some(program)) => match (Line::of(model), Line::of(program)) {
            (Some(model), Some(program)) => between(step, &model, &program),
            _ => LINES.to_string(),
        },
    }
}

fn between(step: Option<&Step>, model: &Line, program: &Line) -> String {
    if model.number != program.number {
        return LINES.to_string();
    }
    let Some(step) = step else { return format!("{MALFORMED_LINE} {LINES}") };
    match (model.refusal, program.refusal) {
        (_, "17") if matches!(step, Step::Pair { .. }) => VERSIONS.to_string(),
        (_, "17") => format!("{MALFORMED} {JUDGED}"),
        (refusal, other) if refusal == other && refusal != "0" => REFUSED.to_string(),
        ("0", "0") if model.breaker != program.breaker => breaker(step, model).to_string(),
        ("0", "0") => sent(step, model, program),
        ("0", other) => row(other, step),
        (refusal, "0") => row(refusal, step),
        (refusal, _) => format!("{ORDER} {}", row(refusal, step)),
    }
}

/// A row of the table of refusals, and what its words mean.
fn row(refusal: &str, step: &Step) -> String {
    let is_pair = matches!(step, Step::Pair { .. });
    let words = match (rows::words(refusal, &Said::Step(*step)), refusal) {
        (Some(_), "2" | "7" | "8") if is_pair => OF_PAIRS.to_string(),
        (Some(words), _) => format!("{refusal}, given exactly when: {words}."),
        (None, _) => ORDER.to_string(),
    };
    let meaning = match (refusal, step) {
        ("4", _) => TAKES,
        ("7", _) => FRESH,
        ("8", Step::Command { .. }) => VERDICT,
        ("8", _) => MADE,
        ("9", _) => NEW,
        ("10", _) => return REPEATED.to_string(),
        ("11", _) => WOULD_CHANGE,
        ("12", Step::ShareTimeout { .. }) => SHARE_TIMEOUT,
        ("12", Step::ResendTimeout { .. }) => RESEND,
        ("13", _) => ACK_BACK,
        _ => return words,
    };
    format!("{words} {meaning}")
}

/// Both do the step, and the breaker differs.
fn breaker(step: &Step, model: &Line) -> &'static str {
    match *step {
        Step::Start { status, .. } if model.breaker.0 != ["C", "T"][usize::from(status.min(1))] => START,
        Step::Start { .. } => START_STAMP,
        Step::Command { t, stamp, .. } if model.breaker.1 != t.max(stamp).to_string() => REPEATED,
        _ => CHANGED,
    }
}

/// Both do the step, and what is sent differs.
fn sent(step: &Step, model: &Line, program: &Line) -> String {
    let in_order = |line: &Line| {
        let mut sent: Vec<String> = line.sent.iter().map(|message| message.to_string()).collect();
        sent.sort();
        sent
    };
    if in_order(model) == in_order(program) {
        return SENT_ORDER.to_string();
    }
    let of_form = |message: &&str| message.starts_with(['S', 'C', 'A']) && message.contains('@');
    if !program.sent.iter().all(|message| of_form(message)) {
        return SENT_FORM.to_string();
    }
    let shares_differ = model.sent_as('S') != program.sent_as('S');
    match *step {
        Step::Start { .. } => START_STAMP.to_string(),
        Step::Tick => TICK.to_string(),
        Step::Down { .. } | Step::Up { .. } => DOWN.to_string(),
        Step::Query { .. } => STARTED.to_string(),
        Step::Report { .. } if shares_differ && model.sent.is_empty() => format!("{REPORT} {STARTED}"),
        Step::Report { .. } if shares_differ && program.sent.is_empty() => format!("{REPORT} {REPORT_STAMP}"),
        Step::Report { .. } if shares_differ => REPORT.to_string(),
        Step::ShareTimeout { .. } if shares_differ => SHARE_TIMEOUT.to_string(),
        Step::ResendTimeout { t, .. } => resent(t.into(), model, program).to_string(),
        Step::Command { t, stamp, .. } if model.breaker.1 != t.max(stamp).to_string() => REPEATED.to_string(),
        Step::Command { .. } => format!("{CHANGED} {REPEATED}"),
        Step::Ack { .. } if model.sent.is_empty() => ACK.to_string(),
        Step::Pair { .. } => format!("{TOGETHER} {COMBINING}"),
        _ => COMBINING.to_string(),
    }
}

/// A stamp that is no longer fresh, or none where a fresh one is sent, is about giving a command up.
fn resent(t: u64, model: &Line, program: &Line) -> &'static str {
    match (model.commanded(), program.commanded()) {
        (_, Some(stamp)) if !fresh(stamp, t) => GIVEN_UP,
        (Some(stamp), _) if fresh(stamp, t) => RESEND,
        _ => GIVEN_UP,
    }
}
