//! Logs that are cut at every byte, and logs with wrong bytes.

use crate::conditions::{Bench, Condition};
use crate::notation::parse;
use crate::random_logs::walk_log;
use reference::log;
use std::collections::BTreeSet;

type Named = (String, Vec<u8>);

/// A short log of each version; the second ends with a pair that sends a command.
const SHORT: [&str; 2] = [
    "Start(0, 1, {}, CLOSE, 258)
    Query(1, 258)
    Report(1, 259, TRIP, 7)
    Tick
    ShareTimeout(1, 259)
    Command(259, TRIP, 259)",
    "version 2
    Start(1, 0, {2}, CLOSE, 258)
    Query(0, 258)
    Report(0, 258, TRIP, 7)
    ShareTimeout(0, 259)
    Pair(2, 0, 259, TRIP, 259)
    Tick",
];

fn short(version: u8) -> Vec<u8> {
    parse(SHORT[usize::from(version) - 1]).expect("a short log has a slip").bytes
}

/// Logs cut at every one of their bytes: the beginning of a condition, a random one, one with a pair.
pub fn cut() -> Vec<Named> {
    let mut front = Vec::new();
    Bench::begin(Condition::FaultFree, 1, &mut front);
    let logs = [("the front of a condition", front), ("a walk", walk_log(3, 15, 1)), ("a short log", short(2))];
    let cuts = |(name, bytes): &(&str, Vec<u8>)| -> Vec<Named> {
        (0..=bytes.len()).map(|end| (format!("{name} cut to {end} bytes"), bytes[..end].to_vec())).collect()
    };
    logs.iter().flat_map(cuts).collect()
}

pub fn damaged() -> Vec<Named> {
    let versions = [log::FIRST_VERSION, log::LAST_VERSION];
    let mut logs = every_version();
    logs.extend(versions.into_iter().flat_map(every_byte));
    logs.extend((0..=u8::MAX).map(|kind| unknown_kind(1, kind)));
    logs.extend((0..=u8::MAX).filter(|kind| *kind <= 16 || *kind % 51 == 0).map(|kind| unknown_kind(2, kind)));
    logs.extend(versions.into_iter().flat_map(every_length));
    logs
}

/// Each version byte before the same records, and some alone.
fn every_version() -> Vec<Named> {
    let records = &short(1)[1..];
    let log = |version: u8| [&[version], records].concat();
    let alone = |version: u8| (format!("version {version} and nothing more"), vec![version]);
    let all = (0..=u8::MAX).map(|version| (format!("a log of version {version}"), log(version)));
    all.chain([0, 1, 2, 3, 255].map(alone)).collect()
}

/// Each byte of a short log with others in its place.
fn every_byte(version: u8) -> Vec<Named> {
    let bytes = short(version);
    let mut logs = Vec::new();
    for (at, &right) in bytes.iter().enumerate() {
        let wrong = BTreeSet::from([0, 1, 255, right ^ 0x80, right ^ 1, right.wrapping_add(1)]);
        for byte in wrong.into_iter().filter(|&byte| byte != right) {
            let mut log = bytes.clone();
            log[at] = byte;
            logs.push((format!("a short log of version {version} with {byte} at {at}"), log));
        }
    }
    logs
}

/// A short log, then a record that states this length and has as many bytes, then a whole record.
fn with_record(version: u8, length: usize, kind: u8) -> Vec<u8> {
    let fields = [1, 0, 0, 1, 3, 1, 0, 0, 1, 3, 0].into_iter().chain(std::iter::repeat(0));
    let record = [kind].into_iter().chain(fields).take(length);
    let tick = [0, 1, 2];
    let mut bytes = short(version);
    bytes.extend((length as u16).to_be_bytes());
    bytes.extend(record.chain(tick));
    bytes
}

/// A record of this kind with the length that it must have, or with one that others have.
fn unknown_kind(version: u8, kind: u8) -> Named {
    let length = log::length_of(version, kind).unwrap_or(if kind % 2 == 0 { 12 } else { 2 });
    (format!("a record of kind {kind} in version {version}"), with_record(version, length, kind))
}

/// Each kind with lengths beside its own: shorter and longer by one, by 256 longer, none, and that of the next kind.
fn every_length(version: u8) -> Vec<Named> {
    let mut logs = Vec::new();
    for kind in 1..=12 {
        let Some(right) = log::length_of(version, kind) else { continue };
        let next = log::length_of(version, kind % 11 + 1).unwrap();
        let wrong = BTreeSet::from([right - 1, right + 1, right + 256, 0, next]);
        for length in wrong.into_iter().filter(|&length| length != right) {
            let name = format!("a record of kind {kind} and length {length} in version {version}");
            logs.push((name, with_record(version, length, kind)));
        }
    }
    logs
}
