//! Whole logs by chance, of each version, some of them damaged.

use crate::generator::{random_byte, Walk};
use crate::random::Random;
use reference::log;
use std::ops::Range;

/// How many records a log of the comparison has.
pub const USUAL: usize = 400;

/// The version of a seed's log: two in five are of the second, one in forty is of none that there is.
pub fn version_of(seed: u64) -> u8 {
    match seed % 40 {
        39 => [0, 3, 255][(seed / 40 % 3) as usize],
        rest if rest % 5 < 2 => 2,
        _ => 1,
    }
}

/// A log without damage. One that hurries to the top of the clock has a thousand records more.
pub fn walk_log(seed: u64, count: usize, version: u8) -> Vec<u8> {
    let mut walk = Walk::new(seed, version);
    let extra = if walk.top { 1000 } else { 0 };
    let mut bytes = vec![version];
    for _ in 0..count + extra {
        log::write(&walk.step().0, &mut bytes);
    }
    bytes
}

/// A whole log for a seed. One in five is damaged, some have a record of a kind that their version lacks, and one in forty
/// is nothing but bytes.
pub fn random_log(seed: u64, count: usize) -> Vec<u8> {
    let mut random = Random::new(!seed);
    let version = version_of(seed);
    if random.one_in(40) {
        let rest = (0..random.below(60)).map(|_| random_byte(&mut random) % 13);
        return [version].into_iter().chain(rest).collect();
    }
    let mut bytes = walk_log(seed, count, version);
    if random.one_in(5) {
        for _ in 0..1 + random.below(3) {
            damage(&mut bytes, &mut random);
        }
    } else if random.one_in(10) {
        put_unknown_kind(&mut bytes, &mut random);
    }
    bytes
}

/// Puts a record of the first kind that the log's version lacks before one of its records.
fn put_unknown_kind(bytes: &mut Vec<u8>, random: &mut Random) {
    let Some((version, mut records)) = log::open(bytes) else { return };
    let mut places = Vec::new();
    while let Some((_, length)) = log::read(version, records) {
        places.push(bytes.len() - records.len());
        records = &records[length..];
    }
    let (at, length) = (random.pick(&places), random.pick(&[2, 12]));
    let kind = (1..=u8::MAX).find(|&kind| log::length_of(version, kind).is_none()).unwrap();
    let fields = (1..length).map(|_| random_byte(random));
    let record: Vec<u8> = [0, length, kind].into_iter().chain(fields).collect();
    bytes.splice(at..at, record);
}

fn damage(bytes: &mut Vec<u8>, random: &mut Random) {
    let size = bytes.len() as u64;
    if size == 0 {
        return;
    }
    let at = random.below(size) as usize;
    match random.below(8) {
        0..=2 => bytes[at] ^= 1 << random.below(8),
        3 => bytes[at] = random_byte(random),
        4 => bytes.truncate(at),
        5 => bytes.insert(at, random_byte(random) % 13),
        6 => {
            bytes.remove(at);
        }
        _ if random.one_in(4) => bytes[0] = random_byte(random),
        _ => bytes[at] = 0,
    }
}

/// Random logs of one version, one behind the other: all but the last are well-formed. A start replaces everything, so a log
/// is not troubled by those before it; what comes before its first start meets the site that they left.
pub struct Chain {
    pub bytes: Vec<u8>,
    pub seeds: Vec<u64>,
    is_open: bool,
}

/// The logs of these seeds in chains, each of which is run in one process.
pub fn chains(seeds: Range<u64>) -> Vec<Chain> {
    let mut chains: Vec<Chain> = Vec::new();
    for seed in seeds {
        let bytes = random_log(seed, USUAL);
        let is_open = is_well_formed(&bytes);
        match chains.iter_mut().find(|chain| chain.is_open && chain.bytes.first() == bytes.first()) {
            Some(chain) => {
                chain.bytes.extend(&bytes[1..]);
                chain.seeds.push(seed);
                chain.is_open = is_open;
            }
            None => chains.push(Chain { bytes, seeds: vec![seed], is_open }),
        }
    }
    chains
}

fn is_well_formed(bytes: &[u8]) -> bool {
    let Some((version, mut records)) = log::open(bytes) else { return false };
    while let Some((_, length)) = log::read(version, records) {
        records = &records[length..];
    }
    records.is_empty()
}
