//! A log in which two programs differ, made small and plain while they still differ.
//!
//! To ask the two programs whether they do is dear; to ask the reference is not. So it keeps sensible what is tried:
//! when a step goes, those that it would then answer otherwise are mended or go too.

use crate::holding::fields::{fields, sender_of, value, weight_of, with_value, Which, EACH};
use crate::holding::plainer::{
    closed, closed_at_first, counted_numbers, fewer_compromised, fewer_down, from_the_plain_clock, nearer,
    nodes_as_they_come, numbers_from_one, segments, with_threshold, Change, MOST_NODES,
};
use reference::log;
use reference::model::{Model, Record, Step};
use std::collections::{BTreeMap, BTreeSet, HashSet};
use std::ops::Range;

/// A log taken apart: version byte (if any), its steps, and what is malformed behind them.
#[derive(Clone)]
pub struct Log {
    pub version: Option<u8>,
    pub steps: Vec<Step>,
    pub tail: Vec<u8>,
}

impl Log {
    pub fn of(bytes: &[u8]) -> Log {
        let (version, mut rest) = bytes.split_first().map_or((None, bytes), |(&version, rest)| (Some(version), rest));
        let mut steps = Vec::new();
        if let Some((version, _)) = log::open(bytes) {
            while let Some((step, length)) = log::read(version, rest) {
                steps.push(step);
                rest = &rest[length..];
            }
        }
        Log { version, steps, tail: rest.to_vec() }
    }

    pub fn bytes(&self) -> Vec<u8> {
        let mut bytes = Vec::from_iter(self.version);
        for step in &self.steps {
            log::write(step, &mut bytes);
        }
        bytes.extend(&self.tail);
        bytes
    }

    /// What a log has to have less of to be smaller: steps, then bytes behind them, then what makes it hard to read.
    pub fn weight(&self) -> (usize, usize, u64) {
        let of_version = match self.version {
            Some(version @ log::FIRST_VERSION..=log::LAST_VERSION) => u64::from(version),
            other => 1000 + u64::from(other.unwrap_or(u8::MAX)),
        };
        let of_tail: u64 = self.tail.iter().map(|&byte| u64::from(byte)).sum();
        (self.steps.len(), self.tail.len(), of_version + of_tail + self.steps.iter().map(weight_of).sum::<u64>())
    }
}

/// Makes the log small as long as `differs` tells, for its bytes, the number (from 1) of the first line that differs.
/// At most `most` questions are asked.
pub fn shrink(log: Log, most: usize, differs: &mut dyn FnMut(&[u8]) -> Option<usize>) -> Log {
    let asked = HashSet::new();
    let mut shrinking = Shrinking { line: 0, answers: Vec::new(), best: log, left: most, asked, differs };
    if !shrinking.begin() {
        return shrinking.best;
    }
    loop {
        let before = shrinking.best.weight();
        shrinking.drop_steps();
        shrinking.make_plain();
        shrinking.shorten_tail();
        if shrinking.best.weight() == before || shrinking.left == 0 {
            return shrinking.best;
        }
    }
}

struct Shrinking<'a> {
    /// The smallest log so far in which the two differ.
    best: Log,
    /// The first line of it that differs, and how the reference answers its steps.
    line: usize,
    answers: Vec<u8>,
    /// How many questions may still be asked, and what was asked already.
    left: usize,
    asked: HashSet<Vec<u8>>,
    differs: &'a mut dyn FnMut(&[u8]) -> Option<usize>,
}

/// What becomes of a step: itself, another, or nothing.
type Edit<'a> = &'a dyn Fn(usize, Step) -> Option<Step>;

impl Shrinking<'_> {
    /// Whether there is any difference.
    fn begin(&mut self) -> bool {
        let bytes = self.best.bytes();
        self.ask(&bytes).map(|line| self.found(self.best.clone(), line)).is_some()
    }

    fn ask(&mut self, bytes: &[u8]) -> Option<usize> {
        if self.left == 0 || !self.asked.insert(bytes.to_vec()) {
            return None;
        }
        self.left -= 1;
        (self.differs)(bytes)
    }

    /// Takes a log that differs, then without what comes behind its first difference.
    fn found(&mut self, log: Log, line: usize) {
        let mut model = Model::default();
        self.answers = log.steps.iter().map(|step| model.step(step).refusal).collect();
        (self.best, self.line) = (log, line);
        let mut cut = self.best.clone();
        if line <= cut.steps.len() {
            cut.steps.truncate(line);
            cut.tail.clear();
        }
        self.take(cut);
    }

    /// Takes the log if it is smaller and differs.
    fn take(&mut self, log: Log) -> bool {
        let bytes = log.bytes();
        // What was malformed may have become a step, or the other way round.
        let log = Log::of(&bytes);
        if log.weight() >= self.best.weight() {
            return false;
        }
        let line = self.ask(&bytes);
        line.map(|line| self.found(log, line)).is_some()
    }

    fn is_last(&self, at: usize) -> bool {
        at + 1 == self.line
    }

    /// The log with its steps edited. Later clocks go down by one for each tick that goes. A step that the reference
    /// would then answer otherwise is mended, and goes where it cannot be; but the one that differs stays.
    fn edited(&self, edit: Edit) -> Log {
        let mut model = Model::default();
        let mut lowered = 0;
        let mut steps = Vec::new();
        for (at, (&step, &answer)) in self.best.steps.iter().zip(&self.answers).enumerate() {
            let Some(mut now) = edit(at, step) else {
                lowered += u32::from(step == Step::Tick && answer == 0);
                continue;
            };
            match step {
                Step::Start { .. } if answer == 0 => lowered = 0,
                Step::Start { .. } => {}
                _ => lower(&mut now, lowered),
            }
            let stays = mended(now, answer, &model).or(self.is_last(at).then_some(now));
            if let Some(step) = stays {
                model.step(&step);
                steps.push(step);
            }
        }
        Log { steps, ..self.best.clone() }
    }

    fn edit(&mut self, edit: Edit) -> bool {
        self.take(self.edited(edit))
    }

    fn drop_all(&mut self, goes: &dyn Fn(usize, &Step) -> bool) -> bool {
        let line = self.line;
        self.edit(&|at, step| (at + 1 == line || !goes(at, &step)).then_some(step))
    }

    fn drop_steps(&mut self) {
        self.drop_before_a_start();
        let answers = self.answers.clone();
        self.drop_all(&|at, _| answers[at] != 0);
        self.drop_nodes();
        self.smaller_thresholds();
        self.drop_chunks(&|step| *step == Step::Tick);
        self.drop_chunks(&|_| true);
        self.drop_pairs();
        self.compromise();
        self.merge_nodes();
        self.queries();
    }

    /// The last start with what follows it, alone; or with the one before it; or with all the others, but bare.
    fn drop_before_a_start(&mut self) {
        let starts: Vec<usize> = self.starts().into_iter().rev().collect();
        let last = starts.first().copied().unwrap_or(0);
        if self.drop_all(&|_, _| true) {
            return;
        }
        let found = starts.iter().take(3).any(|&start| self.drop_all(&|at, _| at < start));
        if !found {
            self.drop_all(&|at, step| at < last && !matches!(step, Step::Start { .. }));
        }
    }

    fn starts(&self) -> Vec<usize> {
        segments(&self.best.steps).into_iter().map(|segment| segment.start).collect()
    }

    /// The nodes at which something happens, rising.
    fn acting(&self) -> Vec<u8> {
        Vec::from_iter(self.best.steps.iter().filter_map(Step::acting).collect::<BTreeSet<u8>>())
    }

    /// All that happens at some nodes: at half of them, at a quarter, .. at one.
    fn drop_nodes(&mut self) {
        let nodes = self.acting();
        let mut size = nodes.len() / 2;
        while size > 0 {
            for some in nodes.chunks(size) {
                self.drop_all(&|_, step| step.acting().is_some_and(|node| some.contains(&node)));
            }
            size /= 2;
        }
    }

    /// Of the steps of a kind one half, a quarter, .. a single one; the later ones first, on which none depends.
    fn drop_chunks(&mut self, is_one: &dyn Fn(&Step) -> bool) {
        let those = |log: &Log| Vec::from_iter((0..log.steps.len()).filter(|&at| is_one(&log.steps[at])));
        let mut size = those(&self.best).len().div_ceil(2);
        while size > 0 {
            let mut end = those(&self.best).len();
            while end > 0 {
                let chunk = those(&self.best)[end.saturating_sub(size)..end].to_vec();
                self.drop_all(&|at, _| chunk.contains(&at));
                end = end.saturating_sub(size).min(those(&self.best).len());
            }
            size = if size == 1 { 0 } else { size.div_ceil(2) };
        }
    }

    /// Two steps at one node, or two neighbours: neither may go alone.
    fn drop_pairs(&mut self) {
        let mut second = self.best.steps.len();
        while second > 1 {
            second = (second - 1).min(self.best.steps.len().saturating_sub(1));
            for first in (second.saturating_sub(6)..second).rev() {
                let [one, other] = [first, second].map(|at| self.best.steps[at].acting());
                if (one == other || first + 1 == second) && self.drop_all(&|at, _| at == first || at == second) {
                    break;
                }
            }
        }
    }

    /// One node does what two did: then it need not start up twice.
    fn merge_nodes(&mut self) {
        let nodes: Vec<u8> = self.acting().into_iter().take(5).collect();
        for (one, other) in nodes.iter().flat_map(|one| nodes.iter().map(move |other| (*one, *other))) {
            let mut steps = self.best.steps.clone();
            for node in steps.iter_mut().flat_map(|step| fields(step).nodes).filter(|node| **node == one) {
                *node = other;
            }
            self.replace(&steps);
        }
    }

    /// A node that is compromised needs no steps of its own to have its shares delivered.
    fn compromise(&mut self) {
        for segment in segments(&self.best.steps).into_iter().rev() {
            for node in 0..MOST_NODES {
                let inside = |at: usize| segment.contains(&at);
                self.edit(&|at, step| match step {
                    Step::Start { f, k, set, status, g } if at == segment.start => {
                        Some(Step::Start { f, k, set: set | 1 << node, status, g })
                    }
                    _ => (!inside(at) || step.acting() != Some(node)).then_some(step),
                });
            }
        }
    }
}

impl Shrinking<'_> {
    fn make_plain(&mut self) {
        let numbers: [Change; 3] = [from_the_plain_clock, counted_numbers, nodes_as_they_come];
        self.change_sites(&numbers);
        self.change_sites(&[numbers_from_one]);
        self.change_sites(&[closed_at_first]);
        self.smaller_sites();
        self.single_shares();
        self.nearer_numbers();
        self.plainer_version();
    }

    /// Version 1 where there is no pair, and of versions that there are not the first.
    fn plainer_version(&mut self) {
        let is_known = log::open(&self.best.bytes()).is_some();
        if self.best.steps.iter().any(|step| matches!(step, Step::Pair { .. })) {
            return;
        }
        self.take(Log { version: Some(log::FIRST_VERSION), ..self.best.clone() });
        if !is_known {
            self.take(Log { version: Some(log::LAST_VERSION + 1), ..self.best.clone() });
        }
    }

    fn replace(&mut self, steps: &[Step]) -> bool {
        self.edit(&|at, _| Some(steps[at]))
    }

    /// The changes at every site at once, or else one by one.
    fn change_sites(&mut self, changes: &[Change]) {
        let mut steps = self.best.steps.clone();
        for segment in segments(&steps) {
            changes.iter().for_each(|change| change(&mut steps[segment.clone()]));
        }
        if self.replace(&steps) {
            return;
        }
        let sites = self.starts().len();
        for (change, site) in changes.iter().flat_map(|change| (0..sites).map(move |site| (change, site))) {
            let mut steps = self.best.steps.clone();
            if let Some(segment) = segments(&steps).get(site) {
                change(&mut steps[segment.clone()]);
                self.replace(&steps);
            }
        }
    }

    /// Sites with a smaller f; or with f smaller by one and a node gone, with all that it does and sends.
    fn smaller_thresholds(&mut self) {
        for segment in segments(&self.best.steps).into_iter().rev() {
            let Some(&Step::Start { f, .. }) = self.best.steps.get(segment.start) else { continue };
            if !(0..f).any(|fewer| self.with_threshold(&segment, fewer, None)) && f > 0 {
                (0..MOST_NODES).any(|node| self.with_threshold(&segment, f - 1, Some(node)));
            }
        }
    }

    fn with_threshold(&mut self, segment: &Range<usize>, f: u8, without: Option<u8>) -> bool {
        let segment = segment.start..segment.end.min(self.best.steps.len());
        let goes = |step: &Step| without.is_some() && (step.acting() == without || sender_of(step) == without);
        let stays = |at: &usize| self.is_last(*at) || !goes(&self.best.steps[*at]);
        let places: Vec<usize> = segment.clone().filter(stays).collect();
        if without.is_some() && places.len() == segment.len() {
            return false;
        }
        let mut steps: Vec<Step> = places.iter().map(|&at| self.best.steps[at]).collect();
        if let (Some(node), Some(Step::Start { set, .. })) = (without, steps.first_mut()) {
            *set &= !(1 << node);
        }
        let steps: BTreeMap<usize, Step> = places.into_iter().zip(with_threshold(steps, f)).collect();
        self.edit(&|at, step| if segment.contains(&at) { steps.get(&at).copied() } else { Some(step) })
    }

    /// A query for the first ack of a node that starts up.
    fn queries(&mut self) {
        for at in (0..self.best.steps.len()).rev() {
            let Some(&Step::Ack { node, t, .. }) = self.best.steps.get(at) else { continue };
            if self.before(at).refusal(&Step::Query { node, t }) == 0 {
                self.put(at, Step::Query { node, t });
            }
        }
    }

    /// The log with another step in the place of that one.
    fn put(&mut self, at: usize, other: Step) -> bool {
        self.edit(&|place, step| Some(if place == at { other } else { step }))
    }

    /// Each Start with the breaker closed, and with k and the compromised set smaller.
    fn smaller_sites(&mut self) {
        let starts = (0..self.best.steps.len()).rev().filter(|&at| matches!(self.best.steps[at], Step::Start { .. }));
        for at in Vec::from_iter(starts) {
            for smaller in [closed, fewer_down, fewer_compromised] {
                let Some(start) = self.best.steps.get(at).copied() else { break };
                let mut ways = smaller(start).into_iter();
                ways.any(|start| self.put(at, start));
            }
        }
    }

    /// One share of a pair.
    fn single_shares(&mut self) {
        for at in (0..self.best.steps.len()).rev() {
            let Some(&Step::Pair { sender, receiver, t, status, stamp }) = self.best.steps.get(at) else { continue };
            for stamp in [stamp, stamp.wrapping_add(1)] {
                self.put(at, Step::Deliver { sender, receiver, t, status, stamp });
            }
        }
    }

    /// Each number by itself nearer to where it is plainest, where no step is lost by it.
    fn nearer_numbers(&mut self) {
        for at in (0..self.best.steps.len()).rev() {
            for which in EACH {
                let Some(&step) = self.best.steps.get(at) else { break };
                let mut ways = nearer(step, which, &self.before(at)).into_iter();
                ways.any(|nearer| {
                    let log = self.edited(&|place, step| Some(if place == at { nearer } else { step }));
                    log.steps.len() == self.best.steps.len() && self.take(log)
                });
            }
        }
    }

    /// The reference before that step.
    fn before(&self, at: usize) -> Model {
        let mut model = Model::default();
        self.best.steps[..at].iter().for_each(|step| {
            model.step(step);
        });
        model
    }

    /// What is malformed: alone, cut short, with pieces of it gone, and its bytes smaller.
    fn shorten_tail(&mut self) {
        let with = |log: &Log, tail: Vec<u8>| Log { tail, ..log.clone() };
        let length = self.best.tail.len();
        (0..length.min(16)).any(|length| self.take(with(&self.best, self.best.tail[..length].to_vec())));
        let mut size = self.best.tail.len() / 2;
        while size > 0 {
            let mut end = self.best.tail.len();
            while end > 0 {
                let mut tail = self.best.tail.clone();
                tail.drain(end.saturating_sub(size)..end);
                self.take(with(&self.best, tail));
                end = end.saturating_sub(size).min(self.best.tail.len());
            }
            size /= 2;
        }
        for at in 0..self.best.tail.len().min(16) {
            for smaller in [0, 1, 2, 13] {
                let mut tail = self.best.tail.clone();
                if tail.get(at).is_some_and(|&byte| smaller < byte) {
                    tail[at] = smaller;
                    if self.take(with(&self.best, tail)) {
                        break;
                    }
                }
            }
        }
    }
}

fn lower(step: &mut Step, by: u32) {
    let fields = fields(step);
    for number in fields.clock.into_iter().chain(fields.stamp) {
        *number = number.saturating_sub(by);
    }
}

/// The step, or one that is near it, which the reference answers so.
fn mended(step: Step, answer: u8, model: &Model) -> Option<Step> {
    let answered_so = |near: &Step| model.refusal(near) == answer;
    Some(step).filter(answered_so).or_else(|| near(step, model).into_iter().find(answered_so))
}

/// The step with another clock, stamp or state number.
fn near(step: Step, model: &Model) -> Vec<Step> {
    let Some(site) = model.site.as_ref().filter(|_| !matches!(step, Step::Start { .. })) else { return Vec::new() };
    let mut all = Vec::new();
    if let Some(stamp) = value(step, Which::Stamp) {
        let stamps = [1, -1, 2, -2, 3, -3].map(|away| stamp.saturating_add_signed(away));
        all.extend(stamps.map(|stamp| with_value(step, Which::Stamp, stamp)));
    }
    all.extend([0, 1].map(|ahead| with_value(step, Which::Clock, site.g as u32 + ahead)));
    let last = match step.acting().and_then(|node| site.nodes.get(&node)) {
        Some(Record::Starting(learned)) => learned.number,
        Some(Record::Running(running)) => Some(running.number),
        _ => None,
    };
    all.push(with_value(step, Which::Number, last.map_or(1, |last| last.wrapping_add(1))));
    all
}
