//! Plainer numbers: for all steps of a site, for a Start, and for one step.

use crate::holding::fields::{fields, members, sender_of, value, with_value, Which, PLAIN_CLOCK};
use reference::model::{Model, Step};
use reference::refusals::start_fits;
use std::collections::BTreeMap;
use std::ops::Range;

/// A number this far from a site's first clock is none of its clocks and stamps.
const FAR: u32 = 10_000;

/// n at most.
pub const MOST_NODES: u8 = 12;

/// From each Start that begins a site to the next.
pub fn segments(steps: &[Step]) -> Vec<Range<usize>> {
    let begins = |step: Step| match step {
        Step::Start { f, k, set, status, g } => start_fits(f, k, set, status, g),
        _ => false,
    };
    let mut bounds: Vec<usize> = (0..steps.len()).filter(|&at| begins(steps[at])).collect();
    bounds.push(steps.len());
    bounds.windows(2).map(|next| next[0]..next[1]).collect()
}

/// A change of all the steps of one site, its Start at their front.
pub type Change = fn(&mut [Step]);

/// Clocks and stamps so that the site begins at the plain clock.
pub fn from_the_plain_clock(steps: &mut [Step]) {
    let Some(Step::Start { g: first, .. }) = steps.first().copied() else { return };
    for step in steps {
        let fields = fields(step);
        for number in fields.clock.into_iter().chain(fields.stamp).filter(|number| number.abs_diff(first) < FAR) {
            *number = number.wrapping_sub(first).wrapping_add(PLAIN_CLOCK);
        }
    }
}

/// State numbers 1, 2, 3 .. at each node.
pub fn counted_numbers(steps: &mut [Step]) {
    let mut last = BTreeMap::new();
    for step in steps {
        if let Step::Report { node, number, .. } = step {
            let count = last.entry(*node).or_insert(0);
            *count += 1;
            *number = *count;
        }
    }
}

/// State numbers from 1 on at each node, as far from one another as they were.
pub fn numbers_from_one(steps: &mut [Step]) {
    let mut first = BTreeMap::new();
    for step in steps {
        if let Step::Report { node, number, .. } = step {
            let first = first.entry(*node).or_insert(*number);
            *number = number.wrapping_sub(*first).wrapping_add(1);
        }
    }
}

/// The other status everywhere, where the breaker begins tripped.
pub fn closed_at_first(steps: &mut [Step]) {
    if matches!(steps.first(), Some(Step::Start { status: 1, .. })) {
        for status in steps.iter_mut().filter_map(|step| fields(step).status).filter(|status| **status < 2) {
            *status = 1 - *status;
        }
    }
}

/// Nodes numbered as they come: those that act, those that only send, the last first, then other compromised ones.
pub fn nodes_as_they_come(steps: &mut [Step]) {
    let Some(Step::Start { f, k, set, .. }) = steps.first().copied() else { return };
    let n = 2 * f + k + 1;
    let senders = steps.iter().rev().filter_map(sender_of);
    let mut order: Vec<u8> = Vec::new();
    for node in steps.iter().filter_map(Step::acting).chain(senders).chain(members(set)).chain(0..n) {
        if node < n && !order.contains(&node) {
            order.push(node);
        }
    }
    let place = |node: u8| order.iter().position(|&other| other == node).map_or(node, |place| place as u8);
    for step in steps {
        if let Step::Start { set, .. } = step {
            *set = members(*set).map(|node| 1 << place(node)).sum();
        }
        for node in fields(step).nodes {
            *node = place(*node);
        }
    }
}

/// The site's steps with a smaller f: of the compromised nodes the first ones stay, and k is the smallest that leaves
/// room for all that act.
pub fn with_threshold(mut steps: Vec<Step>, fewer: u8) -> Vec<Step> {
    nodes_as_they_come(&mut steps);
    let highest = steps.iter().filter_map(Step::acting).filter(|&node| node < MOST_NODES).max();
    if let Some(Step::Start { f, k, set, .. }) = steps.first_mut() {
        *f = fewer;
        *set = members(*set).take(fewer.into()).map(|node| 1 << node).sum();
        let named = members(*set).chain(highest).max().map_or(0, |node| node + 1);
        *k = named.saturating_sub(2 * fewer + 1);
    }
    steps
}

/// The Start of a breaker that is closed.
pub fn closed(start: Step) -> Vec<Step> {
    let Step::Start { f, k, set, g, .. } = start else { return Vec::new() };
    vec![Step::Start { f, k, set, status: 0, g }]
}

pub fn fewer_down(start: Step) -> Vec<Step> {
    let Step::Start { f, k, set, status, g } = start else { return Vec::new() };
    (0..k.min(5)).map(|k| Step::Start { f, k, set, status, g }).collect()
}

pub fn fewer_compromised(start: Step) -> Vec<Step> {
    let Step::Start { f, k, set, status, g } = start else { return Vec::new() };
    let one_less = members(set).map(|node| set & !(1 << node));
    [0].into_iter().chain(one_less).map(|set| Step::Start { f, k, set, status, g }).collect()
}

/// The step with one of its numbers nearer to its plainest value, the plainest first.
pub fn nearer(step: Step, which: Which, model: &Model) -> Vec<Step> {
    let site = model.site.as_ref().filter(|_| !matches!(step, Step::Start { .. }));
    let (g, n) = site.map_or((PLAIN_CLOCK, 0), |site| (site.g as u32, u32::from(site.n)));
    let Some(now) = value(step, which) else { return Vec::new() };
    let plainest = match which {
        Which::Clock => g,
        Which::Stamp => value(step, Which::Clock).unwrap_or(g),
        Which::Status | Which::Back => 0,
        Which::Number => 1,
        // Those of the site are numbered by `nodes_as_they_come`.
        Which::Node(_) => now.min(n),
    };
    let ways: Vec<u32> = match now > plainest {
        true => (plainest..now).take(4).collect(),
        false => (now..plainest).map(|below| below + 1).rev().take(4).collect(),
    };
    ways.into_iter().map(|value| with_value(step, which, value)).collect()
}
