//! Logs made by rule, with names: sites one behind the other in one process, every field of every kind of step at its
//! limits and beside them in every state of a node, logs cut short, and logs with wrong bytes.

use crate::holding::paths::{PATHS, PATHS_WITH_PAIRS};
use crate::holding::scenes::{sizes, states, steps, Scene};
use reference::log;
use reference::model::Step;

pub use crate::holding::damage::{cut, damaged};

type Named = (String, Vec<u8>);

const VERSIONS: [u8; 2] = [log::FIRST_VERSION, log::LAST_VERSION];
const TOP: u32 = 1_000_000_000;

fn written(version: u8, steps: &[Step]) -> Vec<u8> {
    let mut bytes = vec![version];
    for step in steps {
        log::write(step, &mut bytes);
    }
    bytes
}

/// Whether logs of this version have the step.
fn has(version: u8, step: &Step) -> bool {
    log::read(version, &written(version, &[*step])[1..]).is_some()
}

/// A vote of one site. No command comes of f senders, neither from the node nor at the breaker, and each does of f + 1.
/// The compromised nodes vote first.
fn vote(version: u8, f: u8, k: u8, set: u16, g: u32) -> Vec<Step> {
    let n = 2 * f + k + 1;
    let is_compromised = |node: &u8| set >> node & 1 == 1;
    let (compromised, correct): (Vec<u8>, Vec<u8>) = (0..n).partition(is_compromised);
    let correct = &correct[..usize::from(f) + 1 - compromised.len()];
    let (node, others) = (correct[0], compromised.iter().chain(&correct[1..]));
    let t = g + 1;
    let report = |node, number| Step::Report { node, t, status: 1, number };
    let command = Step::Command { t, status: 1, stamp: t };
    let mut steps = vec![Step::Start { f, k, set, status: 0, g }];
    for &node in correct {
        steps.extend([Step::Query { node, t: g }, Step::Report { node, t: g, status: 0, number: 1 }]);
    }
    steps.extend([Step::Tick, command, report(node, 2)]);
    for &sender in others {
        steps.push(command);
        if correct.contains(&sender) {
            steps.push(report(sender, 2));
        }
        steps.push(match version {
            1 => Step::Deliver { sender, receiver: node, t, status: 1, stamp: t },
            _ => Step::Pair { sender, receiver: node, t, status: 1, stamp: t },
        });
    }
    steps.extend([command, Step::Ack { node, t, back: 0 }, Step::Ack { node, t, back: 1 }]);
    steps
}

/// So many nodes go down as may, and one more is turned away, before and after another comes back.
fn recoveries(f: u8, k: u8, set: u16, g: u32) -> Vec<Step> {
    let n = 2 * f + k + 1;
    let correct: Vec<u8> = (0..n).filter(|node| set >> node & 1 == 0).collect();
    let (last, one_more) = (n - 1, correct[usize::from(k)]);
    let mut steps = vec![Step::Start { f, k, set, status: 1, g }, Step::Query { node: last, t: g }];
    steps.push(Step::Query { node: n, t: g });
    steps.extend(correct[..usize::from(k) + 1].iter().map(|&node| Step::Down { node }));
    let first = correct[0];
    steps.extend([Step::Up { node: first }, Step::Down { node: one_more }, Step::Down { node: first }]);
    steps.extend([Step::Up { node: one_more }, Step::Query { node: one_more, t: g + 1 }]);
    steps
}

/// So many compromised nodes: the first ones, or the last.
fn compromised(f: u8, k: u8, count: u8, last: bool) -> u16 {
    let from = if last { 2 * f + k + 1 - count } else { 0 };
    ((1 << count) - 1) << from
}

/// Sites one behind the other in one process: whatever is kept of the one before shows in the next.
pub fn starts() -> Vec<Named> {
    let pairs = |most: u8| (0..=most).flat_map(move |first| (0..=most).map(move |second| (first, second)));
    let mut logs = Vec::new();
    for version in VERSIONS {
        let (mut correct, mut with_compromised, mut down) = (Vec::new(), Vec::new(), Vec::new());
        for (first, second) in pairs(4) {
            for (f, k) in [(first, second % 4), (second, (first + second) % 4)] {
                correct.extend(vote(version, f, k, 0, 100));
            }
            let (all, half) = (compromised(first, 1, first, true), compromised(second, 2, second.div_ceil(2), false));
            with_compromised.extend(vote(version, first, 1, all, 100));
            with_compromised.extend(vote(version, second, 2, half, 99));
        }
        for (first, second) in pairs(3) {
            let g = 500 - 10 * u32::from(4 * first + second);
            down.extend(recoveries(1, first, 0b1, g));
            down.extend(recoveries(second, second, 0, g - 5));
        }
        logs.push((format!("every f behind every f, version {version}"), written(version, &correct)));
        let name = format!("every f behind every f with compromised nodes, version {version}");
        logs.push((name, written(version, &with_compromised)));
        logs.push((format!("every k behind every k, version {version}"), written(version, &down)));
    }
    logs
}

/// A step of every kind at the scene's node, as it would be taken in one state or another.
fn bases(scene: &Scene) -> Vec<Step> {
    let &Scene { node, sender, g: t, action: status, .. } = scene;
    vec![
        Step::Report { node, t, status, number: 8 },
        Step::Deliver { sender, receiver: node, t, status, stamp: t },
        Step::Pair { sender, receiver: node, t, status, stamp: t },
        Step::ShareTimeout { node, t },
        Step::ResendTimeout { node, t },
        Step::Command { t, status, stamp: t },
        Step::Ack { node, t, back: 0 },
        Step::Query { node, t },
        Step::Down { node },
        Step::Up { node },
    ]
}

fn name(step: &Step) -> String {
    format!("{step:?}").split(' ').next().unwrap().to_string()
}

fn with_node(mut step: Step, now: u8) -> Option<Step> {
    match &mut step {
        Step::Report { node, .. }
        | Step::Deliver { receiver: node, .. }
        | Step::Pair { receiver: node, .. }
        | Step::ShareTimeout { node, .. }
        | Step::ResendTimeout { node, .. }
        | Step::Ack { node, .. }
        | Step::Query { node, .. }
        | Step::Down { node }
        | Step::Up { node } => *node = now,
        Step::Start { .. } | Step::Tick | Step::Command { .. } => return None,
    }
    Some(step)
}

fn with_sender(mut step: Step, now: u8) -> Option<Step> {
    match &mut step {
        Step::Deliver { sender, .. } | Step::Pair { sender, .. } => *sender = now,
        _ => return None,
    }
    Some(step)
}

fn with_clock(mut step: Step, now: u32) -> Option<Step> {
    match &mut step {
        Step::Report { t, .. }
        | Step::Deliver { t, .. }
        | Step::Pair { t, .. }
        | Step::ShareTimeout { t, .. }
        | Step::ResendTimeout { t, .. }
        | Step::Command { t, .. }
        | Step::Ack { t, .. }
        | Step::Query { t, .. } => *t = now,
        Step::Start { .. } | Step::Tick | Step::Down { .. } | Step::Up { .. } => return None,
    }
    Some(step)
}

fn with_status(mut step: Step, now: u8) -> Option<Step> {
    match &mut step {
        Step::Start { status, .. }
        | Step::Report { status, .. }
        | Step::Deliver { status, .. }
        | Step::Pair { status, .. }
        | Step::Command { status, .. } => *status = now,
        _ => return None,
    }
    Some(step)
}

fn with_stamp(mut step: Step, now: u32) -> Option<Step> {
    match &mut step {
        Step::Deliver { stamp, .. } | Step::Pair { stamp, .. } | Step::Command { stamp, .. } => *stamp = now,
        _ => return None,
    }
    Some(step)
}

fn with_number(mut step: Step, now: u32) -> Option<Step> {
    match &mut step {
        Step::Report { number, .. } => *number = now,
        _ => return None,
    }
    Some(step)
}

fn with_back(mut step: Step, now: u8) -> Option<Step> {
    match &mut step {
        Step::Ack { back, .. } => *back = now,
        _ => return None,
    }
    Some(step)
}

const STATUSES: [u8; 4] = [0, 1, 2, 255];
/// How far a state number lies from the last.
const AHEAD: [u32; 7] = [0, 1, 2, 2_147_483_647, 2_147_483_648, 2_147_483_649, u32::MAX];

/// The step, and then with each of its fields at its limits and beside them, one field at a time.
fn variations(base: Step, scene: &Scene) -> Vec<Step> {
    let (n, g) = (scene.n, scene.g);
    let nodes = [0, n - 1, n, 12, 15, 16, 255];
    let clocks = [g - 1, g + 1, g + 2, 0, TOP, TOP + 1, u32::MAX];
    let around = (0..8).map(|away| (g + away).wrapping_sub(4));
    let stamps: Vec<u32> = around.chain([0, TOP, u32::MAX - 1, u32::MAX]).collect();
    let backs = [1, 2, 7, 8, 255];
    let mut steps = vec![base];
    steps.extend(nodes.iter().filter_map(|&now| with_node(base, now)));
    steps.extend(nodes.iter().chain(scene.helpers).filter_map(|&now| with_sender(base, now)));
    steps.extend(clocks.iter().filter_map(|&now| with_clock(base, now)));
    steps.extend(STATUSES.iter().filter_map(|&now| with_status(base, now)));
    steps.extend(stamps.iter().filter_map(|&now| with_stamp(base, now)));
    steps.extend(AHEAD.iter().filter_map(|&ahead| with_number(base, ahead.wrapping_add(7))));
    steps.extend(backs.iter().filter_map(|&now| with_back(base, now)));
    steps
}

/// Steps behind the one in question that show what it has changed: the clocks, the state, what is held, the timers, the
/// last number, what was shared.
fn probes(scene: &Scene, tested: &Step) -> Vec<Step> {
    let &Scene { node, g, action: status, .. } = scene;
    let stamp = match *tested {
        Step::Deliver { stamp, .. } | Step::Pair { stamp, .. } if stamp.abs_diff(g) <= 2 => stamp,
        _ => g,
    };
    let deliver = |&sender: &u8| Step::Deliver { sender, receiver: node, t: g, status, stamp };
    let mut steps = vec![Step::ShareTimeout { node, t: g }];
    steps.extend(scene.helpers.iter().map(deliver));
    steps.push(Step::ResendTimeout { node, t: g + 1 });
    steps.push(Step::Report { node, t: g + 1, status: 1 - status, number: 77 });
    steps.push(Step::Command { t: g, status, stamp: g });
    steps
}

/// The step with one field so that it is turned away for it, if nothing comes before.
fn wrongs(step: Step, scene: &Scene) -> Vec<Step> {
    let &Scene { n, g, action, .. } = scene;
    let helper = *scene.helpers.last().unwrap();
    let all = [
        with_node(step, n),
        with_node(step, 0),
        with_sender(step, n),
        with_sender(step, helper),
        with_clock(step, g + 2),
        with_status(step, 2),
        with_status(step, 1 - action),
        with_stamp(step, g + 9),
        with_number(step, 7),
        with_back(step, 7),
        with_back(step, 8),
    ];
    all.into_iter().flatten().collect()
}

/// Steps that are turned away for several things, to see which comes first; then the same where the clock has gone on.
fn first_of_several(base: Step, scene: &Scene) -> Vec<Step> {
    let mut steps = scene.steps.clone();
    steps.extend(wrongs(base, scene).into_iter().flat_map(|wrong| wrongs(wrong, scene)));
    steps.extend(probes(scene, &base));
    if let Some(late) = with_clock(base, scene.g + 1) {
        steps.extend(&scene.steps);
        steps.push(late);
        steps.extend(wrongs(base, scene));
        steps.extend(probes(scene, &base));
    }
    steps
}

/// Each limit of a step of this kind in each scene. Behind one at g + 1 the clock goes back.
fn cases(kind: usize, scenes: &[Scene]) -> Vec<Step> {
    let mut steps = Vec::new();
    for scene in scenes {
        let base = bases(scene)[kind];
        for tested in variations(base, scene) {
            steps.extend(&scene.steps);
            steps.push(tested);
            if has_clock(&tested, scene.g + 1) {
                steps.push(base);
            }
            steps.extend(probes(scene, &tested));
        }
        steps.extend(first_of_several(base, scene));
    }
    steps
}

/// Starts at their limits. One that is turned away leaves the site before it.
fn start_cases(scene: &Scene) -> Vec<Step> {
    let start = |f, k, set| Step::Start { f, k, set, status: 0, g: 100 };
    let mut tested: Vec<Step> = [0, 4, 5, 255].iter().map(|&f| start(f, 1, 0)).collect();
    tested.extend([0, 3, 4, 255].iter().map(|&k| start(1, k, 0)));
    tested.extend(STATUSES.iter().map(|&status| Step::Start { f: 1, k: 1, set: 1, status, g: 100 }));
    let clocks = [0, 1, 2, 3, 999_999_000, 999_999_001, TOP, u32::MAX];
    tested.extend(clocks.iter().map(|&g| Step::Start { f: 1, k: 1, set: 1, status: 1, g }));
    for (f, k) in [(0, 0), (0, 3), (1, 0), (1, 1), (2, 3), (3, 2), (4, 0), (4, 3)] {
        let n = 2 * f + k + 1;
        let numbers = [0, n - 1, n, 12, 15].map(|number: u8| 1 << number);
        tested.extend(numbers.map(|set| start(f, k, set)));
        tested.extend([f, f + 1].map(|count| start(f, k, compromised(f, k, count, true))));
    }
    let mut steps = Vec::new();
    for tested in tested {
        steps.extend(&scene.steps);
        steps.push(tested);
        let Step::Start { f, k, g, .. } = tested else { unreachable!() };
        let n = f.wrapping_mul(2).wrapping_add(k).wrapping_add(1);
        steps.extend([n.wrapping_sub(1), n].map(|node| Step::Query { node, t: g }));
        steps.push(Step::Report { node: n.wrapping_sub(1), t: g, status: 1, number: 1 });
        steps.extend(probes(scene, &tested));
        steps.push(Step::Tick);
    }
    steps
}

/// State numbers around each last one, at a running node and at one that starts up; and as the first after a recovery.
fn number_cases() -> Vec<Step> {
    let report = |status, number| Step::Report { node: 3, t: 100, status, number };
    let mut steps = Vec::new();
    for last in [0, 7, 2_147_483_647, 2_147_483_648, u32::MAX] {
        for ahead in AHEAD {
            let number = last.wrapping_add(ahead);
            for runs in [true, false] {
                steps.push(Step::Start { f: 1, k: 1, set: 1, status: 0, g: 100 });
                steps.extend(runs.then_some(Step::Query { node: 3, t: 100 }));
                steps.extend([report(0, last), report(1, number), report(0, number.wrapping_add(1))]);
                steps.extend([report(1, last.wrapping_add(1)), Step::Query { node: 3, t: 100 }]);
                steps.extend([Step::Down { node: 3 }, Step::Up { node: 3 }, report(1, number), report(0, number)]);
            }
        }
    }
    steps
}

/// Acks from every place behind every number of changes: at a node that knows nothing, at one that has asked the
/// breaker at the beginning, and at one that runs since then.
fn change_cases() -> Vec<Step> {
    let mut steps = Vec::new();
    for changes in [0, 1, 2, 7, 8, 9, 10] {
        for back in [0, 1, 6, 7, 8, 9, 255] {
            for knows in 0..3 {
                steps.push(Step::Start { f: 0, k: 1, set: 0, status: 0, g: 100 });
                let known = [Step::Query { node: 1, t: 100 }, Step::Report { node: 1, t: 100, status: 0, number: 1 }];
                steps.extend(&known[..knows]);
                steps.extend([Step::Query { node: 0, t: 100 }, Step::Report { node: 0, t: 100, status: 0, number: 1 }]);
                steps.extend((1..=changes).flat_map(change));
                let t = 100 + changes;
                let node = 1;
                steps.extend([Step::Ack { node, t, back }, Step::Report { node, t, status: 1, number: 2 }]);
                steps.extend([Step::ShareTimeout { node, t }, Step::ResendTimeout { node, t }]);
                steps.extend([Step::Ack { node, t, back: 0 }, Step::Report { node, t: t + 1, status: 0, number: 3 }]);
            }
        }
    }
    steps
}

/// Another node is down already, and perhaps no more may be; it comes back, and goes again.
fn down_case(scene: &Scene) -> Vec<Step> {
    let (node, other) = (scene.node, scene.helpers[0]);
    let (down, up) = (|node| Step::Down { node }, |node| Step::Up { node });
    let mut steps = scene.steps.clone();
    steps.extend([down(other), down(node), down(other), up(other), down(node), up(node), down(other)]);
    steps.extend(probes(scene, &down(node)));
    steps
}

/// The next clock, at which node 0 changes the breaker.
fn change(number: u32) -> [Step; 4] {
    let (node, t, status) = (0, 100 + number, (number % 2) as u8);
    let report = Step::Report { node, t, status, number: number + 1 };
    [Step::Tick, report, Step::Command { t, status, stamp: t }, Step::Ack { node, t, back: 0 }]
}

/// A step of each kind before any Start, plausible or not, and behind a Start that is turned away.
fn before_any_start(version: u8) -> Vec<u8> {
    let scene = &states(0)[0];
    let bases = bases(scene);
    let worse = bases.iter().filter_map(|&base| with_node(base, 255).or(with_status(base, 255)));
    let mut steps: Vec<Step> = [Step::Tick].into_iter().chain(bases.iter().copied()).chain(worse).collect();
    steps.push(Step::Start { f: 5, k: 0, set: 0, status: 0, g: 100 });
    steps.extend_from_within(..);
    steps.push(Step::Start { f: 0, k: 0, set: 0, status: 1, g: 100 });
    steps.extend([Step::Query { node: 0, t: 100 }, Step::Tick]);
    steps.retain(|step| has(version, step));
    written(version, &steps)
}

/// Whether the step names this clock, or none.
fn has_clock(step: &Step, t: u32) -> bool {
    with_clock(*step, t).is_none_or(|same| same == *step)
}

/// Each state at the top of the clock, and then every step at its limits, one behind the other: first those that name
/// no clock of the site's, so that the state lasts for them, then those at g, at g + 1, and those without a clock.
fn top(version: u8) -> Vec<u8> {
    let mut steps = Vec::new();
    for scene in states(0).iter().chain(&sizes()[..3]).map(Scene::at_the_top) {
        let bases = bases(&scene);
        let late = bases.iter().filter_map(|&base| with_clock(base, TOP + 1));
        let late = late.flat_map(|base| (TOP - 2..=TOP + 4).filter_map(move |stamp| with_stamp(base, stamp)));
        let mut tested: Vec<Step> = bases.iter().flat_map(|&base| variations(base, &scene)).chain(late).collect();
        tested.sort_by_key(|step| (has_clock(step, TOP + 1), has_clock(step, TOP)));
        steps.extend(&scene.steps);
        steps.extend([Step::Tick, Step::Tick]);
        steps.extend(tested);
    }
    steps.retain(|step| has(version, step));
    written(version, &steps)
}

pub fn limits() -> Vec<Named> {
    let scenes: Vec<Scene> = states(0).into_iter().chain(states(1)).chain(sizes()).collect();
    let mut logs = Vec::new();
    for version in VERSIONS {
        let mut add = |name: String, bytes: Vec<u8>| logs.push((format!("{name}, version {version}"), bytes));
        for (kind, base) in bases(&scenes[0]).iter().enumerate().filter(|(_, base)| has(version, base)) {
            let mut steps = cases(kind, &scenes);
            match base {
                Step::Report { .. } => steps.extend(number_cases()),
                Step::Ack { .. } => steps.extend(change_cases()),
                Step::Down { .. } => steps.extend(scenes.iter().flat_map(down_case)),
                _ => {}
            }
            add(format!("limits of {}", name(base)), written(version, &steps));
        }
        add("limits of Start".to_string(), written(version, &start_cases(&scenes[6])));
        add("before any Start".to_string(), before_any_start(version));
        add("the top of the clock".to_string(), top(version));
        let mut paths: Vec<Step> = PATHS.iter().flat_map(|path| [steps(path, 0), steps(path, 1)].concat()).collect();
        if version > 1 {
            paths.extend(PATHS_WITH_PAIRS.iter().flat_map(|path| [steps(path, 0), steps(path, 1)].concat()));
        }
        add("from state to state".to_string(), written(version, &paths));
    }
    logs
}
