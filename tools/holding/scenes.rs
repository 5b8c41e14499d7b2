//! Scenes for the limits: each brings one node of a site into one state, with shares of others about that it can take.
//! In their texts the breaker starts with the status SAME; a scene is played with either.

use crate::notation::parse;
use reference::log;
use reference::model::{Model, Step};

pub struct Scene {
    pub steps: Vec<Step>,
    /// The clock and the number of nodes at the end.
    pub g: u32,
    pub n: u8,
    /// The node in question, one whose share it lacks, and nodes that have made shares.
    pub node: u8,
    pub sender: u8,
    pub helpers: &'static [u8],
    /// What the helpers share.
    pub action: u8,
}

/// How a scene is written down.
struct Text {
    /// What node 3 does before the breaker's first change, in the place of EARLY, and what it does at the end.
    early: &'static str,
    late: &'static str,
}

/// Node 0 is compromised. The breaker has changed to OTHER at 102. At the end the clock is 105, and of the five stamps
/// that are fresh then node 1 has shared SAME at the first three, node 2 at the last two.
const FOUR_NODES: &str = "Start(1, 1, {0}, SAME, 100)
    EARLY
    Query(1, 100)
    Report(1, 100, SAME, 1)
    Query(2, 100)
    Report(2, 100, SAME, 1)
    Tick x 2
    Report(1, 102, OTHER, 2)
    Command(102, OTHER, 102)
    Ack(1, 102, 0)
    Ack(2, 102, 0)
    Tick
    Report(1, 103, SAME, 3)
    Tick x 2
    ShareTimeout(1, 105)
    Report(2, 106, SAME, 2)
    LATE";

/// One for each state of a node. In Attempt it has each of the five shares from a correct node, and lacks node 0's.
const STATES: [Text; 8] = [
    Text { early: "", late: "Down(3)" },
    Text { early: "", late: "" },
    Text { early: "", late: "Report(3, 105, SAME, 7)" },
    Text { early: "", late: "Query(3, 105)" },
    Text { early: "", late: "Query(3, 105)\n Report(3, 105, OTHER, 7)" },
    Text {
        early: "",
        late: "Query(3, 105)
            Report(3, 105, SAME, 7)
            Deliver(0, 3, 105, SAME, 105)
            Deliver(1, 3, 105, SAME, 105)",
    },
    Text {
        early: "",
        late: "Query(3, 105)
            Report(3, 105, SAME, 7)
            Deliver(1, 3, 105, SAME, 103)
            Deliver(1, 3, 105, SAME, 104)
            Deliver(1, 3, 105, SAME, 105)
            Deliver(2, 3, 105, SAME, 106)
            Deliver(2, 3, 105, SAME, 107)",
    },
    Text { early: "Report(3, 100, SAME, 7)", late: "Query(3, 105)" },
];

const ONE_NODE: &str = "Start(0, 0, {}, SAME, 100)
    Query(0, 100)
    Report(0, 100, SAME, 7)
    Tick x 5";

/// The last of twelve has four of the five shares that it needs at 105.
const TWELVE_NODES: &str = "Start(4, 3, {0, 1, 2}, SAME, 100)
    Query(3, 100)
    Report(3, 100, SAME, 1)
    Query(11, 100)
    Report(11, 100, SAME, 6)
    Tick x 5
    Report(3, 105, OTHER, 2)
    Report(11, 105, OTHER, 7)
    Deliver(1, 11, 105, OTHER, 105)
    Deliver(2, 11, 105, OTHER, 105)
    Deliver(3, 11, 105, OTHER, 105)";

/// Node 4 lacks the share of the last.
const LAST_SENDS: &str = "Start(4, 3, {0, 1, 2}, SAME, 100)
    Query(4, 100)
    Report(4, 100, SAME, 6)
    Query(11, 100)
    Report(11, 100, SAME, 1)
    Tick x 5
    Report(11, 105, OTHER, 2)
    Report(4, 105, OTHER, 7)
    Deliver(0, 4, 105, OTHER, 105)
    Deliver(1, 4, 105, OTHER, 105)
    Deliver(2, 4, 105, OTHER, 105)";

/// At the lowest clock: the stamps 0 to 4 are fresh.
const BOTTOM: &str = "Start(1, 1, {0}, SAME, 2)
    Query(1, 2)
    Report(1, 2, SAME, 1)
    Report(1, 3, OTHER, 2)
    Query(3, 2)
    Report(3, 2, SAME, 6)
    Report(3, 2, OTHER, 7)";

/// The steps of a text, with this status for SAME.
pub fn steps(text: &str, same: u8) -> Vec<Step> {
    let (same, other) = if same == 0 { ("CLOSE", "TRIP") } else { ("TRIP", "CLOSE") };
    let text = format!("version 2\n{}", text.replace("SAME", same).replace("OTHER", other));
    let bytes = parse(&text).expect("a scene has a slip").bytes;
    let (version, mut rest) = log::open(&bytes).unwrap();
    let mut steps = Vec::new();
    while let Some((step, length)) = log::read(version, rest) {
        steps.push(step);
        rest = &rest[length..];
    }
    steps
}

impl Scene {
    fn new(steps: Vec<Step>, node: u8, sender: u8, helpers: &'static [u8], action: u8) -> Scene {
        let mut model = Model::default();
        for step in &steps {
            model.step(step);
        }
        let site = model.site.unwrap();
        Scene { steps, g: site.g as u32, n: site.n, node, sender, helpers, action }
    }

    /// The same at the top of the clock: it starts as late as a site may, and ticks until it ends at 1,000,000,000.
    pub fn at_the_top(&self) -> Scene {
        let (latest, top) = (999_999_000, 1_000_000_000);
        let by = top - self.g;
        let mut steps = Vec::new();
        for &step in &self.steps {
            match moved(step, by) {
                Step::Start { f, k, set, status, g } => {
                    steps.push(Step::Start { f, k, set, status, g: latest });
                    steps.extend((latest..g).map(|_| Step::Tick));
                }
                step => steps.push(step),
            }
        }
        Scene { steps, g: top, ..*self }
    }
}

/// The step with every clock and stamp later by so much.
fn moved(mut step: Step, by: u32) -> Step {
    match &mut step {
        Step::Start { g, .. } => *g += by,
        Step::Deliver { t, stamp, .. } | Step::Pair { t, stamp, .. } | Step::Command { t, stamp, .. } => {
            *t += by;
            *stamp += by;
        }
        Step::Report { t, .. }
        | Step::ShareTimeout { t, .. }
        | Step::ResendTimeout { t, .. }
        | Step::Ack { t, .. }
        | Step::Query { t, .. } => *t += by,
        Step::Tick | Step::Down { .. } | Step::Up { .. } => {}
    }
    step
}

/// Node 3 of four in each state, the breaker's first status being this one.
pub fn states(same: u8) -> Vec<Scene> {
    let text = |state: &Text| FOUR_NODES.replace("EARLY", state.early).replace("LATE", state.late);
    STATES.iter().map(|state| Scene::new(steps(&text(state), same), 3, 0, &[1, 2], same)).collect()
}

/// Sites of one node and of twelve, and one at the lowest clock.
pub fn sizes() -> Vec<Scene> {
    vec![
        Scene::new(steps(ONE_NODE, 0), 0, 0, &[0], 1),
        Scene::new(steps(TWELVE_NODES, 0), 11, 0, &[3], 1),
        Scene::new(steps(LAST_SENDS, 1), 4, 11, &[11], 0),
        Scene::new(steps(BOTTOM, 0), 3, 0, &[1], 1),
    ]
}
