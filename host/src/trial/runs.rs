//! The random runs of the trials: how many, on how many blocks, over which keys, and what they must have met.
use super::cuts::Depth;
use super::run::{Met, Run};
use super::settings::Settings;
use super::universe::Universe;
use crate::calls::Calls;

/// One run's share of a trial.
struct Plan {
    blocks: usize,
    universe: Universe,
    calls: u64,
    cuts_one_in: u64,
    depth: Depth,
}

/// What several runs came to together.
#[derive(Default)]
struct Sum {
    calls: u64,
    met: Met,
    least_slack: Option<i64>,
}

impl Sum {
    fn add(&mut self, calls: u64, run: &Run) {
        self.calls += calls;
        self.met.refused_full += run.met.refused_full;
        self.met.emptied += run.met.emptied;
        self.met.freed += run.met.freed;
        self.met.taken_again += run.met.taken_again;
        self.met.taken_below += run.met.taken_below;
        self.met.splits += run.met.splits;
        self.met.cut_images += run.met.cut_images;
        let slack = run.tally.least_slack();
        self.least_slack = Some(self.least_slack.map_or(slack, |least| least.min(slack)));
    }

    /// Says what was met, and fails where something was not.
    fn close(&self, settings: &Settings) {
        let Met { refused_full, emptied, freed, taken_again, taken_below, splits, cut_images } = self.met;
        settings.say(&format!(
            "{} calls, {splits} splits, {freed} blocks freed, {taken_again} taken again, {taken_below} below another, \
             {refused_full} times full, {emptied} times emptied, {cut_images} cut images, least slack of demand 3: {}",
            self.calls,
            self.least_slack.expect("there were runs"),
        ));
        let all = [refused_full, emptied, freed, taken_again, splits, cut_images];
        assert!(all.iter().all(|&times| times > 0), "a run must meet all of this");
    }
}

fn universes(blocks: usize) -> [Universe; 5] {
    let fills = 20 * blocks as u64;
    [
        Universe::Dense(24),
        Universe::Dense(fills),
        Universe::Wide(fills),
        Universe::Wide(1 << 40),
        Universe::AllAlike(fills),
    ]
}

fn trial(calls: &dyn Calls, settings: &Settings, plans: &[Plan]) -> Met {
    let total = plans.iter().map(|plan| plan.calls).sum();
    let mut sum = Sum::default();
    for (part, plan) in plans.iter().enumerate() {
        let random = settings.random(part as u64);
        let mut run = Run::new(calls, random, plan.blocks, plan.universe).with_cuts(plan.cuts_one_in, plan.depth);
        for done in 0..plan.calls {
            run.call();
            settings.progress(sum.calls + done, total);
        }
        sum.add(plan.calls, &run);
    }
    sum.close(settings);
    sum.met
}

fn plans(blocks: &[usize], calls: u64, cuts_one_in: u64, depth: Depth) -> Vec<Plan> {
    let plan = |blocks: usize, universe| Plan { blocks, universe, calls, cuts_one_in, depth };
    blocks.iter().flat_map(|&blocks| universes(blocks).map(|universe| plan(blocks, universe))).collect()
}

pub fn few_blocks(calls: &dyn Calls, settings: &Settings) {
    let depth = Depth { most: 100, sample: 8 };
    let met = trial(calls, settings, &plans(&[1, 2, 3, 4, 5, 6, 7, 8], settings.times(8_000), 100, depth));
    assert!(met.taken_below > 0, "freed blocks are taken below others");
}

pub fn some_blocks(calls: &dyn Calls, settings: &Settings) {
    let depth = Depth { most: 30, sample: 4 };
    let met = trial(calls, settings, &plans(&[9, 16, 33, 65], settings.times(6_000), 400, depth));
    assert!(met.taken_below > 0, "freed blocks are taken below others");
}

/// Each long enough to fill its blocks and to empty them.
pub fn many_blocks(calls: &dyn Calls, settings: &Settings) {
    let kinds = [
        (256, Universe::Dense(5_120)),
        (256, Universe::Wide(1 << 40)),
        (255, Universe::Dense(24)),
        (130, Universe::AllAlike(2_600)),
        (100, Universe::Wide(2_000)),
    ];
    let plans = kinds.map(|(blocks, universe)| Plan {
        blocks,
        universe,
        calls: settings.times(64 * blocks as u64),
        cuts_one_in: 1_000,
        depth: Depth { most: 10, sample: 2 },
    });
    trial(calls, settings, &plans);
}

/// All cuts of every list of shorter runs.
pub fn every_cut(calls: &dyn Calls, settings: &Settings) {
    let depth = Depth { most: 4_096, sample: 64 };
    trial(calls, settings, &plans(&[2, 3, 5], settings.times(700), 1, depth));
}
