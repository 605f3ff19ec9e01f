//! Every opening and sealing of a tiny file, tried by running it.

use crate::choice::{choices_within, for_every_choice};
use crate::file::{File, Work};
use crate::planner::{Plan, Study};
use crate::run::run;
use crate::sets::Flags;

/// More runs than this on one file are not worth their time.
const MOST_RUNS: usize = 30_000;
/// Up to this many bits of openings and sealings, even those are tried that
/// name what the table does not have or has in the wrong form.
const RAW_BITS: usize = 12;

fn subsets(set: Flags) -> impl Iterator<Item = Flags> {
    let members = set.list();
    (0..1u64 << members.len()).map(move |pattern| {
        let mut subset = Flags::NONE;
        for (place, &member) in members.iter().enumerate() {
            if pattern >> place & 1 == 1 {
                subset.put(member);
            }
        }
        subset
    })
}

/// A plan under way, with what every node so far leaves clear and sealed.
struct Walk<'a> {
    file: &'a File,
    plan: Plan,
    left: Vec<(Flags, Flags)>,
    /// Takes each whole plan; false ends the walk.
    each: &'a mut dyn FnMut(&Plan) -> bool,
}

impl Walk<'_> {
    fn arrives(&self, work: &Work) -> (Flags, Flags) {
        let (mut clear, mut sealed) = (Flags::NONE, Flags::NONE);
        if let Work::Leaf { set, .. } = work {
            clear = *set;
        }
        for child in work.children() {
            clear = clear.or(&self.left[child].0);
            sealed = sealed.or(&self.left[child].1);
        }
        (clear, sealed)
    }

    /// Each opening of what arrives sealed with each sealing of what is then
    /// clear: all others are stuck at once.
    fn go_on(&mut self) -> bool {
        let Some(node) = self.file.nodes.get(self.left.len()) else {
            return (self.each)(&self.plan);
        };
        let (clear, sealed) = self.arrives(&node.work);
        let after = node.work.visible_after(&clear.or(&sealed));
        for opens in subsets(sealed) {
            let result = clear.or(&opens).and(&after);
            for seals in subsets(result) {
                self.plan.opens.push(opens);
                self.plan.seals.push(seals);
                self.left.push((result.minus(&seals), after.minus(&result).or(&seals)));
                let more = self.go_on();
                self.plan.opens.pop();
                self.plan.seals.pop();
                self.left.pop();
                if !more {
                    return false;
                }
            }
        }
        true
    }
}

fn for_sensible_plans(file: &File, each: &mut dyn FnMut(&Plan) -> bool) -> bool {
    let plan = Plan { opens: vec![], seals: vec![] };
    Walk { file, plan, left: vec![], each }.go_on()
}

fn raw_bits(file: &File) -> usize {
    2 * file.attributes * file.nodes.len()
}

/// Every assignment of attributes to the openings and sealings of all nodes.
fn for_raw_plans(file: &File, each: &mut dyn FnMut(&Plan) -> bool) -> bool {
    let (nodes, attributes) = (file.nodes.len(), file.attributes);
    let part = |pattern: u64, index: usize| {
        Flags::from_bits(pattern >> (index * attributes)).and(&Flags::below(attributes))
    };
    (0..1u64 << raw_bits(file)).all(|pattern| {
        each(&Plan {
            opens: (0..nodes).map(|node| part(pattern, node)).collect(),
            seals: (0..nodes).map(|node| part(pattern, nodes + node)).collect(),
        })
    })
}

pub struct Tried {
    pub raw: bool,
    /// Whether there is a user, and one who may have every leaf's table.
    pub delivered: bool,
    pub choices: usize,
    pub plans: usize,
    pub runs: usize,
    /// Runs that reached the root, but not the user.
    pub undelivered: usize,
}

/// A choice with owners at the leaves, and whether a plan ran clean for it.
struct Tally {
    choice: Vec<usize>,
    clean: bool,
}

fn every_choice(study: &Study) -> Option<Vec<Tally>> {
    let file = &study.file;
    let everyone: Vec<usize> = (0..file.subjects).collect();
    let options: Vec<Vec<usize>> = (0..file.nodes.len())
        .map(|node| file.owner_at(node).map_or(everyone.clone(), |owner| vec![owner]))
        .collect();
    choices_within(&options, MOST_RUNS)?;
    let mut out = Vec::new();
    for_every_choice(&options, |choice| out.push(Tally { choice: choice.to_vec(), clean: false }));
    Some(out)
}

/// How many plans there are to try, if no more than `most`.
fn plans_within(file: &File, raw: bool, most: usize) -> Option<usize> {
    if raw {
        return Some(1 << raw_bits(file)).filter(|&plans| plans <= most);
    }
    let mut plans = 0;
    for_sensible_plans(file, &mut |_| {
        plans += 1;
        plans <= most
    })
    .then_some(plans)
}

/// For every choice with owners at the leaves: some plan runs clean exactly
/// when each chosen subject is a candidate. `None` where there are too many. A
/// user who may have every leaf's table is delivered all that reaches the root;
/// where another user is named, a run is clean when it reaches the root.
pub fn try_every(study: &Study) -> Result<Option<Tried>, String> {
    let file = &study.file;
    let Some(mut tallies) = every_choice(study) else { return Ok(None) };
    let raw = raw_bits(file) <= RAW_BITS;
    let Some(plans) = plans_within(file, raw, MOST_RUNS / tallies.len()) else { return Ok(None) };
    let delivered = file.user.is_some() && study.user_passes().is_ok();
    let mut tried =
        Tried { raw, delivered, choices: tallies.len(), plans, runs: 0, undelivered: 0 };
    let walk = if raw { for_raw_plans } else { for_sensible_plans };
    walk(file, &mut |plan| {
        let mut waiting = false;
        for tally in tallies.iter_mut().filter(|tally| !tally.clean) {
            tried.runs += 1;
            let ended = run(file, &study.views, &tally.choice, plan);
            let undelivered = ended.is_err_and(|fault| fault.at_delivery());
            tried.undelivered += usize::from(undelivered);
            tally.clean = ended.is_ok() || undelivered;
            waiting |= !tally.clean;
        }
        waiting
    });
    if delivered && tried.undelivered > 0 {
        return Err(format!("{} runs that do not reach the user", tried.undelivered));
    }
    let wrong = |tally: &&Tally| tally.clean != study.wronged(&tally.choice).is_none();
    match tallies.iter().find(wrong) {
        Some(Tally { choice, clean }) => Err(format!("choice {choice:?}: some clean plan {clean}")),
        None => Ok(Some(tried)),
    }
}
