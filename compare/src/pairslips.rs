//! Known ways to go wrong over pairs. A file for which one of them gives other
//! candidates, other keys or another verdict would show it: such files are counted.

use crate::file::{File, Work};
use crate::planner::{Answer, Key, Study, candidates, tables};

type Pairs = Vec<(usize, usize)>;

/// Those that readable files show, then those that faults alone show.
pub const NAMES: [&str; OF_READABLE + 4] = [
    "all pairs of a node tied into one set",
    "only the first pair of a node tied",
    "the last pair of a node left out",
    "all pairs of a node put under one key",
    "the pairs of a node read from the list's start",
    "all pairs of a node needed or none",
    EXCHANGED,
    "a pair that no node names looked at",
    HALF,
    PAST,
    CUT_SUM,
    BEFORE,
];
const OF_READABLE: usize = 8;
pub const EXCHANGED: &str = "left's and right's attribute exchanged";
pub const HALF: &str = "half a pair needed let through";
pub const PAST: &str = "a pair past the list read";
pub const CUT_SUM: &str = "first and count summed in 8 bits";
pub const BEFORE: &str = "kind 9 let through in version 2";

/// The pairs of each join on pairs, with the node and the number of the first.
pub fn joins(file: &File) -> impl Iterator<Item = (usize, usize, &Pairs)> {
    file.nodes.iter().enumerate().filter_map(|(node, of_node)| match &of_node.work {
        Work::JoinPairs { first, pairs, .. } => Some((node, *first, pairs)),
        _ => None,
    })
}

/// Whether the candidates would be others if the joins were on other pairs.
fn other_candidates(study: &Study, change: fn(&mut Pairs)) -> bool {
    let mut file = study.file.clone();
    for node in &mut file.nodes {
        if let Work::JoinPairs { pairs, .. } = &mut node.work {
            change(pairs);
        }
    }
    candidates(&file, &study.views, &tables(&file, |_| {})) != study.candidates
}

/// Links each pair to the next by one pair more.
fn merge(pairs: &mut Pairs) {
    let links: Pairs = pairs.windows(2).map(|two| (two[0].0, two[1].1)).collect();
    pairs.extend(links);
}

pub fn merged_shows(study: &Study) -> bool {
    other_candidates(study, merge)
}

fn drop_last(pairs: &mut Pairs) {
    if pairs.len() > 1 {
        pairs.pop();
    }
}

/// Whether the pairs have attributes under several keys.
fn keys_differ(keys: &[Key], pairs: &Pairs) -> bool {
    let has = |key: &Key, attribute: usize| key.attributes.contains(&attribute);
    let touches = |key: &&Key| pairs.iter().any(|&(x, y)| has(key, x) || has(key, y));
    keys.iter().filter(touches).count() > 1
}

/// Numbers of the list that no node names.
pub fn unnamed(file: &File) -> impl Iterator<Item = usize> {
    let named: Vec<_> = joins(file).map(|(_, first, pairs)| first..first + pairs.len()).collect();
    (0..file.list().len()).filter(move |index| !named.iter().any(|range| range.contains(index)))
}

/// Whether some pairs of a join are needed and others are not.
pub fn needs_some(file: &File, node: usize, pairs: &[(usize, usize)]) -> bool {
    let needed = |pair: &(usize, usize)| file.nodes[node].needed.has(pair.0);
    pairs.iter().any(needed) && !pairs.iter().all(needed)
}

/// Of each slip that readable files show, whether this one does.
pub fn shown(study: &Study, answers: &[&Answer]) -> [bool; OF_READABLE] {
    let (file, list) = (&study.file, study.file.list());
    let outside = |index: usize| list[index].iter().any(|&a| usize::from(a) >= file.attributes);
    let unnamed_outside = unnamed(file).any(outside);
    if joins(file).next().is_none() {
        return std::array::from_fn(|slip| slip == OF_READABLE - 1 && unnamed_outside);
    }
    let one_key = |pairs: &Pairs| answers.iter().any(|answer| keys_differ(&answer.keys, pairs));
    let from_start = |first: usize, count: usize| list[..count] != list[first..first + count];
    [
        merged_shows(study),
        other_candidates(study, |pairs| pairs.truncate(1)),
        other_candidates(study, drop_last),
        joins(file).any(|(_, _, pairs)| one_key(pairs)),
        joins(file).any(|(_, first, pairs)| from_start(first, pairs.len())),
        joins(file).any(|(node, _, pairs)| needs_some(file, node, pairs)),
        // Every right pair would be wrong.
        true,
        unnamed_outside,
    ]
}
