//! Large files whose every step has a candidate: as they are drawn, nearly all
//! would be refused for a step that has none.

use crate::days::Days;
use crate::file::{File, Grant, Work};
use crate::planner::study;
use crate::rng::Rng;
use crate::views;

/// Widens grants, to few subjects and for as little as is below the step that
/// nobody may run, until somebody may run each. What was unseen becomes sealed,
/// or all becomes clear; no view is narrowed, so this comes to an end.
pub fn serve(rng: &mut Rng, file: &mut File) {
    let trusted: Vec<usize> = (0..rng.within(1, 3)).map(|_| rng.below(file.subjects)).collect();
    while let Some(step) = unserved(file) {
        let (subject, in_clear) = (rng.pick(&trusted), rng.percent(50));
        for relation in relations_below(file, step) {
            widen(file, relation, subject, in_clear);
        }
    }
}

fn unserved(file: &File) -> Option<usize> {
    let study = study(&file.write()).expect("the file keeps every rule");
    study.full_options().err().map(|refusal| refusal.place as usize)
}

fn relations_below(file: &File, node: usize) -> Vec<usize> {
    match file.nodes[node].work {
        Work::Leaf { relation, .. } => vec![relation],
        ref work => work.children().flat_map(|child| relations_below(file, child)).collect(),
    }
}

fn widen(file: &mut File, relation: usize, subject: usize, in_clear: bool) {
    let all = file.relations[relation].set;
    let held = views::of_relation(&file.grants, file.nights_day(), relation, subject);
    let clear = if in_clear { all } else { held.clear };
    let (subject, sealed) = (Some(subject), all.minus(&clear));
    file.put(Grant { relation, subject, clear, sealed, days: Days::ALL });
}
