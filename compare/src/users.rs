//! Who asks: users for valid files, such as may have every leaf's table and such
//! as may not have one or several.

use crate::days::Days;
use crate::file::{File, Grant, Work};
use crate::rng::Rng;
use crate::sets::Flags;
use crate::views::{self, View};

/// Names another user, if the file has one: mostly one who may have every leaf's
/// table, and surely so where all is to fit.
pub fn name(rng: &mut Rng, file: &mut File, fits: bool) {
    if file.user.is_none() {
        return;
    }
    match rng.below(if fits { 16 } else { 20 }) {
        0..=15 => name_allowed(rng, file),
        16 | 17 => name_barred(rng, file, 1),
        18 => {
            let leaves = rng.within(2, 4);
            name_barred(rng, file, leaves);
        }
        _ => file.user = Some(rng.below(file.subjects)),
    }
}

/// Names a user who may have every leaf's table: one that may as it is, or one
/// whose grants are widened for it.
pub fn name_allowed(rng: &mut Rng, file: &mut File) {
    let sees_all = |&subject: &usize| {
        file.leaves()
            .into_iter()
            .all(|leaf| shown(file, leaf).within(&held(file, leaf, subject).clear))
    };
    let allowed: Vec<usize> = (0..file.subjects).filter(sees_all).collect();
    let as_it_is = !allowed.is_empty() && rng.percent(50);
    let user = if as_it_is { rng.pick(&allowed) } else { rng.below(file.subjects) };
    show_leaves(rng, file, user);
    file.user = Some(user);
}

/// Names a user who may have all leaves' tables but those of so many leaves, or
/// of all that are not its own: any of them, or the last.
fn name_barred(rng: &mut Rng, file: &mut File, leaves: usize) {
    let foreign = |subject: usize| {
        let of_others = |leaf: &usize| file.owner_at(*leaf) != Some(subject);
        file.leaves().into_iter().filter(of_others).collect::<Vec<usize>>()
    };
    let others: Vec<usize> = (0..file.subjects).filter(|&s| !foreign(s).is_empty()).collect();
    let user = if others.is_empty() { 0 } else { rng.pick(&others) };
    let mut barred = foreign(user);
    if rng.percent(50) {
        rng.shuffle(&mut barred);
    }
    show_leaves(rng, file, user);
    for &leaf in barred.iter().rev().take(leaves) {
        hide_leaf(rng, file, user, leaf);
    }
    file.user = Some(user);
}

pub fn relation_of(file: &File, leaf: usize) -> usize {
    match file.nodes[leaf].work {
        Work::Leaf { relation, .. } => relation,
        _ => unreachable!("only leaves are asked"),
    }
}

/// What a leaf shows of its relation.
pub fn shown(file: &File, leaf: usize) -> Flags {
    file.nodes[leaf].work.visible_after(&Flags::NONE)
}

fn held(file: &File, leaf: usize, subject: usize) -> View {
    views::of_relation(&file.grants, file.nights_day(), relation_of(file, leaf), subject)
}

/// Shows a subject all that the leaves hold, and at times the rest of a relation
/// too: it is not asked for.
fn show_leaves(rng: &mut Rng, file: &mut File, subject: usize) {
    for leaf in file.leaves() {
        let (relation, held) = (relation_of(file, leaf), held(file, leaf, subject));
        if shown(file, leaf).within(&held.clear) {
            continue;
        }
        let wanted = if rng.percent(30) { file.relations[relation].set } else { shown(file, leaf) };
        let (clear, sealed) = (held.clear.or(&wanted), held.sealed.minus(&wanted));
        file.put(Grant { relation, subject: Some(subject), clear, sealed, days: Days::ALL });
    }
}

/// Takes one column of a leaf, or all, out of what a subject sees in clear.
fn hide_leaf(rng: &mut Rng, file: &mut File, subject: usize, leaf: usize) {
    let (all, held) = (shown(file, leaf), held(file, leaf, subject));
    let hidden = if rng.percent(60) { Flags::of(&[rng.pick(&all.list())]) } else { all };
    let kept = if rng.percent(60) { hidden } else { Flags::NONE };
    file.put(Grant {
        relation: relation_of(file, leaf),
        subject: Some(subject),
        clear: held.clear.minus(&hidden),
        sealed: held.sealed.or(&kept),
        days: Days::ALL,
    });
}
