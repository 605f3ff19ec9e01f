//! Grants for valid files: how each subject sees each relation.

use crate::days::Days;
use crate::file::{Grant, Relation};
use crate::rng::Rng;
use crate::sets::Flags;
use crate::valid::Size;

#[derive(Clone, Copy)]
pub enum Pattern {
    NoGrant,
    AllClear,
    AllSealed,
    NothingSeen,
    /// Each attribute clear, sealed or unseen.
    Split,
    /// All sealed but a few clear.
    FewClear,
    /// All in one form but one attribute, which tells just what is asked.
    AllButOne,
}

/// How a file's grants are drawn: a list of patterns, each as likely.
const MOODS: [&[Pattern]; 8] = [
    &[Pattern::AllButOne, Pattern::AllButOne, Pattern::AllButOne, Pattern::AllClear],
    &[Pattern::AllButOne, Pattern::AllClear, Pattern::AllSealed, Pattern::NothingSeen],
    &[Pattern::AllClear, Pattern::AllClear, Pattern::AllSealed, Pattern::NoGrant],
    &[Pattern::AllSealed, Pattern::AllSealed, Pattern::AllSealed, Pattern::FewClear],
    &[Pattern::AllSealed, Pattern::FewClear, Pattern::AllClear, Pattern::Split],
    &[Pattern::NoGrant, Pattern::AllClear, Pattern::NoGrant, Pattern::NothingSeen],
    &[Pattern::NoGrant, Pattern::NothingSeen, Pattern::Split, Pattern::AllSealed],
    &[Pattern::AllClear, Pattern::AllSealed, Pattern::NothingSeen, Pattern::Split],
];

/// In a file of many nodes a subject that draws for each relation anew soon has
/// no step, so most draw once for all: one of these.
const STEADY: [Pattern; 4] =
    [Pattern::AllClear, Pattern::AllSealed, Pattern::FewClear, Pattern::AllButOne];

fn all_but_one(rng: &mut Rng, all: &Flags) -> (Flags, Flags) {
    let one = Flags::of(&[rng.pick(&all.list())]);
    let (rest, other) = (all.minus(&one), if rng.percent(60) { Flags::NONE } else { one });
    if rng.percent(50) { (rest, other) } else { (other, rest) }
}

pub fn sets(rng: &mut Rng, pattern: Pattern, all: &Flags) -> Option<(Flags, Flags)> {
    let clear = match pattern {
        Pattern::NoGrant => return None,
        Pattern::AllButOne => return Some(all_but_one(rng, all)),
        Pattern::AllClear => *all,
        Pattern::AllSealed | Pattern::NothingSeen => Flags::NONE,
        Pattern::Split => subset(rng, all, 45),
        Pattern::FewClear => subset(rng, all, 25),
    };
    let rest = all.minus(&clear);
    Some(match pattern {
        Pattern::NothingSeen => (Flags::NONE, Flags::NONE),
        Pattern::Split => (clear, subset(rng, &rest, 60)),
        _ => (clear, rest),
    })
}

pub fn subset(rng: &mut Rng, of: &Flags, chance: usize) -> Flags {
    let held: Vec<usize> = of.list().into_iter().filter(|_| rng.percent(chance)).collect();
    Flags::of(&held)
}

pub fn nonempty_subset(rng: &mut Rng, of: &Flags, chance: usize) -> Flags {
    let sure = rng.pick(&of.list());
    subset(rng, of, chance).or(&Flags::of(&[sure]))
}

/// At most one for each pair, in force on all days.
pub fn grants(rng: &mut Rng, subjects: usize, relations: &[Relation], size: Size) -> Vec<Grant> {
    let mood = rng.pick(&MOODS);
    let full = matches!(size, Size::Longest);
    let chance = match size {
        Size::Even | Size::Middle | Size::Broad | Size::Large | Size::Longest => 60,
        Size::Tiny | Size::Paired | Size::Small | Size::Joined | Size::Deep | Size::Medium => 0,
    };
    let steady = |_| if rng.percent(chance) { Some(rng.pick(&STEADY)) } else { None };
    let steady: Vec<Option<Pattern>> = (0..subjects).map(steady).collect();
    let mut out = Vec::new();
    for (relation, Relation { owner, set }) in relations.iter().enumerate() {
        let own = full || rng.percent(70);
        for subject in (0..subjects).map(Some).chain([None]) {
            // Either the owner's own grant shows it all, or the one to any.
            let fixed = if subject == Some(*owner) { Some(own) } else { None };
            let drawn = subject.and_then(|subject| steady[subject]).unwrap_or(rng.pick(mood));
            let pattern = match (fixed, drawn) {
                (Some(true), _) => Pattern::AllClear,
                (Some(false), _) => Pattern::NoGrant,
                (None, _) if subject.is_none() && !own => Pattern::AllClear,
                (None, Pattern::NoGrant) if full => Pattern::NothingSeen,
                (None, drawn) => drawn,
            };
            if let Some((clear, sealed)) = sets(rng, pattern, set) {
                out.push(Grant { relation, subject, clear, sealed, days: Days::ALL });
            }
        }
    }
    rng.shuffle(&mut out);
    out
}
