//! Days for the grants of valid files: from version 4 on a pair has grants for one crop
//! cycle after another, before the night's day, on it and after it.

use crate::days::Days;
use crate::file::{File, Grant, MOST_GRANTS};
use crate::grants::{Pattern, sets};
use crate::rng::Rng;
use crate::sets::Flags;

const LAST: usize = u16::MAX as usize;
/// How many grants a pair has that are dated.
const COUNTS: [usize; 10] = [1, 1, 1, 1, 2, 2, 3, 4, 5, 6];
/// How a grant is drawn that is not in force on the night's day.
const IDLE: [Pattern; 5] = [
    Pattern::AllClear,
    Pattern::AllSealed,
    Pattern::NothingSeen,
    Pattern::Split,
    Pattern::AllButOne,
];

/// A night's day: the first or the last there is, one at which fewer bits would end,
/// or any.
pub fn night(rng: &mut Rng) -> u16 {
    let any = rng.next() as u16;
    rng.pick(&[0, 1, 255, 256, 32_767, 32_768, 65_534, 65_535, any, any, any, any])
}

/// Turns the night into another: the one before or after, or one next to the first or the
/// last day of some grant. Nobody need see any more what it saw.
pub fn other_night(rng: &mut Rng, file: &mut File) {
    let Some(day) = file.day else { return };
    let Days { first, last } = file.grants[rng.below(file.grants.len())].days;
    let next_to = |day: u16| [day.saturating_sub(1), day, day.saturating_add(1)];
    let days = [next_to(day), next_to(first), next_to(last)];
    file.day = Some(rng.pick(days.as_flattened()));
}

/// Dates the grants of a file that has a night's day. Views change by it, but every
/// owner's view of its own relation stays.
pub fn date(rng: &mut Rng, file: &mut File) {
    let Some(day) = file.day else { return };
    let drawn = std::mem::take(&mut file.grants);
    let chance = rng.pick(&[0, 25, 50, 75, 100]);
    let pairs = (0..file.relations.len()).flat_map(|relation| {
        (0..file.subjects).map(Some).chain([None]).map(move |to| (relation, to))
    });
    for (relation, subject) in pairs {
        let of_relation = |to: Option<usize>| {
            drawn.iter().find(|grant| grant.relation == relation && grant.subject == to)
        };
        let owner = Some(file.relations[relation].owner);
        let shows_owner = if of_relation(owner).is_some() { owner } else { None };
        let old = of_relation(subject);
        let stays = subject == shows_owner || rng.percent(75);
        let pair = Pair { relation, subject, all: file.relations[relation].set, day };
        file.grants.extend(match old {
            Some(old) if rng.percent(chance) => pair.dated(rng, old, stays),
            Some(old) => vec![old.clone()],
            None if rng.percent(chance / 3) => pair.idle(rng),
            None => vec![],
        });
    }
    rng.shuffle(&mut file.grants);
    fit(&mut file.grants, day);
}

/// Takes grants out that are not in force until there are no more than there may be:
/// in force are never more than there are pairs.
fn fit(grants: &mut Vec<Grant>, day: u16) {
    while grants.len() > MOST_GRANTS {
        let idle = grants.iter().rposition(|grant| !grant.days.has(day));
        grants.remove(idle.expect("more grants than pairs"));
    }
}

struct Pair {
    relation: usize,
    subject: Option<usize>,
    all: Flags,
    day: u16,
}

impl Pair {
    /// One to six grants, among them the old one, if it is to stay in force.
    fn dated(&self, rng: &mut Rng, old: &Grant, stays: bool) -> Vec<Grant> {
        let count = rng.pick(&COUNTS);
        if !stays {
            let idle = self.around(rng, self.day, self.day, count);
            // On the first day there is none before it, on the last none after it.
            return if idle.is_empty() { vec![old.clone()] } else { idle };
        }
        let (back, ahead) = (reach(rng), reach(rng));
        let days =
            Days { first: self.day.saturating_sub(back), last: self.day.saturating_add(ahead) };
        let mut grants = self.around(rng, days.first, days.last, count - 1);
        grants.push(Grant { days, ..old.clone() });
        grants
    }

    /// Grants of which none is in force on the night's day.
    fn idle(&self, rng: &mut Rng) -> Vec<Grant> {
        let count = rng.within(1, 3);
        self.around(rng, self.day, self.day, count)
    }

    /// So many grants, if there are days for them, before the first of these days and
    /// after the last.
    fn around(&self, rng: &mut Rng, first: u16, last: u16, count: usize) -> Vec<Grant> {
        let before = rng.within(0, count);
        let turned = |days: Days| Days { first: u16::MAX - days.last, last: u16::MAX - days.first };
        let mut all: Vec<Days> =
            from(rng, LAST + 1 - usize::from(first), before).into_iter().map(turned).collect();
        all.extend(from(rng, usize::from(last) + 1, count - before));
        let mut grant = |days: Days| {
            let pattern = rng.pick(&IDLE);
            let (clear, sealed) = sets(rng, pattern, &self.all).expect("each makes a grant");
            Grant { relation: self.relation, subject: self.subject, clear, sealed, days }
        };
        all.into_iter().map(&mut grant).collect()
    }
}

/// How many days a cycle goes on to one side of the night's day.
fn reach(rng: &mut Rng) -> u16 {
    let any = rng.next() as u16;
    rng.pick(&[0, 0, 0, 1, 30, 90, any, u16::MAX])
}

/// Cycles from a day on, mostly side by side; the last may go on to the end.
fn from(rng: &mut Rng, mut free: usize, count: usize) -> Vec<Days> {
    let mut out = Vec::new();
    for _ in 0..count {
        let first = free + rng.pick(&[0, 0, 0, 0, 1, 1, 30, 1_000]);
        let last = LAST.min(first + rng.pick(&[0, 0, 1, 6, 89, 364, LAST]));
        if first <= last {
            out.push(Days { first: first as u16, last: last as u16 });
        }
        free = last + 1;
    }
    out
}
