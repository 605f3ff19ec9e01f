//! Known ways to go wrong over days. A file for which one of them gives other
//! candidates or another verdict would show it: such files are counted.

use crate::days::Days;
use crate::file::{File, Grant};
use crate::planner::{Study, candidates};
use crate::sets::Flags;
use crate::views::View;

/// Those that readable files show, then those that faults alone show.
pub const NAMES: [&str; OF_READABLE + 7] = [
    "every grant taken to be in force",
    "the first day left out",
    "the last day left out",
    "only the first grant of a pair looked at",
    "only the last grant of a pair looked at",
    "the night's day taken for 0",
    "days compared in 8 bits",
    "days compared as signed numbers",
    "the bytes of a day exchanged",
    "an own grant out of force taken to hide any's",
    "a pair refused that is seen again on other days",
    TOUCHING,
    INSIDE,
    AROUND,
    NEIGHBOURS,
    LAST_FIRST,
    ANY_DAY,
    NOT_IN_FORCE,
];
const OF_READABLE: usize = 11;
/// Of these, so many give a pair's grants in force otherwise.
const OF_FORCE: usize = 9;
pub const TOUCHING: &str = "a last day that is another's first let through";
pub const INSIDE: &str = "a shared day looked for only at the earlier grant's ends";
pub const AROUND: &str = "a shared day looked for only at the later grant's ends";
pub const NEIGHBOURS: &str = "a shared day looked for only in the grant before";
pub const LAST_FIRST: &str = "a first day after the last let through";
pub const ANY_DAY: &str = "7 asked of grants on any day";
pub const NOT_IN_FORCE: &str = "a shared day let through on other nights";

/// Which of a pair's grants, in the file's order, is taken to be in force on a day.
type Taken = for<'a> fn(&[&'a Grant], u16) -> Option<&'a Grant>;

fn in_force<'a>(grants: &[&'a Grant], day: u16) -> Option<&'a Grant> {
    grants.iter().copied().find(|grant| grant.days.has(day))
}

fn found<'a>(grants: &[&'a Grant], in_force: impl Fn(Days) -> bool) -> Option<&'a Grant> {
    grants.iter().copied().find(|grant| in_force(grant.days))
}

const TAKEN: [Taken; OF_FORCE] = [
    |grants, _| grants.first().copied(),
    |grants, day| found(grants, |days| days.first < day && day <= days.last),
    |grants, day| found(grants, |days| days.first <= day && day < days.last),
    |grants, day| grants.first().copied().filter(|grant| grant.days.has(day)),
    |grants, day| grants.last().copied().filter(|grant| grant.days.has(day)),
    |grants, _| in_force(grants, 0),
    |grants, day| {
        found(grants, |days| days.first as u8 <= day as u8 && day as u8 <= days.last as u8)
    },
    |grants, day| {
        let signed = |day: u16| day as i16;
        found(grants, |days| signed(days.first) <= signed(day) && signed(day) <= signed(days.last))
    },
    |grants, day| {
        let turned = |days: Days| [days.first, day, days.last].map(u16::swap_bytes);
        found(grants, |days| turned(days).is_sorted())
    },
];

/// The views that a slip gives, by the relation's own grants and any's.
fn views<'a>(
    file: &File,
    pairs: &[Vec<&'a Grant>],
    seen: impl Fn(&[&'a Grant], &[&'a Grant]) -> Option<&'a Grant>,
) -> Vec<View> {
    let mut views = vec![View { clear: Flags::NONE, sealed: Flags::NONE }; file.subjects];
    for of_relation in pairs.chunks(file.subjects + 1) {
        let (any, own) = of_relation.split_last().expect("any has a place");
        for (view, own) in views.iter_mut().zip(own) {
            if let Some(grant) = seen(own, any) {
                view.clear = view.clear.or(&grant.clear);
                view.sealed = view.sealed.or(&grant.sealed);
            }
        }
    }
    views
}

/// Whether views give another verdict: an owner who does not see all of its relation
/// in clear, or other candidates.
fn tells(study: &Study, views: &[View]) -> bool {
    let file = &study.file;
    let blind = || file.relations.iter().any(|one| !one.set.within(&views[one.owner].clear));
    views != study.views && (blind() || candidates(file, views, &study.tables) != study.candidates)
}

/// Of each slip that readable files show, whether this one does.
pub fn shown(study: &Study) -> [bool; OF_READABLE] {
    let (file, day) = (&study.file, study.file.nights_day());
    let pairs = file.grants_of_pairs();
    let mut shown = [false; OF_READABLE];
    for (shown, taken) in shown.iter_mut().zip(TAKEN) {
        let given = views(file, &pairs, |own, any| taken(own, day).or_else(|| taken(any, day)));
        *shown = tells(study, &given);
    }
    let hidden = views(file, &pairs, |own, any| match own {
        [] => in_force(any, day),
        own => in_force(own, day),
    });
    shown[OF_FORCE] = tells(study, &hidden);
    shown[OF_FORCE + 1] = pairs.iter().any(|grants| grants.len() > 1);
    shown
}
