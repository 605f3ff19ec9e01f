//! Known ways to read the rules wrongly. A file for which one of them gives
//! other candidates, or another reason why a subject is out, would show it: such
//! files are counted.

use crate::failing::Failing;
use crate::file::{File, Grant};
use crate::planner::{Study, candidates, tables};
use crate::sets::{Flags, Ties};
use crate::views::{Profile, View};
use crate::why::Reason;

/// Those that give other candidates, then those that give another reason.
pub const NAMES: [&str; OF_CANDIDATES + OF_REASONS] = [
    "an own grant joined with any's",
    "a clear grant taken for a sealed one",
    "a tied set dropped with its columns",
    "a tied set of one not counted",
    "a test dropped with its column",
    "condition 2 asked before condition 1",
    "the result looked at before the right operand",
    "the visible part looked at before the implicit part",
    "the highest offending attribute named",
    "a tied set cut to what is visible",
];
const OF_CANDIDATES: usize = 5;
const OF_REASONS: usize = 5;

/// Of each slip, whether it gives some node other candidates, or another reason
/// for one of those asked, of whom all that fails is given.
pub fn shown(study: &Study, asked: &[Vec<Failing>]) -> [bool; NAMES.len()] {
    let mut shown = [false; NAMES.len()];
    shown[..OF_CANDIDATES].copy_from_slice(&shown_by_candidates(study));
    for reasons in asked.iter().filter_map(|failing| misled(failing)) {
        for (shown, misled) in shown[OF_CANDIDATES..].iter_mut().zip(reasons) {
            *shown |= misled;
        }
    }
    shown
}

fn shown_by_candidates(study: &Study) -> [bool; OF_CANDIDATES] {
    let Study { file, views, .. } = study;
    let either = |view: &View| View { clear: view.clear, sealed: view.clear.or(&view.sealed) };
    let in_either_form: Vec<View> = views.iter().map(either).collect();
    let given = [
        (&joined(file), &study.tables),
        (&in_either_form, &study.tables),
        (views, &tables(file, |table| keep_ties(table, |set, seen| set.meets(seen)))),
        (views, &tables(file, |table| keep_ties(table, |set, _| set.list().len() > 1))),
        (views, &tables(file, drop_tests)),
    ];
    given.map(|(views, tables)| candidates(file, views, tables) != study.candidates)
}

fn joined(file: &File) -> Vec<View> {
    let in_force = |grant: &Grant| grant.days.has(file.nights_day());
    let of_subject = |subject: usize| {
        let mut view = View { clear: Flags::NONE, sealed: Flags::NONE };
        let fits = |grant: &&Grant| grant.subject.is_none_or(|s| s == subject) && in_force(grant);
        for grant in file.grants.iter().filter(fits) {
            view.clear = view.clear.or(&grant.clear);
            view.sealed = view.sealed.or(&grant.sealed);
        }
        view
    };
    (0..file.subjects).map(of_subject).collect()
}

fn keep_ties(table: &mut Profile, keep: impl Fn(&Flags, &Flags) -> bool) {
    let visible = table.visible();
    let mut kept = Ties::none();
    for set in table.ties.sets().iter().filter(|set| keep(set, &visible)) {
        kept.tie(&set.list());
    }
    table.ties = kept;
}

fn drop_tests(table: &mut Profile) {
    let visible = table.visible();
    table.implicit_clear = table.implicit_clear.and(&visible);
    table.implicit_sealed = table.implicit_sealed.and(&visible);
}

/// The reason if what fails were looked at in another order.
fn first_by(failing: &[Failing], place: impl Fn(&Failing) -> [usize; 2]) -> Option<Reason> {
    failing.iter().min_by_key(|failing| place(failing)).map(Failing::reason)
}

/// Whether each slip gives another reason, where there is one.
fn misled(failing: &[Failing]) -> Option<[bool; OF_REASONS]> {
    let first = failing.first()?;
    let reason = first.reason();
    let by_sealed = |other: &Failing| [other.table as usize, [1, 0, 2][other.condition - 1]];
    let by_result = |other: &Failing| [[0, 2, 1][other.table as usize], other.condition];
    let same = &first.offending[0];
    let visible = first.offending.iter().find(|one| first.visible.has(one[0])).unwrap_or(same);
    let highest = first.offending.last().unwrap_or(same);
    let cut = same.iter().copied().filter(|&attribute| first.visible.has(attribute)).collect();
    let [visible, highest, cut] = match first.condition {
        3 => [same, same, &cut],
        _ => [visible, highest, same],
    };
    let given = [
        first_by(failing, by_sealed),
        first_by(failing, by_result),
        Some(first.naming(visible)),
        Some(first.naming(highest)),
        Some(first.naming(cut)),
    ];
    Some(given.map(|given| given.as_ref() != Some(&reason)))
}
