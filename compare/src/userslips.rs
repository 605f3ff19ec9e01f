//! Known ways to go wrong over the user. A file for which one of them gives
//! another refusal, or a key other holders, would show it: such files are counted.

use crate::file::{File, Work};
use crate::layout::USER_AT;
use crate::planner::{Answer, Study};
use crate::sets::Flags;
use crate::views::may_have;

/// Those that files with a user show, then those that files of version 1 do.
pub const NAMES: [&str; OF_USER + OF_1] = [
    "the user read from the byte before",
    "the user read from the byte after",
    "17 left out",
    "17 left out where the user sees the leaf sealed",
    "17 asked of the whole relation",
    "17 asked of the root's table alone",
    "17 with the highest such leaf for its place",
    "17 with the leaf's relation for its place",
    "the delivery left out",
    "the delivery left out where the user ran the root",
    "the user made a holder of every key",
    "the delivery looked for under a key's name alone",
    "17 asked of subject 0 in version 1",
    "a delivery to subject 0 in version 1",
];
const OF_USER: usize = 12;
const OF_1: usize = 2;

/// A file that was read, and the answers that it brought.
struct Brought<'a> {
    study: &'a Study,
    answers: &'a [&'a Answer],
}

/// Of each slip, whether it gives another refusal or other holders.
pub fn shown(bytes: &[u8], study: &Study, answers: &[&Answer]) -> [bool; NAMES.len()] {
    let brought = Brought { study, answers };
    let mut shown = [false; NAMES.len()];
    match study.file.user {
        Some(user) => {
            let beside = [bytes[USER_AT - 1], bytes[USER_AT + 1]];
            shown[..2].copy_from_slice(&beside.map(|other| brought.shows_user(user, other)));
            shown[2..8].copy_from_slice(&shown_by_refusal(study, user));
            shown[8..OF_USER].copy_from_slice(&brought.shown_by_holders(user));
        }
        None => {
            let delivered = |answer: &&Answer| handed_to(study, answer, 0);
            shown[OF_USER] = !study.barred_leaves(0).is_empty();
            shown[OF_USER + 1] = answers.iter().any(delivered);
        }
    }
    shown
}

/// Whether an answer has other holders when its table is delivered to `user`.
fn handed_to(study: &Study, answer: &Answer, user: usize) -> bool {
    study.keys_delivered(&answer.choice, Some(user)) != answer.keys
}

/// The lowest leaf of which the user lacks some of what is asked.
fn lowest(file: &File, seen: &Flags, asked: impl Fn(usize, Flags) -> Flags) -> Option<usize> {
    file.nodes.iter().position(|node| match node.work {
        Work::Leaf { relation, set } => !asked(relation, set).within(seen),
        _ => false,
    })
}

fn shown_by_refusal(study: &Study, user: usize) -> [bool; 6] {
    let (file, view) = (&study.file, &study.views[user]);
    let barred = study.barred_leaves(user);
    let first = barred.first().copied();
    let in_either_form = view.clear.or(&view.sealed);
    let of_relation = |relation: usize, _| file.relations[relation].set;
    let root = study.root_table();
    let is_relation = |leaf: usize| match file.nodes[leaf].work {
        Work::Leaf { relation, .. } => relation == leaf,
        _ => false,
    };
    [
        first.is_some(),
        lowest(file, &in_either_form, |_, set| set) != first,
        lowest(file, &view.clear, of_relation) != first,
        first.is_some() && may_have(view, &root.with_clear(&root.visible())),
        barred.len() > 1,
        first.is_some_and(|leaf| !is_relation(leaf)),
    ]
}

impl Brought<'_> {
    /// Whether another user would be refused otherwise, or make other holders.
    fn shows_user(&self, user: usize, other: u8) -> bool {
        let (study, other) = (self.study, usize::from(other));
        let barred = |user: usize| study.barred_leaves(user).first().copied();
        // One who is not there is refused before all else.
        other >= study.file.subjects
            || barred(other) != barred(user)
            || self.answers.iter().any(|answer| handed_to(study, answer, other))
    }

    fn shown_by_holders(&self, user: usize) -> [bool; 4] {
        let (root, handed) = (self.study.file.root(), &self.study.handed_sealed);
        let mut shown = [false; 4];
        for answer in self.answers {
            let undelivered = self.study.keys_delivered(&answer.choice, None);
            let left_out = undelivered != answer.keys;
            let changed = || undelivered.iter().zip(&answer.keys).filter(|(bare, key)| bare != key);
            shown[0] |= left_out;
            shown[1] |= left_out && answer.choice[root] == user;
            shown[2] |= answer.keys.iter().any(|key| !key.holders.contains(&user));
            shown[3] |= changed().any(|(_, key)| !handed.has(key.attributes[0]));
        }
        shown
    }
}
