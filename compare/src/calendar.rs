//! Views and refusals over days, worked out a second way: by each pair's grants in the
//! order of their days, and by the values of the one record that is refused.

use crate::file::{File, Grant};
use crate::planner::Study;
use crate::sets::Flags;
use crate::values::{self, Values};
use crate::views::{self, View};

/// The grants of each pair in the order of their days.
struct Calendar<'a> {
    file: &'a File,
    of_pair: Vec<Vec<&'a Grant>>,
}

impl Calendar<'_> {
    fn of(file: &File) -> Calendar<'_> {
        let mut of_pair = file.grants_of_pairs();
        of_pair.iter_mut().for_each(|grants| grants.sort_by_key(|grant| grant.days.first));
        Calendar { file, of_pair }
    }

    /// Whether of each pair every grant is over before the next begins.
    fn is_clear(&self) -> bool {
        let in_turn = |two: &[&Grant]| two[0].days.last < two[1].days.first;
        self.of_pair.iter().all(|grants| grants.windows(2).all(in_turn))
    }

    /// Of those that have begun the latest, unless it is over.
    fn at(&self, relation: usize, to: usize, day: u16) -> Option<&Grant> {
        let grants = &self.of_pair[relation * (self.file.subjects + 1) + to];
        let begun = grants.partition_point(|grant| grant.days.first <= day);
        grants[..begun].last().copied().filter(|grant| grant.days.last >= day)
    }

    fn view(&self, subject: usize, day: u16) -> View {
        let mut view = View { clear: Flags::NONE, sealed: Flags::NONE };
        for relation in 0..self.file.relations.len() {
            let any = || self.at(relation, self.file.subjects, day);
            if let Some(grant) = self.at(relation, subject, day).or_else(any) {
                view.clear = view.clear.or(&grant.clear);
                view.sealed = view.sealed.or(&grant.sealed);
            }
        }
        view
    }
}

/// The days next to the night's, as far as there are such: in versions without days
/// none is another.
pub fn beside(file: &File) -> impl Iterator<Item = u16> {
    let next = |day: u16| [day.checked_sub(1), day.checked_add(1)];
    file.day.into_iter().flat_map(next).flatten()
}

/// The views of the night's day, and of those next to it, are the calendar's.
pub fn hold(study: &Study) -> Result<(), String> {
    let Study { file, views: of_night, .. } = study;
    let calendar = Calendar::of(file);
    if !calendar.is_clear() {
        return Err("read, though two grants of a pair share a day".into());
    }
    let on = |day: u16| -> Vec<View> {
        (0..file.subjects).map(|subject| calendar.view(subject, day)).collect()
    };
    if on(file.nights_day()) != *of_night {
        return Err("other views by the calendar of the night's day".into());
    }
    match beside(file).find(|&day| on(day) != views::on(file, day)) {
        Some(day) => Err(format!("other views by the calendar of day {day}")),
        None => Ok(()),
    }
}

/// What is wrong with a grant that is refused with 6.
#[derive(Clone, Copy, PartialEq, Debug)]
pub struct Wrong {
    /// What is no matter of days.
    pub undated: bool,
    pub first_after_last: bool,
    /// The earlier grant with which it shares a day.
    pub shares_with: Option<values::Grant>,
}

/// Of the values of a file, what is wrong with one of its grants, if anything is.
pub fn wrong(values: &Values, place: usize) -> Option<Wrong> {
    let grant = values.grants[place];
    let relation = values.relations.get(usize::from(grant.relation));
    let known = grant.subject == 255 || grant.subject < values.header.subjects;
    let fits = relation.is_some_and(|relation| (grant.clear | grant.sealed) & !relation.set == 0);
    let shares = |old: &&values::Grant| {
        let inside = |day: u16, of: &values::Grant| of.first <= day && day <= of.last;
        [old.relation, old.subject] == [grant.relation, grant.subject]
            && (inside(grant.first, old) || inside(old.first, &grant))
    };
    let undated = !known || !fits || grant.clear & grant.sealed != 0;
    let first_after_last = grant.first > grant.last;
    let shares_with = values.grants[..place].iter().find(shares).copied();
    let any = undated || first_after_last || shares_with.is_some();
    any.then_some(Wrong { undated, first_after_last, shares_with })
}
