//! Faults of relations and grants for which records before must be remembered, and
//! their neighbours that keep the rule.

use crate::dayfaults::{put, shown_by, start};
use crate::days::Days;
use crate::file::{File, Grant, MOST_GRANTS};
use crate::grants::{Pattern, sets};
use crate::layout::RELATION;
use crate::nodefaults::{some, taken_twice};
use crate::rng::Rng;
use crate::sets::{Flags, WIDTH};

type Made = Option<(Vec<u8>, usize)>;

/// To whom a grant is: one subject, another, or any.
#[derive(Clone, Copy, PartialEq)]
pub enum To {
    One,
    Other,
    Any,
}

/// A grant of one relation or of another, with its days counted from some day on, or
/// on the same days as all those that name none.
#[derive(Clone, Copy)]
pub struct Entry {
    other_relation: bool,
    to: To,
    days: Option<(u16, u16)>,
}

pub const fn of(to: To) -> Entry {
    Entry { other_relation: false, to, days: None }
}

/// Likewise, of the other relation.
pub const fn elsewhere(to: To) -> Entry {
    Entry { other_relation: true, to, days: None }
}

pub const fn on(entry: Entry, first: u16, last: u16) -> Entry {
    Entry { days: Some((first, last)), ..entry }
}

/// What the entries of one list stand for.
struct Meant {
    relations: [usize; 2],
    subjects: [usize; 2],
    start: u16,
    days: Days,
}

/// A number below the count, often the last or the first.
pub fn edged(rng: &mut Rng, count: usize) -> usize {
    let any = rng.below(count);
    rng.pick(&[0, count - 1, any, any])
}

/// Two different numbers below the count, or the same where there is one alone.
fn two(rng: &mut Rng, count: usize) -> [usize; 2] {
    let one = edged(rng, count);
    let other = if count > 1 { (one + rng.within(1, count - 1)) % count } else { one };
    [one, other]
}

impl Meant {
    fn draw(rng: &mut Rng, file: &File) -> Meant {
        let day = rng.pick(&[file.nights_day(), file.nights_day() ^ 1, 0, u16::MAX]);
        Meant {
            relations: two(rng, file.relations.len()),
            subjects: two(rng, file.subjects),
            start: start(rng, file),
            days: rng.pick(&[Days::ALL, Days { first: day, last: day }]),
        }
    }

    /// The grant that an entry stands for, unless two would be the same that must not.
    fn grant(&self, rng: &mut Rng, file: &File, entry: &Entry) -> Option<Grant> {
        let [one, other] = self.relations;
        let relation = if entry.other_relation { other } else { one };
        let subject = match entry.to {
            To::Any => None,
            to => Some(self.subjects[usize::from(to == To::Other)]),
        };
        let alike = |[one, other]: [usize; 2]| one == other;
        let same = entry.other_relation && alike(self.relations)
            || entry.to == To::Other && alike(self.subjects);
        let days = match entry.days {
            None => self.days,
            Some((first, last)) => {
                let [first, last] = [first, last].map(|day| self.start.checked_add(day));
                Days { first: first?, last: last? }
            }
        };
        let pattern = rng.pick(&[
            Pattern::AllClear,
            Pattern::AllSealed,
            Pattern::Split,
            Pattern::NothingSeen,
        ]);
        let (clear, sealed) = sets(rng, pattern, &file.relations[relation].set)?;
        (!same).then_some(Grant { relation, subject, clear, sealed, days })
    }
}

/// Whether an owner's view stays as it is when the pair of a grant gets others.
fn harmless(file: &File, grant: &Grant) -> bool {
    let owner = Some(file.relations[grant.relation].owner);
    grant.subject != owner && grant.subject != shown_by(file, grant.relation)
}

/// These grants side by side or among others, the pairs' only ones: the place is that
/// of the one which is refused, if one is.
pub fn entries(rng: &mut Rng, mut file: File, list: &[Entry], refused: Option<usize>) -> Made {
    let meant = Meant::draw(rng, &file);
    let grants: Vec<Grant> =
        list.iter().map(|entry| meant.grant(rng, &file, entry)).collect::<Option<_>>()?;
    match refused {
        // What comes after is not looked at, so others may make way.
        Some(_) => file.grants.truncate(MOST_GRANTS - grants.len()),
        None if grants.iter().all(|grant| harmless(&file, grant)) => {}
        None => return None,
    }
    let apart = rng.percent(50);
    let places = put(rng, &mut file, grants, apart)?;
    Some((file.write(), refused.map_or(0, |refused| places[refused])))
}

/// Puts another number into a byte of some grant.
fn other_byte(rng: &mut Rng, file: &File, field: usize, other: usize) -> Made {
    if file.grants.is_empty() {
        return None;
    }
    let index = edged(rng, file.grants.len());
    let mut bytes = file.write();
    bytes[file.layout().grant_at(index) + field] = other as u8;
    Some((bytes, index))
}

/// A number of 16 to 254 that would be there if it were cut to 4 bits.
fn past_16(rng: &mut Rng, count: usize) -> usize {
    rng.below(count) + 16 * rng.within(1, 14)
}

pub fn next_subject(rng: &mut Rng, file: File) -> Made {
    other_byte(rng, &file, 1, file.subjects)
}

pub fn far_subject(rng: &mut Rng, file: File) -> Made {
    let subject = past_16(rng, file.subjects);
    other_byte(rng, &file, 1, subject)
}

pub fn subject_254(rng: &mut Rng, file: File) -> Made {
    other_byte(rng, &file, 1, 254)
}

pub fn next_relation(rng: &mut Rng, file: File) -> Made {
    other_byte(rng, &file, 0, file.relations.len())
}

pub fn far_relation(rng: &mut Rng, file: File) -> Made {
    let relation = past_16(rng, file.relations.len());
    other_byte(rng, &file, 0, relation)
}

pub fn relation_255(rng: &mut Rng, file: File) -> Made {
    other_byte(rng, &file, 0, 255)
}

/// Puts an attribute of a relation, at least and at most so many before, into a later one
/// as well: the highest attribute is often the one.
fn shared(rng: &mut Rng, file: &mut File, least: usize, most: usize) -> Option<usize> {
    let later = |earlier: usize| earlier + least..file.relations.len().min(earlier + most + 1);
    let of_two = |earlier: usize, later: usize| {
        let attributes = file.relations[earlier].set.list().into_iter();
        attributes.map(move |attribute| (attribute, later))
    };
    let of_one = |earlier: usize| later(earlier).flat_map(move |later| of_two(earlier, later));
    let mut all: Vec<(usize, usize)> = (0..file.relations.len()).flat_map(of_one).collect();
    all.sort();
    let (attribute, later) = some(rng, &all)?;
    file.relations[later].set.put(attribute);
    Some(later)
}

pub fn shared_with_last(rng: &mut Rng, mut file: File) -> Made {
    let place = shared(rng, &mut file, 1, 1)?;
    Some((file.write(), place))
}

pub fn shared_with_earlier(rng: &mut Rng, mut file: File) -> Made {
    let place = shared(rng, &mut file, 2, WIDTH)?;
    Some((file.write(), place))
}

/// Takes an attribute out of a relation of several.
fn leave_over(rng: &mut Rng, file: &mut File) -> Option<usize> {
    let several = |relation: &usize| file.relations[*relation].set.list().len() > 1;
    let wide: Vec<usize> = (0..file.relations.len()).filter(several).collect();
    if wide.is_empty() {
        return None;
    }
    let set = &mut file.relations[rng.pick(&wide)].set;
    let attribute = rng.pick(&set.list());
    *set = set.minus(&Flags::of(&[attribute]));
    Some(file.relations.len())
}

pub fn left_over(rng: &mut Rng, mut file: File) -> Made {
    let place = leave_over(rng, &mut file)?;
    Some((file.write(), place))
}

/// One attribute is in none, another in two, so that there are as many as there should.
pub fn over_and_shared(rng: &mut Rng, mut file: File) -> Made {
    leave_over(rng, &mut file)?;
    let place = shared(rng, &mut file, 1, WIDTH)?;
    Some((file.write(), place))
}

pub fn past_attributes(rng: &mut Rng, mut file: File) -> Made {
    if file.attributes == WIDTH {
        return None;
    }
    let relation = rng.below(file.relations.len());
    file.relations[relation].set.put(rng.pick(&[file.attributes, WIDTH - 1]));
    Some((file.write(), relation))
}

pub fn far_owner(rng: &mut Rng, file: File) -> Made {
    let relation = rng.below(file.relations.len());
    let owner = past_16(rng, file.subjects);
    let mut bytes = file.write();
    bytes[file.layout().relations + RELATION * relation] = owner as u8;
    Some((bytes, relation))
}

/// Two owners get to see nothing of their relations: the lower of these.
fn blind(rng: &mut Rng, file: &mut File) -> Option<usize> {
    let blind = two(rng, file.relations.len());
    let shows = |grant: &Grant| {
        let owner = file.relations[grant.relation].owner;
        blind.contains(&grant.relation) && grant.subject.is_none_or(|to| to == owner)
    };
    file.grants = file.grants.iter().filter(|grant| !shows(grant)).cloned().collect();
    (blind[0] != blind[1]).then(|| blind[0].min(blind[1]))
}

pub fn two_blind(rng: &mut Rng, mut file: File) -> Made {
    let relation = blind(rng, &mut file)?;
    Some((file.write(), relation))
}

pub fn blind_and_again(rng: &mut Rng, mut file: File) -> Made {
    blind(rng, &mut file)?;
    entries(rng, file, &[of(To::One), of(To::One)], Some(1))
}

pub fn blind_and_taken_twice(rng: &mut Rng, mut file: File) -> Made {
    let relation = blind(rng, &mut file)?;
    let (bytes, _) = taken_twice(rng, &file, 0, 0)?;
    Some((bytes, relation))
}
