//! Files made for one rule about days and mostly no other, each with the verdict that
//! it must bring: the reader is held against it.

use crate::days::Days;
use crate::dayslips::{ANY_DAY, AROUND, INSIDE, LAST_FIRST, NEIGHBOURS, NOT_IN_FORCE, TOUCHING};
use crate::file::{File, Grant, MOST_GRANTS, Relation};
use crate::generate::{Known, Made};
use crate::grants::{Pattern, sets};
use crate::layout::DAY_AT;
use crate::rng::Rng;
use crate::sets::Flags;
use crate::users;
use crate::valid::{self, Size};
use crate::views;

/// Changes a valid file of version 4: the bytes, and the place of the refusal. `None`
/// where the file has no room for it.
pub type Maker = fn(&mut Rng, File) -> Option<(Vec<u8>, usize)>;

/// What a grant of a pair shows in clear: all, all but the lowest attribute, which it
/// shows sealed, that one alone, all but that one, or nothing.
#[derive(Clone, Copy, PartialEq)]
pub enum Shows {
    All,
    Less,
    Lowest,
    Others,
    Nothing,
}

/// A grant by its first and last day, counted from the night's on, and what it shows.
pub type Shown = (i32, i32, Shows);

#[derive(Clone, Copy)]
enum Make {
    By(Maker),
    /// A pair's grants on these days, in the file's order.
    On(&'static [(u16, u16)]),
    /// Likewise, these days counted from some day on.
    From(&'static [(u16, u16)]),
    /// The grants that show an owner its own relation: its own and any's.
    Owner(&'static [Shown], &'static [Shown]),
}

pub struct Trial {
    pub name: &'static str,
    /// The refusal's, or 0 where the file is read.
    pub number: u64,
    make: Make,
    /// The slip that lets it through.
    pub slip: Option<&'static str>,
}

const fn fault(number: u64, name: &'static str, make: Make) -> Trial {
    Trial { name, number, make, slip: None }
}

const fn shows(slip: &'static str, number: u64, name: &'static str, make: Make) -> Trial {
    Trial { name, number, make, slip: Some(slip) }
}

const fn read(name: &'static str, make: Make) -> Trial {
    fault(0, name, make)
}

/// A file of no more nodes brings few calls.
const FEW_NODES: usize = 2;

use Make::{By, From, On, Owner};
use Shows::{All, Less};

pub const TRIALS: [Trial; 43] = [
    fault(2, "version 5", By(|_, file| in_version(file, 5))),
    fault(3, "a header of 18 bytes", By(|_, file| cut(file, 18))),
    fault(3, "a header of 18 bytes, a count out of its limits", By(cut_odd)),
    fault(3, "a header of 17 bytes", By(|_, file| cut(file, 17))),
    fault(3, "grants without days", By(undated)),
    fault(3, "version 3 with days", By(|_, file| in_version(file, 3))),
    shows(TOUCHING, 6, "from an earlier one's last day on", From(&[(0, 9), (9, 30)])),
    shows(TOUCHING, 6, "up to an earlier one's first day", From(&[(9, 30), (0, 9)])),
    shows(INSIDE, 6, "inside an earlier one", From(&[(0, 30), (10, 20)])),
    shows(AROUND, 6, "around an earlier one", From(&[(10, 20), (0, 30)])),
    fault(6, "the same days again", From(&[(0, 30), (0, 30)])),
    fault(6, "the same day again", From(&[(7, 7), (7, 7)])),
    fault(6, "begun before an earlier one's end", From(&[(0, 20), (10, 30)])),
    fault(6, "not over when an earlier one begins", From(&[(10, 30), (0, 20)])),
    shows(INSIDE, 6, "a day of an earlier one", From(&[(0, 30), (15, 15)])),
    shows(AROUND, 6, "an earlier one's day among others", From(&[(15, 15), (0, 30)])),
    fault(6, "all days twice", On(&[(0, 65_535), (0, 65_535)])),
    fault(6, "day 0 twice", On(&[(0, 9), (0, 0)])),
    fault(6, "day 65535 twice", On(&[(65_535, 65_535), (65_530, 65_535)])),
    shows(NEIGHBOURS, 6, "a day of the first of six", By(of_six)),
    shows(NOT_IN_FORCE, 6, "a shared day, neither in force", By(other_night)),
    fault(6, "a shared day, also an owner without its view", By(also_blind)),
    shows(LAST_FIRST, 6, "first day after last by one", From(&[(1, 0)])),
    shows(LAST_FIRST, 6, "first day 65535, last day 0", On(&[(65_535, 0)])),
    shows(LAST_FIRST, 6, "first day 256, last day 255", On(&[(256, 255)])),
    fault(6, "first day after last, around an earlier one", From(&[(5, 9), (12, 2)])),
    shows(ANY_DAY, 7, "the owner's over", Owner(&[(-30, -1, All)], &[])),
    shows(ANY_DAY, 7, "the owner's to come", Owner(&[(1, 30, All)], &[])),
    shows(ANY_DAY, 7, "between two of the owner's", Owner(&[(1, 9, All), (-9, -1, All)], &[])),
    shows(ANY_DAY, 7, "the owner's over, any's less", Owner(&[(-9, -1, All)], &[(-9, 9, Less)])),
    shows(ANY_DAY, 7, "any's over, none the owner's", Owner(&[], &[(-9, -1, All)])),
    shows(ANY_DAY, 7, "the owner's over, any's to come", Owner(&[(-9, -1, All)], &[(1, 9, All)])),
    fault(7, "the owner's less that day, any's all", Owner(&[(0, 0, Less)], &[(-9, 9, All)])),
    read("from the day after an earlier one's last", From(&[(0, 9), (10, 30)])),
    read("up to the day before an earlier one's first", From(&[(10, 30), (0, 9)])),
    read("six side by side", By(six)),
    read("both ends and between", On(&[(65_535, 65_535), (0, 0), (1, 65_534)])),
    read("two hundred of one pair and more", By(many)),
    read("the owner's that day alone", Owner(&[(0, 0, All)], &[])),
    read("the owner's from that day, any's over", Owner(&[(0, 30, All)], &[(-9, -1, All)])),
    read("the owner's up to that day, any's less", Owner(&[(-30, 0, All)], &[(-9, 9, Less)])),
    read("the owner's over, any's all", Owner(&[(-30, -1, All)], &[(0, 0, All)])),
    read("the owner's less to come, any's all", Owner(&[(1, 9, Less)], &[(-1, 1, All)])),
];

/// A file made for the trial that this number has.
pub fn file(rng: &mut Rng, trial: usize) -> (Vec<u8>, Known) {
    let Trial { number, make, .. } = TRIALS[trial];
    loop {
        let size = rng.pick(&[Size::Tiny, Size::Small, Size::Small]);
        let mut file = valid::file(rng, size, 4, false);
        users::name_allowed(rng, &mut file);
        let made = match make {
            By(make) => make(rng, file),
            On(days) => on(rng, file, days),
            From(days) => from(rng, file, days),
            Owner(own, any) => owner(rng, file, own, any),
        };
        if let Some((bytes, place)) = made {
            return (bytes, Known::of(Made::Day(trial), number, place));
        }
    }
}

/// The file with another version's number and nothing else of it.
fn in_version(file: File, version: u8) -> Option<(Vec<u8>, usize)> {
    let mut bytes = file.write();
    bytes[4] = version;
    Some((bytes, 0))
}

fn cut(file: File, length: usize) -> Option<(Vec<u8>, usize)> {
    Some((file.write()[..length].to_vec(), 0))
}

fn cut_odd(rng: &mut Rng, file: File) -> Option<(Vec<u8>, usize)> {
    let (mut bytes, place) = cut(file, 18)?;
    bytes[rng.within(5, 8)] = rng.pick(&[0, 255]);
    Some((bytes, place))
}

/// A header of version 4 before the records of version 3.
fn undated(_: &mut Rng, mut file: File) -> Option<(Vec<u8>, usize)> {
    let header = file.write()[..DAY_AT + 2].to_vec();
    file.day = None;
    Some(([&header, &file.write()[DAY_AT..]].concat(), 0))
}

/// To whom the grant is that an owner's view of its relation rests on: to itself, or to
/// any.
pub fn shown_by(file: &File, relation: usize) -> Option<usize> {
    let day = file.nights_day();
    let owner = Some(file.relations[relation].owner);
    let own = |grant: &Grant| grant.relation == relation && grant.subject == owner;
    let shown = file.grants.iter().any(|grant| own(grant) && grant.days.has(day));
    if shown { owner } else { None }
}

/// A pair that no owner's view rests on.
fn free_pair(rng: &mut Rng, file: &File) -> Option<(usize, Option<usize>)> {
    let relation = rng.below(file.relations.len());
    let subject = rng.below(file.subjects + 1);
    let subject = (subject < file.subjects).then_some(subject);
    (subject != shown_by(file, relation)).then_some((relation, subject))
}

/// Gives the pairs of these grants them and no others, in this order, side by side or
/// among others: their places.
pub fn put(rng: &mut Rng, file: &mut File, grants: Vec<Grant>, apart: bool) -> Option<Vec<usize>> {
    file.grants.retain(|old| !grants.iter().any(|grant| old.same_pair(grant)));
    let mut places = Vec::new();
    let mut at = 0;
    for grant in grants {
        if apart || places.is_empty() {
            at = rng.within(at, file.grants.len());
        }
        file.grants.insert(at, grant);
        places.push(at);
        at += 1;
    }
    (file.grants.len() <= MOST_GRANTS).then_some(places)
}

/// A pair's grants on these days.
fn on(rng: &mut Rng, mut file: File, days: &[(u16, u16)]) -> Option<(Vec<u8>, usize)> {
    let (relation, subject) = free_pair(rng, &file)?;
    // An owner's own grant takes the place of any's, so it has to show all.
    let owner = subject == Some(file.relations[relation].owner);
    let all = file.relations[relation].set;
    let mut grant = |&(first, last): &(u16, u16)| {
        let pattern = rng.pick(&[Pattern::AllClear, Pattern::AllSealed, Pattern::Split]);
        let pattern = if owner { Pattern::AllClear } else { pattern };
        let (clear, sealed) = sets(rng, pattern, &all).expect("each makes a grant");
        Grant { relation, subject, clear, sealed, days: Days { first, last } }
    };
    let grants = days.iter().map(&mut grant).collect();
    let place = put(rng, &mut file, grants, true)?.pop()?;
    Some((file.write(), place))
}

/// A day near the night's, or any.
pub fn start(rng: &mut Rng, file: &File) -> u16 {
    let night = file.nights_day().saturating_sub(rng.pick(&[0, 5, 9, 10, 15, 30]));
    let elsewhere = rng.within(0, 65_000) as u16;
    rng.pick(&[night, elsewhere])
}

/// Likewise, their days counted from one near the night's on or from any.
fn from(rng: &mut Rng, file: File, days: &[(u16, u16)]) -> Option<(Vec<u8>, usize)> {
    let start = start(rng, &file);
    let moved =
        |&(first, last): &(u16, u16)| Some((start.checked_add(first)?, start.checked_add(last)?));
    on(rng, file, &days.iter().map(moved).collect::<Option<Vec<_>>>()?)
}

fn in_a_row(count: u16, length: u16) -> Vec<(u16, u16)> {
    (0..count).map(|turn| (turn * length, (turn + 1) * length - 1)).collect()
}

fn six(rng: &mut Rng, file: File) -> Option<(Vec<u8>, usize)> {
    let mut days = in_a_row(6, 5);
    rng.shuffle(&mut days);
    from(rng, file, &days)
}

fn of_six(rng: &mut Rng, file: File) -> Option<(Vec<u8>, usize)> {
    let mut days = in_a_row(6, 5);
    rng.shuffle(&mut days);
    days.push(days[0]);
    from(rng, file, &days)
}

/// Every grant that the file has room for is the one pair's, a day or two each. Each call
/// holds them all against one another, so that it is done where few are made.
fn many(rng: &mut Rng, file: File) -> Option<(Vec<u8>, usize)> {
    if file.nodes.len() > FEW_NODES {
        return None;
    }
    let room = MOST_GRANTS - file.grants.len();
    let length = rng.within(1, 2) as u16;
    let mut days = in_a_row(room as u16, length);
    rng.shuffle(&mut days);
    from(rng, file, &days)
}

/// Neither of those that share a day is in force on the night's.
fn other_night(rng: &mut Rng, file: File) -> Option<(Vec<u8>, usize)> {
    let start = file.nights_day().checked_add(rng.pick(&[1, 2, 300]))?;
    let end = start.checked_add(40)?;
    on(rng, file, &[(start, end - 10), (start + 10, end)])
}

/// What is refused for grants comes before what is for owners: the night is one on
/// which an owner does not see its relation.
fn also_blind(rng: &mut Rng, mut file: File) -> Option<(Vec<u8>, usize)> {
    let sees = |day: u16, relation: usize| {
        let Relation { owner, set } = file.relations[relation];
        views::of_relation(&file.grants, day, relation, owner).clear == set
    };
    let beside = |days: Days| [days.first.wrapping_sub(1), days.last.wrapping_add(1)];
    let mut days = file.grants.iter().flat_map(|grant| beside(grant.days));
    let night = days.find(|&day| (0..file.relations.len()).any(|one| !sees(day, one)))?;
    file.day = Some(night);
    from(rng, file, &[(0, 9), (9, 30)])
}

impl Shows {
    /// What is clear and what sealed; parts of a relation of one attribute are no parts.
    fn sets(self, all: &Flags) -> Option<(Flags, Flags)> {
        let lowest = Flags::of(&all.list()[..1]);
        let others = all.minus(&lowest);
        match self {
            All => Some((*all, Flags::NONE)),
            Less => Some((others, lowest)),
            Shows::Nothing => Some((Flags::NONE, Flags::NONE)),
            _ if others.is_empty() => None,
            Shows::Lowest => Some((lowest, Flags::NONE)),
            Shows::Others => Some((others, Flags::NONE)),
        }
    }
}

/// The grants that show an owner its own relation, by days counted from the night's
/// on; the place is the relation.
pub fn owner(
    rng: &mut Rng,
    mut file: File,
    own: &[Shown],
    any: &[Shown],
) -> Option<(Vec<u8>, usize)> {
    let relation = rng.below(file.relations.len());
    let all = file.relations[relation].set;
    let night = i32::from(file.nights_day());
    let day = |from: i32| u16::try_from(night + from).ok();
    let owner = Some(file.relations[relation].owner);
    file.grants
        .retain(|old| old.relation != relation || (old.subject.is_some() && old.subject != owner));
    for (subject, shown) in [(owner, own), (None, any)] {
        for &(first, last, shows) in shown {
            let (clear, sealed) = shows.sets(&all)?;
            let days = Days { first: day(first)?, last: day(last)? };
            let at = rng.within(0, file.grants.len());
            file.grants.insert(at, Grant { relation, subject, clear, sealed, days });
        }
    }
    (file.grants.len() <= MOST_GRANTS).then(|| (file.write(), relation))
}
