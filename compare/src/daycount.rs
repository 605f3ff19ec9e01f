//! What the cases have touched of days: grants in force and out of force, refusals for
//! days, each trial alone, and files of version 3 planned as version 4.

use crate::calendar::{beside, wrong};
use crate::coverage::{Line, count, line};
use crate::dayfaults::TRIALS;
use crate::dayslips;
use crate::file::{File, Grant};
use crate::layout::LONGEST;
use crate::planner::{Study, candidates};
use crate::reading::Refusal;
use crate::values::{self, Values, with_days};
use crate::views::{self, View};

/// The most grants of a pair that are counted one by one.
const MOST_COUNTED: usize = 6;
/// Floors for files with a pair of 1 to 6 grants, and of more.
const LEAST_OF_COUNT: [usize; MOST_COUNTED + 1] = [15_000, 8_100, 5_500, 3_900, 2_700, 1_800, 90];
/// The floor for each trial.
const LEAST_OF_TRIAL: usize = 90;
/// Floors for the slips, in the order of their names.
const LEAST_SHOWN: [usize; dayslips::NAMES.len()] = [
    6_800, 7_250, 7_100, 5_650, 5_350, 8_450, 3_900, 12_500, 3_900, 3_650, 10_000, 130, 130, 130,
    60, 200, 450, 60,
];

/// What is counted of refusals in version 4.
#[derive(Default)]
struct Refused {
    shared: usize,
    touching: usize,
    inside: usize,
    same: usize,
    crossing: usize,
    first_after_last: usize,
    owner_idle: usize,
    any_idle: usize,
    either_idle: usize,
}

/// What is counted of readable files of version 4.
#[derive(Default)]
struct Read {
    by_count: [usize; MOST_COUNTED + 1],
    side_by_side: usize,
    one_day: usize,
    from_first: usize,
    to_last: usize,
    night_first: usize,
    night_last: usize,
    begins_that_night: usize,
    ends_that_night: usize,
    owner_by_any: usize,
    owner_by_own: usize,
    longest: usize,
}

/// What is counted of answered files of version 4.
#[derive(Default)]
struct Answered {
    idle: usize,
    uncovered: usize,
    nothing_left: usize,
    beside: usize,
    offered: usize,
}

/// How many files were made for each trial.
struct Trials([usize; TRIALS.len()]);

impl Default for Trials {
    fn default() -> Trials {
        Trials([0; TRIALS.len()])
    }
}

#[derive(Default)]
pub struct Dates {
    refused: Refused,
    read: Read,
    answered: Answered,
    trials: Trials,
    slips: [usize; dayslips::NAMES.len()],
    /// Files of version 3 that say the same in version 4, read and refused.
    twins: [usize; 2],
}

impl Refused {
    /// A grant that shares a day with an earlier one, or ends before it begins, and is
    /// right but for that.
    fn grant(&mut self, values: &Values, place: usize) {
        let grant = values.grants[place];
        let Some(wrong) = wrong(values, place).filter(|wrong| !wrong.undated) else { return };
        self.first_after_last += count(wrong.first_after_last);
        let Some(old) = wrong.shares_with.filter(|_| !wrong.first_after_last) else { return };
        let within = |one: values::Grant, other: values::Grant| {
            other.first <= one.first && one.last <= other.last
        };
        let (in_old, in_new) = (within(grant, old), within(old, grant));
        self.shared += 1;
        self.touching += count(grant.first == old.last || grant.last == old.first);
        self.same += count(in_old && in_new);
        self.inside += count(in_old != in_new);
        self.crossing += count(!in_old && !in_new);
    }

    /// An owner that a grant would show its relation, were it in force: none of its own
    /// is.
    fn owner(&mut self, values: &Values, relation: usize) {
        let values::Relation { owner, set } = values.relations[relation];
        let day = values.header.day;
        let in_force = |grant: &&values::Grant| (grant.first..=grant.last).contains(&day);
        let grants_to = |subject: u8| {
            let pair = [relation as u8, subject];
            values.grants.iter().filter(move |grant| [grant.relation, grant.subject] == pair)
        };
        let hidden = grants_to(owner).any(|grant| in_force(&grant));
        let shows = |grant: &values::Grant| grant.clear == set && !in_force(&grant) && !hidden;
        let [own, any] = [owner, 255].map(|subject| grants_to(subject).any(shows));
        self.owner_idle += count(own);
        self.any_idle += count(any);
        self.either_idle += count(own || any);
    }

    fn lines(&self) -> [Line; 9] {
        [
            line("refused with 6 by a shared day", self.shared, 1_600),
            line(
                "refused with 6 by a shared day, one's first and another's last",
                self.touching,
                460,
            ),
            line("refused with 6 by a shared day, one inside the other", self.inside, 470),
            line("refused with 6 by a shared day, the same days", self.same, 310),
            line("refused with 6 by a shared day, neither inside the other", self.crossing, 460),
            line("refused with 6 by a first day after the last", self.first_after_last, 480),
            line("refused with 7 for a grant that is out of force", self.either_idle, 720),
            line("refused with 7, the owner's own out of force", self.owner_idle, 540),
            line("refused with 7, any's out of force", self.any_idle, 250),
        ]
    }
}

/// Whether a pair's grants have one that begins the day after another ends.
fn side_by_side(grants: &[&Grant]) -> bool {
    let next = |one: &Grant, other: &Grant| one.days.last.checked_add(1) == Some(other.days.first);
    grants.iter().any(|one| grants.iter().any(|other| next(one, other)))
}

impl Read {
    fn count(&mut self, file: &File, day: u16) {
        let any = |holds: &dyn Fn(&Grant) -> bool| count(file.grants.iter().any(holds));
        let pairs = file.grants_of_pairs();
        for (number, counted) in (1..).zip(&mut self.by_count) {
            *counted += count(pairs.iter().any(|of| of.len().min(MOST_COUNTED + 1) == number));
        }
        self.side_by_side += count(pairs.iter().any(|grants| side_by_side(grants)));
        self.one_day += any(&|grant| grant.days.first == grant.days.last);
        self.from_first += any(&|grant| grant.days.first == 0);
        self.to_last += any(&|grant| grant.days.last == u16::MAX);
        self.night_first += count(day == 0);
        self.night_last += count(day == u16::MAX);
        self.begins_that_night += any(&|grant| grant.days.first == day && day > 0);
        self.ends_that_night += any(&|grant| grant.days.last == day && day < u16::MAX);
        self.longest += count(file.layout().end == LONGEST[3]);
        self.owners(file, day);
    }

    /// Owners that see their relation by any's, an own grant out of force, or by their
    /// own, any's out of force.
    fn owners(&mut self, file: &File, day: u16) {
        let has = |relation: usize, to: Option<usize>, in_force: bool| {
            let fits = |grant: &&Grant| grant.relation == relation && grant.subject == to;
            file.grants.iter().filter(fits).any(|grant| grant.days.has(day) == in_force)
        };
        let owners = || file.relations.iter().map(|relation| Some(relation.owner)).enumerate();
        let by_any = |(r, owner)| !has(r, owner, true) && has(r, owner, false);
        let by_own = |(r, owner)| has(r, owner, true) && !has(r, None, true) && has(r, None, false);
        self.owner_by_any += count(owners().any(by_any));
        self.owner_by_own += count(owners().any(by_own));
    }

    fn lines(&self) -> Vec<Line> {
        let counts = self.by_count.iter().zip(LEAST_OF_COUNT).enumerate();
        let number = |i: usize| if i < MOST_COUNTED { format!("{}", i + 1) } else { "more".into() };
        let what = |i: usize| format!("files with {} grants of a pair", number(i));
        let mut lines: Vec<Line> =
            counts.map(|(i, (&n, least))| line(&what(i), n, least)).collect();
        lines.extend([
            line("files with grants of a pair side by side", self.side_by_side, 9_200),
            line("files with a grant for one day", self.one_day, 9_750),
            line("files with a grant from day 0 on", self.from_first, 14_500),
            line("files with a grant up to day 65535", self.to_last, 14_500),
            line("files of a night on day 0", self.night_first, 1_150),
            line("files of a night on day 65535", self.night_last, 1_100),
            line("files with a grant from the night's day on", self.begins_that_night, 7_950),
            line("files with a grant up to the night's day", self.ends_that_night, 8_350),
            line(
                "files with an owner shown its relation by any's, its own out of force",
                self.owner_by_any,
                1_550,
            ),
            line(
                "files with an owner shown its relation by its own, any's out of force",
                self.owner_by_own,
                2_750,
            ),
            line("readable files of 13,697 bytes", self.longest, 35),
        ]);
        lines
    }
}

/// Whether a subject has own grants for a relation, and none of them in force, and
/// whether any has one in force.
fn uncovered(file: &File, day: u16) -> [bool; 2] {
    let mut found = [false; 2];
    for idle in file.grants.iter().filter(|grant| grant.subject.is_some()) {
        let in_force = |grant: &&Grant| grant.relation == idle.relation && grant.days.has(day);
        let mut others = file.grants.iter().filter(in_force);
        if !others.clone().any(|grant| grant.subject == idle.subject) {
            found[count(others.any(|grant| grant.subject.is_none()))] = true;
        }
    }
    found
}

impl Answered {
    fn count(&mut self, study: &Study, day: u16) {
        let file = &study.file;
        if file.grants.iter().all(|grant| grant.days.has(day)) {
            return;
        }
        let [nothing, any] = uncovered(file, day);
        let others = |views: Vec<View>| {
            views != study.views && candidates(file, &views, &study.tables) != study.candidates
        };
        self.idle += 1;
        self.uncovered += count(any);
        self.nothing_left += count(nothing);
        self.beside += count(beside(file).any(|day| others(views::on(file, day))));
    }

    fn lines(&self) -> [Line; 5] {
        [
            line("cheapest answered, some grant out of force", self.idle, 5_700),
            line(
                "cheapest answered, an own grant out of force uncovers any's",
                self.uncovered,
                3_050,
            ),
            line(
                "cheapest answered, an own grant out of force leaves nothing",
                self.nothing_left,
                750,
            ),
            line("cheapest answered, other candidates the day before or after", self.beside, 3_500),
            line("offers accepted, some grant out of force", self.offered, 5_200),
        ]
    }
}

impl Dates {
    pub fn trial(&mut self, trial: usize) {
        self.trials.0[trial] += 1;
        for (counted, name) in self.slips.iter_mut().zip(dayslips::NAMES) {
            *counted += count(TRIALS[trial].slip == Some(name));
        }
    }

    /// A file of version 3 that says the same in version 4.
    pub fn twin(&mut self, read: bool) {
        self.twins[count(read)] += 1;
    }

    /// A file of version 4 that is refused with 6 or 7.
    pub fn refused(&mut self, values: &Values, refusal: &Refusal) {
        let place = refusal.place as usize;
        match refusal.number {
            _ if !with_days(values.header.version) => {}
            6 => self.refused.grant(values, place),
            7 => self.refused.owner(values, place),
            _ => {}
        }
    }

    /// A readable file, and what it brought.
    pub fn read(&mut self, study: &Study, cheapest: bool, offered: bool) {
        let Some(day) = study.file.day else { return };
        self.read.count(&study.file, day);
        for (counted, shown) in self.slips.iter_mut().zip(dayslips::shown(study)) {
            *counted += count(shown);
        }
        if cheapest {
            self.answered.count(study, day);
        }
        let idle = study.file.grants.iter().any(|grant| !grant.days.has(day));
        self.answered.offered += count(offered && idle);
    }

    pub fn lines(&self) -> Vec<Line> {
        let mut lines = self.refused.lines().to_vec();
        lines.extend(self.read.lines());
        lines.extend(self.answered.lines());
        let [refused, read] = self.twins;
        lines.push(line("files of version 3 that say the same in version 4", read, 14_000));
        lines.push(line("files of version 3 that are refused alike in version 4", refused, 7_550));
        lines.extend(TRIALS.iter().zip(self.trials.0).map(|(trial, n)| {
            let verdict = match trial.number {
                0 => "read".into(),
                number => format!("refused with {number}"),
            };
            line(&format!("days, {verdict}: {}", trial.name), n, LEAST_OF_TRIAL)
        }));
        let slips = dayslips::NAMES.iter().zip(self.slips).zip(LEAST_SHOWN);
        lines.extend(slips.map(|((name, shown), least)| {
            line(&format!("files that would show {name}"), shown, least)
        }));
        lines
    }
}
