//! What the cases have touched, counted so that a silent gap shows.

use crate::carrycount::Carried;
use crate::daycount::Dates;
use crate::every::Tried;
use crate::failing::Failing;
use crate::generate::Case;
use crate::paircount::Pairs;
use crate::planner::{Answer, Key, Study};
use crate::reading::Refusal;
use crate::slips;
use crate::usercount::Users;
use crate::whys::SORTS;
use crate::writecount::Writes;

/// From so many cases on, with one large file in so many, each line of the
/// table has to reach its floor: a bit less than what such runs reach.
pub const FULL: usize = 100_000;
pub const FULL_LARGE: usize = 50;

/// Floors for refusals 1 to 15.
const LEAST_REFUSED: [usize; 15] = [
    1_200, 1_300, 5_850, 1_950, 3_700, 5_600, 1_250, 5_800, 3_350, 1_350, 1_200, 760, 10_500,
    17_500, 10_500,
];
/// Floors for kinds 0 to 9.
const LEAST_OF_KIND: [usize; 10] =
    [102_000, 44_000, 66_500, 44_000, 10_000, 18_000, 44_500, 22_500, 44_500, 15_500];
/// Floors for the slips, in the order of their names.
const LEAST_SHOWN: [usize; slips::NAMES.len()] =
    [23_500, 11_000, 670, 35, 1_000, 9_900, 12_000, 3_700, 16_500, 4_850];
/// Floors for the sorts of answers to why a subject is out.
const LEAST_OF_SORT: [usize; SORTS.len()] =
    [695_000, 281_000, 165_000, 64_500, 9_100, 12_500, 3_350, 13_500, 131_000, 461_000, 262_000];

/// From so many nodes and subjects on an answered file counts as broad, and
/// from so many nodes on an accepted offer as one on a long file.
const BROAD_NODES: usize = 40;
const BROAD_SUBJECTS: usize = 10;
pub const LONG_NODES: usize = 20;
/// The limits of a file.
const MOST_NODES: usize = 64;
const MOST_SUBJECTS: usize = 16;
/// A tied set of so many attributes counts as wide.
const WIDE_TIE: usize = 5;
/// And of so many where it is named as the reason.
const WIDE_NAMED: usize = 3;

/// A line of the table: what is counted, how often it came up, and the least
/// that a full run must reach.
#[derive(Clone)]
pub struct Line {
    what: String,
    count: usize,
    least: usize,
}

pub fn line(what: &str, count: usize, least: usize) -> Line {
    Line { what: what.into(), count, least }
}

/// What is counted of answered files that are broad.
#[derive(Default)]
struct Broad {
    answered: usize,
    at_the_limits: usize,
    with_opening: usize,
    with_sealed_view: usize,
    with_shared_key: usize,
    contested_steps: usize,
}

/// What is counted of tiny files whose every plan is tried.
#[derive(Default)]
struct Tiny {
    files: usize,
    raw: usize,
    delivered: usize,
    choices: usize,
    plans: usize,
    runs: usize,
    undelivered: usize,
}

/// What is counted of the answers to why a subject is out.
#[derive(Default)]
struct Whys {
    sorts: [usize; SORTS.len()],
    several_offend: usize,
    implicit_alone: usize,
    wide_ties: usize,
    faded_ties: usize,
    ties_behind: usize,
}

#[derive(Default)]
pub struct Coverage {
    /// By number; 16 is counted by the questions that bring it.
    refusals: [usize; 18],
    kinds: [usize; 10],
    readable: usize,
    at_the_limits: usize,
    answered: usize,
    pub enumerated: usize,
    pub tied_totals: usize,
    order_matters: usize,
    wide_totals: usize,
    wide_ties: usize,
    answered_wide_ties: usize,
    without_candidates: usize,
    several_candidates: usize,
    accepted_offers: usize,
    accepted_long_offers: usize,
    accepted_longest_offers: usize,
    shared_keys: usize,
    slips: [usize; slips::NAMES.len()],
    pub clean_runs: usize,
    pub faulty_runs: usize,
    /// Null pointers for file, offer, choice, plan and keys.
    null: [usize; 5],
    nowhere: usize,
    broad: Broad,
    tiny: Tiny,
    whys: Whys,
    pub users: Users,
    pub pairs: Pairs,
    pub days: Dates,
    pub carried: Carried,
    pub writes: Writes,
}

pub fn count(yes: bool) -> usize {
    usize::from(yes)
}

impl Coverage {
    /// One case's refusals, each number once however many calls gave it.
    pub fn refused(&mut self, refusals: &[Refusal]) {
        let mut numbers: Vec<u64> = refusals.iter().map(|refusal| refusal.number).collect();
        numbers.sort();
        numbers.dedup();
        for number in numbers {
            self.refusals[number as usize] += 1;
        }
    }

    /// Where a case has nothing to pass; of a refused file only the file's own
    /// pointer counts, for the others are not looked at.
    pub fn pointers(&mut self, case: &Case, readable: bool) {
        let rooms = [case.rooms.choice, case.rooms.plan, case.rooms.keys];
        let lengths = [case.file.len(), case.offer.len(), rooms[0], rooms[1], rooms[2]];
        for (place, &length) in lengths.iter().enumerate() {
            if length == 0 && (readable || place == 0) {
                self.null[place] += count(case.bare == 0);
                self.nowhere += count(case.bare != 0);
            }
        }
    }

    /// A readable file, and all that fails for each of those asked about.
    pub fn read(&mut self, study: &Study, asked: &[Vec<Failing>]) {
        self.readable += 1;
        self.at_the_limits += count(at_the_limits(study));
        self.wide_ties += count(study.widest_tie() >= WIDE_TIE);
        for (slip, shown) in self.slips.iter_mut().zip(slips::shown(study, asked)) {
            *slip += count(shown);
        }
        for (node, candidates) in study.file.nodes.iter().zip(&study.candidates) {
            self.kinds[usize::from(node.work.kind())] += 1;
            if !node.work.is_leaf() {
                self.without_candidates += count(candidates.is_empty());
                self.several_candidates += count(candidates.len() > 1);
            }
        }
    }

    /// An answer to why a subject is out, of a sort, and all that fails for it.
    pub fn why(&mut self, sort: usize, failing: &[Failing]) {
        let whys = &mut self.whys;
        whys.sorts[sort] += 1;
        let Some(first) = failing.first() else { return };
        let (named, several) = (&first.offending[0], first.offending.len() > 1);
        if first.condition < 3 {
            whys.several_offend += count(several);
            whys.implicit_alone += count(!first.visible.has(named[0]));
            return;
        }
        whys.wide_ties += count(named.len() >= WIDE_NAMED);
        whys.faded_ties += count(named.iter().any(|&attribute| !first.visible.has(attribute)));
        whys.ties_behind += count(several);
    }

    /// An answered cheapest choice, and whether the other order of comparing
    /// equals would give another.
    pub fn answered(&mut self, study: &Study, answer: &Answer, order_matters: bool) {
        self.answered += 1;
        self.order_matters += count(order_matters);
        self.wide_totals += count(answer.total > u32::MAX.into());
        self.answered_wide_ties += count(study.widest_tie() >= WIDE_TIE);
        let (nodes, subjects) = (study.file.nodes.len(), study.file.subjects);
        if nodes < BROAD_NODES || subjects < BROAD_SUBJECTS {
            return;
        }
        let contested = |list: &&Vec<usize>| !list.is_empty() && list.len() < subjects;
        self.broad.answered += 1;
        self.broad.at_the_limits += count(at_the_limits(study));
        self.broad.with_opening += count(study.plan.opens.iter().any(|opens| !opens.is_empty()));
        self.broad.with_sealed_view += count(study.meets_sealed(&answer.choice));
        self.broad.with_shared_key += count(answer.keys.iter().any(shared));
        self.broad.contested_steps += study.candidates.iter().filter(contested).count();
    }

    pub fn accepted(&mut self, study: &Study) {
        self.accepted_offers += 1;
        self.accepted_long_offers += count(study.file.nodes.len() >= LONG_NODES);
        self.accepted_longest_offers += count(study.file.nodes.len() == MOST_NODES);
    }

    pub fn keys(&mut self, keys: &[Key]) {
        self.shared_keys += keys.iter().filter(|key| shared(key)).count();
    }

    pub fn tried(&mut self, tried: &Tried) {
        self.tiny.files += 1;
        self.tiny.raw += count(tried.raw);
        self.tiny.delivered += count(tried.delivered);
        self.tiny.choices += tried.choices;
        self.tiny.plans += tried.plans;
        self.tiny.runs += tried.runs;
        self.tiny.undelivered += tried.undelivered;
    }

    pub fn lines(&self) -> Vec<Line> {
        let numbered = |what: &str, first: usize, counts: &[usize], least: &[usize]| {
            let pairs = counts.iter().zip(least).enumerate();
            pairs
                .map(|(i, (&n, &least))| line(&format!("{what} {}", first + i), n, least))
                .collect::<Vec<Line>>()
        };
        let mut lines = numbered("cases with refusal", 1, &self.refusals[1..16], &LEAST_REFUSED);
        lines.push(line("cases with refusal 17", self.refusals[17], 5_350));
        lines.push(line("readable files", self.readable, 59_000));
        lines.push(line("readable files, 64 nodes and 16 subjects", self.at_the_limits, 210));
        lines.extend(numbered("nodes in readable files of kind", 0, &self.kinds, &LEAST_OF_KIND));
        lines.extend(self.lines_of_answers());
        lines.extend(self.lines_of_broad());
        for ((name, &count), least) in slips::NAMES.iter().zip(&self.slips).zip(LEAST_SHOWN) {
            lines.push(line(&format!("files that would show {name}"), count, least));
        }
        lines.extend(self.lines_of_whys());
        lines.extend(self.users.lines());
        lines.extend(self.pairs.lines());
        lines.extend(self.days.lines());
        lines.extend(self.carried.lines());
        lines.extend(self.writes.lines());
        lines.extend(self.lines_of_pointers());
        lines.extend(self.lines_of_runs());
        lines
    }

    fn lines_of_answers(&self) -> [Line; 13] {
        [
            line("steps without a candidate", self.without_candidates, 5_850),
            line("steps with several candidates", self.several_candidates, 227_000),
            line("files with a root tied set of 5 or more", self.wide_ties, 4_100),
            line("cheapest answered", self.answered, 31_000),
            line(
                "cheapest answered, another if compared from the first node",
                self.order_matters,
                1_250,
            ),
            line("cheapest answered, total beyond 32 bits", self.wide_totals, 55),
            line("cheapest answered, a root tied set of 5 or more", self.answered_wide_ties, 2_250),
            line("cheapest found by enumeration and by recursion", self.enumerated, 51_000),
            line("cheapest so found, several of the least total", self.tied_totals, 12_500),
            line("offers accepted", self.accepted_offers, 29_000),
            line("offers accepted, 20 nodes or more", self.accepted_long_offers, 1_950),
            line("offers accepted, 64 nodes", self.accepted_longest_offers, 180),
            line("keys of several attributes", self.shared_keys, 41_500),
        ]
    }

    fn lines_of_broad(&self) -> [Line; 6] {
        let broad = &self.broad;
        [
            line("broad (40 nodes and 10 subjects or more) answered", broad.answered, 1_000),
            line("broad answered, 64 nodes and 16 subjects", broad.at_the_limits, 170),
            line("broad answered, something opened", broad.with_opening, 750),
            line(
                "broad answered, a chosen subject that sees sealed alone",
                broad.with_sealed_view,
                620,
            ),
            line("broad answered, a key of several attributes", broad.with_shared_key, 960),
            line(
                "steps in broad answered, for some subjects but not all",
                broad.contested_steps,
                52_000,
            ),
        ]
    }

    fn lines_of_whys(&self) -> Vec<Line> {
        let whys = &self.whys;
        let sorts = SORTS.iter().zip(whys.sorts).zip(LEAST_OF_SORT);
        let mut lines: Vec<Line> = sorts
            .map(|((sort, count), least)| line(&format!("asked why: {sort}"), count, least))
            .collect();
        lines.extend([
            line("asked why: one named of several that offend", whys.several_offend, 190_000),
            line("asked why: one named that is implicit alone", whys.implicit_alone, 168_000),
            line("asked why: a tied set of 3 or more named", whys.wide_ties, 38_000),
            line("asked why: a tied set named, not all of it visible", whys.faded_ties, 45_000),
            line("asked why: a tied set named, another fails too", whys.ties_behind, 11_000),
        ]);
        lines
    }

    fn lines_of_pointers(&self) -> [Line; 6] {
        let [file, offer, choice, plan, keys] = self.null;
        [
            line("null pointers with length 0 for the file", file, 25),
            line("null pointers with length 0 for the offer", offer, 620),
            line("null pointers with length 0 for the choice", choice, 910),
            line("null pointers with length 0 for the plan", plan, 780),
            line("null pointers with length 0 for the keys", keys, 780),
            line("other pointers to nowhere with length 0", self.nowhere, 3_450),
        ]
    }

    fn lines_of_runs(&self) -> [Line; 9] {
        let tiny = &self.tiny;
        [
            line("built plans run clean", self.clean_runs, 59_000),
            line("built plans of wrong choices run, none clean", self.faulty_runs, 2_650),
            line("tiny files with every plan tried", tiny.files, 10_000),
            line("tiny files so tried, even with sets out of place", tiny.raw, 4_400),
            line("tiny files so tried, with the delivery", tiny.delivered, 6_400),
            line("choices in tiny files so tried", tiny.choices, 53_500),
            line("plans in tiny files so tried", tiny.plans, 9_500_000),
            line("runs in tiny files so tried", tiny.runs, 10_000_000),
            line("runs that end at a delivery, 17 refused", tiny.undelivered, 2_150),
        ]
    }
}

/// One table of those of all parts: the counts of each line together.
pub fn together(tables: Vec<Vec<Line>>) -> Vec<Line> {
    let both = |(one, other): (Line, Line)| {
        assert_eq!(one.what, other.what, "every part has the same table");
        Line { count: one.count + other.count, ..one }
    };
    let merged = |sum: Vec<Line>, table: Vec<Line>| {
        assert_eq!(sum.len(), table.len(), "every part has the same table");
        sum.into_iter().zip(table).map(both).collect()
    };
    tables.into_iter().reduce(merged).expect("there is a part")
}

/// Prints the table; where the floors are asked, fails with the lines below
/// theirs.
pub fn told(lines: &[Line], floors: bool) -> Result<(), String> {
    let mut thin = String::new();
    for Line { what, count, least } in lines {
        println!("{what}: {count} (at least {least})");
        if floors && count < least {
            thin += &format!("{what}: {count}, fewer than {least}\n");
        }
    }
    if thin.is_empty() { Ok(()) } else { Err(thin) }
}

fn at_the_limits(study: &Study) -> bool {
    study.file.nodes.len() == MOST_NODES && study.file.subjects == MOST_SUBJECTS
}

fn shared(key: &Key) -> bool {
    key.attributes.len() > 1
}
