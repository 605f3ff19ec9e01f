//! What the cases have touched of what is carried from record to record, of holders by
//! what they touch, and of links: each trial alone, and the slips that cases would show.

use crate::carried;
use crate::carryedges::{EDGES, Edge};
use crate::carryfaults::TRIALS;
use crate::carryslips::{self, OF_CHOICE, OF_HOLDERS, OF_VERDICT, Touched};
use crate::choice::Options;
use crate::coverage::{Line, count, line};
use crate::planner::{Answer, Study};
use crate::reading::Refusal;
use crate::values::Values;

/// The floor for each trial.
const LEAST_OF_TRIAL: usize = 65;
/// Floors for the slips, in the order of their names.
const LEAST_BY_VERDICT: [usize; OF_VERDICT.len()] = [
    88, 66, 570, 2_950, 3_350, 930, 76, 37, 260, 190, 390, 180, 260, 1_550, 1_750, 3_400, 320, 130,
    180, 65, 65, 2_600, 130, 65, 630, 27, 150, 320, 1_200, 160, 71, 84, 65,
];
const LEAST_BY_HOLDERS: [usize; OF_HOLDERS.len()] = [24_500, 20_000, 17_500, 1_300, 21_500];
const LEAST_BY_CHOICE: [usize; OF_CHOICE.len()] = [2_650, 5_400];
/// Floors for answers with keys of each sort.
const LEAST_OF_SORT: [usize; SORTS.len()] = [1_300, 21_500, 8_950, 10_500];
/// Floors for refusals at numbers that only just fit.
const LEAST_OF_EDGE: [usize; EDGES.len()] = [13, 81, 99, 19, 10, 17, 21, 66, 180, 14, 97, 22];
/// What is said of the sorts of keys.
const SORTS: [&str; 4] = [
    "a key's holder only opens",
    "a key's holder only seals",
    "a key's holder only takes the delivery",
    "somebody touches other keys' attributes alone",
];

pub struct Carried {
    trials: [usize; TRIALS.len()],
    /// Verdicts that the check by carried sets gives too, read and refused.
    verdicts: [usize; 2],
    by_verdict: [usize; OF_VERDICT.len()],
    by_holders: [usize; OF_HOLDERS.len()],
    by_choice: [usize; OF_CHOICE.len()],
    edges: [usize; EDGES.len()],
    sorts: [usize; SORTS.len()],
    links_decide: usize,
    links_equal: usize,
}

impl Default for Carried {
    fn default() -> Carried {
        Carried {
            trials: [0; TRIALS.len()],
            verdicts: [0; 2],
            by_verdict: [0; OF_VERDICT.len()],
            by_holders: [0; OF_HOLDERS.len()],
            by_choice: [0; OF_CHOICE.len()],
            edges: [0; EDGES.len()],
            sorts: [0; SORTS.len()],
            links_decide: 0,
            links_equal: 0,
        }
    }
}

/// Counts those that hold.
fn add<const N: usize>(counts: &mut [usize; N], holds: [bool; N]) {
    for (counted, holds) in counts.iter_mut().zip(holds) {
        *counted += count(holds);
    }
}

impl Carried {
    pub fn trial(&mut self, trial: usize) {
        self.trials[trial] += 1;
    }

    /// The verdict of values whose header and counts are right is that of the check by
    /// carried sets. Where the file is made for them, slips are tried.
    pub fn hold(
        &mut self,
        values: &Values,
        given: Result<(), Refusal>,
        made: bool,
    ) -> Result<(), String> {
        let carried = carried::verdict(values, None);
        if carried != given {
            return Err(format!("by carried sets {carried:?}, but {given:?}"));
        }
        self.verdicts[count(given.is_err())] += 1;
        if made {
            let at = |edge: Edge| {
                let there = given.err().filter(|refusal| refusal.number == edge.number);
                there.is_some_and(|refusal| (edge.holds)(values, refusal.place as usize))
            };
            add(&mut self.edges, EDGES.map(at));
            add(&mut self.by_verdict, carryslips::shown_by_verdict(values, given));
        }
        Ok(())
    }

    /// The keys of an answer are those by what each subject touches.
    pub fn keys(&mut self, study: &Study, answer: &Answer) -> Result<(), String> {
        let touched = Touched::by(study, &answer.choice);
        add(&mut self.by_holders, touched.shown(&answer.keys)?);
        let mut sorts = [false; SORTS.len()];
        for key in &answer.keys {
            let here = touched.sorts(key);
            sorts = std::array::from_fn(|sort| sorts[sort] | here[sort]);
        }
        add(&mut self.sorts, sorts);
        Ok(())
    }

    /// A cheapest choice, and what each node might have been given.
    pub fn answered(&mut self, study: &Study, answer: &Answer, options: &Options) {
        let shown = carryslips::shown_by_choice(study, answer, options);
        add(&mut self.by_choice, shown);
        self.links_decide += count(shown[1] && carryslips::even_steps(&study.file, options));
    }

    /// A file of which so many choices have the least total.
    pub fn equals(&mut self, study: &Study, options: &Options, equals: usize) {
        let by_links = equals > 1 && carryslips::even_steps(&study.file, options);
        self.links_equal += count(by_links);
    }

    pub fn lines(&self) -> Vec<Line> {
        let [read, refused] = self.verdicts;
        let mut lines = vec![
            line("files read by carried sets too", read, 32_000),
            line("files refused alike by carried sets", refused, 18_000),
            line("cheapest answered, links alone decide", self.links_decide, 1_150),
            line(
                "several of the least total, links alone tell them apart",
                self.links_equal,
                2_300,
            ),
        ];
        for ((what, &n), least) in SORTS.iter().zip(&self.sorts).zip(LEAST_OF_SORT) {
            lines.push(line(&format!("answers, {what}"), n, least));
        }
        for (trial, &n) in TRIALS.iter().zip(&self.trials) {
            let verdict = match trial.number {
                0 => "read".into(),
                number => format!("refused with {number}"),
            };
            lines.push(line(&format!("carried, {verdict}: {}", trial.name), n, LEAST_OF_TRIAL));
        }
        for ((edge, &n), least) in EDGES.iter().zip(&self.edges).zip(LEAST_OF_EDGE) {
            let what = format!("carried, refused with {}, at an edge: {}", edge.number, edge.what);
            lines.push(line(&what, n, least));
        }
        lines.extend(self.lines_of_slips());
        lines
    }

    fn lines_of_slips(&self) -> Vec<Line> {
        let of_verdict = OF_VERDICT.map(|(_, name)| name);
        let names = of_verdict.iter().chain(&OF_HOLDERS).chain(&OF_CHOICE);
        let counts = self.by_verdict.iter().chain(&self.by_holders).chain(&self.by_choice);
        let least = LEAST_BY_VERDICT.iter().chain(&LEAST_BY_HOLDERS).chain(&LEAST_BY_CHOICE);
        let shown = |((name, &n), &least): ((&&str, &usize), &usize)| {
            line(&format!("cases that would show {name}"), n, least)
        };
        names.zip(counts).zip(least).map(shown).collect()
    }
}
