//! What the cases have touched of joins on several pairs: their lists, plans, keys
//! and candidates, and each fault alone.

use crate::coverage::{Line, count, line};
use crate::file::{File, MOST_JOINED, MOST_PAIRS};
use crate::layout::LONGEST;
use crate::pairfaults::FAULTS;
use crate::pairslips::{self, joins, needs_some, unnamed};
use crate::planner::{Answer, Study};
use crate::starts::MANY_NODES;
use crate::views::View;
use crate::why::{Question, Reason, Table, Verdict};

/// Floors for answered joins on 1 to 8 pairs.
const LEAST_OF_COUNT: [usize; MOST_JOINED] = [3_300, 2_000, 1_100, 800, 620, 530, 470, 480];
/// The floor for each fault.
const LEAST_OF_FAULT: usize = 160;
/// Floors for the slips, in the order of their names.
const LEAST_SHOWN: [usize; pairslips::NAMES.len()] =
    [810, 690, 290, 2_300, 6_350, 720, 12_000, 14_500, 250, 110, 110, 110];

/// What is counted of the lists in readable files.
#[derive(Default)]
struct Lists {
    unnamed: usize,
    unnamed_beyond: usize,
    empty: usize,
    full: usize,
    out_of_order: usize,
    longest: usize,
}

/// What is counted of joins in readable files.
#[derive(Default)]
struct Joins {
    needs_none: usize,
    needs_some: usize,
    needs_all: usize,
    mixed_candidate: usize,
    halved: usize,
}

/// What is counted of joins in answered files.
#[derive(Default)]
struct Answered {
    by_count: [usize; MOST_JOINED],
    shared: usize,
    repeated: usize,
    mixed: usize,
    shared_key: usize,
    broad: usize,
}

/// What is counted of tiny files whose every plan is tried.
#[derive(Default)]
struct Tiny {
    files: usize,
    apart: usize,
    mixed: usize,
    merged: usize,
}

#[derive(Default)]
pub struct Pairs {
    lists: Lists,
    joins: Joins,
    answered: Answered,
    tiny: Tiny,
    faults: [usize; FAULTS.len()],
    slips: [usize; pairslips::NAMES.len()],
    /// Joins that gave the same as kind 5, of one pair and of one again and again.
    pub twins: usize,
    pub repeated_twins: usize,
}

type Pair = (usize, usize);

/// Whether two of them are the same.
fn repeats(pairs: &[Pair]) -> bool {
    let again = |(at, pair): (usize, &Pair)| pairs[..at].contains(pair);
    pairs.iter().enumerate().any(again)
}

/// Two of them that share one attribute and are not the same.
fn sharing(pairs: &[Pair]) -> impl Iterator<Item = (Pair, Pair)> {
    let both = pairs.iter().flat_map(|&one| pairs.iter().map(move |&other| (one, other)));
    both.filter(|(one, other)| one != other && (one.0 == other.0 || one.1 == other.1))
}

/// Whether two of them have no attribute in common.
fn some_apart(pairs: &[Pair]) -> bool {
    pairs.iter().any(|one| pairs.iter().any(|other| one.0 != other.0 && one.1 != other.1))
}

/// Whether one pair is seen in clear and another sealed.
fn sees_mixed(view: &View, pairs: &[Pair]) -> bool {
    let all =
        |seen: fn(&View, usize) -> bool| pairs.iter().any(|&(x, y)| seen(view, x) && seen(view, y));
    all(|view, one| view.clear.has(one)) && all(|view, one| view.sealed.has(one))
}

impl Lists {
    fn count(&mut self, file: &File) {
        let beyond = |index: usize| file.list()[index].iter().any(|&byte| byte >= 64);
        let firsts: Vec<usize> = joins(file).map(|(_, first, _)| first).collect();
        self.unnamed += count(unnamed(file).next().is_some());
        self.unnamed_beyond += count(unnamed(file).any(beyond));
        self.empty += count(file.list().is_empty());
        self.full += count(file.list().len() == MOST_PAIRS);
        self.out_of_order += count(!firsts.is_sorted());
        self.longest += count(file.layout().end == LONGEST[2]);
    }

    fn lines(&self) -> [Line; 6] {
        [
            line("lists with a pair that no node names", self.unnamed, 16_000),
            line("lists with such a pair, a byte of 64 or more", self.unnamed_beyond, 14_500),
            line("lists without a pair", self.empty, 7_950),
            line("lists of 255 pairs", self.full, 1_450),
            line("lists not in the nodes' order", self.out_of_order, 630),
            line("readable files of 12,607 bytes", self.longest, 40),
        ]
    }
}

impl Joins {
    fn count(&mut self, study: &Study, node: usize, pairs: &[Pair]) {
        let needed = &study.file.nodes[node].needed;
        let all = pairs.iter().all(|pair| needed.has(pair.0));
        self.needs_none += count(needed.is_empty());
        self.needs_some += count(!needed.is_empty() && !all);
        self.needs_all += count(all);
        let candidates = &study.candidates[node];
        self.mixed_candidate +=
            candidates.iter().filter(|&&one| sees_mixed(&study.views[one], pairs)).count();
    }

    fn lines(&self) -> [Line; 5] {
        [
            line("joins on pairs that need none", self.needs_none, 10_500),
            line("joins on pairs that need some", self.needs_some, 820),
            line("joins on pairs that need all", self.needs_all, 4_050),
            line(
                "candidates that see one pair clear and another sealed",
                self.mixed_candidate,
                950,
            ),
            line("subjects out for a pair seen half clear and half sealed", self.halved, 3_900),
        ]
    }
}

impl Answered {
    fn count(&mut self, file: &File, answers: &[&Answer], node: usize, pairs: &[Pair]) {
        let keys = || answers.iter().flat_map(|answer| &answer.keys);
        let under = |&((x, y), (other_x, other_y)): &(Pair, Pair)| {
            let all = [x, y, other_x, other_y];
            keys().any(|key| all.iter().all(|one| key.attributes.contains(one)))
        };
        self.by_count[pairs.len() - 1] += 1;
        self.shared += count(sharing(pairs).next().is_some());
        self.repeated += count(repeats(pairs));
        self.mixed += count(needs_some(file, node, pairs));
        self.shared_key += count(sharing(pairs).any(|two| under(&two)));
        self.broad += count(file.nodes.len() >= MANY_NODES);
    }

    fn lines(&self) -> Vec<Line> {
        let counts = self.by_count.iter().zip(LEAST_OF_COUNT).enumerate();
        let mut lines: Vec<Line> = counts
            .map(|(i, (&n, least))| line(&format!("joins answered on {} pairs", i + 1), n, least))
            .collect();
        lines.extend([
            line("joins answered, two pairs share an attribute", self.shared, 2_600),
            line("joins answered, a pair is repeated", self.repeated, 3_000),
            line("joins answered, one pair clear and another sealed", self.mixed, 500),
            line(
                "joins answered, two pairs that share an attribute under one key",
                self.shared_key,
                2_600,
            ),
            line("joins answered in files of 40 nodes or more", self.broad, 1_700),
        ]);
        lines
    }
}

impl Tiny {
    fn lines(&self) -> [Line; 4] {
        [
            line("tiny files so tried, with a join on pairs", self.files, 3_050),
            line("tiny files so tried, with two pairs apart", self.apart, 920),
            line("tiny files so tried, one pair clear and another sealed", self.mixed, 40),
            line("tiny files so tried that would show all pairs tied", self.merged, 75),
        ]
    }
}

impl Pairs {
    pub fn fault(&mut self, fault: usize) {
        self.faults[fault] += 1;
        for (counted, name) in self.slips.iter_mut().zip(pairslips::NAMES) {
            *counted += count(FAULTS[fault].slip == Some(name));
        }
    }

    /// A readable file, and the answers that it brought.
    pub fn read(&mut self, study: &Study, answers: &[&Answer]) {
        let file = &study.file;
        if file.pairs.is_none() {
            return;
        }
        self.lists.count(file);
        for (counted, shown) in self.slips.iter_mut().zip(pairslips::shown(study, answers)) {
            *counted += count(shown);
        }
        for (node, _, pairs) in joins(file) {
            self.joins.count(study, node, pairs);
            if !answers.is_empty() {
                self.answered.count(file, answers, node, pairs);
            }
        }
    }

    /// An answer to why a subject is out: whether it is for one pair alone.
    pub fn why(&mut self, study: &Study, asked: Question, verdict: &Verdict) {
        let Ok(Some(Reason { table: Table::Result, condition: 3, attributes })) = verdict else {
            return;
        };
        let view = &study.views[asked.subject as usize];
        let halved = |&(x, y): &Pair| {
            let named = attributes.len() == 2 && attributes.contains(&x) && attributes.contains(&y);
            let apart = |one: usize, other: usize| view.clear.has(one) && view.sealed.has(other);
            named && (apart(x, y) || apart(y, x))
        };
        let here = joins(&study.file).find(|&(node, _, _)| node == asked.node as usize);
        self.joins.halved += count(here.is_some_and(|(_, _, pairs)| pairs.iter().any(halved)));
    }

    /// A tiny file whose every plan was tried.
    pub fn tried(&mut self, study: &Study) {
        let any = |holds: &dyn Fn(usize, &[Pair]) -> bool| {
            count(joins(&study.file).any(|(node, _, pairs)| holds(node, pairs)))
        };
        self.tiny.files += any(&|_, _| true);
        self.tiny.apart += any(&|_, pairs| some_apart(pairs));
        self.tiny.mixed += any(&|node, pairs| needs_some(&study.file, node, pairs));
        self.tiny.merged += count(pairslips::merged_shows(study));
    }

    pub fn lines(&self) -> Vec<Line> {
        let mut lines = self.lists.lines().to_vec();
        lines.extend(self.joins.lines());
        lines.extend(self.answered.lines());
        lines.extend(self.tiny.lines());
        lines.push(line("joins on one pair that gave the same as kind 5", self.twins, 11_500));
        lines.push(line("joins on one pair repeated that did", self.repeated_twins, 1_050));
        lines.extend(FAULTS.iter().zip(self.faults).map(|(fault, n)| {
            line(&format!("refused with {}: {}", fault.number, fault.name), n, LEAST_OF_FAULT)
        }));
        let slips = pairslips::NAMES.iter().zip(self.slips).zip(LEAST_SHOWN);
        lines.extend(slips.map(|((name, shown), least)| {
            line(&format!("files that would show {name}"), shown, least)
        }));
        lines
    }
}
