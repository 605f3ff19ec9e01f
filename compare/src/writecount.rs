//! What the cases have touched of the writer: files through values and back,
//! values written and refused, and refusals that compete.

use std::fmt::Display;

use crate::calendar::wrong;
use crate::coverage::{Line, count, line};
use crate::layout::VERSIONS;
use crate::orders::{FAR, UNKNOWN_VERSIONS};
use crate::reading::{Refusal, read};
use crate::values::{Grant, LISTS, Node, PAIRS, Values, with_days, with_pairs};
use crate::writer::{Order, outside};

/// Each with its floor: the refusals of values, and those of files that have some.
const REFUSED: [(u64, usize); 11] = [
    (2, 3_850),
    (3, 14_000),
    (4, 8_000),
    (5, 3_850),
    (6, 4_550),
    (7, 1_100),
    (8, 4_500),
    (9, 2_500),
    (10, 1_000),
    (11, 1_400),
    (15, 8_150),
];
const REFUSED_BACK: [(u64, usize); 7] =
    [(5, 3_700), (6, 5_600), (7, 1_250), (8, 5_800), (9, 3_350), (10, 1_350), (11, 1_200)];
/// For each version.
const BACK: [(usize, usize); VERSIONS] = [(1, 14_000), (2, 13_500), (3, 14_000), (4, 15_000)];
const WRITTEN: [(usize, usize); VERSIONS] = [(1, 9_500), (2, 9_000), (3, 9_000), (4, 9_000)];
/// For each version that there is not.
const LEAST_OF_UNKNOWN: usize = 340;
const MISCOUNTED: [(&str, usize); LISTS.len()] = [
    (LISTS[0], 1_350),
    (LISTS[1], 1_650),
    (LISTS[2], 1_100),
    (LISTS[3], 1_100),
    (LISTS[4], 1_100),
    (LISTS[5], 1_150),
];
const WAYS: [(&str, usize); 6] = [
    ("with one more", 6_000),
    ("with one fewer", 6_200),
    ("with none", 1_450),
    ("with far too many", 2_450),
    ("with as many if cut to 8 or 16 bits", 880),
    ("with the file's length right all the same", 3_050),
];
/// In the order of the writer's verdict.
const OUTSIDE: [(&str, usize); 6] = [
    ("subjects", 920),
    ("relations", 1_100),
    ("attributes", 940),
    ("nodes", 960),
    ("grants", 1_250),
    ("the user", 2_200),
];
const ROOMS: [(&str, usize); 6] = [
    ("exactly long enough", 23_000),
    ("one byte longer", 5_350),
    ("longer by more", 8_150),
    ("longer than 16 bits can say", 790),
    ("short by one", 4_400),
    ("none, behind a null pointer", 810),
];
/// The first is given, the other would be if it were asked before.
const COMPETING: [(&str, usize); 9] = [
    ("2 before 4", 180),
    ("2 before 3", 1_750),
    ("2 before 15", 650),
    ("4 before 3", 2_150),
    ("4 before 15", 2_150),
    ("3 before 5 to 11", 1_600),
    ("3 before 15", 2_350),
    ("5 to 10 before 15", 3_050),
    ("11 before 15", 210),
];

#[derive(Default)]
pub struct Writes {
    /// By the version, as those written.
    back: [usize; VERSIONS],
    refused_back: [usize; REFUSED_BACK.len()],
    written: [usize; VERSIONS],
    odd_user: usize,
    odd_pairs: usize,
    odd_named: usize,
    odd_night: usize,
    odd_days: usize,
    odd_order: usize,
    idle: usize,
    refused_days: usize,
    joins: usize,
    kind_before: usize,
    listed_before: usize,
    by_a_pair: usize,
    half_listed: usize,
    at_the_limits: usize,
    refused: [usize; REFUSED.len()],
    unknown: [usize; UNKNOWN_VERSIONS.len()],
    miscounted: [usize; MISCOUNTED.len()],
    ways: [usize; WAYS.len()],
    outside: [usize; OUTSIDE.len()],
    outside_as_many: usize,
    rooms: [usize; ROOMS.len()],
    null_lists: usize,
    null_pairs: usize,
    competing: [usize; COMPETING.len()],
}

fn add<const N: usize>(counts: &mut [usize; N], seen: [bool; N]) {
    for (counted, seen) in counts.iter_mut().zip(seen) {
        *counted += count(seen);
    }
}

/// What is wrong, where it is one thing alone.
fn alone<const N: usize>(wrong: [bool; N]) -> [bool; N] {
    let one = wrong.iter().filter(|&&yes| yes).count() == 1;
    wrong.map(|yes| yes && one)
}

fn lines_of<T: Display, const N: usize>(
    what: &str,
    table: &[(T, usize); N],
    counts: &[usize; N],
) -> Vec<Line> {
    let both = table.iter().zip(counts);
    both.map(|((name, least), &n)| line(&format!("{what} {name}"), n, *least)).collect()
}

/// The ways in which lists are miscounted.
fn ways(values: &Values) -> [bool; WAYS.len()] {
    let pairs = values.lengths().into_iter().zip(values.header.asks());
    let wrong: Vec<(usize, usize)> = pairs.filter(|(length, asked)| length != asked).collect();
    let any = |way: fn(usize, usize) -> bool| wrong.iter().any(|&(n, asked)| way(n, asked));
    [
        any(|n, asked| n == asked + 1),
        any(|n, asked| n + 1 == asked),
        any(|n, _| n == 0),
        any(|n, asked| n >= asked + FAR),
        any(|n, asked| n % 256 == asked % 256),
        values.encode().len() == values.header.file_length(),
    ]
}

/// Whether a grant in version 4 is wrong by its days alone.
fn wrong_days(values: &Values, place: usize) -> bool {
    with_days(values.header.version) && wrong(values, place).is_some_and(|wrong| !wrong.undated)
}

/// Whether reading would refuse the records that the counts ask for, where the
/// lists have them all.
fn faulty(values: &Values) -> bool {
    let mut cut = values.clone();
    let [relations, grants, nodes, pairs, steps, links] = cut.header.asks();
    cut.relations.truncate(relations);
    cut.grants.truncate(grants);
    cut.nodes.truncate(nodes);
    cut.pairs.truncate(pairs);
    cut.step_prices.truncate(steps);
    cut.link_prices.truncate(links);
    cut.lengths() == cut.header.asks() && read(&cut.encode()).is_err()
}

impl Writes {
    /// A case's file through its values; one refused with less than 5 has none.
    pub fn back(&mut self, version: u16, refused: Option<u64>) {
        match refused {
            None => self.back[usize::from(version) - 1] += 1,
            Some(number) => add(&mut self.refused_back, REFUSED_BACK.map(|(n, _)| n == number)),
        }
    }

    pub fn order(&mut self, order: &Order, verdict: &Result<Vec<u8>, Refusal>) {
        let Order { values, room, bare, .. } = order;
        let length = values.header.file_length();
        let number = verdict.as_ref().err().map(|refusal| refusal.number);
        let mut lengths = values.lengths();
        // Most have no pairs, so that these are counted apart.
        self.null_pairs += count(*bare == 0 && lengths[PAIRS] == 0);
        lengths[PAIRS] = 1;
        self.null_lists += count(*bare == 0 && lengths.contains(&0));
        match number {
            None => self.accepted(values, *room - length),
            Some(number) => {
                add(&mut self.refused, REFUSED.map(|(n, _)| n == number));
                self.refusal(values, number);
                let place = verdict.as_ref().err().map_or(0, |refusal| refusal.place as usize);
                self.refused_days += count(number == 6 && wrong_days(values, place));
                self.compete(values, number, *room < length);
                self.rooms[4] += count(number == 15 && room + 1 == length);
                self.rooms[5] += count(number == 15 && *room == 0 && *bare == 0);
            }
        }
    }

    fn accepted(&mut self, values: &Values, over: usize) {
        let Values { header, nodes, .. } = values;
        let listed = with_pairs(header.version);
        let named = |node: &Node| (node.first, node.count) != (0, 0);
        self.odd_pairs += count(!listed && header.pairs > 0);
        self.odd_named += count(!listed && nodes.iter().any(named));
        self.joins += count(nodes.iter().any(|node| node.kind == 9));
        self.days(values);
        self.written[usize::from(header.version) - 1] += 1;
        self.odd_user += count(header.version == 1 && header.user >= header.subjects);
        self.at_the_limits += count(header.nodes == 64 && header.subjects == 16);
        let long = over + header.file_length() > u16::MAX.into();
        self.rooms[if long { 3 } else { over.min(2) }] += 1;
    }

    /// Values that are written, by their days: before version 4 these mean nothing.
    fn days(&mut self, values: &Values) {
        let Values { header, grants, .. } = values;
        let any = |holds: &dyn Fn(&Grant) -> bool| count(grants.iter().any(holds));
        if with_days(header.version) {
            self.idle += any(&|grant| !(grant.first..=grant.last).contains(&header.day));
            return;
        }
        self.odd_night += count(header.day > 0);
        self.odd_days += any(&|grant| (grant.first, grant.last) != (0, u16::MAX));
        self.odd_order += any(&|grant| grant.first > grant.last);
    }

    /// What is wrong with values that are refused with 2, 4 or 3.
    fn refusal(&mut self, values: &Values, number: u64) {
        let (lengths, asked) = (values.lengths(), values.header.asks());
        match number {
            2 => add(&mut self.unknown, UNKNOWN_VERSIONS.map(|n| n == values.header.version)),
            3 => {
                let wrong: [bool; LISTS.len()] =
                    std::array::from_fn(|list| lengths[list] != asked[list]);
                add(&mut self.miscounted, alone(wrong));
                add(&mut self.ways, ways(values));
                let listed = with_pairs(values.header.version);
                let only = alone(wrong)[PAIRS] && listed;
                self.listed_before += count(!listed && !values.pairs.is_empty());
                self.by_a_pair += count(only && lengths[PAIRS].abs_diff(asked[PAIRS]) == 2);
                self.half_listed += count(only && 2 * lengths[PAIRS] == asked[PAIRS]);
            }
            4 => {
                add(&mut self.outside, alone(outside(&values.header)));
                self.outside_as_many += count(lengths == asked);
            }
            8 => {
                let kind_9 = values.nodes.iter().any(|node| node.kind == 9);
                self.kind_before += count(kind_9 && !with_pairs(values.header.version));
            }
            _ => {}
        }
    }

    /// What would have been refused after it.
    fn compete(&mut self, values: &Values, number: u64, short: bool) {
        let outside = outside(&values.header).contains(&true);
        let miscounted = values.lengths() != values.header.asks();
        let competing = [
            number == 2 && outside,
            number == 2 && miscounted,
            number == 2 && short,
            number == 4 && miscounted,
            number == 4 && short,
            number == 3 && faulty(values),
            number == 3 && short,
            (5..=10).contains(&number) && short,
            number == 11 && short,
        ];
        add(&mut self.competing, competing);
    }

    pub fn lines(&self) -> Vec<Line> {
        let whole = self.back.iter().chain(&self.written).sum();
        let mut lines = vec![
            line("nights written and read back", whole, 100_000),
            line("values written in version 1, the user nobody's number", self.odd_user, 7_250),
            line("values written without pairs, a number of pairs", self.odd_pairs, 14_000),
            line("values written without pairs, a node names some", self.odd_named, 17_500),
            line("values written without days, a night's day", self.odd_night, 20_500),
            line("values written without days, a grant with some", self.odd_days, 27_000),
            line("values written without days, a first after the last", self.odd_order, 24_500),
            line("values written with a grant out of force", self.idle, 6_050),
            line("values refused with 6 for days", self.refused_days, 1_250),
            line("values written with a join on pairs", self.joins, 6_150),
            line("values refused with 8, kind 9 in version 1 or 2", self.kind_before, 360),
            line("values refused with 3, pairs in version 1 or 2", self.listed_before, 540),
            line("values refused with 3, one pair more or fewer", self.by_a_pair, 140),
            line("values refused with 3, as many bytes as pairs", self.half_listed, 70),
            line("values written, 64 nodes and 16 subjects", self.at_the_limits, 100),
            line("values refused with 4, the lists as many", self.outside_as_many, 5_600),
            line("values with an empty list behind a null pointer", self.null_lists, 1_050),
            line("values without pairs behind a null pointer", self.null_pairs, 28_000),
        ];
        let unknown = UNKNOWN_VERSIONS.map(|version| (version, LEAST_OF_UNKNOWN));
        lines.extend(lines_of("files through values and back, version", &BACK, &self.back));
        lines.extend(lines_of("values written in version", &WRITTEN, &self.written));
        lines.extend(lines_of("files through values, refusal", &REFUSED_BACK, &self.refused_back));
        lines.extend(lines_of("values with refusal", &REFUSED, &self.refused));
        lines.extend(lines_of("values of version", &unknown, &self.unknown));
        lines.extend(lines_of("values miscounted only in", &MISCOUNTED, &self.miscounted));
        lines.extend(lines_of("values miscounted", &WAYS, &self.ways));
        lines.extend(lines_of("values out of limits only by", &OUTSIDE, &self.outside));
        lines.extend(lines_of("values to a room", &ROOMS, &self.rooms));
        lines.extend(lines_of("values with refusal", &COMPETING, &self.competing));
        lines
    }
}
