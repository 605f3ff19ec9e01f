//! Faults of valid files: each field of each record out of its range, or
//! within it but against another rule.

use crate::days::Days;
use crate::file::*;
use crate::layout::{DAY_AT, DAYS_AT, NAMED_AT, PAIRS_AT, RELATION, USER_AT};
use crate::rng::Rng;

/// Versions that there are not, some of which would be if only one of the two
/// bytes were read, or the two in the other order.
pub const OTHER_VERSIONS: [u64; 10] = [0, 5, 256, 257, 258, 259, 260, 512, 768, 1_024];

/// So many grants give days for the night's.
const SOME_GRANTS: usize = 6;

/// Bytes put in the place of others.
pub struct Patch {
    at: usize,
    bytes: Vec<u8>,
}

impl Patch {
    pub fn apply(&self, file: &mut [u8]) {
        file[self.at..self.at + self.bytes.len()].copy_from_slice(&self.bytes);
    }
}

struct Patches<'a> {
    file: &'a File,
    written: Vec<u8>,
    rng: &'a mut Rng,
    out: Vec<Patch>,
}

impl Patches<'_> {
    fn number(&mut self, at: usize, width: usize, values: &[u64]) {
        for value in values {
            let bytes = value.to_be_bytes()[8 - width..].to_vec();
            // A patch that changes nothing would only be the valid file again.
            if self.written[at..at + width] != bytes {
                self.out.push(Patch { at, bytes });
            }
        }
    }

    fn held(&self, at: usize) -> u64 {
        u64::from_be_bytes(self.written[at..at + 8].try_into().expect("eight bytes"))
    }

    fn copy(&mut self, from: usize, at: usize, width: usize) {
        let bytes = self.written[from..from + width].to_vec();
        self.out.push(Patch { at, bytes });
    }

    /// A set made empty, full, wider or narrower by one, or another's.
    fn set(&mut self, at: usize) {
        let held = self.held(at);
        let attributes = self.file.attributes;
        let any = 1 << self.rng.below(attributes);
        let other = 1 << self.rng.below(attributes);
        let first_past = 1u64.checked_shl(attributes as u32).unwrap_or(0);
        let lowest = held & held.wrapping_neg();
        let narrower = held ^ lowest;
        let values =
            [0, u64::MAX, held ^ any, held ^ other, held | first_past, held | 1 << 63, narrower];
        self.number(at, 8, &values);
    }

    fn header(&mut self) {
        for (at, letter) in b"AXP".iter().enumerate() {
            self.number(at, 1, &[0, u64::from(letter ^ 32), 255]);
        }
        self.number(3, 2, &OTHER_VERSIONS);
        self.number(3, 2, &[1, 2, 3, 4, 65_535]);
        for (at, limit) in [(5, 16), (6, 16), (7, 64), (8, 64)] {
            let count = u64::from(self.written[at]);
            self.number(at, 1, &[0, limit, limit + 1, 255, count - 1, count + 1]);
        }
        let grants = self.file.grants.len() as u64;
        self.number(9, 2, &[272, 273, 65_535, grants + 1, grants.saturating_sub(1)]);
        self.number(11, 4, &[0, 1]);
        self.user();
        if self.file.pairs.is_some() {
            let pairs = self.file.list().len() as u64;
            self.number(PAIRS_AT, 1, &[0, 255, pairs.saturating_sub(1), (pairs + 1).min(255)]);
        }
        self.night();
    }

    /// Another night's day: next to the one that stands, at the ends, and of some grants
    /// the first and the last day and those before and after them.
    fn night(&mut self) {
        let Some(day) = self.file.day else { return };
        self.day(DAY_AT, &[0, i64::from(day) - 1, i64::from(day) + 1, 65_535]);
        for _ in 0..SOME_GRANTS {
            let Days { first, last } =
                self.file.grants[self.rng.below(self.file.grants.len())].days;
            let [first, last] = [first, last].map(i64::from);
            self.day(DAY_AT, &[first - 1, first, last, last + 1]);
        }
    }

    /// Days in the place of one, as far as there are such.
    fn day(&mut self, at: usize, days: &[i64]) {
        let days: Vec<u64> =
            days.iter().filter_map(|&day| u16::try_from(day).ok()).map(u64::from).collect();
        self.number(at, 2, &days);
    }

    /// Every other user, and numbers that nobody has: the first of them, and some
    /// that would be somebody's if they were cut to fewer bits.
    fn user(&mut self) {
        let subjects = self.file.subjects as u64;
        if let Some(user) = self.file.user {
            let everyone: Vec<u64> = (0..subjects).collect();
            self.number(USER_AT, 1, &everyone);
            self.number(USER_AT, 1, &[subjects, 16, 16 + user as u64, 128 + user as u64, 255]);
        }
    }

    fn relations(&mut self) {
        let subjects = self.file.subjects;
        for index in 0..self.file.relations.len() {
            let at = self.file.layout().relations + RELATION * index;
            let other = self.rng.below(subjects) as u64;
            self.number(at, 1, &[subjects as u64, 16, 255, other]);
            self.set(at + 1);
        }
    }

    fn grants(&mut self) {
        let (subjects, relations) = (self.file.subjects, self.file.relations.len());
        let layout = self.file.layout();
        for index in 0..self.file.grants.len() {
            let at = layout.grant_at(index);
            let (relation, subject) = (self.rng.below(relations), self.rng.below(subjects));
            self.number(at, 1, &[relations as u64, 16, 255, relation as u64]);
            self.number(at + 1, 1, &[subjects as u64, 254, 255, subject as u64]);
            self.set(at + 2);
            self.set(at + 10);
            // The pair of an earlier or later grant, its sets left as they are.
            let twin = layout.grant_at(self.rng.below(self.file.grants.len()));
            self.copy(twin, at, 2);
            self.seal_one(at);
            if self.file.day.is_some() {
                self.days(index, at + DAYS_AT);
            }
        }
    }

    /// A first day after the last, one day alone, one day longer on either side, up to
    /// the night's day and not so far, all days, and those of another grant of the pair.
    fn days(&mut self, index: usize, at: usize) {
        let grant = &self.file.grants[index];
        let day = i64::from(self.file.nights_day());
        let [first, last] = [grant.days.first, grant.days.last].map(i64::from);
        let of_pair = |other: &&Grant| other.same_pair(grant) && other.days != grant.days;
        let other = self.file.grants.iter().find(of_pair).unwrap_or(grant).days;
        self.day(at, &[last + 1, last, first - 1, day, day + 1, other.last.into()]);
        self.day(at + 2, &[first - 1, first, last + 1, day, day - 1, other.first.into()]);
        self.number(at, 4, &[65_535, 65_535 << 16]);
        self.number(at, 4, &[u64::from(other.first) << 16 | u64::from(other.last)]);
    }

    /// The lowest attribute seen in clear becomes sealed: an owner's view is
    /// then short of it, any other grant is as good as before.
    fn seal_one(&mut self, grant: usize) {
        let (clear, sealed) = (self.held(grant + 2), self.held(grant + 10));
        let lowest = clear & clear.wrapping_neg();
        let bytes = [(clear ^ lowest).to_be_bytes(), (sealed | lowest).to_be_bytes()].concat();
        self.out.push(Patch { at: grant + 2, bytes });
    }

    /// What may stand in its field, but mostly against the rule of its kind:
    /// apart from the other faults of nodes, or these would crowd it out.
    fn kinds(&mut self) {
        let layout = self.file.layout();
        let places = (0..self.file.nodes.len()).map(|node| layout.node_at(node));
        let leaves: Vec<usize> = places.filter(|&at| self.written[at] == 0).collect();
        for (index, node) in self.file.nodes.iter().enumerate() {
            let at = layout.node_at(index);
            let [left, x, y] = [1, 3, 4].map(|field| u64::from(self.written[at + field]));
            let any = self.rng.below(self.file.attributes) as u64;
            let leaf = self.rng.pick(&leaves);
            match node.work {
                // Another leaf's relation with its set: only the taking is wrong.
                Work::Leaf { .. } => self.copy(leaf + 3, at + 3, 13),
                Work::Project { .. } | Work::Count { .. } => self.number(at + 8, 8, &[0]),
                Work::SelectValue { .. } => self.number(at + 3, 1, &[any]),
                Work::Product { .. } => self.number(at + 2, 1, &[left]),
                // Swapped, or both from one side; for kind 3 either is right.
                Work::SelectPair { .. } | Work::Join { .. } => {
                    self.number(at + 3, 2, &[y << 8 | x, x << 8 | x, y << 8 | y]);
                }
                Work::Aggregate { .. } | Work::Function { .. } => {
                    let toggled = self.held(at + 8) ^ 1 << x;
                    self.number(at + 8, 8, &[0, toggled]);
                    self.number(at + 3, 1, &[any]);
                }
                // One pair or another alone, which shared attributes make a half.
                Work::JoinPairs { ref pairs, .. } => {
                    let alone = |&(x, y): &(usize, usize)| 1 << x | 1 << y;
                    self.number(at + 16, 8, &pairs.iter().map(alone).collect::<Vec<u64>>());
                }
            }
            let reads = node.work.reads().bits();
            self.number(at + 16, 8, &[reads, reads & reads.wrapping_neg()]);
        }
    }

    fn nodes(&mut self) {
        let count = self.file.nodes.len();
        for index in 0..count {
            let at = self.file.layout().node_at(index);
            let kind = self.rng.below(9) as u64;
            self.number(at, 1, &[9, 10, 255, kind]);
            for field in [1, 2] {
                let other = self.rng.below(count) as u64;
                self.number(at + field, 1, &[255, 0, index as u64, count as u64, other]);
            }
            for field in [3, 4] {
                let any = self.rng.below(self.file.attributes) as u64;
                self.number(at + field, 1, &[255, self.file.attributes as u64, 64, 254, any]);
            }
            for field in [5, 6, 7] {
                let bit = 1 << self.rng.below(8);
                self.number(at + field, 1, &[bit]);
            }
            self.set(at + 8);
            self.set(at + 16);
            self.number(at + 24, 4, &[MOST_SIZE, MOST_SIZE + 1, u32::MAX.into()]);
            if self.file.pairs.is_some() {
                self.named(at + NAMED_AT);
            }
        }
    }

    /// Which pairs a node names: one further on or back, one more or fewer, up to the
    /// list's end and past it.
    fn named(&mut self, at: usize) {
        let pairs = self.file.list().len() as u64;
        let [first, count] = [at, at + 1].map(|at| u64::from(self.written[at]));
        let next_to = |number: u64| [number.saturating_sub(1), (number + 1).min(255)];
        let last = pairs.saturating_sub(count);
        self.number(at, 1, &[0, 255, last, (last + 1).min(255)]);
        self.number(at, 1, &next_to(first));
        self.number(at + 1, 1, &[0, 8, 9, 255]);
        self.number(at + 1, 1, &next_to(count));
    }

    /// The pairs that nodes name: attributes that are not there or on the wrong side,
    /// and such as would be right if they were cut to fewer bits.
    fn pairs(&mut self) {
        let start = self.file.layout().pairs;
        for node in &self.file.nodes {
            let Work::JoinPairs { first, ref pairs, .. } = node.work else { continue };
            for (index, &(x, y)) in pairs.iter().enumerate() {
                let at = start + 2 * (first + index);
                for (side, held) in [x, y].into_iter().enumerate() {
                    let any = self.rng.below(self.file.attributes) as u64;
                    let cut = self.rng.pick(&[64, 128, 192]) + held as u64;
                    let past = self.file.attributes as u64;
                    self.number(at + side, 1, &[past, 64, 255, any, cut]);
                }
                self.number(at, 2, &[(y << 8 | x) as u64]);
            }
        }
    }

    fn prices(&mut self) {
        let layout = self.file.layout();
        for at in (layout.step_prices..layout.end).step_by(4) {
            let most = if at < layout.link_prices { MOST_STEP_PRICE } else { MOST_LINK_PRICE };
            let other = self.rng.pick(&[1, most, u32::MAX.into()]);
            self.number(at, 4, &[most + 1, other]);
        }
    }
}

/// Every fault of a file, record by record; some of them leave it valid, at
/// the very edge of a rule.
pub fn patches(rng: &mut Rng, file: &File) -> Vec<Vec<Patch>> {
    let written = file.write();
    let mut work = Patches { file, written, rng, out: Vec::new() };
    let mut sections = Vec::new();
    let makers = [
        Patches::header,
        Patches::relations,
        Patches::grants,
        Patches::nodes,
        Patches::kinds,
        Patches::pairs,
        Patches::prices,
    ];
    for make in makers {
        make(&mut work);
        sections.push(std::mem::take(&mut work.out));
    }
    sections
}
