//! What each kind of node uses, reads, ties and shows.

use super::{NONE, one, within};
use crate::records::Node;

/// The fields that a kind uses.
struct Uses {
    left: bool,
    right: bool,
    x: bool,
    y: bool,
    set: bool,
    pairs: bool,
}

/// A letter for each field that is used.
const fn uses(row: &[u8; 6]) -> Uses {
    Uses {
        left: row[0] == b'l',
        right: row[1] == b'r',
        x: row[2] == b'x',
        y: row[3] == b'y',
        set: row[4] == b's',
        pairs: row[5] == b'p',
    }
}

const USES: [Uses; 10] = [
    uses(b"--x-s-"),
    uses(b"l---s-"),
    uses(b"l-x---"),
    uses(b"l-xy--"),
    uses(b"lr----"),
    uses(b"lrxy--"),
    uses(b"l-x-s-"),
    uses(b"l---s-"),
    uses(b"l-x-s-"),
    uses(b"lr---p"),
];
pub const KINDS: usize = USES.len();
/// The join on several pairs, which older versions don't know.
pub const JOIN_ON_PAIRS: u8 = 9;
const MOST_PAIRS: u8 = 8;
const MOST_SIZE: u32 = 1_000_000;

impl Node {
    /// Not refused with 8, as node i of a file with so many kinds and pairs, of whose
    /// earlier nodes these are children already.
    pub(super) fn has_shape(&self, i: usize, kinds: usize, children: u64, pairs: usize) -> bool {
        let Some(uses) = USES[..kinds].get(self.kind as usize) else { return false };
        let child = |used: bool, c: u8| {
            if used { (c as usize) < i && children & one(c) == 0 } else { c == NONE }
        };
        child(uses.left, self.left)
            && child(uses.right, self.right)
            && !(uses.right && self.left == self.right)
            && (uses.x || self.x == NONE)
            && (uses.y || self.y == NONE)
            && (uses.set || self.set == 0)
            && self.spare == [0; 3]
            && self.size <= MOST_SIZE
            && self.names_pairs(uses.pairs, pairs)
    }

    fn names_pairs(&self, used: bool, pairs: usize) -> bool {
        if used {
            (1..=MOST_PAIRS).contains(&self.count)
                && self.first as usize + self.count as usize <= pairs
        } else {
            (self.first, self.count) == (0, 0)
        }
    }

    /// Not refused with 9, for a step over operands in which these are visible.
    pub(super) fn fits(&self, left: u64, right: u64, pairs: &[[u8; 2]]) -> bool {
        let sees = |k: u8, visible: u64| one(k) & visible != 0;
        match self.kind {
            1 | 7 => self.set != 0 && within(self.set, left),
            2 => sees(self.x, left),
            3 => sees(self.x, left) && sees(self.y, left),
            5 => sees(self.x, left) && sees(self.y, right),
            6 => within(self.set, left) && sees(self.x, left & !self.set),
            8 => within(self.set, left) && sees(self.x, self.set),
            JOIN_ON_PAIRS => {
                self.pairs(pairs).iter().all(|&[x, y]| sees(x, left) && sees(y, right))
            }
            _ => true,
        }
    }

    /// Not refused with 10.
    pub(super) fn needs_whole(&self, pairs: &[[u8; 2]]) -> bool {
        self.needed == 0
            || within(self.needed, self.reads(pairs))
                && self
                    .together(pairs)
                    .all(|set| self.needed & set == 0 || within(set, self.needed))
    }

    fn pairs<'a>(&self, pairs: &'a [[u8; 2]]) -> &'a [[u8; 2]] {
        &pairs[self.first as usize..][..self.count as usize]
    }

    fn reads(&self, pairs: &[[u8; 2]]) -> u64 {
        match self.kind {
            2 => one(self.x),
            3 | 5 => one(self.x) | one(self.y),
            6 => self.set | one(self.x),
            7 | 8 => self.set,
            _ => self.pairs(pairs).iter().fold(0, |set, &[x, y]| set | one(x) | one(y)),
        }
    }

    /// Each set that must be all clear or all sealed, and is tied.
    pub(super) fn together<'a>(&self, pairs: &'a [[u8; 2]]) -> impl Iterator<Item = u64> + use<'a> {
        let alone = matches!(self.kind, 3 | 5 | 8).then(|| self.reads(pairs));
        alone.into_iter().chain(self.pairs(pairs).iter().map(|&[x, y]| one(x) | one(y)))
    }

    /// What is tested, and leaves a trace in the implicit part.
    pub(super) fn tested(&self) -> u64 {
        match self.kind {
            2 => one(self.x),
            6 | 7 => self.set,
            _ => 0,
        }
    }

    pub(super) fn visible_after(&self, left: u64, right: u64) -> u64 {
        match self.kind {
            2 | 3 => left,
            4 | 5 | JOIN_ON_PAIRS => left | right,
            6 => self.set | one(self.x),
            8 => (left & !self.set) | one(self.x),
            _ => self.set,
        }
    }

    pub(super) fn is_leaf(&self) -> bool {
        self.kind == 0
    }

    pub(super) fn children(&self) -> impl Iterator<Item = usize> + use<> {
        [self.left, self.right].into_iter().filter(|&c| c != NONE).map(usize::from)
    }
}
