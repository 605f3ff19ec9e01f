//! Sets of small numbers as arrays of truth values, and tied sets by
//! union-find: other forms than the library's masks, so that a slip in one
//! cannot hide in the other.

pub const WIDTH: usize = 64;

#[derive(Clone, Copy, PartialEq, Eq, Debug)]
pub struct Flags([bool; WIDTH]);

impl Flags {
    pub const NONE: Flags = Flags([false; WIDTH]);

    pub fn of(members: &[usize]) -> Flags {
        let mut set = Flags::NONE;
        for &member in members {
            set.put(member);
        }
        set
    }

    pub fn below(end: usize) -> Flags {
        Flags(std::array::from_fn(|i| i < end))
    }

    pub fn from_bits(bits: u64) -> Flags {
        Flags(std::array::from_fn(|i| bits >> i & 1 == 1))
    }

    pub fn bits(&self) -> u64 {
        self.list().iter().map(|&i| 1 << i).sum()
    }

    pub fn has(&self, member: usize) -> bool {
        member < WIDTH && self.0[member]
    }

    pub fn put(&mut self, member: usize) {
        self.0[member] = true;
    }

    pub fn list(&self) -> Vec<usize> {
        // Most sets that are asked are empty, and found so at once.
        if self.is_empty() {
            return Vec::new();
        }
        (0..WIDTH).filter(|&i| self.0[i]).collect()
    }

    /// All values at once, without a branch for each: nothing is asked as often.
    pub fn is_empty(&self) -> bool {
        !self.0.iter().fold(false, |any, &one| any | one)
    }

    pub fn and(&self, other: &Flags) -> Flags {
        Flags(std::array::from_fn(|i| self.0[i] & other.0[i]))
    }

    pub fn or(&self, other: &Flags) -> Flags {
        Flags(std::array::from_fn(|i| self.0[i] | other.0[i]))
    }

    pub fn minus(&self, other: &Flags) -> Flags {
        Flags(std::array::from_fn(|i| self.0[i] & !other.0[i]))
    }

    pub fn within(&self, other: &Flags) -> bool {
        self.minus(other).is_empty()
    }

    pub fn meets(&self, other: &Flags) -> bool {
        !self.and(other).is_empty()
    }
}

/// Tied sets. `parent` leads from each attribute to the one that stands for
/// its set; `tied` tells a set of one from an attribute never tied at all.
#[derive(Clone)]
pub struct Ties {
    parent: [usize; WIDTH],
    tied: Flags,
}

impl Ties {
    pub fn none() -> Ties {
        Ties { parent: std::array::from_fn(|i| i), tied: Flags::NONE }
    }

    fn head(&self, member: usize) -> usize {
        let mut at = member;
        while self.parent[at] != at {
            at = self.parent[at];
        }
        at
    }

    pub fn tie(&mut self, members: &[usize]) {
        for &member in members {
            self.tied.put(member);
            let (from, to) = (self.head(member), self.head(members[0]));
            self.parent[from] = to;
        }
    }

    pub fn join(&mut self, other: &Ties) {
        for member in other.tied.list() {
            self.tie(&[other.head(member), member]);
        }
    }

    pub fn together(&self, one: usize, other: usize) -> bool {
        self.head(one) == self.head(other)
    }

    pub fn sets(&self) -> Vec<Flags> {
        let members = self.tied.list();
        let heads = members.iter().filter(|&&m| self.parent[m] == m);
        heads
            .map(|&head| {
                let set: Vec<usize> =
                    members.iter().copied().filter(|&m| self.together(m, head)).collect();
                Flags::of(&set)
            })
            .collect()
    }
}
