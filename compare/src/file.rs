//! The plan file: what it holds, and how it is written. Reading is apart.

use crate::days::Days;
use crate::layout::{Counts, Layout, form_of};
use crate::sets::Flags;

/// How many pairs a join may have, and how many the list.
pub const MOST_JOINED: usize = 8;
pub const MOST_PAIRS: usize = 255;
pub const MOST_GRANTS: usize = 272;
pub const ANY: u8 = 255;
pub const UNUSED: u8 = 255;
pub const MOST_SIZE: u64 = 1_000_000;
pub const MOST_STEP_PRICE: u64 = 1_000_000;
pub const MOST_LINK_PRICE: u64 = 1_000;

#[derive(Clone, PartialEq, Debug)]
pub struct Relation {
    pub owner: usize,
    pub set: Flags,
}

#[derive(Clone, PartialEq, Debug)]
pub struct Grant {
    pub relation: usize,
    /// `None` is the grant to any.
    pub subject: Option<usize>,
    pub clear: Flags,
    pub sealed: Flags,
    /// When it is in force: before version 4 on all days.
    pub days: Days,
}

impl Grant {
    /// Whether both are of one relation and to one subject, any counted as one.
    pub fn same_pair(&self, other: &Grant) -> bool {
        self.relation == other.relation && self.subject == other.subject
    }
}

/// A node's kind together with just what that kind uses.
#[derive(Clone, PartialEq, Debug)]
pub enum Work {
    Leaf {
        relation: usize,
        set: Flags,
    },
    Project {
        from: usize,
        set: Flags,
    },
    SelectValue {
        from: usize,
        x: usize,
    },
    SelectPair {
        from: usize,
        x: usize,
        y: usize,
    },
    Product {
        left: usize,
        right: usize,
    },
    Join {
        left: usize,
        right: usize,
        x: usize,
        y: usize,
    },
    Aggregate {
        from: usize,
        set: Flags,
        x: usize,
    },
    Count {
        from: usize,
        set: Flags,
    },
    Function {
        from: usize,
        set: Flags,
        x: usize,
    },
    /// The pairs as they stand in the list from `first` on, left's attribute first.
    JoinPairs {
        left: usize,
        right: usize,
        first: usize,
        pairs: Vec<(usize, usize)>,
    },
}

impl Work {
    pub fn kind(&self) -> u8 {
        match self {
            Work::Leaf { .. } => 0,
            Work::Project { .. } => 1,
            Work::SelectValue { .. } => 2,
            Work::SelectPair { .. } => 3,
            Work::Product { .. } => 4,
            Work::Join { .. } => 5,
            Work::Aggregate { .. } => 6,
            Work::Count { .. } => 7,
            Work::Function { .. } => 8,
            Work::JoinPairs { .. } => 9,
        }
    }

    pub fn is_leaf(&self) -> bool {
        matches!(self, Work::Leaf { .. })
    }

    /// Without a list made for each call: totals ask this very often.
    pub fn children(&self) -> impl Iterator<Item = usize> + use<> {
        let pair = match *self {
            Work::Leaf { .. } => [None, None],
            Work::Product { left, right }
            | Work::Join { left, right, .. }
            | Work::JoinPairs { left, right, .. } => [Some(left), Some(right)],
            Work::Project { from, .. }
            | Work::SelectValue { from, .. }
            | Work::SelectPair { from, .. }
            | Work::Aggregate { from, .. }
            | Work::Count { from, .. }
            | Work::Function { from, .. } => [Some(from), None],
        };
        pair.into_iter().flatten()
    }

    pub fn reads(&self) -> Flags {
        match *self {
            Work::Leaf { .. } | Work::Project { .. } | Work::Product { .. } => Flags::NONE,
            Work::SelectValue { x, .. } => Flags::of(&[x]),
            Work::SelectPair { x, y, .. } | Work::Join { x, y, .. } => Flags::of(&[x, y]),
            Work::Aggregate { set, x, .. } => set.or(&Flags::of(&[x])),
            Work::Count { set, .. } | Work::Function { set, .. } => set,
            Work::JoinPairs { ref pairs, .. } => {
                pairs.iter().fold(Flags::NONE, |sum, &(x, y)| sum.or(&Flags::of(&[x, y])))
            }
        }
    }

    /// What is read together: each of these sets is needed whole or not at all.
    pub fn together(&self) -> Vec<Flags> {
        match self {
            Work::SelectPair { .. } | Work::Join { .. } | Work::Function { .. } => {
                vec![self.reads()]
            }
            Work::JoinPairs { pairs, .. } => {
                pairs.iter().map(|&(x, y)| Flags::of(&[x, y])).collect()
            }
            _ => Vec::new(),
        }
    }

    /// What is visible after, given all that is visible in the operands.
    pub fn visible_after(&self, before: &Flags) -> Flags {
        match *self {
            Work::Leaf { set, .. } | Work::Project { set, .. } | Work::Count { set, .. } => set,
            Work::SelectValue { .. }
            | Work::SelectPair { .. }
            | Work::Product { .. }
            | Work::Join { .. }
            | Work::JoinPairs { .. } => *before,
            Work::Aggregate { set, x, .. } => set.or(&Flags::of(&[x])),
            Work::Function { set, x, .. } => before.minus(&set).or(&Flags::of(&[x])),
        }
    }
}

#[derive(Clone, PartialEq, Debug)]
pub struct Node {
    pub work: Work,
    pub needed: Flags,
    pub size: u64,
}

#[derive(Clone, PartialEq, Debug)]
pub struct File {
    /// Who asked: from version 2 on somebody, in version 1 nobody.
    pub user: Option<usize>,
    /// The list of pairs as it stands: from version 3 on there is one.
    pub pairs: Option<Vec<[u8; 2]>>,
    /// The night's day: from version 4 on there is one.
    pub day: Option<u16>,
    pub subjects: usize,
    pub attributes: usize,
    pub allowed: u32,
    pub relations: Vec<Relation>,
    pub grants: Vec<Grant>,
    pub nodes: Vec<Node>,
    pub step_prices: Vec<Vec<u64>>,
    pub link_prices: Vec<Vec<u64>>,
}

impl File {
    pub fn layout(&self) -> Layout {
        Layout::of(&Counts {
            form: form_of(self.version() as u64).expect("there is such a version"),
            subjects: self.subjects,
            relations: self.relations.len(),
            grants: self.grants.len(),
            nodes: self.nodes.len(),
            pairs: self.list().len(),
        })
    }

    pub fn version(&self) -> usize {
        match (self.user, &self.pairs, self.day) {
            (None, _, _) => 1,
            (Some(_), None, _) => 2,
            (Some(_), Some(_), None) => 3,
            (Some(_), Some(_), Some(_)) => 4,
        }
    }

    /// The day that views are asked of.
    pub fn nights_day(&self) -> u16 {
        self.day.unwrap_or(0)
    }

    /// The list of pairs, empty where the version has none.
    pub fn list(&self) -> &[[u8; 2]] {
        self.pairs.as_deref().unwrap_or_default()
    }

    /// The leaves' numbers, rising.
    pub fn leaves(&self) -> Vec<usize> {
        (0..self.nodes.len()).filter(|&node| self.nodes[node].work.is_leaf()).collect()
    }

    /// The owner where the node is a leaf.
    pub fn owner_at(&self, node: usize) -> Option<usize> {
        match self.nodes[node].work {
            Work::Leaf { relation, .. } => Some(self.relations[relation].owner),
            _ => None,
        }
    }

    /// Puts in a grant for the night's day, instead of the one for its pair in force
    /// that day if there is one; else for the days around it that its pair leaves free.
    pub fn put(&mut self, grant: Grant) {
        let (day, mut free) = (self.nights_day(), grant.days);
        for old in self.grants.iter_mut().filter(|old| old.same_pair(&grant)) {
            if old.days.has(day) {
                *old = Grant { days: old.days, ..grant };
                return;
            }
            free = free.beside(&old.days, day);
        }
        self.add(Grant { days: free, ..grant });
    }

    /// Where the file is full, there are more grants than pairs have one in force: one
    /// out of force makes way.
    fn add(&mut self, grant: Grant) {
        if self.grants.len() < MOST_GRANTS {
            return self.grants.push(grant);
        }
        let day = self.nights_day();
        let idle = self.grants.iter_mut().find(|old| !old.days.has(day));
        *idle.expect("the new grant's pair has none in force") = grant;
    }

    /// The grants of each pair in the file's order: a relation's pairs side by side, any's
    /// last of them.
    pub fn grants_of_pairs(&self) -> Vec<Vec<&Grant>> {
        let mut of_pair = vec![Vec::new(); self.relations.len() * (self.subjects + 1)];
        for grant in &self.grants {
            let to = grant.subject.unwrap_or(self.subjects);
            of_pair[grant.relation * (self.subjects + 1) + to].push(grant);
        }
        of_pair
    }

    pub fn root(&self) -> usize {
        self.nodes.len() - 1
    }

    pub fn write(&self) -> Vec<u8> {
        let mut out = b"AXP".to_vec();
        out.extend((self.version() as u16).to_be_bytes());
        let counts = [self.subjects, self.relations.len(), self.attributes, self.nodes.len()];
        out.extend(counts.map(|count| count as u8));
        out.extend((self.grants.len() as u16).to_be_bytes());
        out.extend(self.allowed.to_be_bytes());
        out.extend(self.user.map(|user| user as u8));
        out.extend(self.pairs.as_ref().map(|pairs| pairs.len() as u8));
        out.extend(self.day.map_or(vec![], |day| day.to_be_bytes().to_vec()));
        for relation in &self.relations {
            out.push(relation.owner as u8);
            out.extend(relation.set.bits().to_be_bytes());
        }
        for grant in &self.grants {
            out.push(grant.relation as u8);
            out.push(grant.subject.map_or(ANY, |subject| subject as u8));
            out.extend(grant.clear.bits().to_be_bytes());
            out.extend(grant.sealed.bits().to_be_bytes());
            if self.day.is_some() {
                out.extend(
                    [grant.days.first, grant.days.last].map(u16::to_be_bytes).as_flattened(),
                );
            }
        }
        for node in &self.nodes {
            out.extend(node.write());
            if self.pairs.is_some() {
                out.extend(node.work.named());
            }
        }
        out.extend(self.list().as_flattened());
        for &price in self.step_prices.iter().chain(&self.link_prices).flatten() {
            out.extend((price as u32).to_be_bytes());
        }
        out
    }
}

impl Work {
    /// The two bytes that name its pairs, the first one's number and how many.
    fn named(&self) -> [u8; 2] {
        match self {
            Work::JoinPairs { first, pairs, .. } => [*first as u8, pairs.len() as u8],
            _ => [0, 0],
        }
    }
}

impl Node {
    /// The record as version 1 has it.
    fn write(&self) -> Vec<u8> {
        let (x, y, set) = match self.work {
            Work::Leaf { relation, set } => (Some(relation), None, set),
            Work::Project { set, .. } | Work::Count { set, .. } => (None, None, set),
            Work::SelectValue { x, .. } => (Some(x), None, Flags::NONE),
            Work::SelectPair { x, y, .. } | Work::Join { x, y, .. } => {
                (Some(x), Some(y), Flags::NONE)
            }
            Work::Product { .. } | Work::JoinPairs { .. } => (None, None, Flags::NONE),
            Work::Aggregate { set, x, .. } | Work::Function { set, x, .. } => (Some(x), None, set),
        };
        let mut children = self.work.children();
        let byte = |value: Option<usize>| value.map_or(UNUSED, |value| value as u8);
        let mut out = vec![self.work.kind()];
        out.extend([byte(children.next()), byte(children.next())]);
        out.extend([byte(x), byte(y), 0, 0, 0]);
        out.extend(set.bits().to_be_bytes());
        out.extend(self.needed.bits().to_be_bytes());
        out.extend((self.size as u32).to_be_bytes());
        out
    }
}
