//! The values of a plan file as they stand, right or wrong, laid out as C has
//! them: taken out of a file's bytes, and put into bytes again.

use crate::days::Days;
use crate::layout::{Counts, Layout, form_of};
use crate::reading::{self, Refusal};

#[repr(C)]
#[derive(Clone, Copy, PartialEq, Debug)]
pub struct Header {
    pub version: u16,
    pub subjects: u8,
    pub relations: u8,
    pub attributes: u8,
    pub nodes: u8,
    pub grants: u16,
    pub steps: u32,
    pub user: u8,
    pub pairs: u8,
    pub day: u16,
}

#[repr(C)]
#[derive(Clone, Copy, Default, PartialEq, Debug)]
pub struct Relation {
    pub owner: u8,
    pub set: u64,
}

#[repr(C)]
#[derive(Clone, Copy, Default, PartialEq, Debug)]
pub struct Grant {
    pub relation: u8,
    pub subject: u8,
    pub first: u16,
    pub last: u16,
    pub clear: u64,
    pub sealed: u64,
}

#[repr(C)]
#[derive(Clone, Copy, Default, PartialEq, Debug)]
pub struct Node {
    pub kind: u8,
    pub left: u8,
    pub right: u8,
    pub x: u8,
    pub y: u8,
    pub spare: [u8; 3],
    pub set: u64,
    pub needed: u64,
    pub size: u32,
    pub first: u8,
    pub count: u8,
}

#[derive(Clone, PartialEq, Debug)]
pub struct Values {
    pub header: Header,
    pub relations: Vec<Relation>,
    pub grants: Vec<Grant>,
    pub nodes: Vec<Node>,
    /// Two bytes for each pair.
    pub pairs: Vec<u8>,
    pub step_prices: Vec<u32>,
    pub link_prices: Vec<u32>,
}

/// The lists that a header counts, in the file's order.
pub const LISTS: [&str; 6] =
    ["relations", "grants", "nodes", "pairs", "step prices", "link prices"];

/// Where the pairs stand among them.
pub const PAIRS: usize = 3;

/// Whether a version, if there is such a one, has a user.
pub fn with_user(version: u16) -> bool {
    matches!(version, 2..=4)
}

/// Likewise pairs.
pub fn with_pairs(version: u16) -> bool {
    matches!(version, 3 | 4)
}

/// Likewise days.
pub fn with_days(version: u16) -> bool {
    version == 4
}

/// What is not yet taken of a file.
struct Rest<'a>(&'a [u8]);

impl Rest<'_> {
    fn next<const N: usize>(&mut self) -> [u8; N] {
        let (first, rest) = self.0.split_first_chunk().expect("the length is right");
        self.0 = rest;
        *first
    }

    fn byte(&mut self) -> u8 {
        self.next::<1>()[0]
    }

    fn half(&mut self) -> u16 {
        u16::from_be_bytes(self.next())
    }

    fn word(&mut self) -> u32 {
        u32::from_be_bytes(self.next())
    }

    fn set(&mut self) -> u64 {
        u64::from_be_bytes(self.next())
    }

    fn header(&mut self) -> Header {
        let version = self.half();
        let [subjects, relations, attributes, nodes] = self.next();
        let (grants, steps) = (self.half(), self.word());
        let user = if with_user(version) { self.byte() } else { 0 };
        let pairs = if with_pairs(version) { self.byte() } else { 0 };
        let day = if with_days(version) { self.half() } else { 0 };
        Header { version, subjects, relations, attributes, nodes, grants, steps, user, pairs, day }
    }

    fn relation(&mut self) -> Relation {
        Relation { owner: self.byte(), set: self.set() }
    }

    fn grant(&mut self) -> Grant {
        let [relation, subject] = self.next();
        let Days { first, last } = Days::ALL;
        Grant { relation, subject, first, last, clear: self.set(), sealed: self.set() }
    }

    fn grant_with_days(&mut self) -> Grant {
        let grant = self.grant();
        Grant { first: self.half(), last: self.half(), ..grant }
    }

    fn node(&mut self) -> Node {
        let [kind, left, right, x, y, spare @ ..] = self.next::<8>();
        let (set, needed, size) = (self.set(), self.set(), self.word());
        Node { kind, left, right, x, y, spare, set, needed, size, first: 0, count: 0 }
    }

    fn node_with_pairs(&mut self) -> Node {
        let node = self.node();
        Node { first: self.byte(), count: self.byte(), ..node }
    }

    fn list<T>(&mut self, count: usize, item: fn(&mut Self) -> T) -> Vec<T> {
        (0..count).map(|_| item(self)).collect()
    }
}

impl Header {
    fn encode(&self) -> Vec<u8> {
        let Header { version, subjects, relations, attributes, nodes, .. } = *self;
        let mut out = b"AXP".to_vec();
        out.extend(version.to_be_bytes());
        out.extend([subjects, relations, attributes, nodes]);
        out.extend(self.grants.to_be_bytes());
        out.extend(self.steps.to_be_bytes());
        if with_user(version) {
            out.push(self.user);
        }
        if with_pairs(version) {
            out.push(self.pairs);
        }
        if with_days(version) {
            out.extend(self.day.to_be_bytes());
        }
        out
    }

    /// How many of each list it asks for, of pairs how many bytes.
    pub fn asks(&self) -> [usize; LISTS.len()] {
        let [subjects, relations, nodes] =
            [self.subjects, self.relations, self.nodes].map(usize::from);
        let pairs = 2 * self.pairs_counted();
        [relations, self.grants.into(), nodes, pairs, nodes * subjects, subjects * subjects]
    }

    /// How many pairs it counts: where the version has none, its number means nothing.
    fn pairs_counted(&self) -> usize {
        if with_pairs(self.version) { self.pairs.into() } else { 0 }
    }

    /// How long the file is by its counts; one of a version that there is not is
    /// taken for version 1.
    pub fn file_length(&self) -> usize {
        let counts = Counts {
            form: form_of(self.version.into()).or(form_of(1)).expect("there is version 1"),
            subjects: self.subjects.into(),
            relations: self.relations.into(),
            grants: self.grants.into(),
            nodes: self.nodes.into(),
            pairs: self.pairs_counted(),
        };
        Layout::of(&counts).end
    }
}

impl Values {
    /// The values of a file whose header and length are right, whatever else.
    pub fn of(file: &[u8]) -> Result<Values, Refusal> {
        reading::opened(file)?;
        let mut rest = Rest(&file[3..]);
        let header = rest.header();
        let [relations, grants, nodes, pairs, steps, links] = header.asks();
        let grant = if with_days(header.version) { Rest::grant_with_days } else { Rest::grant };
        let node = if with_pairs(header.version) { Rest::node_with_pairs } else { Rest::node };
        Ok(Values {
            header,
            relations: rest.list(relations, Rest::relation),
            grants: rest.list(grants, grant),
            nodes: rest.list(nodes, node),
            pairs: rest.list(pairs, Rest::byte),
            step_prices: rest.list(steps, Rest::word),
            link_prices: rest.list(links, Rest::word),
        })
    }

    /// How many there are of each list.
    pub fn lengths(&self) -> [usize; LISTS.len()] {
        let Values { relations, grants, nodes, pairs, step_prices, link_prices, .. } = self;
        let prices = [step_prices.len(), link_prices.len()];
        [relations.len(), grants.len(), nodes.len(), pairs.len(), prices[0], prices[1]]
    }

    /// The values without those that their version does not write.
    pub fn meant(&self) -> Values {
        let mut meant = self.clone();
        if !with_user(self.header.version) {
            meant.header.user = 0;
        }
        if !with_pairs(self.header.version) {
            meant.header.pairs = 0;
            meant.nodes.iter_mut().for_each(|node| (node.first, node.count) = (0, 0));
        }
        if !with_days(self.header.version) {
            meant.header.day = 0;
            let Days { first, last } = Days::ALL;
            meant.grants.iter_mut().for_each(|grant| (grant.first, grant.last) = (first, last));
        }
        meant
    }

    /// The bytes of the values, all that the lists hold.
    pub fn encode(&self) -> Vec<u8> {
        let mut out = self.header.encode();
        for Relation { owner, set } in &self.relations {
            out.push(*owner);
            out.extend(set.to_be_bytes());
        }
        for grant in &self.grants {
            out.extend([grant.relation, grant.subject]);
            out.extend(grant.clear.to_be_bytes());
            out.extend(grant.sealed.to_be_bytes());
            if with_days(self.header.version) {
                out.extend(grant.first.to_be_bytes());
                out.extend(grant.last.to_be_bytes());
            }
        }
        for node in &self.nodes {
            out.extend([node.kind, node.left, node.right, node.x, node.y]);
            out.extend(node.spare);
            out.extend(node.set.to_be_bytes());
            out.extend(node.needed.to_be_bytes());
            out.extend(node.size.to_be_bytes());
            if with_pairs(self.header.version) {
                out.extend([node.first, node.count]);
            }
        }
        out.extend(&self.pairs);
        out.extend(self.step_prices.iter().chain(&self.link_prices).flat_map(|p| p.to_be_bytes()));
        out
    }
}
