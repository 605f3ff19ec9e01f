//! Reading: refusals 1 to 11. The records come out of a file, or as they are handed to
//! the writer.

use super::encoding::{Form, GRANT, GRANT_DATED, NODE, NODE_PAIRED, RELATION, form, header_of};
use super::kinds::{JOIN_ON_PAIRS, KINDS};
use super::{
    ATTRIBUTES, GRANTS, NODES, NONE, RELATIONS, Refusal, SUBJECTS, View, first, one, within,
};
use crate::records::{Grant, Header, Node, Relation, Values};

/// Where the grant to `any` stands in a relation's row.
const ANY: usize = SUBJECTS;
const MOST_STEP_PRICE: u32 = 1_000_000;
const MOST_LINK_PRICE: u32 = 1_000;

#[derive(Clone, Copy, Default)]
pub struct Source {
    pub owner: usize,
    pub set: u64,
    /// Which subjects have a grant of their own in force on the night's day; bit 16 is
    /// `any`.
    in_force: u32,
    grants: [View; SUBJECTS + 1],
}

impl Source {
    fn view(&self, subject: usize) -> View {
        self.grants[if self.in_force >> subject & 1 == 1 { subject } else { ANY }]
    }
}

/// A file that passes 1 to 11, decoded.
pub struct Night<'a> {
    pub s: usize,
    pub r: usize,
    pub a: usize,
    pub n: usize,
    pub allowed: u32,
    pub user: Option<usize>,
    pub day: u16,
    kinds: usize,
    pub sources: [Source; RELATIONS],
    pub nodes: [Node; NODES],
    /// What is visible after each node.
    pub visible: [u64; NODES],
    pub pairs: &'a [[u8; 2]],
    pub step_prices: [[u32; SUBJECTS]; NODES],
    pub link_prices: [[u32; SUBJECTS]; SUBJECTS],
}

/// The parts of a file whose length is right.
struct Parts<'a> {
    relations: &'a [[u8; RELATION]],
    grants: &'a [u8],
    nodes: &'a [u8],
    pairs: &'a [u8],
    step_prices: &'a [[u8; 4]],
    link_prices: &'a [[u8; 4]],
}

/// The form of a header whose version is known (else 2) and whose counts are within
/// their limits (else 4).
pub fn opened(header: &Header) -> Result<Form, Refusal> {
    let Some(form) = form(header.version) else { return Err((2, 0)) };
    let counts_fit = (1..=SUBJECTS).contains(&(header.subjects as usize))
        && (1..=RELATIONS).contains(&(header.relations as usize))
        && (1..=ATTRIBUTES).contains(&(header.attributes as usize))
        && (1..=NODES).contains(&(header.nodes as usize))
        && header.grants as usize <= GRANTS
        && (!form.has_user() || header.user < header.subjects);
    if counts_fit { Ok(form) } else { Err((4, 0)) }
}

/// Takes a file apart. Refusals 1 to 4, then 3.
fn parts(file: &[u8]) -> Result<(Header, Parts<'_>), Refusal> {
    if !file.starts_with(b"AXP") {
        return Err((1, 0));
    }
    let Some(&version) = file[3..].first_chunk() else { return Err((2, 0)) };
    let Some(known) = form(u16::from_be_bytes(version)) else { return Err((2, 0)) };
    if file.len() < known.header {
        return Err((3, 0));
    }
    let header = header_of(file);
    let form = opened(&header)?;
    if file.len() != form.file_length(&header) {
        return Err((3, 0));
    }
    let [relations, grants, nodes, pairs, step_prices, _] = form.lengths(&header);
    let (relations, rest) = file[form.header..].split_at(relations);
    let (grants, rest) = rest.split_at(grants);
    let (nodes, rest) = rest.split_at(nodes);
    let (pairs, rest) = rest.split_at(pairs);
    let (step_prices, link_prices) = rest.split_at(step_prices);
    let [step_prices, link_prices] = [step_prices, link_prices].map(|part| part.as_chunks().0);
    let relations = relations.as_chunks().0;
    Ok((header, Parts { relations, grants, nodes, pairs, step_prices, link_prices }))
}

/// Decodes a file into a blank night.
pub fn read<'a>(file: &'a [u8], night: &mut Night<'a>) -> Result<(), Refusal> {
    let (header, parts) = parts(file)?;
    let Parts { relations, grants, nodes, pairs, step_prices, link_prices } = parts;
    night.open(&header, pairs.as_chunks().0);
    night.take_relations(relations.iter().map(Relation::from))?;
    if header.version < 4 {
        night.take_grants(grants.as_chunks::<GRANT>().0.iter().map(Grant::from))?;
    } else {
        night.take_grants(grants.as_chunks::<GRANT_DATED>().0.iter().map(Grant::from))?;
    }
    night.owners_see_all()?;
    if header.version < 3 {
        night.take_nodes(nodes.as_chunks::<NODE>().0.iter().map(Node::from))?;
    } else {
        night.take_nodes(nodes.as_chunks::<NODE_PAIRED>().0.iter().map(Node::from))?;
    }
    night.take_prices(step_prices, link_prices, |&bytes| u32::from_be_bytes(bytes))
}

/// The trials of values whose version and counts are right: 3, 5 to 11. What the
/// version doesn't have is not looked at.
pub fn check_records(values: &Values) -> Result<(), Refusal> {
    let Values { header, relations, grants, nodes, pairs, step_prices, link_prices } = values;
    let lengths = [relations.len(), grants.len(), nodes.len(), pairs.len()];
    let prices = [step_prices.len(), link_prices.len()];
    let [s, n] = [header.subjects as usize, header.nodes as usize];
    let pair_bytes = if header.version < 3 { 0 } else { 2 * header.pairs as usize };
    let asked = [header.relations as usize, header.grants as usize, n, pair_bytes];
    if lengths != asked || prices != [n * s, s * s] {
        return Err((3, 0));
    }
    let night = &mut Night::blank();
    night.open(header, pairs.as_chunks().0);
    night.take_relations(relations.iter().copied())?;
    if header.version < 4 {
        night.take_grants(grants.iter().map(|&grant| Grant {
            first: 0,
            last: u16::MAX,
            ..grant
        }))?;
    } else {
        night.take_grants(grants.iter().copied())?;
    }
    night.owners_see_all()?;
    if header.version < 3 {
        night.take_nodes(nodes.iter().map(|&node| Node { first: 0, count: 0, ..node }))?;
    } else {
        night.take_nodes(nodes.iter().copied())?;
    }
    night.take_prices(step_prices, link_prices, |&price| price)
}

/// The values of a file whose header and length are right, whatever else.
pub fn values(file: &[u8]) -> Result<Values, Refusal> {
    let (header, parts) = parts(file)?;
    let prices = |part: &[[u8; 4]]| part.iter().map(|&bytes| u32::from_be_bytes(bytes)).collect();
    Ok(Values {
        header,
        relations: parts.relations.iter().map(Relation::from).collect(),
        grants: match header.version {
            ..4 => parts.grants.as_chunks::<GRANT>().0.iter().map(Grant::from).collect(),
            _ => parts.grants.as_chunks::<GRANT_DATED>().0.iter().map(Grant::from).collect(),
        },
        nodes: match header.version {
            ..3 => parts.nodes.as_chunks::<NODE>().0.iter().map(Node::from).collect(),
            _ => parts.nodes.as_chunks::<NODE_PAIRED>().0.iter().map(Node::from).collect(),
        },
        pairs: parts.pairs.to_vec(),
        step_prices: prices(parts.step_prices),
        link_prices: prices(parts.link_prices),
    })
}

impl<'a> Night<'a> {
    pub fn blank() -> Night<'a> {
        Night {
            s: 0,
            r: 0,
            a: 0,
            n: 0,
            allowed: 0,
            user: None,
            day: 0,
            kinds: 0,
            sources: [Source::default(); RELATIONS],
            nodes: [Node::default(); NODES],
            visible: [0; NODES],
            pairs: &[],
            step_prices: [[0; SUBJECTS]; NODES],
            link_prices: [[0; SUBJECTS]; SUBJECTS],
        }
    }

    fn open(&mut self, header: &Header, pairs: &'a [[u8; 2]]) {
        self.s = header.subjects.into();
        self.r = header.relations.into();
        self.a = header.attributes.into();
        self.n = header.nodes.into();
        self.allowed = header.steps;
        self.user = (header.version >= 2).then_some(header.user.into());
        self.day = if header.version >= 4 { header.day } else { 0 };
        self.kinds = if header.version >= 3 { KINDS } else { JOIN_ON_PAIRS.into() };
        self.pairs = pairs;
    }

    fn take_relations(&mut self, records: impl Iterator<Item = Relation>) -> Result<(), Refusal> {
        let mut left_over = first(self.a);
        for (i, Relation { owner, set }) in records.enumerate() {
            if owner as usize >= self.s || set == 0 || !within(set, left_over) {
                return Err((5, i as u32));
            }
            left_over &= !set;
            self.sources[i].owner = owner.into();
            self.sources[i].set = set;
        }
        if left_over != 0 { Err((5, self.r as u32)) } else { Ok(()) }
    }

    fn take_grants(&mut self, records: impl Iterator<Item = Grant>) -> Result<(), Refusal> {
        let mut calendar = Calendar::blank();
        for (i, grant) in records.enumerate() {
            let refusal = Err((6, i as u32));
            let relation = grant.relation as usize;
            let subject = if grant.subject == NONE { ANY } else { grant.subject as usize };
            if relation >= self.r || (subject >= self.s && grant.subject != NONE) {
                return refusal;
            }
            let Grant { first, last, clear, sealed, .. } = grant;
            let source = &mut self.sources[relation];
            if clear & sealed != 0 || !within(clear | sealed, source.set) || first > last {
                return refusal;
            }
            if !calendar.takes(i, relation, subject, [first, last]) {
                return refusal;
            }
            if (first..=last).contains(&self.day) {
                source.in_force |= 1 << subject;
                source.grants[subject] = View { clear, sealed };
            }
        }
        Ok(())
    }

    fn owners_see_all(&self) -> Result<(), Refusal> {
        let sees_all = |source: &Source| source.view(source.owner).clear == source.set;
        match self.sources[..self.r].iter().position(|source| !sees_all(source)) {
            Some(i) => Err((7, i as u32)),
            None => Ok(()),
        }
    }

    fn take_nodes(&mut self, records: impl Iterator<Item = Node>) -> Result<(), Refusal> {
        let mut children = 0;
        let mut relations_taken = 0;
        for (i, node) in records.enumerate() {
            if !node.has_shape(i, self.kinds, children, self.pairs.len()) {
                return Err((8, i as u32));
            }
            children |= one(node.left) | one(node.right);
            let [left, right] = [node.left, node.right].map(|child| self.shown(child));
            let fits = if node.is_leaf() {
                let fits = self.leaf_fits(&node, relations_taken);
                relations_taken |= one(node.x);
                fits
            } else {
                node.fits(left, right, self.pairs)
            };
            if !fits {
                return Err((9, i as u32));
            }
            if !node.needs_whole(self.pairs) {
                return Err((10, i as u32));
            }
            self.visible[i] = node.visible_after(left, right);
            self.nodes[i] = node;
        }
        let orphans = first(self.n - 1) & !children;
        if orphans != 0 { Err((8, orphans.trailing_zeros())) } else { Ok(()) }
    }

    fn leaf_fits(&self, leaf: &Node, relations_taken: u64) -> bool {
        (leaf.x as usize) < self.r
            && relations_taken & one(leaf.x) == 0
            && leaf.set != 0
            && within(leaf.set, self.sources[leaf.x as usize].set)
    }

    /// What is visible in an operand; nothing where there is none.
    fn shown(&self, child: u8) -> u64 {
        self.visible.get(child as usize).copied().unwrap_or(0)
    }

    fn take_prices<T>(
        &mut self,
        steps: &[T],
        links: &[T],
        price: impl Fn(&T) -> u32,
    ) -> Result<(), Refusal> {
        let s = self.s;
        for (i, row) in steps.chunks_exact(s).enumerate() {
            let most = if self.nodes[i].is_leaf() { 0 } else { MOST_STEP_PRICE };
            if let Some(p) = take_row(&mut self.step_prices[i][..s], row, &price, most, None) {
                return Err((11, (i * s + p) as u32));
            }
        }
        for (q, row) in links.chunks_exact(s).enumerate() {
            let (to, most) = (&mut self.link_prices[q][..s], MOST_LINK_PRICE);
            if let Some(p) = take_row(to, row, &price, most, Some(q)) {
                return Err((11, ((self.n + q) * s + p) as u32));
            }
        }
        Ok(())
    }

    pub fn is_step(&self, node: usize) -> bool {
        node < self.n && !self.nodes[node].is_leaf()
    }

    /// P and E of a subject.
    pub fn view(&self, subject: usize) -> View {
        self.sources[..self.r].iter().fold(View::default(), |all, source| {
            let part = source.view(subject);
            View { clear: all.clear | part.clear, sealed: all.sealed | part.sealed }
        })
    }

    /// P and E of every subject.
    pub fn views(&self) -> [View; SUBJECTS] {
        let mut views = [View::default(); SUBJECTS];
        for source in &self.sources[..self.r] {
            for (subject, view) in views[..self.s].iter_mut().enumerate() {
                let part = source.view(subject);
                view.clear |= part.clear;
                view.sealed |= part.sealed;
            }
        }
        views
    }
}

/// Takes a row of prices, and finds the first that is too high, or not 0 where it must.
fn take_row<T>(
    row: &mut [u32],
    from: &[T],
    price: impl Fn(&T) -> u32,
    most: u32,
    fixed: Option<usize>,
) -> Option<usize> {
    let mut highest = 0;
    for (to, from) in row.iter_mut().zip(from) {
        *to = price(from);
        highest = highest.max(*to);
    }
    let own = fixed.map_or(0, |p| row[p]);
    if highest <= most && own == 0 {
        return None;
    }
    (0..row.len()).find(|&p| row[p] > if fixed == Some(p) { 0 } else { most })
}

/// The days of the grants so far, those of one pair in a chain from the latest record
/// back to the first.
struct Calendar {
    latest: [[u16; SUBJECTS + 1]; RELATIONS],
    days: [[u16; 2]; GRANTS],
    earlier: [u16; GRANTS],
}

const NO_GRANT: u16 = u16::MAX;

impl Calendar {
    fn blank() -> Calendar {
        Calendar {
            latest: [[NO_GRANT; SUBJECTS + 1]; RELATIONS],
            days: [[0; 2]; GRANTS],
            earlier: [NO_GRANT; GRANTS],
        }
    }

    /// Enters a grant, unless an earlier one of its pair shares a day with it.
    fn takes(&mut self, i: usize, relation: usize, subject: usize, days: [u16; 2]) -> bool {
        let latest = &mut self.latest[relation][subject];
        let mut at = *latest;
        while at != NO_GRANT {
            let [first, last] = self.days[at as usize];
            if first <= days[1] && days[0] <= last {
                return false;
            }
            at = self.earlier[at as usize];
        }
        self.days[i] = days;
        self.earlier[i] = *latest;
        *latest = i as u16;
        true
    }
}
