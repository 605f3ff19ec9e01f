//! Reading a plan file: refusals 1 to 11, in the order of the rules.

use crate::days::Days;
use crate::file::*;
use crate::layout::*;
use crate::sets::{Flags, WIDTH};
use crate::views;

#[derive(Clone, Copy, PartialEq, Eq, Debug)]
pub struct Refusal {
    pub number: u64,
    pub place: u64,
}

pub fn refuse<T>(number: u64, place: usize) -> Result<T, Refusal> {
    Err(Refusal { number, place: place as u64 })
}

fn number(bytes: &[u8], at: usize, width: usize) -> u64 {
    bytes[at..at + width].iter().fold(0, |sum, &byte| sum * 256 + u64::from(byte))
}

fn set_at(bytes: &[u8], at: usize) -> Flags {
    Flags::from_bits(number(bytes, at, 8))
}

/// The header: its counts, and what else it says.
pub struct Header {
    counts: Counts,
    attributes: usize,
    allowed: u32,
    user: Option<usize>,
    with_pairs: bool,
    day: Option<u16>,
}

/// The version as it stands, if the mark stands before it.
pub fn version(bytes: &[u8]) -> Result<u64, Refusal> {
    if bytes.len() < 3 || &bytes[..3] != b"AXP" {
        return refuse(1, 0);
    }
    if bytes.len() < 5 { refuse(2, 0) } else { Ok(number(bytes, 3, 2)) }
}

fn header(bytes: &[u8]) -> Result<Header, Refusal> {
    let version = version(bytes)?;
    let Some(form) = form_of(version) else { return refuse(2, 0) };
    if bytes.len() < form.header {
        return refuse(3, 0);
    }
    let counts = Counts {
        form,
        subjects: bytes[5].into(),
        relations: bytes[6].into(),
        nodes: bytes[8].into(),
        grants: number(bytes, 9, 2) as usize,
        pairs: if version >= 3 { bytes[PAIRS_AT].into() } else { 0 },
    };
    let attributes = bytes[7].into();
    let user = (version >= 2).then(|| bytes[USER_AT].into());
    let within = (1..=16).contains(&counts.subjects)
        && (1..=16).contains(&counts.relations)
        && (1..=64).contains(&attributes)
        && (1..=64).contains(&counts.nodes)
        && counts.grants <= MOST_GRANTS
        && user.is_none_or(|user| user < counts.subjects);
    let allowed = number(bytes, 11, 4) as u32;
    let day = (version >= 4).then(|| number(bytes, DAY_AT, 2) as u16);
    let header = Header { counts, attributes, allowed, user, with_pairs: version >= 3, day };
    if within { Ok(header) } else { refuse(4, 0) }
}

fn relations(bytes: &[u8], at: usize, header: &Header) -> Result<Vec<Relation>, Refusal> {
    let counts = &header.counts;
    let mut free = Flags::below(header.attributes);
    let mut out = Vec::new();
    for index in 0..counts.relations {
        let at = at + RELATION * index;
        let relation = Relation { owner: bytes[at].into(), set: set_at(bytes, at + 1) };
        // What is not free is out of range or taken: one place for both.
        if relation.owner >= counts.subjects
            || relation.set.is_empty()
            || !relation.set.within(&free)
        {
            return refuse(5, index);
        }
        free = free.minus(&relation.set);
        out.push(relation);
    }
    if free.is_empty() { Ok(out) } else { refuse(5, counts.relations) }
}

/// From the bytes of one record; one without days is in force on all.
fn grant(bytes: &[u8]) -> Grant {
    let days = match bytes[DAYS_AT..] {
        [] => Days::ALL,
        _ => {
            let [first, last] = [DAYS_AT, DAYS_AT + 2].map(|at| number(bytes, at, 2) as u16);
            Days { first, last }
        }
    };
    Grant {
        relation: bytes[0].into(),
        subject: (bytes[1] != ANY).then(|| bytes[1].into()),
        clear: set_at(bytes, 2),
        sealed: set_at(bytes, 10),
        days,
    }
}

fn grants(
    bytes: &[u8],
    layout: &Layout,
    subjects: usize,
    relations: &[Relation],
) -> Result<Vec<Grant>, Refusal> {
    let mut out: Vec<Grant> = Vec::new();
    for (index, record) in bytes[layout.grants..layout.nodes].chunks(layout.grant).enumerate() {
        let grant = grant(record);
        let known = grant.relation < relations.len()
            && grant.subject.is_none_or(|subject| subject < subjects);
        let seen = |old: &Grant| old.same_pair(&grant) && old.days.meet(&grant.days);
        if !known
            || grant.clear.meets(&grant.sealed)
            || !grant.clear.or(&grant.sealed).within(&relations[grant.relation].set)
            || grant.days.first > grant.days.last
            || out.iter().any(seen)
        {
            return refuse(6, index);
        }
        out.push(grant);
    }
    Ok(out)
}

fn owners_see_all(relations: &[Relation], grants: &[Grant], day: u16) -> Result<(), Refusal> {
    for (index, relation) in relations.iter().enumerate() {
        let view = views::of_relation(grants, day, index, relation.owner);
        if view.clear != relation.set {
            return refuse(7, index);
        }
    }
    Ok(())
}

/// A node's record as it stands, before anything is known of it.
struct Record {
    kind: u8,
    left: u8,
    right: u8,
    x: u8,
    y: u8,
    spare: u64,
    set: Flags,
    needed: Flags,
    size: u64,
    /// The first pair's number and the count, where the version has them.
    named: Option<[u8; 2]>,
}

impl Record {
    /// From the bytes of one record.
    fn of(bytes: &[u8]) -> Record {
        Record {
            kind: bytes[0],
            left: bytes[1],
            right: bytes[2],
            x: bytes[3],
            y: bytes[4],
            spare: number(bytes, 5, 3),
            set: set_at(bytes, 8),
            needed: set_at(bytes, 16),
            size: number(bytes, 24, 4),
            named: bytes[NAMED_AT..].first_chunk().copied(),
        }
    }

    /// Which of left, right, x, y, set and pairs the kind uses.
    fn uses(&self) -> Option<[bool; 6]> {
        const TABLE: [&str; 10] = [
            "--x-s-", "l---s-", "l-x---", "l-xy--", "lr----", "lrxy--", "l-x-s-", "l---s-",
            "l-x-s-", "lr---p",
        ];
        let row = TABLE.get(usize::from(self.kind))?.as_bytes();
        Some(std::array::from_fn(|i| row[i] != b'-'))
    }
}

/// What the nodes read so far have brought.
struct Nodes<'a> {
    relations: &'a [Relation],
    list: &'a [[u8; 2]],
    nodes: Vec<Node>,
    visible: Vec<Flags>,
    has_parent: Vec<bool>,
    relation_taken: Vec<bool>,
}

impl Nodes<'_> {
    /// Rule 8 for the record that comes next.
    fn well_shaped(&self, record: &Record) -> bool {
        let Some(uses) = record.uses() else { return false };
        let fields = [record.left, record.right, record.x, record.y];
        let unused_left_alone =
            (0..4).all(|i| uses[i] || fields[i] == UNUSED) && (uses[4] || record.set.is_empty());
        let free = |child: u8| {
            let child = usize::from(child);
            child < self.nodes.len() && !self.has_parent[child]
        };
        let children_right = (0..2).all(|i| !uses[i] || free(fields[i]))
            && !(uses[1] && record.left == record.right);
        unused_left_alone
            && children_right
            && record.spare == 0
            && record.size <= MOST_SIZE
            && self.names_right(record.named, uses[5])
    }

    /// Whether pairs of the list are named by a kind that uses them, and by no other.
    /// A version without pairs has no such kind.
    fn names_right(&self, named: Option<[u8; 2]>, uses: bool) -> bool {
        match named.map(|named| named.map(usize::from)) {
            None => !uses,
            Some([first, count]) if uses => {
                (1..=MOST_JOINED).contains(&count) && first + count <= self.list.len()
            }
            Some(named) => named == [0, 0],
        }
    }

    fn leaf(&self, record: &Record) -> Option<Work> {
        let relation = usize::from(record.x);
        let source = self.relations.get(relation)?;
        let right = !self.relation_taken[relation]
            && !record.set.is_empty()
            && record.set.within(&source.set);
        right.then_some(Work::Leaf { relation, set: record.set })
    }

    /// Each pair's attributes are visible on their own sides.
    fn join_pairs(&self, record: &Record) -> Option<Work> {
        let [left, right] = [record.left, record.right].map(usize::from);
        let [first, count] = record.named?.map(usize::from);
        let seen = |pair: &[u8; 2]| {
            let [x, y] = pair.map(usize::from);
            (self.visible[left].has(x) && self.visible[right].has(y)).then_some((x, y))
        };
        let pairs = self.list[first..first + count].iter().map(seen).collect::<Option<_>>()?;
        Some(Work::JoinPairs { left, right, first, pairs })
    }

    /// Rule 9 for a well-shaped record: the work it stands for, if any.
    fn work(&self, record: &Record) -> Option<Work> {
        if record.kind == 0 {
            return self.leaf(record);
        }
        let from = usize::from(record.left);
        let (left, right) = (from, usize::from(record.right));
        let seen = |attribute: u8, child: usize| {
            let attribute = usize::from(attribute);
            self.visible[child].has(attribute).then_some(attribute)
        };
        let x = seen(record.x, from);
        let set = record.set.within(&self.visible[from]).then_some(record.set);
        let full = set.filter(|set| !set.is_empty());
        Some(match record.kind {
            1 => Work::Project { from, set: full? },
            2 => Work::SelectValue { from, x: x? },
            3 => Work::SelectPair { from, x: x?, y: seen(record.y, from)? },
            4 => Work::Product { left, right },
            5 => Work::Join { left, right, x: x?, y: seen(record.y, right)? },
            6 => Work::Aggregate { from, set: set?, x: x.filter(|&x| !record.set.has(x))? },
            7 => Work::Count { from, set: full? },
            9 => self.join_pairs(record)?,
            _ => Work::Function { from, set: full?, x: x.filter(|&x| record.set.has(x))? },
        })
    }

    fn take(&mut self, record: &Record) -> Result<(), Refusal> {
        let index = self.nodes.len();
        if !self.well_shaped(record) {
            return refuse(8, index);
        }
        let Some(work) = self.work(record) else { return refuse(9, index) };
        let (reads, needed) = (work.reads(), record.needed);
        let half = |set: &Flags| needed.meets(set) && !set.within(&needed);
        if !needed.within(&reads) || work.together().iter().any(half) {
            return refuse(10, index);
        }
        let mut before = Flags::NONE;
        for child in work.children() {
            before = before.or(&self.visible[child]);
            self.has_parent[child] = true;
        }
        if let Work::Leaf { relation, .. } = work {
            self.relation_taken[relation] = true;
        }
        self.visible.push(work.visible_after(&before));
        self.nodes.push(Node { work, needed, size: record.size });
        Ok(())
    }
}

fn nodes(
    bytes: &[u8],
    layout: &Layout,
    list: &[[u8; 2]],
    relations: &[Relation],
) -> Result<Vec<Node>, Refusal> {
    let records = bytes[layout.nodes..layout.pairs].chunks(layout.node);
    let count = records.len();
    let mut read = Nodes {
        relations,
        list,
        nodes: Vec::new(),
        visible: Vec::new(),
        has_parent: vec![false; WIDTH],
        relation_taken: vec![false; relations.len()],
    };
    for record in records {
        read.take(&Record::of(record))?;
    }
    match (0..count - 1).find(|&node| !read.has_parent[node]) {
        Some(orphan) => refuse(8, orphan),
        None => Ok(read.nodes),
    }
}

/// Rows of prices, the first of them at the running index `first`.
fn prices(
    bytes: &[u8],
    at: usize,
    first: usize,
    most: &[Vec<u64>],
) -> Result<Vec<Vec<u64>>, Refusal> {
    let mut index = 0;
    let mut out = Vec::new();
    for row in most {
        let mut read = Vec::new();
        for &limit in row {
            let price = number(bytes, at + 4 * index, 4);
            if price > limit {
                return refuse(11, first + index);
            }
            read.push(price);
            index += 1;
        }
        out.push(read);
    }
    Ok(out)
}

/// The trials of the header, 1 to 4, then 3 for the length.
pub fn opened(bytes: &[u8]) -> Result<(Header, Layout), Refusal> {
    let header = header(bytes)?;
    let layout = Layout::of(&header.counts);
    if bytes.len() == layout.end { Ok((header, layout)) } else { refuse(3, 0) }
}

pub fn read(bytes: &[u8]) -> Result<File, Refusal> {
    let (header, layout) = opened(bytes)?;
    let counts = &header.counts;
    let subjects = counts.subjects;
    let relations = relations(bytes, layout.relations, &header)?;
    let grants = grants(bytes, &layout, subjects, &relations)?;
    owners_see_all(&relations, &grants, header.day.unwrap_or(0))?;
    let list = bytes[layout.pairs..layout.step_prices].as_chunks().0;
    let nodes = nodes(bytes, &layout, list, &relations)?;
    // Where 0 is fixed, the most that a price may be is 0.
    let most_step = |node: &Node| if node.work.is_leaf() { 0 } else { MOST_STEP_PRICE };
    let step_limits: Vec<Vec<u64>> =
        nodes.iter().map(|node| vec![most_step(node); subjects]).collect();
    let link_limits: Vec<Vec<u64>> = (0..subjects)
        .map(|from| (0..subjects).map(|to| if from == to { 0 } else { MOST_LINK_PRICE }).collect())
        .collect();
    let step_prices = prices(bytes, layout.step_prices, 0, &step_limits)?;
    let first_link = counts.nodes * subjects;
    let link_prices = prices(bytes, layout.link_prices, first_link, &link_limits)?;
    Ok(File {
        user: header.user,
        pairs: header.with_pairs.then(|| list.to_vec()),
        day: header.day,
        subjects,
        attributes: header.attributes,
        allowed: header.allowed,
        relations,
        grants,
        nodes,
        step_prices,
        link_prices,
    })
}
