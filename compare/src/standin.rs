//! A second writer, which plays the library where none is linked: every field is
//! put at its place in the file, and all refusals but two are the reader's.

use crate::layout::{
    Counts, DAY_AT, DAYS_AT, Layout, NAMED_AT, PAIRS_AT, RELATION, USER_AT, VERSIONS, form_of,
};
use crate::reading::{Refusal, read, refuse};
use crate::record::code;
use crate::values::{Grant, Header, Node, Relation, Values};
use crate::writer::{Order, Written};

/// A field: where it ends in its record, and how wide it is.
type Field = (usize, usize, u64);

fn put(bytes: &mut [u8], record: usize, fields: &[Field]) {
    for &(end, width, value) in fields {
        for back in 0..width {
            bytes[record + end - 1 - back] = (value >> (8 * back)) as u8;
        }
    }
}

fn put_header(bytes: &mut [u8], header: &Header) {
    bytes[..3].copy_from_slice(b"AXP");
    let fields = [
        (5, 2, header.version.into()),
        (6, 1, header.subjects.into()),
        (7, 1, header.relations.into()),
        (8, 1, header.attributes.into()),
        (9, 1, header.nodes.into()),
        (11, 2, header.grants.into()),
        (15, 4, header.steps.into()),
    ];
    put(bytes, 0, &fields);
    if header.version > 1 {
        bytes[USER_AT] = header.user;
    }
    if header.version > 2 {
        bytes[PAIRS_AT] = header.pairs;
    }
    if header.version > 3 {
        put(bytes, DAY_AT, &[(2, 2, header.day.into())]);
    }
}

fn relation(relation: &Relation) -> [Field; 2] {
    [(1, 1, relation.owner.into()), (9, 8, relation.set)]
}

fn grant(grant: &Grant) -> [Field; 4] {
    let (relation, subject) = (grant.relation.into(), grant.subject.into());
    [(1, 1, relation), (2, 1, subject), (10, 8, grant.clear), (18, 8, grant.sealed)]
}

fn node(node: &Node) -> [Field; 11] {
    let bytes = [node.kind, node.left, node.right, node.x, node.y];
    let [kind, left, right, x, y] = bytes.map(u64::from);
    let [first, second, third] = node.spare.map(u64::from);
    [
        (28, 4, node.size.into()),
        (24, 8, node.needed),
        (16, 8, node.set),
        (8, 1, third),
        (7, 1, second),
        (6, 1, first),
        (5, 1, y),
        (4, 1, x),
        (3, 1, right),
        (2, 1, left),
        (1, 1, kind),
    ]
}

/// The file of values that are as many as their counts say.
fn by_place(values: &Values, layout: &Layout) -> Vec<u8> {
    let mut bytes = vec![0; layout.end];
    put_header(&mut bytes, &values.header);
    for (index, value) in values.relations.iter().enumerate() {
        put(&mut bytes, layout.relations + RELATION * index, &relation(value));
    }
    for (index, value) in values.grants.iter().enumerate() {
        put(&mut bytes, layout.grant_at(index), &grant(value));
        if layout.grant > DAYS_AT {
            let (first, last) = (value.first.into(), value.last.into());
            put(&mut bytes, layout.grant_at(index) + DAYS_AT, &[(2, 2, first), (4, 2, last)]);
        }
    }
    for (index, value) in values.nodes.iter().enumerate() {
        put(&mut bytes, layout.node_at(index), &node(value));
        if layout.node > NAMED_AT {
            let (first, count) = (value.first.into(), value.count.into());
            put(&mut bytes, layout.node_at(index) + NAMED_AT, &[(1, 1, first), (2, 1, count)]);
        }
    }
    bytes[layout.pairs..layout.step_prices].copy_from_slice(&values.pairs);
    for (start, prices) in
        [(layout.step_prices, &values.step_prices), (layout.link_prices, &values.link_prices)]
    {
        for (index, &price) in prices.iter().enumerate() {
            put(&mut bytes, start + 4 * index, &[(4, 4, price.into())]);
        }
    }
    bytes
}

fn as_many(values: &Values, counts: &Counts) -> bool {
    let &Counts { subjects, relations, grants, nodes, pairs, .. } = counts;
    values.relations.len() == relations
        && values.grants.len() == grants
        && values.nodes.len() == nodes
        && values.pairs.len() == 2 * pairs
        && values.step_prices.len() == nodes * subjects
        && values.link_prices.len() == subjects * subjects
}

fn file(values: &Values) -> Result<Vec<u8>, Refusal> {
    let header = &values.header;
    // One of a version that there is not is refused for it, however long it is.
    let form = form_of(header.version.into()).or(form_of(VERSIONS as u64)).expect("the last one");
    // The header alone is a file cut short: 3 is what it brings if all is right.
    let mut start = vec![0; form.header];
    put_header(&mut start, header);
    match read(&start) {
        Err(Refusal { number: 3, .. }) => {}
        Err(refusal) => return Err(refusal),
        Ok(_) => unreachable!("there is a relation in every file"),
    }
    let counts = Counts {
        form,
        subjects: header.subjects.into(),
        relations: header.relations.into(),
        grants: header.grants.into(),
        nodes: header.nodes.into(),
        pairs: if form.node > NAMED_AT { header.pairs.into() } else { 0 },
    };
    if as_many(values, &counts) { Ok(by_place(values, &Layout::of(&counts))) } else { refuse(3, 0) }
}

pub fn write(order: &Order) -> Written {
    let mut out = Written::untouched(order);
    let judged = file(&order.values).and_then(|bytes| read(&bytes).map(|_| bytes));
    match judged {
        Err(refusal) => out.code = code(&refusal),
        Ok(bytes) if bytes.len() > order.room => out.code = 15 << 32 | 4,
        Ok(bytes) => {
            out.room.splice(..bytes.len(), bytes.iter().copied());
            out.written = bytes.len() as u64;
        }
    }
    out.check = out.file().map(|file| read(file).err().as_ref().map_or(0, code));
    out
}
