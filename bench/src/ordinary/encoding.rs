//! Where each value stands in a plan file: records out of bytes, and into bytes.

use crate::records::{Grant, Header, Node, Relation, Values};

pub const RELATION: usize = 9;
pub const GRANT: usize = 18;
/// From version 4 on, with the first and the last day.
pub const GRANT_DATED: usize = GRANT + 4;
pub const NODE: usize = 28;
/// From version 3 on, with the number of the first pair and a count.
pub const NODE_PAIRED: usize = NODE + 2;
const HEADER: usize = 15;

/// How long the header and the records of a version are.
pub struct Form {
    pub header: usize,
    grant: usize,
    node: usize,
}

pub fn form(version: u16) -> Option<Form> {
    let (more, grant, node) = match version {
        1 => (0, GRANT, NODE),
        2 => (1, GRANT, NODE),
        3 => (2, GRANT, NODE_PAIRED),
        4 => (4, GRANT_DATED, NODE_PAIRED),
        _ => return None,
    };
    Some(Form { header: HEADER + more, grant, node })
}

impl Form {
    pub fn has_user(&self) -> bool {
        self.header > HEADER
    }

    /// Of relations, grants, nodes, pairs, step prices and link prices.
    pub fn lengths(&self, header: &Header) -> [usize; 6] {
        let Header { subjects, relations, nodes, grants, pairs, .. } = *header;
        let [s, r, n] = [subjects, relations, nodes].map(usize::from);
        let pairs = if self.node == NODE { 0 } else { 2 * pairs as usize };
        [RELATION * r, self.grant * grants as usize, self.node * n, pairs, 4 * n * s, 4 * s * s]
    }

    pub fn file_length(&self, header: &Header) -> usize {
        self.header + self.lengths(header).iter().sum::<usize>()
    }
}

fn number16(bytes: &[u8]) -> u16 {
    u16::from_be_bytes(bytes[..2].try_into().unwrap())
}

fn number32(bytes: &[u8]) -> u32 {
    u32::from_be_bytes(bytes[..4].try_into().unwrap())
}

fn number64(bytes: &[u8]) -> u64 {
    u64::from_be_bytes(bytes[..8].try_into().unwrap())
}

/// The header of a file that is long enough for its version's.
pub fn header_of(file: &[u8]) -> Header {
    let version = number16(&file[3..]);
    Header {
        version,
        subjects: file[5],
        relations: file[6],
        attributes: file[7],
        nodes: file[8],
        grants: number16(&file[9..]),
        steps: number32(&file[11..]),
        user: if version >= 2 { file[15] } else { 0 },
        pairs: if version >= 3 { file[16] } else { 0 },
        day: if version >= 4 { number16(&file[17..]) } else { 0 },
    }
}

impl Header {
    fn put(&self, out: &mut [u8]) {
        out[..3].copy_from_slice(b"AXP");
        out[3..5].copy_from_slice(&self.version.to_be_bytes());
        out[5..9].copy_from_slice(&[self.subjects, self.relations, self.attributes, self.nodes]);
        out[9..11].copy_from_slice(&self.grants.to_be_bytes());
        out[11..15].copy_from_slice(&self.steps.to_be_bytes());
        let [day, night] = self.day.to_be_bytes();
        let added = [self.user, self.pairs, day, night];
        let more = out.len() - HEADER;
        out[HEADER..].copy_from_slice(&added[..more]);
    }
}

impl From<&[u8; RELATION]> for Relation {
    fn from(record: &[u8; RELATION]) -> Relation {
        Relation { owner: record[0], set: number64(&record[1..]) }
    }
}

impl Relation {
    fn put(&self, out: &mut [u8; RELATION]) {
        out[0] = self.owner;
        out[1..].copy_from_slice(&self.set.to_be_bytes());
    }
}

/// Of either length; without days it is in force on all.
impl<const N: usize> From<&[u8; N]> for Grant {
    fn from(record: &[u8; N]) -> Grant {
        let dated = N == GRANT_DATED;
        Grant {
            relation: record[0],
            subject: record[1],
            first: if dated { number16(&record[18..]) } else { 0 },
            last: if dated { number16(&record[20..]) } else { u16::MAX },
            clear: number64(&record[2..]),
            sealed: number64(&record[10..]),
        }
    }
}

impl Grant {
    fn put<const N: usize>(&self, out: &mut [u8; N]) {
        out[..2].copy_from_slice(&[self.relation, self.subject]);
        out[2..10].copy_from_slice(&self.clear.to_be_bytes());
        out[10..18].copy_from_slice(&self.sealed.to_be_bytes());
        if N == GRANT_DATED {
            out[18..20].copy_from_slice(&self.first.to_be_bytes());
            out[20..22].copy_from_slice(&self.last.to_be_bytes());
        }
    }
}

/// Of either length.
impl<const N: usize> From<&[u8; N]> for Node {
    fn from(record: &[u8; N]) -> Node {
        let paired = N == NODE_PAIRED;
        Node {
            kind: record[0],
            left: record[1],
            right: record[2],
            x: record[3],
            y: record[4],
            spare: [record[5], record[6], record[7]],
            set: number64(&record[8..]),
            needed: number64(&record[16..]),
            size: number32(&record[24..]),
            first: if paired { record[28] } else { 0 },
            count: if paired { record[29] } else { 0 },
        }
    }
}

impl Node {
    fn put<const N: usize>(&self, out: &mut [u8; N]) {
        out[..5].copy_from_slice(&[self.kind, self.left, self.right, self.x, self.y]);
        out[5..8].copy_from_slice(&self.spare);
        out[8..16].copy_from_slice(&self.set.to_be_bytes());
        out[16..24].copy_from_slice(&self.needed.to_be_bytes());
        out[24..28].copy_from_slice(&self.size.to_be_bytes());
        if N == NODE_PAIRED {
            out[28..].copy_from_slice(&[self.first, self.count]);
        }
    }
}

/// Puts each record into its chunk of a part.
fn put_all<T, const N: usize>(records: &[T], part: &mut [u8], put: fn(&T, &mut [u8; N])) {
    for (record, out) in records.iter().zip(part.as_chunks_mut().0) {
        put(record, out);
    }
}

/// Fills a room of the file's length with values that reading accepts.
pub fn encode(values: &Values, form: &Form, room: &mut [u8]) {
    let [relations, grants, nodes, pairs, step_prices, _] = form.lengths(&values.header);
    let (header, rest) = room.split_at_mut(form.header);
    values.header.put(header);
    let (part, rest) = rest.split_at_mut(relations);
    put_all(&values.relations, part, Relation::put);
    let (part, rest) = rest.split_at_mut(grants);
    match form.grant {
        GRANT => put_all(&values.grants, part, Grant::put::<GRANT>),
        _ => put_all(&values.grants, part, Grant::put::<GRANT_DATED>),
    }
    let (part, rest) = rest.split_at_mut(nodes);
    match form.node {
        NODE => put_all(&values.nodes, part, Node::put::<NODE>),
        _ => put_all(&values.nodes, part, Node::put::<NODE_PAIRED>),
    }
    let (part, rest) = rest.split_at_mut(pairs);
    part.copy_from_slice(&values.pairs);
    let (steps, links) = rest.split_at_mut(step_prices);
    let put_price = |price: &u32, out: &mut [u8; 4]| *out = price.to_be_bytes();
    put_all(&values.step_prices, steps, put_price);
    put_all(&values.link_prices, links, put_price);
}
