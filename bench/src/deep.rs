//! The deepest plan files: every step over the one before.

use crate::files::{File, NODES, SUBJECTS};
use crate::ordinary;
use crate::records::{Grant, Header, Node, Relation, Values};
use crate::sides::Rooms;

const RELATIONS: usize = 16;
const ATTRIBUTES: usize = 64;
/// How many pairs each join has, as many as there may be.
const PAIRS: usize = 8;
const UNUSED: u8 = 255;

/// Leaves and steps, made from the first to the last.
struct Tree {
    /// Of each relation.
    sets: Vec<u64>,
    nodes: Vec<Node>,
    pairs: Vec<u8>,
}

const BLANK: Node = Node {
    kind: 0,
    left: UNUSED,
    right: UNUSED,
    x: UNUSED,
    y: UNUSED,
    spare: [0; 3],
    set: 0,
    needed: 0,
    size: 1,
    first: 0,
    count: 0,
};

impl Tree {
    fn new(relations: usize) -> Tree {
        let width = ATTRIBUTES / relations;
        let all = u64::MAX >> (64 - width);
        let sets = (0..relations).map(|relation| all << (relation * width)).collect();
        Tree { sets, nodes: Vec::new(), pairs: Vec::new() }
    }

    /// The number of the latest node.
    fn last(&self) -> u8 {
        self.nodes.len() as u8 - 1
    }

    fn leaf(&mut self, relation: usize) {
        self.nodes.push(Node { x: relation as u8, set: self.sets[relation], ..BLANK });
    }

    /// Selections, by turns with a value and of two attributes, of the first relation.
    fn select(&mut self, steps: usize) {
        let width = self.sets[0].count_ones() as usize;
        for step in 0..steps {
            let (x, left) = ((step % width) as u8, self.last());
            let (kind, y) = if step % 2 == 0 { (2, UNUSED) } else { (3, 0) };
            let needed = if step % 4 == 0 { 1 << x } else { 0 };
            self.nodes.push(Node { kind, left, x, y, needed, ..BLANK });
        }
    }

    /// A leaf of the relation, joined with all that was made before.
    fn join(&mut self, relation: usize, from_left: bool) {
        let before = self.last();
        self.leaf(relation);
        let leaf = self.last();
        let first = (self.pairs.len() / 2) as u8;
        for pair in 0..PAIRS {
            let width = self.sets[0].count_ones() as usize;
            let old = (pair % width) as u8;
            let new = (relation * width + pair % width) as u8;
            self.pairs.extend(if from_left { [old, new] } else { [new, old] });
        }
        let [left, right] = if from_left { [before, leaf] } else { [leaf, before] };
        let (kind, count) = (9, PAIRS as u8);
        self.nodes.push(Node { kind, left, right, first, count, ..BLANK });
    }

    /// The file, of which everyone may see all.
    fn file(self, name: &str) -> Result<File, String> {
        let header = Header {
            version: 4,
            subjects: SUBJECTS as u8,
            relations: self.sets.len() as u8,
            attributes: ATTRIBUTES as u8,
            nodes: self.nodes.len() as u8,
            grants: self.sets.len() as u16,
            steps: u32::MAX,
            user: 0,
            pairs: (self.pairs.len() / 2) as u8,
            day: 0,
        };
        let grant = |(relation, &clear): (usize, &u64)| {
            let (relation, last) = (relation as u8, u16::MAX);
            Grant { relation, subject: UNUSED, first: 0, last, clear, sealed: 0 }
        };
        let price = |node: &Node| [if node.kind == 0 { 0 } else { 1 }; SUBJECTS];
        let values = Values {
            header,
            relations: self.sets.iter().map(|&set| Relation { owner: 0, set }).collect(),
            grants: self.sets.iter().enumerate().map(grant).collect(),
            step_prices: self.nodes.iter().flat_map(price).collect(),
            link_prices: vec![0; SUBJECTS * SUBJECTS],
            nodes: self.nodes,
            pairs: self.pairs,
        };
        let mut rooms = Rooms::new();
        let length = ordinary::write(&values, &mut rooms.file)
            .map_err(|(number, place)| format!("{name}: refused {number} place {place}"))?;
        File::new(name, rooms.file[..length].to_vec())
    }
}

/// A leaf and a chain of steps over it.
fn chain() -> Result<File, String> {
    let mut tree = Tree::new(1);
    tree.leaf(0);
    tree.select(NODES - 1);
    tree.file("chain")
}

/// A chain, and over it joins of a leaf each, as many as there may be.
fn comb(name: &str, from_left: bool) -> Result<File, String> {
    let mut tree = Tree::new(RELATIONS);
    tree.leaf(0);
    tree.select(NODES - 2 * RELATIONS + 1);
    for relation in 1..RELATIONS {
        tree.join(relation, from_left);
    }
    tree.file(name)
}

/// A chain of 64 nodes, and combs of 49 one over the other, the long side left or right.
pub fn files() -> Result<Vec<File>, String> {
    Ok(vec![chain()?, comb("left comb", true)?, comb("right comb", false)?])
}
