//! Faults of nodes and prices for which records before must be remembered, and
//! neighbours of theirs that keep the rule.

use crate::file::{File, MOST_LINK_PRICE, MOST_STEP_PRICE, UNUSED, Work};
use crate::grantfaults::edged;
use crate::pairfaults::visible;
use crate::rng::Rng;
use crate::served::serve;
use crate::sets::{Flags, WIDTH};
use crate::users::{relation_of, shown};

type Made = Option<(Vec<u8>, usize)>;

/// Where the operands and x stand in the record of a node.
const OPERANDS_AT: usize = 1;
const X_AT: usize = 3;

/// A node that takes another as its left operand (0) or its right one (1).
#[derive(Clone, Copy)]
struct Taking {
    parent: usize,
    side: usize,
    child: usize,
}

fn takings(file: &File) -> Vec<Taking> {
    let of_node = |parent: usize| {
        let children = file.nodes[parent].work.children().enumerate();
        children.map(move |(side, child)| Taking { parent, side, child })
    };
    (0..file.nodes.len()).flat_map(of_node).collect()
}

/// One of them, if there are any, often the last or the first.
pub fn some<T: Copy>(rng: &mut Rng, from: &[T]) -> Option<T> {
    (!from.is_empty()).then(|| from[edged(rng, from.len())])
}

/// The file with another byte in a node's record, that node being at fault.
fn other_byte(file: &File, node: usize, field: usize, byte: usize) -> Made {
    let mut bytes = file.write();
    bytes[file.layout().node_at(node) + field] = byte as u8;
    Some((bytes, node))
}

/// A node takes, on one side, what an earlier one has taken on a side.
pub fn taken_twice(rng: &mut Rng, file: &File, earlier: usize, later: usize) -> Made {
    let takings = takings(file);
    let again = |first: &Taking| {
        let first = *first;
        let fits = move |next: &&Taking| next.parent > first.parent && next.side == later;
        takings.iter().filter(fits).map(move |next| (next.parent, first.child))
    };
    let mut all: Vec<(usize, usize)> =
        takings.iter().filter(|first| first.side == earlier).flat_map(again).collect();
    all.sort();
    let (parent, child) = some(rng, &all)?;
    other_byte(file, parent, OPERANDS_AT + later, child)
}

/// Likewise, but a node before it breaks a rule that is asked later: it needs what it
/// does not read, or, as a leaf, has a relation that is not there.
pub fn later_taken_twice(rng: &mut Rng, mut file: File, needs: bool) -> Made {
    let node = rng.below(file.nodes.len());
    let of_node = &mut file.nodes[node];
    match &mut of_node.work {
        work if needs => {
            let unread = Flags::below(WIDTH).minus(&work.reads()).list();
            of_node.needed.put(some(rng, &unread)?);
        }
        Work::Leaf { relation, .. } => *relation = UNUSED.into(),
        _ => return None,
    }
    let (bytes, parent) = taken_twice(rng, &file, 0, 0)?;
    (node < parent).then_some((bytes, node))
}

/// Two later nodes take what an earlier one has taken: the first of them is named.
pub fn taken_thrice(rng: &mut Rng, file: File) -> Made {
    let first = some(rng, &takings(&file))?;
    let mut later: Vec<Taking> = takings(&file);
    later.retain(|next| next.parent > first.parent && next.side == 0);
    let [next, .., last] = later[..] else { return None };
    let mut bytes = file.write();
    for taking in [next, last] {
        bytes[file.layout().node_at(taking.parent) + OPERANDS_AT] = first.child as u8;
    }
    Some((bytes, next.parent))
}

/// Both operands of a node are the same.
pub fn same_operands(rng: &mut Rng, file: File) -> Made {
    let mut right = takings(&file);
    right.retain(|taking| taking.side == 1);
    let Taking { parent, child, .. } = some(rng, &right)?;
    let left = file.nodes[parent].work.children().next()?;
    let (side, child) = rng.pick(&[(0, child), (1, left)]);
    other_byte(&file, parent, OPERANDS_AT + side, child)
}

/// Another number for some operand, made of the node's own and of the one it has.
pub fn operand(rng: &mut Rng, file: &File, other: fn(&mut Rng, usize, usize) -> usize) -> Made {
    let Taking { parent, side, child } = some(rng, &takings(file))?;
    let other = other(rng, parent, child);
    other_byte(file, parent, OPERANDS_AT + side, other)
}

/// An operand of 64 or more that would be right if it were cut to 6 bits.
pub fn far_operand(rng: &mut Rng, file: File) -> Made {
    operand(rng, &file, |rng, _, child| child + rng.pick(&[64, 128, 192]))
}

/// A node that has no right operand names one all the same.
pub fn unused_operand(rng: &mut Rng, file: &File, own: bool) -> Made {
    let takings = takings(file);
    let with_one = |taking: &&Taking| file.nodes[taking.parent].work.children().count() == 1;
    let alone: Vec<Taking> = takings.iter().filter(with_one).copied().collect();
    let Taking { parent, child, .. } = some(rng, &alone)?;
    let before: Vec<usize> =
        takings.iter().filter(|taking| taking.parent < parent).map(|taking| taking.child).collect();
    let named = if own { child } else { some(rng, &before)? };
    other_byte(file, parent, OPERANDS_AT + 1, named)
}

/// A leaf names an operand: a lower node, taken or not.
pub fn operand_of_leaf(rng: &mut Rng, file: File) -> Made {
    let mut leaves = file.leaves();
    leaves.retain(|&leaf| leaf > 0);
    let leaf = some(rng, &leaves)?;
    let (side, lower) = (rng.below(2), rng.below(leaf));
    other_byte(&file, leaf, OPERANDS_AT + side, lower)
}

/// A leaf takes the relation of an earlier one: of the one before, or of one with
/// others between. It shows what that one shows, or what that one leaves.
pub fn relation_twice(rng: &mut Rng, mut file: File, next: bool) -> Made {
    let leaves = file.leaves();
    let between = |&(earlier, later): &(usize, usize)| (later - earlier == 1) == next;
    let places = |later: usize| (0..later).map(move |earlier| (earlier, later));
    let mut all: Vec<(usize, usize)> =
        (0..leaves.len()).flat_map(places).filter(|two| between(two)).collect();
    all.sort_by_key(|&(earlier, _)| relation_of(&file, leaves[earlier]));
    let (earlier, later) = some(rng, &all)?;
    let (relation, set) = (relation_of(&file, leaves[earlier]), shown(&file, leaves[earlier]));
    let left = file.relations[relation].set.minus(&set);
    let set = if left.is_empty() || rng.percent(50) { set } else { left };
    file.nodes[leaves[later]].work = Work::Leaf { relation, set };
    Some((file.write(), leaves[later]))
}

/// A leaf's relation that is not there.
pub fn relation_of_leaf(rng: &mut Rng, file: &File, far: bool) -> Made {
    let leaf = some(rng, &file.leaves())?;
    let relation = rng.below(file.relations.len()) + 16 * rng.within(1, 14);
    let past = rng.pick(&[file.relations.len(), 255]);
    other_byte(file, leaf, X_AT, if far { relation } else { past })
}

/// Puts an attribute that its operand does not show into what a node uses, in its set
/// or its x: one that `of` has, given what is visible after each node.
pub fn unseen(rng: &mut Rng, mut file: File, of: fn(&File, &[Flags], usize) -> Flags) -> Made {
    let visible = visible(&file);
    let mut takings = takings(&file);
    takings.retain(|taking| taking.side == 0);
    let Taking { parent, child, .. } = some(rng, &takings)?;
    let hidden = of(&file, &visible, parent).minus(&visible[child]).list();
    let attribute = some(rng, &hidden)?;
    match &mut file.nodes[parent].work {
        Work::Project { set, .. } | Work::Count { set, .. } => set.put(attribute),
        Work::Product { .. } | Work::JoinPairs { .. } => return None,
        _ => return other_byte(&file, parent, X_AT, attribute),
    }
    Some((file.write(), parent))
}

/// What the node just before shows.
pub fn shown_before(_: &File, visible: &[Flags], node: usize) -> Flags {
    visible[node - 1]
}

/// What the operands of the left operand show.
pub fn shown_below(file: &File, visible: &[Flags], node: usize) -> Flags {
    let Some(child) = file.nodes[node].work.children().next() else { return Flags::NONE };
    let below = file.nodes[child].work.children();
    below.fold(Flags::NONE, |sum, one| sum.or(&visible[one]))
}

/// What no leaf shows.
pub fn shown_nowhere(file: &File, visible: &[Flags], _: usize) -> Flags {
    let shown = file.leaves().into_iter().fold(Flags::NONE, |sum, leaf| sum.or(&visible[leaf]));
    Flags::below(file.attributes).minus(&shown)
}

/// The nodes without a parent, the last left out.
pub fn orphans(file: &File) -> Vec<usize> {
    let takings = takings(file);
    let taken = |node: usize| takings.iter().any(|taking| taking.child == node);
    (0..file.root()).filter(|&node| !taken(node)).collect()
}

/// So many nodes without a parent, the lowest of which is a leaf or a step.
pub fn parentless(file: &File, count: usize, leaf: bool) -> Made {
    let orphans = orphans(file);
    let lowest = *orphans.first()?;
    let fits = orphans.len() == count && file.nodes[lowest].work.is_leaf() == leaf;
    fits.then(|| (file.write(), lowest))
}

/// The last node needs what it does not read, which comes before nodes without a parent.
pub fn parentless_needing(rng: &mut Rng, mut file: File) -> Made {
    orphans(&file).first()?;
    let root = file.root();
    let unread = Flags::below(WIDTH).minus(&file.nodes[root].work.reads()).list();
    file.nodes[root].needed.put(some(rng, &unread)?);
    Some((file.write(), root))
}

/// The last link's price is wrong, which comes after nodes without a parent.
pub fn parentless_priced(_: &mut Rng, mut file: File) -> Made {
    let lowest = *orphans(&file).first()?;
    *file.link_prices.last_mut()?.last_mut()? = 1;
    Some((file.write(), lowest))
}

/// A link's price from a subject to itself that is not 0, some of them 0 if cut to
/// fewer bits.
fn not_0(rng: &mut Rng) -> u64 {
    rng.pick(&[1, MOST_LINK_PRICE, MOST_LINK_PRICE + 1, 1 << 8, 1 << 16, 1 << 24, u32::MAX.into()])
}

fn over(rng: &mut Rng, most: u64) -> u64 {
    rng.pick(&[most + 1, most + 1, 1 << 20, 1 << 31, u32::MAX.into()])
}

/// A place in the table of links: its row and its column.
type Link = (usize, usize);

/// The own link of some row is not 0, and other links, in places made of its row and of
/// the count, are over the most: the first of these in the file is named.
pub fn links(
    rng: &mut Rng,
    mut file: File,
    others: fn(&mut Rng, usize, usize) -> Vec<Link>,
) -> Made {
    let (subjects, row) = (file.subjects, edged(rng, file.subjects));
    let others = others(rng, row, subjects);
    let fits = |&(from, to): &Link| from < subjects && to < subjects && from != to;
    if !others.iter().all(fits) {
        return None;
    }
    file.link_prices[row][row] = not_0(rng);
    for &(from, to) in &others {
        file.link_prices[from][to] = over(rng, MOST_LINK_PRICE);
    }
    let (from, to) = others.into_iter().chain([(row, row)]).min()?;
    let first = file.nodes.len() * subjects;
    Some((file.write(), first + from * subjects + to))
}

pub fn before_own(rng: &mut Rng, row: usize, _: usize) -> Vec<Link> {
    vec![(row, rng.below(row.max(1)))]
}

pub fn after_own(rng: &mut Rng, row: usize, count: usize) -> Vec<Link> {
    vec![(row, row + 1 + rng.below(count))]
}

/// Any link of another row.
pub fn in_another_row(rng: &mut Rng, row: usize, count: usize) -> Vec<Link> {
    vec![((row + 1 + rng.below(count)) % count, rng.below(count))]
}

/// Prices in the rows of some nodes, one that is a leaf and one that is a step, that
/// are wrong for it: the first is named.
pub fn rows(rng: &mut Rng, mut file: File, leaf: bool, step: bool) -> Made {
    let (leaves, steps): (Vec<usize>, Vec<usize>) =
        (0..file.nodes.len()).partition(|&node| file.nodes[node].work.is_leaf());
    let mut wrong = Vec::new();
    if leaf {
        wrong.push((some(rng, &leaves)?, not_0(rng)));
    }
    if step {
        wrong.push((some(rng, &steps)?, over(rng, MOST_STEP_PRICE)));
    }
    let mut places = Vec::new();
    for (node, price) in wrong {
        let any = rng.below(file.subjects);
        let to = rng.pick(&[0, any, file.subjects - 1]);
        file.step_prices[node][to] = price;
        places.push(node * file.subjects + to);
    }
    Some((file.write(), places.into_iter().min()?))
}

/// A step's price and the first own link are wrong.
pub fn step_and_link(rng: &mut Rng, mut file: File) -> Made {
    file.link_prices[0][0] = not_0(rng);
    rows(rng, file, false, true)
}

/// Two prices of one step's row are over the most.
pub fn two_of_a_row(rng: &mut Rng, mut file: File) -> Made {
    let mut steps: Vec<usize> = takings(&file).iter().map(|taking| taking.parent).collect();
    steps.retain(|_| file.subjects > 1);
    let node = some(rng, &steps)?;
    let second = rng.within(1, file.subjects - 1);
    let first = rng.below(second);
    for to in [first, second] {
        file.step_prices[node][to] = over(rng, MOST_STEP_PRICE);
    }
    Some((file.write(), node * file.subjects + first))
}

/// Gives every step and every link between two a price.
fn reprice(file: &mut File, mut step: impl FnMut() -> u64, mut link: impl FnMut() -> u64) {
    for (node, row) in file.nodes.iter().zip(&mut file.step_prices) {
        let price = if node.work.is_leaf() { 0 } else { step() };
        row.fill(price);
    }
    for (from, row) in file.link_prices.iter_mut().enumerate() {
        for (to, price) in row.iter_mut().enumerate() {
            *price = if from == to { 0 } else { link() };
        }
    }
}

pub fn all_at_the_most(_: &mut Rng, mut file: File) -> Made {
    reprice(&mut file, || MOST_STEP_PRICE, || MOST_LINK_PRICE);
    Some((file.write(), 0))
}

/// A step has one price for all, so that only links tell choices apart, those to a
/// subject from those back: every step has a candidate.
pub fn links_decide(rng: &mut Rng, mut file: File, most: usize) -> Made {
    serve(rng, &mut file);
    let price = rng.below(3) as u64;
    reprice(&mut file, || price, || rng.within(0, most) as u64);
    for node in &mut file.nodes {
        node.size = rng.within(1, 3) as u64;
    }
    Some((file.write(), 0))
}
