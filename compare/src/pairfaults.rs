//! Files made to break a rule about pairs and mostly no other, each with the refusal
//! that it must bring: the reader is held against it.

use crate::file::{File, MOST_JOINED, MOST_PAIRS, Work};
use crate::generate::{Known, Made};
use crate::layout::NAMED_AT;
use crate::pairslips::{BEFORE, CUT_SUM, EXCHANGED, HALF, PAST};
use crate::rng::Rng;
use crate::sets::Flags;
use crate::users;
use crate::valid::{self, Size};

/// Puts a fault into a valid file over one of its joins on pairs: the bytes, and the
/// node at fault. `None` where the file has no place for it.
type Maker = fn(&mut Rng, File, usize) -> Option<(Vec<u8>, usize)>;

pub struct Fault {
    pub name: &'static str,
    pub number: u64,
    make: Maker,
    /// The slip that lets it through.
    pub slip: Option<&'static str>,
}

const fn fault(number: u64, name: &'static str, make: Maker) -> Fault {
    Fault { name, number, make, slip: None }
}

const fn shows(slip: &'static str, number: u64, name: &'static str, make: Maker) -> Fault {
    Fault { name, number, make, slip: Some(slip) }
}

pub const FAULTS: [Fault; 24] = [
    fault(3, "a header of 16 bytes", cut_header),
    fault(3, "a header of 16 bytes, a count out of its limits", cut_odd_header),
    shows(PAST, 8, "the last pair past the list", past_list),
    shows(CUT_SUM, 8, "first and count past 255 together", far_past),
    fault(8, "a count of 0", no_count),
    fault(8, "a count of 9", nine),
    fault(8, "a count of 10 or more", many),
    fault(8, "a first pair's number in another kind", |rng, file, _| elsewhere(rng, file, 0)),
    fault(8, "a count in another kind", |rng, file, _| elsewhere(rng, file, 1)),
    fault(8, "an unused field not left alone", unused_field),
    shows(BEFORE, 8, "kind 9 in version 2", |_, file, _| before(file, 2)),
    fault(8, "kind 9 in version 1", |_, file, _| before(file, 1)),
    fault(8, "a count of 9, also pairs of no attribute and half a pair needed", all_three),
    fault(9, "a pair's attribute not below a", beyond_attributes),
    fault(9, "a pair's attribute of 64 or more", beyond_64),
    fault(9, "a pair's attribute visible on neither side", unseen),
    fault(9, "a pair's attribute visible on the other side", other_side),
    shows(EXCHANGED, 9, "left's and right's attribute exchanged", exchanged),
    fault(9, "a pair that an earlier node names", named_twice),
    fault(9, "left's and right's exchanged, also half a pair needed", exchanged_half),
    shows(HALF, 10, "half a pair needed", half),
    shows(HALF, 10, "half a pair needed, its attribute with another", half_shared),
    fault(10, "needed what no pair has", outside),
    fault(10, "needed a pair that is not named", next_pair),
];

/// A file with the fault that this number has.
pub fn file(rng: &mut Rng, fault: usize) -> (Vec<u8>, Known) {
    let Fault { number, make, .. } = FAULTS[fault];
    loop {
        let mut file = valid::file(rng, Size::Small, 3, false);
        users::name_allowed(rng, &mut file);
        let joins: Vec<usize> = (0..file.nodes.len()).filter(|&n| is_join(&file, n)).collect();
        if joins.is_empty() {
            continue;
        }
        let node = rng.pick(&joins);
        if let Some((bytes, place)) = make(rng, file, node) {
            return (bytes, Known::of(Made::Pair(fault), number, place));
        }
    }
}

fn is_join(file: &File, node: usize) -> bool {
    matches!(file.nodes[node].work, Work::JoinPairs { .. })
}

/// A join's first pair's number and its pairs.
fn join(file: &mut File, node: usize) -> (&mut usize, &mut Vec<(usize, usize)>) {
    match &mut file.nodes[node].work {
        Work::JoinPairs { first, pairs, .. } => (first, pairs),
        _ => unreachable!("only joins on pairs are asked"),
    }
}

fn pairs_of(file: &mut File, node: usize) -> Vec<(usize, usize)> {
    join(file, node).1.clone()
}

fn list(file: &mut File) -> &mut Vec<[u8; 2]> {
    file.pairs.as_mut().expect("a file with pairs")
}

fn bytes_of(&(x, y): &(usize, usize)) -> [u8; 2] {
    [x as u8, y as u8]
}

/// What is visible after each node.
pub fn visible(file: &File) -> Vec<Flags> {
    let mut visible: Vec<Flags> = Vec::new();
    for node in &file.nodes {
        let before = node.work.children().fold(Flags::NONE, |sum, child| sum.or(&visible[child]));
        visible.push(node.work.visible_after(&before));
    }
    visible
}

/// Names pairs anew at the end of the list, as many as `count` says, whether or not
/// all of them get there: what was named before is then named by none.
fn named_anew(file: &mut File, node: usize, put: &[(usize, usize)], count: usize) -> Option<usize> {
    let start = list(file).len();
    if start + put.len() > MOST_PAIRS {
        return None;
    }
    list(file).extend(put.iter().map(bytes_of));
    let (first, pairs) = join(file, node);
    *first = start;
    pairs.resize(count, (0, 0));
    Some(start)
}

fn cut_header(_: &mut Rng, file: File, _: usize) -> Option<(Vec<u8>, usize)> {
    Some((file.write()[..16].to_vec(), 0))
}

fn cut_odd_header(rng: &mut Rng, file: File, _: usize) -> Option<(Vec<u8>, usize)> {
    let mut bytes = file.write()[..16].to_vec();
    bytes[rng.within(5, 8)] = rng.pick(&[0, 255]);
    Some((bytes, 0))
}

fn past_list(_: &mut Rng, mut file: File, node: usize) -> Option<(Vec<u8>, usize)> {
    let pairs = pairs_of(&mut file, node);
    let (_, all_but_one) = pairs.split_last()?;
    named_anew(&mut file, node, all_but_one, pairs.len())?;
    Some((file.write(), node))
}

/// First and count go past 255 together, so that a sum cut to 8 bits would do.
fn far_past(rng: &mut Rng, mut file: File, node: usize) -> Option<(Vec<u8>, usize)> {
    let (first, pairs) = join(&mut file, node);
    *first = MOST_PAIRS - rng.below(pairs.len());
    Some((file.write(), node))
}

fn no_count(_: &mut Rng, mut file: File, node: usize) -> Option<(Vec<u8>, usize)> {
    join(&mut file, node).1.clear();
    Some((file.write(), node))
}

fn nine(_: &mut Rng, file: File, node: usize) -> Option<(Vec<u8>, usize)> {
    so_many(file, node, MOST_JOINED + 1)
}

/// So many pairs, all of them right.
fn so_many(mut file: File, node: usize, count: usize) -> Option<(Vec<u8>, usize)> {
    let pairs: Vec<_> = pairs_of(&mut file, node).into_iter().cycle().take(count).collect();
    named_anew(&mut file, node, &pairs, count)?;
    Some((file.write(), node))
}

fn many(rng: &mut Rng, mut file: File, node: usize) -> Option<(Vec<u8>, usize)> {
    let most = MOST_PAIRS - list(&mut file).len();
    let count = rng.pick(&[10, 11, 16, 32, 64, 128, most]);
    if count > MOST_JOINED { so_many(file, node, count) } else { None }
}

fn elsewhere(rng: &mut Rng, file: File, byte: usize) -> Option<(Vec<u8>, usize)> {
    let others: Vec<usize> = (0..file.nodes.len()).filter(|&n| !is_join(&file, n)).collect();
    let node = rng.pick(&others);
    let mut bytes = file.write();
    bytes[file.layout().node_at(node) + NAMED_AT + byte] = rng.pick(&[1, 1, 2, 8, 128, 255]);
    Some((bytes, node))
}

/// x, y or a byte of the set, which a join on pairs does not use.
fn unused_field(rng: &mut Rng, mut file: File, node: usize) -> Option<(Vec<u8>, usize)> {
    let (x, y) = rng.pick(&pairs_of(&mut file, node));
    let start = file.layout().node_at(node);
    let (field, byte) = rng.pick(&[(3, x), (4, y), (3, 0), (4, 254), (15, 1), (8, 128)]);
    let mut bytes = file.write();
    bytes[start + field] = byte as u8;
    Some((bytes, node))
}

/// The file without what later versions add: the first join on pairs is of no kind
/// that there is.
fn before(mut file: File, version: usize) -> Option<(Vec<u8>, usize)> {
    let node = (0..file.nodes.len()).find(|&node| is_join(&file, node))?;
    file.pairs = None;
    file.user = file.user.filter(|_| version > 1);
    Some((file.write(), node))
}

fn all_three(_: &mut Rng, mut file: File, node: usize) -> Option<(Vec<u8>, usize)> {
    let (x, _) = pairs_of(&mut file, node)[0];
    file.nodes[node].needed = Flags::of(&[x]);
    let count = MOST_JOINED + 1;
    named_anew(&mut file, node, &vec![(255, 255); count], count)?;
    Some((file.write(), node))
}

/// Puts another byte into one of the pairs.
fn other_byte(
    rng: &mut Rng,
    mut file: File,
    node: usize,
    other: impl Fn(&mut Rng, [u8; 2], usize) -> u8,
) -> Option<(Vec<u8>, usize)> {
    let (first, pairs) = join(&mut file, node);
    let (at, side) = (*first + rng.below(pairs.len()), rng.below(2));
    let pair = list(&mut file)[at];
    list(&mut file)[at][side] = other(rng, pair, side);
    Some((file.write(), node))
}

fn beyond_attributes(rng: &mut Rng, file: File, node: usize) -> Option<(Vec<u8>, usize)> {
    let attributes = file.attributes;
    other_byte(rng, file, node, |rng, _, _| rng.pick(&[attributes, attributes, 63]) as u8)
}

/// One that would be right if it were cut to 6 or 7 bits, the first, or the last.
fn beyond_64(rng: &mut Rng, file: File, node: usize) -> Option<(Vec<u8>, usize)> {
    other_byte(rng, file, node, |rng, pair, side| {
        let held = pair[side];
        rng.pick(&[64, 255, 64 + held, 128 + held, 192 + held])
    })
}

fn unseen(rng: &mut Rng, file: File, node: usize) -> Option<(Vec<u8>, usize)> {
    let hidden = Flags::below(file.attributes).minus(&visible(&file)[node]).list();
    if hidden.is_empty() {
        return None;
    }
    other_byte(rng, file, node, |rng, _, _| rng.pick(&hidden) as u8)
}

fn other_side(rng: &mut Rng, file: File, node: usize) -> Option<(Vec<u8>, usize)> {
    other_byte(rng, file, node, |_, pair, side| pair[1 - side])
}

fn exchange(rng: &mut Rng, file: &mut File, node: usize) {
    let (first, pairs) = join(file, node);
    let at = *first + rng.below(pairs.len());
    list(file)[at].reverse();
}

fn exchanged(rng: &mut Rng, mut file: File, node: usize) -> Option<(Vec<u8>, usize)> {
    exchange(rng, &mut file, node);
    Some((file.write(), node))
}

/// The pair that a join names is the first of an earlier one.
fn named_twice(_: &mut Rng, mut file: File, node: usize) -> Option<(Vec<u8>, usize)> {
    let earlier = (0..node).find(|&earlier| is_join(&file, earlier))?;
    let taken = *join(&mut file, earlier).0;
    let (first, pairs) = join(&mut file, node);
    *first = taken;
    pairs.truncate(1);
    Some((file.write(), node))
}

fn exchanged_half(rng: &mut Rng, mut file: File, node: usize) -> Option<(Vec<u8>, usize)> {
    let (x, _) = rng.pick(&pairs_of(&mut file, node));
    file.nodes[node].needed = Flags::of(&[x]);
    exchanged(rng, file, node)
}

/// Of what is needed one half of a pair more, or one less.
fn half(rng: &mut Rng, mut file: File, node: usize) -> Option<(Vec<u8>, usize)> {
    let (x, y) = rng.pick(&pairs_of(&mut file, node));
    let one = Flags::of(&[rng.pick(&[x, y])]);
    let needed = &mut file.nodes[node].needed;
    *needed = if needed.meets(&one) { needed.minus(&one) } else { needed.or(&one) };
    Some((file.write(), node))
}

/// A whole pair needed, but another that shares an attribute with it is not.
fn half_shared(rng: &mut Rng, mut file: File, node: usize) -> Option<(Vec<u8>, usize)> {
    let pairs = pairs_of(&mut file, node);
    let shared = |one: &&(usize, usize)| {
        pairs.iter().any(|other| other != *one && (other.0 == one.0 || other.1 == one.1))
    };
    let shared: Vec<(usize, usize)> = pairs.iter().filter(shared).copied().collect();
    if shared.is_empty() {
        return None;
    }
    let (x, y) = rng.pick(&shared);
    file.nodes[node].needed = Flags::of(&[x, y]);
    Some((file.write(), node))
}

/// An attribute is needed that the join does not read, though it may be visible.
fn outside(rng: &mut Rng, mut file: File, node: usize) -> Option<(Vec<u8>, usize)> {
    let reads = file.nodes[node].work.reads();
    let seen = visible(&file)[node].minus(&reads).list();
    // A small file has far fewer attributes than 64.
    let past = rng.pick(&[file.attributes, 63]);
    let one = if seen.is_empty() || rng.percent(20) { past } else { rng.pick(&seen) };
    file.nodes[node].needed.put(one);
    Some((file.write(), node))
}

/// The pair after those that are named is needed; it could be named as well.
fn next_pair(rng: &mut Rng, mut file: File, node: usize) -> Option<(Vec<u8>, usize)> {
    let (reads, visible) = (file.nodes[node].work.reads(), visible(&file));
    let mut sides = file.nodes[node].work.children();
    let mut other = || Some(visible[sides.next()?].minus(&reads).list());
    let (left, right) = (other()?, other()?);
    if left.is_empty() || right.is_empty() {
        return None;
    }
    let next = (rng.pick(&left), rng.pick(&right));
    let named = pairs_of(&mut file, node);
    named_anew(&mut file, node, &[&named[..], &[next]].concat(), named.len())?;
    let needed = &mut file.nodes[node].needed;
    *needed = needed.or(&Flags::of(&[next.0, next.1]));
    Some((file.write(), node))
}
