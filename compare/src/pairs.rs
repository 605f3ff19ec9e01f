//! Pairs for joins: which attributes they join, which of them are needed, and where
//! they stand in the list.

use crate::file::{MOST_JOINED, MOST_PAIRS, Node, Work};
use crate::rng::Rng;
use crate::sets::Flags;

/// Pairs of attributes visible on either side, one to eight of them. Mostly no
/// attribute comes twice, so that each pair stays on its own; else pairs are
/// repeated and share attributes, and more of them fit where few are visible.
pub fn draw(rng: &mut Rng, left: &Flags, right: &Flags) -> Vec<(usize, usize)> {
    let (mut left, mut right) = (left.list(), right.list());
    let most = left.len().min(right.len()).min(MOST_JOINED);
    if rng.percent(60) {
        rng.shuffle(&mut left);
        rng.shuffle(&mut right);
        let count = if rng.percent(50) { most } else { rng.within(1, most) };
        return left.into_iter().zip(right).take(count).collect();
    }
    let count = rng.within(1, MOST_JOINED);
    let mut pairs = vec![(rng.pick(&left), rng.pick(&right))];
    while pairs.len() < count {
        let (old, new) = (rng.pick(&pairs), (rng.pick(&left), rng.pick(&right)));
        pairs.push(match rng.below(5) {
            0 => old,
            1 => (old.0, new.1),
            2 => (new.0, old.1),
            _ => new,
        });
    }
    pairs
}

/// What a join on these pairs may need: all of them or some, and with each
/// attribute the other of every pair that it is in.
pub fn needed(rng: &mut Rng, pairs: &[(usize, usize)]) -> Flags {
    let chance = rng.pick(&[30, 60, 100]);
    let mut needed = Flags::NONE;
    for &(x, y) in pairs {
        if rng.percent(chance) {
            needed = needed.or(&Flags::of(&[x, y]));
        }
    }
    while let Some(&(x, y)) = pairs.iter().find(|pair| needed.has(pair.0) != needed.has(pair.1)) {
        needed = needed.or(&Flags::of(&[x, y]));
    }
    needed
}

/// A pair that no node names may be anything: bytes that are no attribute, or one
/// that would be right but for its place.
fn unnamed(rng: &mut Rng, attributes: usize, named: &[[u8; 2]]) -> [u8; 2] {
    let any = [rng.next() as u8, rng.next() as u8];
    let [x, y] = if named.is_empty() { any } else { rng.pick(named) };
    let there = [rng.below(attributes) as u8, rng.below(attributes) as u8];
    rng.pick(&[any, there, [x, y], [y, x], [64, 64], [255, 255], [x | 64, y | 128]])
}

/// How many pairs the list has that no node names.
fn unnamed_count(rng: &mut Rng, room: usize, full: bool) -> usize {
    match rng.below(20) {
        _ if full => room,
        0..=8 => 0,
        9..=17 => rng.within(1, 4).min(room),
        18 => rng.within(0, room),
        _ => room,
    }
}

/// Of each join on pairs where its first one's number is to stand, and its pairs.
fn joins(nodes: &mut [Node]) -> Vec<(&mut usize, Vec<[u8; 2]>)> {
    let mut joins = Vec::new();
    for node in nodes {
        if let Work::JoinPairs { first, pairs, .. } = &mut node.work {
            joins.push((first, pairs.iter().map(|&(x, y)| [x as u8, y as u8]).collect()));
        }
    }
    joins
}

/// Puts the nodes' pairs into a list, in the nodes' order or another, with pairs
/// that none names among them.
pub fn place(rng: &mut Rng, nodes: &mut [Node], attributes: usize, full: bool) -> Vec<[u8; 2]> {
    let mut joins = joins(nodes);
    if rng.percent(50) {
        rng.shuffle(&mut joins);
    }
    let named: Vec<[u8; 2]> = joins.iter().flat_map(|(_, pairs)| pairs.clone()).collect();
    // Before which of the joins each of the others stands, or behind the last.
    let others = unnamed_count(rng, MOST_PAIRS - named.len(), full);
    let mut before = vec![0; joins.len() + 1];
    for _ in 0..others {
        before[rng.below(joins.len() + 1)] += 1;
    }
    let mut list = Vec::new();
    for (turn, others) in before.into_iter().enumerate() {
        list.extend((0..others).map(|_| unnamed(rng, attributes, &named)));
        if let Some((first, pairs)) = joins.get_mut(turn) {
            **first = list.len();
            list.append(pairs);
        }
    }
    list
}
