//! A fault in one field of the values: mostly against a rule of 5 to 11.

use crate::file::{MOST_LINK_PRICE, MOST_SIZE, MOST_STEP_PRICE};
use crate::rng::Rng;
use crate::values::{Grant, Node, Relation, Values};

/// Puts a fault into one record of a list, if there is one.
fn in_one<T>(rng: &mut Rng, list: &mut [T], put: impl Fn(&mut Rng, &mut T)) {
    if !list.is_empty() {
        let one = rng.below(list.len());
        put(rng, &mut list[one]);
    }
}

fn odd_byte(rng: &mut Rng, old: u8) -> u8 {
    rng.pick(&[0, 16, 64, 254, 255, old.wrapping_add(1), old.wrapping_sub(1), old ^ 128])
}

fn odd_set(rng: &mut Rng, old: u64) -> u64 {
    let (any, lowest) = (1 << rng.below(64), old & old.wrapping_neg());
    rng.pick(&[0, u64::MAX, old ^ any, old ^ lowest, old | 1 << 63, old.swap_bytes()])
}

fn odd_day(rng: &mut Rng, old: u16) -> u16 {
    let next_to = [old.wrapping_sub(1), old.wrapping_add(1)];
    rng.pick(&[0, u16::MAX, next_to[0], next_to[1], old ^ 1 << 15, old.swap_bytes()])
}

fn odd_price(rng: &mut Rng, most: u64) -> u32 {
    rng.pick(&[1, most as u32 + 1, most as u32 + 1, u32::MAX, 1 << 31])
}

fn of_relation(rng: &mut Rng, relation: &mut Relation) {
    match rng.below(2) {
        0 => relation.owner = odd_byte(rng, relation.owner),
        _ => relation.set = odd_set(rng, relation.set),
    }
}

fn of_grant(rng: &mut Rng, grant: &mut Grant) {
    match rng.below(8) {
        0 => grant.relation = odd_byte(rng, grant.relation),
        1 => grant.subject = odd_byte(rng, grant.subject),
        2 => grant.clear = odd_set(rng, grant.clear),
        3 => grant.sealed = odd_set(rng, grant.sealed),
        4 => grant.first = odd_day(rng, grant.first),
        5 => grant.last = odd_day(rng, grant.last),
        // Within its rules, but an owner's view is then not all clear.
        _ => {
            let lowest = grant.clear & grant.clear.wrapping_neg();
            grant.clear ^= lowest;
            grant.sealed |= lowest;
        }
    }
}

fn of_node(rng: &mut Rng, node: &mut Node) {
    let Node { kind, left, right, x, y, first, count, .. } = node;
    let fields = [kind, left, right, x, y, first, count];
    match rng.below(14) {
        field @ 0..=6 => *fields[field] = odd_byte(rng, *fields[field]),
        7 => node.spare[rng.below(3)] = 1 << rng.below(8),
        8 | 9 => node.set = odd_set(rng, node.set),
        10..=12 => node.needed = odd_set(rng, node.needed),
        _ => node.size = odd_price(rng, MOST_SIZE),
    }
}

pub fn fault(rng: &mut Rng, values: &mut Values) {
    let Values { relations, grants, nodes, pairs, step_prices, link_prices, .. } = values;
    match rng.below(12) {
        0 | 1 => in_one(rng, relations, of_relation),
        2..=4 => in_one(rng, grants, of_grant),
        5..=7 => in_one(rng, nodes, of_node),
        8 => in_one(rng, pairs, |rng, byte| *byte = odd_byte(rng, *byte)),
        9 => pairs.chunks_mut(2).for_each(<[u8]>::reverse),
        10 => in_one(rng, step_prices, |rng, price| *price = odd_price(rng, MOST_STEP_PRICE)),
        _ => in_one(rng, link_prices, |rng, price| *price = odd_price(rng, MOST_LINK_PRICE)),
    }
}
