//! Orders for the writer: the values of a case's file, left as they are, changed
//! within the rules, or made wrong in one way or in two.

use crate::cycles;
use crate::file::{MOST_LINK_PRICE, MOST_STEP_PRICE};
use crate::layout::{LONGEST, VERSIONS};
use crate::rng::Rng;
use crate::users;
use crate::valid::{self, Size};
use crate::valuefaults::fault;
use crate::values::{Header, LISTS, Node, PAIRS, Values, with_days, with_pairs};
use crate::writer::Order;

/// Versions that there are not, some of which would be if only one of the two
/// bytes were read, or the two in the other order.
pub const UNKNOWN_VERSIONS: [u16; 11] = [0, 5, 256, 257, 258, 259, 260, 512, 768, 1_024, 65_535];
/// From so many on a list has far too many.
pub const FAR: usize = 100;

type Change = fn(&mut Rng, &mut Values);

/// Of a hundred orders, so many with each change; in the others two of those that
/// are wrong compete.
const CHANGES: [(usize, Change); 11] = [
    (41, |_, _| {}),
    (8, other_user),
    (6, other_version),
    (8, other_numbers),
    (3, other_days),
    (3, unknown_version),
    (9, miscount),
    (3, evened),
    (4, miscounted_header),
    (3, beyond),
    (6, fault),
];
const WRONG: [Change; 8] =
    [unknown_version, miscount, miscount, evened, miscounted_header, beyond, fault, fault];

/// The values of a tiny file, for cases whose own file has none.
pub fn tiny(rng: &mut Rng) -> Values {
    let version = valid::version(rng);
    let mut file = valid::file(rng, Size::Tiny, version, false);
    users::name(rng, &mut file, false);
    Values::of(&file.write()).expect("a valid file")
}

pub fn order(rng: &mut Rng, mut values: Values) -> Order {
    unwritten(rng, &mut values);
    change(rng, &mut values);
    // Where counts are beyond their limits, nothing is written anyway.
    let room = room(rng, values.header.file_length().min(LONGEST[VERSIONS - 1]));
    Order { values, room, fill: rng.next() as u8, bare: rng.pick(&[0, 0, 1, usize::MAX]) }
}

/// Any numbers for what the version does not write.
fn unwritten(rng: &mut Rng, values: &mut Values) {
    let header = &mut values.header;
    let any = rng.next() as u8;
    if header.version == 1 {
        header.user = rng.pick(&[0, 16, 255, header.subjects, any]);
    }
    if !with_pairs(header.version) {
        header.pairs = rng.pick(&[0, 1, 255, any]);
        for node in &mut values.nodes {
            (node.first, node.count) = rng.pick(&[(0, 0), (0, 1), (1, 0), (255, 255), (any, any)]);
        }
    }
    if !with_days(header.version) {
        unwritten_days(rng, values);
    }
}

fn unwritten_days(rng: &mut Rng, values: &mut Values) {
    let [any, other] = [rng.next() as u16, rng.next() as u16];
    values.header.day = rng.pick(&[0, 1, u16::MAX, any]);
    for grant in &mut values.grants {
        (grant.first, grant.last) =
            rng.pick(&[(0, 0), (0, u16::MAX), (1, 0), (u16::MAX, 0), (any, any), (any, other)]);
    }
}

fn change(rng: &mut Rng, values: &mut Values) {
    let mut turn = rng.below(100);
    for (share, change) in CHANGES {
        if turn < share {
            return change(rng, values);
        }
        turn -= share;
    }
    for _ in 0..2 {
        rng.pick(&WRONG)(rng, values);
    }
}

/// Room for a file of so many bytes, mostly enough: just so, longer, so long that
/// its length cut to 16 bits is not, or short.
fn room(rng: &mut Rng, length: usize) -> usize {
    match rng.below(100) {
        0..=49 => length,
        50..=61 => length + 1,
        62..=79 => length + rng.within(2, 400),
        80..=81 => (1 << 16) + rng.pick(&[0, 1, length - 1]),
        82..=91 => length - 1,
        92..=95 => 0,
        _ => rng.below(length),
    }
}

/// From version 2 on another user, or one who is not there; in version 1 any number
/// will do as it is.
fn other_user(rng: &mut Rng, values: &mut Values) {
    let Header { version, subjects, user, .. } = values.header;
    if version > 1 {
        let someone = rng.below(subjects.max(1).into()) as u8;
        let nobody = rng.pick(&[subjects, 16, user.wrapping_add(16), user | 128, 255]);
        values.header.user = if rng.percent(60) { someone } else { nobody };
    }
}

/// Another version: what it adds is named, what it lacks means nothing any more.
fn other_version(rng: &mut Rng, values: &mut Values) {
    let (before, after) = (values.header.version, valid::version(rng) as u16);
    values.header.version = after;
    if before == 1 && after > 1 {
        values.header.user = rng.below(values.header.subjects.into()) as u8;
    }
    match (with_pairs(before), with_pairs(after)) {
        (false, true) => with_list(rng, values),
        (true, false) => without_list(rng, values),
        _ => {}
    }
    match (with_days(before), with_days(after)) {
        (false, true) => with_dates(rng, values),
        (true, false) => without_dates(rng, values),
        _ => {}
    }
}

/// A night's day, and every grant in force that day.
fn with_dates(rng: &mut Rng, values: &mut Values) {
    let day = cycles::night(rng);
    values.header.day = day;
    for grant in &mut values.grants {
        (grant.first, grant.last) =
            rng.pick(&[(0, u16::MAX), (0, day), (day, u16::MAX), (day, day)]);
    }
}

/// No days any more: mostly what is out of force goes, or else a pair may stand twice.
fn without_dates(rng: &mut Rng, values: &mut Values) {
    let day = values.header.day;
    if rng.percent(70) {
        values.grants.retain(|grant| (grant.first..=grant.last).contains(&day));
        values.header.grants = values.grants.len() as u16;
    }
    unwritten_days(rng, values);
}

/// Another night's day, or other days for one grant; where the version has none they
/// mean nothing.
fn other_days(rng: &mut Rng, values: &mut Values) {
    let any = rng.next() as u16;
    if values.grants.is_empty() || rng.percent(30) {
        values.header.day = rng.pick(&[0, u16::MAX, any]);
        return;
    }
    let day = values.header.day;
    let one = rng.below(values.grants.len());
    let grant = &mut values.grants[one];
    (grant.first, grant.last) = match rng.below(6) {
        0 => (grant.first, day.max(grant.first)),
        1 => (day.min(grant.last), grant.last),
        2 => (grant.first, grant.last.saturating_add(1)),
        3 => (grant.first.saturating_sub(1), grant.last),
        4 => (day, day),
        _ => (0, u16::MAX),
    };
}

/// A list of pairs that no node names.
fn with_list(rng: &mut Rng, values: &mut Values) {
    let any = rng.next() as u8;
    values.header.pairs = rng.pick(&[0, 1, 3, any, 255]);
    values.pairs = rng.bytes(2 * usize::from(values.header.pairs));
    values.nodes.iter_mut().for_each(|node| (node.first, node.count) = (0, 0));
}

/// No list any more: mostly each join on several pairs becomes one on its first
/// pair, or else it is of no kind that there is.
fn without_list(rng: &mut Rng, values: &mut Values) {
    let joins = rng.percent(70);
    for node in values.nodes.iter_mut().filter(|node| joins && node.kind == 9) {
        let at = 2 * usize::from(node.first);
        // What the list has no room for is left to be refused.
        if let Some(&[x, y]) = values.pairs.get(at..at + 2).and_then(|pair| pair.first_chunk())
            && x.max(y) < 64
        {
            (node.kind, node.x, node.y) = (5, x, y);
            node.needed &= 1 << x | 1 << y;
        }
    }
    values.pairs.clear();
}

/// Other steps allowed, and a price of each sort that may be.
fn other_numbers(rng: &mut Rng, values: &mut Values) {
    let price = |rng: &mut Rng, most: u64| match rng.below(3) {
        0 => most as u32,
        1 => most as u32 - 1,
        _ => (rng.next() % (most + 1)) as u32,
    };
    let any = rng.next() as u32;
    values.header.steps = rng.pick(&[0, u32::MAX, any]);
    let subjects = usize::from(values.header.subjects);
    let (node, from, to) =
        (rng.below(values.nodes.len()), rng.below(subjects), rng.below(subjects));
    if values.nodes[node].kind != 0 {
        values.step_prices[node * subjects + from] = price(rng, MOST_STEP_PRICE);
    }
    if from != to {
        values.link_prices[from * subjects + to] = price(rng, MOST_LINK_PRICE);
    }
    other_unnamed(rng, values);
}

/// Other bytes for the pairs that no node names.
fn other_unnamed(rng: &mut Rng, values: &mut Values) {
    let Values { nodes, pairs, .. } = values;
    for (index, pair) in pairs.chunks_mut(2).enumerate() {
        let names = |node: &Node| {
            let first = usize::from(node.first);
            (first..first + usize::from(node.count)).contains(&index)
        };
        if !nodes.iter().any(names) {
            pair.copy_from_slice(&rng.bytes(pair.len()));
        }
    }
}

fn unknown_version(rng: &mut Rng, values: &mut Values) {
    values.header.version = rng.pick(&UNKNOWN_VERSIONS);
}

/// Cuts a list or lengthens it with its first record.
fn resize(values: &mut Values, list: usize, length: usize) {
    fn to<T: Copy + Default>(items: &mut Vec<T>, length: usize) {
        let filling = items.first().copied().unwrap_or_default();
        items.resize(length, filling);
    }
    match list {
        0 => to(&mut values.relations, length),
        1 => to(&mut values.grants, length),
        2 => to(&mut values.nodes, length),
        PAIRS => to(&mut values.pairs, length),
        4 => to(&mut values.step_prices, length),
        _ => to(&mut values.link_prices, length),
    }
}

/// One list, seldom two, of a length that the counts do not say: also one that
/// would be right if it were cut to 8 or 16 bits, or counted in pairs.
fn miscount(rng: &mut Rng, values: &mut Values) {
    for _ in 0..rng.pick(&[1, 1, 1, 1, 2]) {
        let list = rng.below(LISTS.len());
        let count = values.lengths()[list];
        let far = [300, 300, 300, 600, 5_000, 5_000][list];
        let by_pairs = [count + 2, count.saturating_sub(2), count / 2, count / 2];
        let length = match rng.below(20) {
            _ if list == PAIRS && rng.percent(40) => rng.pick(&by_pairs),
            0..=6 => count + 1,
            7..=12 => count.saturating_sub(1),
            13..=14 => 0,
            15..=17 => count + far,
            18 => count + 256,
            _ => count + if rng.percent(20) { 1 << 16 } else { 256 },
        };
        resize(values, list, length);
    }
}

/// Takes bytes from one list and gives them to another: so many records fewer of one
/// sort, and so many more of the other. Whether there are so many.
fn moved(values: &mut Values, fewer: (usize, usize), more: (usize, usize)) -> bool {
    let lengths = values.lengths();
    let enough = lengths[fewer.0] > fewer.1;
    if enough {
        resize(values, fewer.0, lengths[fewer.0] - fewer.1);
        resize(values, more.0, lengths[more.0] + more.1);
    }
    enough
}

/// Lists miscounted so that the file would have the right length all the same: a grant
/// is as long as two relations or, with days, as eleven pairs, a node as seven prices
/// or, naming pairs, as fifteen of them.
fn evened(rng: &mut Rng, values: &mut Values) {
    let (listed, dated) = (with_pairs(values.header.version), with_days(values.header.version));
    let even = match rng.below(10) {
        0 if !dated => moved(values, (0, 2), (1, 1)),
        0 => moved(values, (PAIRS, 22), (1, 1)),
        1 if !dated => moved(values, (1, 1), (0, 2)),
        1 => moved(values, (1, 1), (PAIRS, 22)),
        2 if !listed => moved(values, (2, 1), (4, 7)),
        2 => moved(values, (2, 1), (PAIRS, 30)),
        3 if !listed => moved(values, (5, 7), (2, 1)),
        _ => false,
    };
    if !even {
        evened_bytes(rng, values);
    }
}

/// Likewise, and the bytes are right too: what moves is prices or pairs.
fn evened_bytes(rng: &mut Rng, values: &mut Values) {
    let [_, _, _, pairs, steps, links] = values.lengths();
    match rng.below(6) {
        0 | 1 if links > 0 => {
            values.step_prices.push(values.link_prices[0]);
            values.link_prices.remove(0);
        }
        2 if pairs >= 4 => {
            let last = values.pairs.split_off(pairs - 4);
            values.step_prices.insert(0, last.iter().fold(0, |sum, &b| sum << 8 | u32::from(b)));
        }
        3 if steps > 0 => values.pairs.extend(values.step_prices.remove(0).to_be_bytes()),
        _ => values.link_prices.splice(..0, values.step_prices.pop()).for_each(drop),
    }
}

/// A count that the lists are not made for.
fn miscounted_header(rng: &mut Rng, values: &mut Values) {
    let odd = |rng: &mut Rng, count: u8| {
        rng.pick(&[0, 16, 17, 64, 65, 255, count.wrapping_sub(1), count.wrapping_add(1)])
    };
    let header = &mut values.header;
    match rng.below(6) {
        5 if with_pairs(header.version) => header.pairs = odd(rng, header.pairs),
        0 => header.subjects = odd(rng, header.subjects),
        1 => header.relations = odd(rng, header.relations),
        2 => header.attributes = odd(rng, header.attributes),
        3 => header.nodes = odd(rng, header.nodes),
        _ => {
            let count = header.grants;
            let next_to = [count.wrapping_sub(1), count.wrapping_add(1)];
            header.grants = rng.pick(&[272, 273, 300, 65_535, next_to[0], next_to[1]]);
        }
    }
}

/// A count outside its limits, and the lists as many as it says.
fn beyond(rng: &mut Rng, values: &mut Values) {
    let header = &mut values.header;
    match rng.below(5) {
        0 => header.subjects = rng.pick(&[0, 17, 32, 255]),
        1 => header.relations = rng.pick(&[0, 17, 255]),
        2 => header.attributes = rng.pick(&[0, 65, 128, 255]),
        3 => header.nodes = rng.pick(&[0, 65, 128, 255]),
        _ if rng.percent(3) => header.grants = 65_535,
        _ => header.grants = rng.pick(&[273, 300, 512, 1_000]),
    }
    for (list, count) in values.header.asks().into_iter().enumerate() {
        resize(values, list, count);
    }
}
