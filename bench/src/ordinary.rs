//! An ordinary planner for plan files of versions 1 to 4, written from the rules (01
//! and 02) as plainly as an engineer would who wants it fast: the yardstick for the
//! library's speed. Safe Rust, std alone. The file is decoded once; sets are masks; a
//! table is worked out once for each step, in node order, of the nodes that are asked
//! for.

mod choosing;
mod encoding;
mod kinds;
mod reading;
mod tables;

pub use reading::values;

use crate::records::Values;
use encoding::encode;
use reading::{Night, check_records, opened, read};

/// The number of a refusal and its place.
pub type Refusal = (u8, u32);

const SUBJECTS: usize = 16;
const RELATIONS: usize = 16;
const NODES: usize = 64;
const ATTRIBUTES: usize = 64;
const GRANTS: usize = 272;
/// The subject `any`, and a field that is not used.
const NONE: u8 = 255;

/// What a grant shows, and what a subject sees of all relations (P and E).
#[derive(Clone, Copy, Default)]
struct View {
    clear: u64,
    sealed: u64,
}

/// The set of one attribute; none for a number that no attribute has.
fn one(k: u8) -> u64 {
    if k < 64 { 1 << k } else { 0 }
}

/// The set of the first k attributes (or nodes).
fn first(k: usize) -> u64 {
    if k < 64 { (1 << k) - 1 } else { u64::MAX }
}

fn within(some: u64, all: u64) -> bool {
    some & !all == 0
}

/// The lowest of a set that is not empty, as a set.
fn lowest(set: u64) -> u64 {
    set & set.wrapping_neg()
}

/// The numbers in a set, rising.
fn members(mut set: u64) -> impl Iterator<Item = usize> {
    std::iter::from_fn(move || {
        if set == 0 {
            return None;
        }
        let k = set.trailing_zeros() as usize;
        set &= set - 1;
        Some(k)
    })
}

/// The verdict on a file. Refusals 1 to 11.
pub fn check(file: &[u8]) -> Result<(), Refusal> {
    read(file, &mut Night::blank())
}

/// The candidates of a node, bit p for subject p. Refusals 1 to 11.
pub fn candidates(file: &[u8], node: usize) -> Result<u16, Refusal> {
    let mut night = Night::blank();
    read(file, &mut night)?;
    if !night.is_step(node) {
        return Ok(0);
    }
    let tables = night.tables(night.below(node));
    Ok(tables.candidates(&night, node, &night.views()))
}

/// What keeps a subject out of a step: the table (1 left, 2 right, 3 result), the
/// condition, and the lowest attribute or the tied set that offends; zeros for a
/// candidate. Refusals 1 to 11, 16.
pub fn why(file: &[u8], node: u32, subject: u32) -> Result<(u8, u8, u64), Refusal> {
    let mut night = Night::blank();
    read(file, &mut night)?;
    let (step, p) = (node as usize, subject as usize);
    if !night.is_step(step) || p >= night.s {
        return Err((16, node));
    }
    let tables = night.tables(night.below(step));
    Ok(tables.reason(&night, step, &night.view(p)).unwrap_or_default())
}

/// Refusal 15, of rooms by place, lent length and asked length.
fn rooms(lengths: &[(u32, usize, usize)]) -> Result<(), Refusal> {
    match lengths.iter().find(|(_, lent, asked)| lent < asked) {
        Some(&(place, ..)) => Err((15, place)),
        None => Ok(()),
    }
}

/// The cheapest choice, with its plan and keys in the lent rooms; total and steps.
/// Refusals 1 to 11, 17, 12, 13, 15.
pub fn cheapest(
    file: &[u8],
    choice: &mut [u8],
    plan: &mut [u64],
    keys: &mut [u64],
) -> Result<(u64, u32), Refusal> {
    let mut night = Night::blank();
    read(file, &mut night)?;
    let (n, views) = (night.n, night.views());
    night.user_may_have_leaves()?;
    let tables = night.tables(first(n));
    let among = night.among(&tables, &views)?;
    let steps = night.steps(&among);
    if steps > night.allowed {
        return Err((13, 0));
    }
    rooms(&[(1, choice.len(), n), (2, plan.len(), 2 * n), (3, keys.len(), 2 * night.a)])?;
    let total = night.choose(&among, choice);
    night.build(&tables, choice, plan, keys);
    Ok((total, steps))
}

/// The plan for an offered choice, and its total. Refusals 1 to 11, 17, 14, 15.
pub fn offered(
    file: &[u8],
    offer: &[u8],
    plan: &mut [u64],
    keys: &mut [u64],
) -> Result<u64, Refusal> {
    let mut night = Night::blank();
    read(file, &mut night)?;
    let n = night.n;
    night.user_may_have_leaves()?;
    let tables = night.tables(first(n));
    night.admits(&tables, offer)?;
    rooms(&[(2, plan.len(), 2 * n), (3, keys.len(), 2 * night.a)])?;
    night.build(&tables, offer, plan, keys);
    Ok(night.total(offer))
}

/// Writes the file of these values, and says how long it is. Refusals 2, 4, 3, 5 to
/// 11, 15.
pub fn write(values: &Values, room: &mut [u8]) -> Result<usize, Refusal> {
    let form = opened(&values.header)?;
    check_records(values)?;
    let length = form.file_length(&values.header);
    rooms(&[(4, room.len(), length)])?;
    encode(values, &form, &mut room[..length]);
    Ok(length)
}
