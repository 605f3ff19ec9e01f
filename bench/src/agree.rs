//! Whether both sides answer the same.

use std::ops::Range;

use crate::asked;
use crate::files::{File, HOUSES, NODES, SETS, SUBJECTS};
use crate::held::Held;
use crate::sides::{Lent, Ordinary, Side};

/// Of each timed file so many copies are held against each other that have a byte changed.
const DAMAGED: usize = 50;
/// Of all that differs so many are told.
const MOST_TOLD: usize = 20;

/// Where bytes are drawn: half of them in header, relations and grants, half in nodes,
/// pairs and prices.
fn drawn_from(file: &File) -> [Range<usize>; 6] {
    let values = &file.values;
    let record = if file.version < 3 { 28 } else { 30 };
    let length = file.bytes.len();
    let prices = length - 4 * (values.step_prices.len() + values.link_prices.len());
    let nodes = prices - values.pairs.len() - record * values.nodes.len();
    [0..19, 0..200, 0..nodes, nodes..prices, nodes..prices, prices..length]
}

/// A copy with a byte changed, and which.
fn damaged(file: &File, turn: u64) -> (String, Vec<u8>) {
    let mut bytes = file.bytes.clone();
    let mut draw = turn;
    let mut number = |below: usize| {
        // an affine generator, of which the high bits are taken
        draw = draw.wrapping_mul(0x5851_f42d_4c95_7f2d).wrapping_add(0x1405_7b7e_f767_814f);
        (draw >> 33) as usize % below
    };
    let parts = drawn_from(file);
    let part = &parts[number(parts.len())];
    let at = part.start + number(part.len());
    let old = bytes[at];
    while bytes[at] == old {
        bytes[at] = [old ^ 1 << number(8), old.wrapping_add(1), 255, 0][number(4)];
    }
    (format!("{}, byte {at} is {}", file.name, bytes[at]), bytes)
}

/// The verdicts on such a copy, and one more call on it.
fn on_damaged(held: &mut Held, file: &File, turn: u64) -> (String, Result<(), String>) {
    let (name, bytes) = damaged(file, turn);
    let mut all = || {
        held.check(&bytes)?;
        asked::write(held, &bytes)?;
        match turn % 4 {
            0 => held.cheapest(&bytes, Lent::ALL).map(drop),
            1 => held.offered(&bytes, &file.offer, Lent::ALL).map(drop),
            2 => held.candidates(&bytes, NODES - 1).map(drop),
            _ => held.why(&bytes, NODES as u32 - 1, 0).map(drop),
        }
    };
    let answer = all();
    (name, answer)
}

/// How many candidates a step has in the mean.
fn mean_candidates<'a>(files: impl Iterator<Item = &'a File>) -> f64 {
    let of_file = |file: &'a File| file.steps().map(|step| Ordinary::candidates(&file.bytes, step));
    let counts: Vec<u32> =
        files.flat_map(of_file).map(|set| set.unwrap_or(0).count_ones()).collect();
    f64::from(counts.iter().sum::<u32>()) / counts.len() as f64
}

/// How many files there are, if both sides answer the same on each; else the first thing
/// that differs on each, of so many of them as are told.
fn hold(files: impl Iterator<Item = (String, Result<(), String>)>) -> Result<usize, String> {
    let (mut told, mut count) = (Vec::new(), 0);
    for (name, held) in files {
        count += 1;
        told.extend(held.err().map(|what| format!("{name}: {what}")));
    }
    let wrong = told.len();
    told.truncate(MOST_TOLD);
    if wrong == 0 {
        Ok(count)
    } else {
        Err(format!("{}\n{wrong} of {count} differ", told.join("\n")))
    }
}

/// Says what was held against each other, or fails with what differs.
pub fn check(files: &[File], deep: &[File], small: &[Vec<u8>]) -> Result<(), String> {
    let held = &mut Held::new();
    let timed = || files.iter().filter(|file| file.is_timed());
    let whole = timed().chain(deep);
    let whole = hold(whole.map(|file| (file.name.clone(), asked::all(held, &file.bytes))))?;
    let cases = small.iter().enumerate();
    let cases = hold(cases.map(|(i, file)| (format!("small {i}"), asked::all(held, file))))?;
    let copies = timed().flat_map(|file| [file; DAMAGED]).zip(0..);
    let copies = hold(copies.map(|(file, turn)| on_damaged(held, file, turn)))?;
    let mut cheapest = |file: &File| held.cheapest(&file.bytes, Lent::ALL).map(drop);
    let houses = files[..HOUSES].iter();
    let houses = hold(houses.map(|file| (file.name.clone(), cheapest(file))))?;
    let rarest = held.rarest()?;
    println!("both sides answer the same: every call on {whole} files of {NODES} nodes and");
    println!("{SUBJECTS} subjects and on {cases} small ones, {copies} copies with a byte changed,");
    println!("cheapest of {houses} houses");
    println!("refusals, the rarest of each call: {rarest}");
    for set in SETS {
        let mean = mean_candidates(timed().filter(|file| file.set == set));
        println!("{set} candidates: a step has {mean:.1} of {SUBJECTS} in the mean");
    }
    Ok(())
}
