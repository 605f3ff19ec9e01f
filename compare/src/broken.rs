//! Files that mostly break some rule: one fault or several, cut, torn, with a bad
//! header, or no plan at all.

use crate::damage::{OTHER_VERSIONS, Patch, patches};
use crate::file::File;
use crate::layout::{Counts, Layout, PAIRS_AT, USER_AT, VERSIONS, form_of};
use crate::rng::Rng;
use crate::users;
use crate::valid::{self, Size};

/// How many cases in a row damage the same file: about as many as it has faults.
const FAULT_SPAN: usize = 500;
const CUT_SPAN: usize = 500;
/// The longest file that is noise alone.
const LONGEST_NOISE: usize = 14_336;

/// The family and a file of it, by the place of the case in its round.
pub fn file(seed: u64, round: usize, slot: usize, rng: &mut Rng) -> (&'static str, Vec<u8>) {
    match slot {
        28..=34 => ("one fault", one_fault(seed, round * 7 + slot - 28, rng)),
        36..=39 => {
            let size = rng.pick(&[Size::Tiny, Size::Small, Size::Deep, Size::Medium]);
            let base = anybodys(rng, size, false);
            let faults = rng.pick(&[1, 1, 1, 2, 2, 3]);
            ("faults", with_faults(rng, &base, faults))
        }
        42..=43 => ("cut", cut(seed, round * 2 + slot - 42, rng)),
        44..=45 => ("noise", noise(rng)),
        46 => ("header", bad_header(rng)),
        _ => {
            let base = anybodys(rng, Size::Small, true);
            let faults = usize::from(rng.percent(30));
            ("torn", with_faults(rng, &base, faults))
        }
    }
}

/// A valid file, or a torn one, of any version and with any user.
fn anybodys(rng: &mut Rng, size: Size, torn: bool) -> File {
    let version = valid::version(rng);
    let mut file = valid::file(rng, size, version, torn);
    users::name(rng, &mut file, false);
    file
}

/// A base for damage done in order: the same for all cases of a span. Of each
/// size all versions come in turn.
fn base(seed: u64, number: usize) -> (Rng, File) {
    let mut rng = Rng::new(!seed, number as u64);
    let size = if number % 4 == 3 { Size::Tiny } else { Size::Small };
    let version = 1 + (number / 4 + number) % VERSIONS;
    let mut file = valid::file(&mut rng, size, version, false);
    if version > 1 {
        users::name_allowed(&mut rng, &mut file);
    }
    (rng, file)
}

fn one_fault(seed: u64, position: usize, rng: &mut Rng) -> Vec<u8> {
    let (mut base_rng, file) = base(seed, position / FAULT_SPAN);
    let mut list: Vec<Patch> = patches(&mut base_rng, &file).into_iter().flatten().collect();
    // One with many grants has more than a span takes.
    base_rng.shuffle(&mut list);
    match list.get(position % FAULT_SPAN) {
        Some(patch) => {
            let mut bytes = file.write();
            patch.apply(&mut bytes);
            bytes
        }
        None => with_faults(rng, &file, 2),
    }
}

fn with_faults(rng: &mut Rng, file: &File, faults: usize) -> Vec<u8> {
    let sections = patches(rng, file);
    let mut bytes = file.write();
    for _ in 0..faults {
        // By section first, or prices would crowd out all else; nodes often,
        // for they have most rules, the header seldom, for it hides the rest.
        let section = &sections[rng.pick(&[0, 1, 1, 2, 2, 2, 3, 3, 3, 4, 4, 4, 4, 4, 5, 5, 6, 6])];
        if !section.is_empty() {
            section[rng.below(section.len())].apply(&mut bytes);
        }
    }
    if rng.percent(4) {
        let length = rng.below(bytes.len() + 3);
        bytes.resize(length, 0);
    }
    bytes
}

/// Every truncation of a file in turn, then a byte too many.
fn cut(seed: u64, position: usize, rng: &mut Rng) -> Vec<u8> {
    let (_, file) = base(seed, position / CUT_SPAN);
    let mut bytes = file.write();
    let lengths = bytes.len() + 2;
    let turn = position % CUT_SPAN;
    let length = if turn < lengths { turn } else { rng.below(lengths) };
    bytes.resize(length, 0);
    bytes
}

/// A right file but for its header: cut at the end of some version's, where a
/// count out of its limits tells 3 from 4, of a version that there is not, or with
/// a user who is not there.
fn bad_header(rng: &mut Rng) -> Vec<u8> {
    let mut file = anybodys(rng, Size::Tiny, false);
    let nobody = rng.pick(&[file.subjects, file.subjects, file.subjects + 1, 16, 128, 255]);
    let turn = rng.below(4);
    if turn == 3 {
        file.user = Some(nobody);
    }
    let mut bytes = file.write();
    match turn {
        0 | 1 => {
            if rng.percent(50) {
                bytes[rng.within(5, 8)] = rng.pick(&[0, 255]);
            }
            let whole = file.layout().relations;
            bytes.truncate(rng.pick(&[whole - 1, whole - 1, whole - 1, whole - 2, whole, 14, 15]));
        }
        2 => {
            let version = rng.pick(&OTHER_VERSIONS) as u16;
            bytes[3..5].copy_from_slice(&version.to_be_bytes());
        }
        _ => {
            // That nobody has the number comes before the length.
            let length = bytes.len() - 1 + rng.pick(&[0, 1, 1, 2]);
            bytes.resize(length, 0);
        }
    }
    bytes
}

/// Bytes of no plan, from none right to all counts and the length right.
fn noise(rng: &mut Rng) -> Vec<u8> {
    let length = match rng.below(10) {
        0 => rng.within(0, LONGEST_NOISE),
        1 => rng.within(0, 2),
        2 | 3 => rng.within(0, 17),
        _ => rng.within(0, 300),
    };
    let mut bytes = rng.bytes(length);
    let version = valid::version(rng);
    let start = [b'A', b'X', b'P', 0, version as u8];
    if rng.percent(40) {
        return counted_noise(rng, version, &start);
    }
    let right = rng.pick(&[0, 2, 3, 4, 5, 5, 5]);
    for (byte, mark) in bytes.iter_mut().zip(start).take(right) {
        *byte = mark;
    }
    bytes
}

fn counted_noise(rng: &mut Rng, version: usize, start: &[u8; 5]) -> Vec<u8> {
    let counts = Counts {
        form: form_of(version as u64).expect("there is such a version"),
        subjects: rng.within(1, 16),
        relations: rng.within(1, 16),
        nodes: rng.within(1, 64),
        grants: rng.within(0, 20),
        pairs: if version > 2 { rng.within(0, 20) } else { 0 },
    };
    let layout = Layout::of(&counts);
    let Counts { subjects, relations, nodes, grants, pairs, .. } = counts;
    let mut bytes = rng.bytes(layout.end);
    let counts = [subjects, relations, rng.within(1, 64), nodes, 0, grants];
    bytes[..5].copy_from_slice(start);
    bytes[5..11].copy_from_slice(&counts.map(|count| count as u8));
    // A user and an owner who are there let the noise reach the first set.
    bytes[USER_AT] = rng.below(subjects) as u8;
    if version > 2 {
        bytes[PAIRS_AT] = pairs as u8;
    }
    bytes[layout.relations] = 0;
    bytes
}
