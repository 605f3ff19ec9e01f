//! The program `rewrite`: started once for each of some cases, the file on its
//! standard input, at times the room that it lends as a word; all that it prints
//! is compared.

use crate::generate::Case;
use crate::layout::VERSIONS;
use crate::planner::Study;
use crate::program::printed_bytes;
use crate::reading::Refusal;
use crate::starts::{self, MANY_NODES, NO_NUMBER, Starts, compare_bad};
use crate::text;
use crate::values::Values;
use crate::writer::verdict;

/// So many files of each version without a word, so many that have many nodes, so
/// many with each room, and so many of each refusal, also where 15 would be next.
const OF_PLAIN: usize = 8;
const OF_MANY: usize = 3;
const OF_ROOM: usize = 3;
const OF_REFUSAL: usize = 6;
const OF_REFUSAL_SHORT: usize = 4;
/// The rooms that are lent.
const ROOMS: [&str; 4] = ["just enough", "short by one", "none", "far too long"];
/// Sorts of starts on the files of one version that are written.
const OF_VERSION: usize = 2 + ROOMS.len();
/// Words of which one is too many.
const BAD: [&[&[u8]]; 3] = [&[b"0", b"0"], &[b"12000", b"12000", b"12000"], &[b"", b""]];

pub fn starts() -> Starts {
    let many = format!("{MANY_NODES} nodes or more");
    let sorts = [("no word".into(), OF_PLAIN), (many, OF_MANY)].into_iter();
    let sorts: Vec<(String, usize)> =
        sorts.chain(ROOMS.map(|room| (format!("room {room}"), OF_ROOM))).collect();
    let of_version = |version: usize| {
        let what = move |sort: &str| format!("starts of rewrite in version {version}, {sort}");
        sorts.iter().map(move |(sort, wanted)| (what(sort), *wanted))
    };
    let refused = |(with, wanted): (&'static str, usize)| {
        (1..=11).map(move |number| (format!("starts of rewrite, refusal {number}{with}"), wanted))
    };
    let refused = [("", OF_REFUSAL), (" in short room", OF_REFUSAL_SHORT)].into_iter().map(refused);
    Starts::of((1..=VERSIONS).flat_map(of_version).chain(refused.flatten()).collect())
}

/// The sorts for which starts on a case's file count, each with the room that is
/// lent: those of each version, of refusals 1 to 11, and of these with room too
/// short, in either way by turns.
pub fn sorts(
    study: &Result<Study, Refusal>,
    index: usize,
    length: usize,
) -> Vec<(usize, Option<usize>)> {
    let rooms = [length, length.saturating_sub(1), 0, u32::MAX as usize].map(Some);
    match study {
        Ok(study) => {
            let many = study.file.nodes.len() >= MANY_NODES;
            let first = (study.file.version() - 1) * OF_VERSION;
            let with_room =
                rooms.into_iter().enumerate().map(|(way, room)| (first + 2 + way, room));
            [(first + usize::from(many), None)].into_iter().chain(with_room).collect()
        }
        Err(refusal) => {
            let plain = VERSIONS * OF_VERSION + refusal.number as usize - 1;
            vec![(plain, None), (plain + 11, rooms[1 + index % 2])]
        }
    }
}

fn expected(file: &[u8], room: usize) -> Vec<u8> {
    match Values::of(file).and_then(|values| verdict(&values, room)) {
        Ok(bytes) => bytes,
        Err(refusal) => text::refused(&refusal).into_bytes(),
    }
}

/// Compares what is printed for a word, or none, with what is written into so much
/// room.
fn compare_word(command: &str, word: Option<&str>, file: &[u8], room: usize) -> Result<(), String> {
    let words: Vec<&[u8]> = word.iter().map(|word| word.as_bytes()).collect();
    let (expected, given) = (expected(file, room), printed_bytes(command, &words, file)?);
    if given == expected {
        return Ok(());
    }
    let (expected, given) = (expected.escape_ascii(), given.escape_ascii());
    Err(format!("rewrite {word:?}\nexpected\n{expected}\nprinted\n{given}"))
}

pub fn compare(command: &str, file: &[u8], room: Option<usize>) -> Result<(), String> {
    let word = room.map(|room| room.to_string());
    compare_word(command, word.as_deref(), file, room.unwrap_or(usize::MAX))
}

pub fn compare_lengths(command: &str, seed: u64) -> Result<(), String> {
    starts::compare_lengths(seed, |bytes| {
        compare(command, bytes, None)?;
        compare(command, bytes, Some(bytes.len()))
    })
}

/// The same room in other words, and bad words with a file and with none, for a
/// case whose file is written.
pub fn compare_odd(command: &str, case: &Case) -> Result<(), String> {
    let file = &case.file;
    for room in [file.len(), file.len() - 1] {
        compare_word(command, Some(&format!("0{room}")), file, room)?;
        compare_word(command, Some(&format!("{room:012}")), file, room)?;
    }
    compare_word(command, Some("00"), file, 0)?;
    for words in BAD {
        compare_bad(command, "rewrite", words, file)?;
    }
    for word in NO_NUMBER {
        compare_bad(command, "rewrite", &[word], file)?;
    }
    compare_bad(command, "rewrite", &[b"x"], &[])
}
