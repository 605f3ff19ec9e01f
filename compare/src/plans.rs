//! The program `plan`: started once for each of some cases, its whole text
//! compared.

use crate::layout::VERSIONS;
use crate::planner::{Study, study};
use crate::program::printed;
use crate::reading::Refusal;
use crate::starts::{self, MANY_NODES, Starts, same};
use crate::text;

/// So many answered files of each version, so many that have many nodes, and so
/// many of each refusal.
const OF_ANSWERED: usize = 21;
const OF_MANY: usize = 6;
const OF_REFUSAL: usize = 16;
const REFUSALS: [u64; 14] = [1, 2, 3, 4, 5, 6, 7, 8, 9, 10, 11, 12, 13, 17];

/// The sorts, those of answers first: by the version, then those of many nodes.
pub fn starts() -> Starts {
    let answered = |(which, wanted): (String, usize)| {
        (1..=VERSIONS).map(move |version| {
            (format!("answered files of version {version}{which} through plan"), wanted)
        })
    };
    let which =
        [(String::new(), OF_ANSWERED), (format!(" with {MANY_NODES} nodes or more"), OF_MANY)];
    let refused = |number| (format!("files with refusal {number} through plan"), OF_REFUSAL);
    let sorts = which.into_iter().flat_map(answered);
    Starts::of(sorts.chain(REFUSALS.into_iter().map(refused)).collect())
}

pub fn sort(study: &Result<Study, Refusal>) -> usize {
    let searched = study.as_ref().map_err(|refusal| *refusal).and_then(|s| Ok((s, s.searched()?)));
    match searched {
        Ok((study, _)) => {
            let many = study.file.nodes.len() >= MANY_NODES;
            study.file.version() - 1 + VERSIONS * usize::from(many)
        }
        Err(refusal) => {
            let place = REFUSALS.iter().position(|&number| number == refusal.number);
            2 * VERSIONS + place.expect("the search is refused with one of these")
        }
    }
}

pub fn compare(command: &str, file: &[u8], study: &Result<Study, Refusal>) -> Result<(), String> {
    let expected = text::cheapest(study, &text::WIDEST);
    same(&expected, &printed(command, &[], file)?)
}

pub fn compare_lengths(command: &str, seed: u64) -> Result<(), String> {
    starts::compare_lengths(seed, |bytes| compare(command, bytes, &study(bytes)))
}
