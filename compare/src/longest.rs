//! Files with every count at its limit, written to a folder for others to use: of
//! every version, with few candidates at most steps and with many.

use std::path::Path;

use crate::days::Days;
use crate::file::{File, Grant, Work};
use crate::layout::VERSIONS;
use crate::planner::{Rooms, study};
use crate::rng::Rng;
use crate::served::serve;
use crate::sets::Flags;
use crate::users;
use crate::valid::{self, Size};

/// The longest rooms that are asked for.
const ROOMS: Rooms = Rooms { choice: 64, plan: 128, keys: 128 };
/// How many subjects see all in clear where there are to be many candidates.
const TRUSTED: usize = 13;

/// Shows most subjects every relation in clear, by their own grant in force or else
/// by the one to any.
fn trust(rng: &mut Rng, file: &mut File) {
    let mut subjects: Vec<usize> = (0..file.subjects).collect();
    rng.shuffle(&mut subjects);
    let trusted = &subjects[..TRUSTED];
    for relation in 0..file.relations.len() {
        let (clear, sealed) = (file.relations[relation].set, Flags::NONE);
        file.put(Grant { relation, subject: None, clear, sealed, days: Days::ALL });
    }
    let day = file.nights_day();
    let own = |grant: &&mut Grant| grant.subject.is_some_and(|subject| trusted.contains(&subject));
    for grant in file.grants.iter_mut().filter(own).filter(|grant| grant.days.has(day)) {
        (grant.clear, grant.sealed) = (file.relations[grant.relation].set, Flags::NONE);
    }
}

/// Whether what its version adds is there: joins on several pairs, and grants of one
/// pair for several times.
fn shows_version(file: &File) -> bool {
    let on_several = |work: &Work| matches!(work, Work::JoinPairs { pairs, .. } if pairs.len() > 1);
    let joins = file.nodes.iter().filter(|node| on_several(&node.work)).count();
    let pairs = file.grants_of_pairs();
    let dated = pairs.iter().filter(|grants| grants.len() > 1).count();
    (file.pairs.is_none() || joins > 1) && (file.day.is_none() || dated > 7)
}

/// A file whose cheapest choice is answered.
fn answered(rng: &mut Rng, version: usize, many: bool) -> Vec<u8> {
    loop {
        let mut file = valid::file(rng, Size::Longest, version, false);
        if many {
            trust(rng, &mut file);
        }
        serve(rng, &mut file);
        users::name(rng, &mut file, true);
        if shows_version(&file) {
            return file.write();
        }
    }
}

/// So many files of each version with few candidates, and so many with many; how many
/// that makes.
pub fn write(folder: &str, count: usize, seed: u64) -> Result<usize, String> {
    std::fs::create_dir_all(folder).map_err(|error| format!("{folder}: {error}"))?;
    let sorts = (1..=VERSIONS).flat_map(|version| [(version, false), (version, true)]);
    for (sort, (version, many)) in sorts.enumerate() {
        for index in 0..count {
            let name = format!("{}-{version}-{index:02}.axp", if many { "many" } else { "few" });
            let bytes = answered(&mut Rng::new(seed, (sort << 32 | index) as u64), version, many);
            study(&bytes)
                .and_then(|study| study.cheapest(&ROOMS))
                .map_err(|refusal| format!("{name}: {refusal:?}"))?;
            let path = Path::new(folder).join(name);
            std::fs::write(&path, bytes).map_err(|error| format!("{}: {error}", path.display()))?;
        }
    }
    Ok(2 * VERSIONS * count)
}
