//! The plan files of a folder, as `compare --longest` names them: SET-VERSION-INDEX.axp;
//! and small ones.

use std::path::Path;

use crate::ordinary::{self, Refusal};
use crate::records::Values;
use crate::sides::{Ordinary, Rooms, Side};

/// How many each of them has.
pub const NODES: usize = 64;
pub const SUBJECTS: usize = 16;
/// How many of the nodes are no leaves in a folder's files.
pub const STEPS: usize = 48;
/// The sets of files, by how many candidates most steps have, and the versions that
/// are timed, of each so many files.
pub const SETS: [&str; 2] = ["few", "many"];
pub const VERSIONS: [u16; 3] = [1, 3, 4];
const TIMED: usize = 12;
/// How many are planned one after the other, of all versions and both sets.
pub const HOUSES: usize = 500;

pub struct File {
    pub name: String,
    pub set: String,
    pub version: u16,
    index: usize,
    pub bytes: Vec<u8>,
    /// What is written again.
    pub values: Values,
    /// The cheapest choice, which is offered.
    pub offer: Vec<u8>,
}

impl File {
    pub fn new(name: &str, bytes: Vec<u8>) -> Result<File, String> {
        let refused = |(number, place): Refusal| {
            format!("{name}: refused {number} place {place}: not a file to time")
        };
        let mut words = name.trim_end_matches(".axp").splitn(3, '-');
        let set = words.next().unwrap_or_default().into();
        let index = words.nth(1).and_then(|index| index.parse().ok()).unwrap_or(0);
        let mut rooms = Rooms::new();
        Ordinary::cheapest(&bytes, &mut rooms).map_err(refused)?;
        let values = ordinary::values(&bytes).map_err(refused)?;
        let header = &values.header;
        if [header.nodes, header.subjects].map(usize::from) != [NODES, SUBJECTS] {
            return Err(format!("{name}: not of {NODES} nodes and {SUBJECTS} subjects"));
        }
        let (version, offer) = (header.version, rooms.choice.to_vec());
        Ok(File { name: name.into(), set, version, index, bytes, values, offer })
    }

    pub fn read(path: &Path) -> Result<File, String> {
        let name = path.file_name().unwrap_or_default().to_string_lossy();
        let bytes = std::fs::read(path).map_err(|error| format!("{}: {error}", path.display()))?;
        File::new(&name, bytes)
    }

    pub fn is_timed(&self) -> bool {
        self.index < TIMED && VERSIONS.contains(&self.version)
    }

    /// The nodes that are no leaves.
    pub fn steps(&self) -> impl Iterator<Item = usize> {
        (0..NODES).filter(|&node| self.values.nodes[node].kind != 0)
    }
}

/// All of a folder: the first of every set and version, then the second, and so on.
pub fn of(folder: &str) -> Result<Vec<File>, String> {
    let said = |error: std::io::Error| format!("{folder}: {error}");
    let mut paths = Vec::new();
    for entry in std::fs::read_dir(folder).map_err(said)? {
        paths.push(entry.map_err(said)?.path());
    }
    paths.sort();
    let mut files: Vec<File> =
        paths.iter().map(|path| File::read(path)).collect::<Result<_, _>>()?;
    files.sort_by_key(|file| file.index);
    if let Some(other) = files.iter().find(|file| file.steps().count() != STEPS) {
        return Err(format!("{}: not of {STEPS} steps", other.name));
    }
    if files.len() < HOUSES {
        return Err(format!("{folder}: fewer than {HOUSES} files"));
    }
    Ok(files)
}

/// The small ones that `compare --small` puts into one file, each behind its length.
pub fn small(path: &str) -> Result<Vec<Vec<u8>>, String> {
    let bytes = std::fs::read(path).map_err(|error| format!("{path}: {error}"))?;
    let (mut files, mut rest) = (Vec::new(), &bytes[..]);
    while let Some((length, after)) = rest.split_first_chunk() {
        let length = u32::from_be_bytes(*length) as usize;
        let (file, after) = after.split_at_checked(length).ok_or(format!("{path}: cut short"))?;
        files.push(file.to_vec());
        rest = after;
    }
    if rest.is_empty() { Ok(files) } else { Err(format!("{path}: cut short")) }
}
