//! The files of the first cases, refused ones too, written for others to use: all in one,
//! each behind its length.

use crate::generate::{self, Case};

/// The files of so many cases, none of them large, and of those that they bring; how many
/// that makes.
pub fn write(path: &str, count: usize, seed: u64) -> Result<usize, String> {
    let cases = |index: usize| {
        [Some(generate::case(seed, index, usize::MAX)), generate::beside(seed, index)]
    };
    let (mut bytes, mut written) = (Vec::new(), 0);
    for Case { file, .. } in (0..count).flat_map(cases).flatten() {
        bytes.extend((file.len() as u32).to_be_bytes());
        bytes.extend(file);
        written += 1;
    }
    std::fs::write(path, bytes).map_err(|error| format!("{path}: {error}"))?;
    Ok(written)
}
