//! Programs that are started anew for each of some cases: which of them, and
//! the inputs that all are started on.

use crate::coverage::{Line, line};
use crate::layout::LONGEST;
use crate::program::{Said, ask};
use crate::rng::Rng;
use crate::served::serve;
use crate::users;
use crate::valid::{self, Size};

/// A file of so many nodes is of a sort of its own.
pub const MANY_NODES: usize = 40;

/// Words that are no number of 32 bits.
pub const NO_NUMBER: [&[u8]; 16] = [
    b"",
    b"-1",
    b"-0",
    b"+1",
    b" 1",
    b"1 ",
    b"1x",
    b"x",
    b"0x1",
    b"1.0",
    b"4294967296",
    b"4294967297",
    b"18446744073709551617",
    b"99999999999999999999",
    "\u{ff11}".as_bytes(),
    b"1\xff",
];

/// Starts of a program, so many wanted of each sort: a start takes longer than
/// all calls on most files.
pub struct Starts {
    wanted: Vec<(String, usize)>,
    /// How many of these are this part's.
    share: Vec<usize>,
    taken: Vec<usize>,
}

impl Starts {
    pub fn of(wanted: Vec<(String, usize)>) -> Starts {
        let share = wanted.iter().map(|(_, wanted)| *wanted).collect();
        let taken = vec![0; wanted.len()];
        Starts { wanted, share, taken }
    }

    /// Of each sort the share of one part of the cases, where there are so many:
    /// the first parts have one more if it can't be the same for all.
    pub fn part(mut self, number: usize, parts: usize) -> Starts {
        for (share, (_, wanted)) in self.share.iter_mut().zip(&self.wanted) {
            *share = (wanted + parts - 1 - number) / parts;
        }
        self
    }

    /// Whether a case of this sort is one of those wanted, which are spread
    /// over the run.
    pub fn takes(&mut self, sort: usize, index: usize, cases: usize) -> bool {
        let takes = self.taken[sort] * cases < self.share[sort] * (index + 1);
        self.taken[sort] += usize::from(takes);
        takes
    }

    /// All are wanted, so each floor is what was wanted of all parts together.
    pub fn lines(&self) -> Vec<Line> {
        let sorts = self.wanted.iter().zip(&self.taken);
        sorts.map(|((what, wanted), &taken)| line(what, taken, *wanted)).collect()
    }
}

pub fn same(expected: &str, printed: &str) -> Result<(), String> {
    if printed == expected {
        return Ok(());
    }
    Err(format!("expected\n{expected}\nprinted\n{printed}"))
}

/// Words that bring no answer of the program but one line over standard error.
pub fn compare_bad(
    command: &str,
    program: &str,
    words: &[&[u8]],
    file: &[u8],
) -> Result<(), String> {
    let Said { printed, error } = ask(command, words, file)?;
    let one_line = error.lines().count() == 1 && error.ends_with('\n');
    if printed.is_empty() && one_line && error.starts_with("use: ") {
        return Ok(());
    }
    let words: Vec<String> = words.iter().map(|word| word.escape_ascii().to_string()).collect();
    let printed = printed.escape_ascii();
    Err(format!("{program} {words:?}\nprinted\n{printed}\nover standard error\n{error}"))
}

/// Compares on the longest file of each version, on longer ones, and on none.
pub fn compare_lengths(
    seed: u64,
    compare: impl Fn(&[u8]) -> Result<(), String>,
) -> Result<(), String> {
    let mut rng = Rng::new(seed, u64::MAX);
    for (version, most) in (1..).zip(LONGEST) {
        let mut file = valid::file(&mut rng, Size::Longest, version, false);
        serve(&mut rng, &mut file);
        if version > 1 {
            users::name_allowed(&mut rng, &mut file);
        }
        let longest = file.write();
        for length in [most, most + 1, most + 2, 3 * most, 0] {
            let mut bytes = longest.clone();
            bytes.resize(length, 0);
            compare(&bytes).map_err(|text| {
                format!("the longest file of version {version} at {length} bytes\n{text}")
            })?;
        }
    }
    Ok(())
}
