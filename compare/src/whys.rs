//! The program `why`: started once for each of some questions, the file on its
//! standard input, node and subject as words; all that it prints is compared.

use crate::generate::Case;
use crate::layout::VERSIONS;
use crate::planner::{Study, study};
use crate::program::printed;
use crate::reading::Refusal;
use crate::starts::{self, MANY_NODES, NO_NUMBER, Starts, compare_bad, same};
use crate::text;
use crate::why::{Question, Reason, Table, Verdict, verdicts};

/// The sorts of answers on files that are not refused.
pub const SORTS: [&str; 11] = [
    "candidate",
    "left 1",
    "left 2",
    "left 3",
    "right 1",
    "right 2",
    "right 3",
    "result 3",
    "refusal 16 for a leaf",
    "refusal 16 for a node not there",
    "refusal 16 for a subject not there",
];
/// On files of each version so many starts of each of these sorts, and so many
/// answered ones on files of many nodes; and so many of each refusal 1 to 11.
const WANTED: [usize; SORTS.len()] = [11, 6, 6, 6, 6, 6, 6, 11, 3, 3, 3];
const OF_MANY: usize = 5;
const OF_REFUSAL: usize = 8;
/// How many sorts of starts there are on files of one version.
const OF_VERSION: usize = SORTS.len() + 1;

/// Words that are no question.
const BAD: [&[&[u8]]; 4] = [&[], &[b"0"], &[b"0", b"0", b"0"], &[b"", b""]];
pub fn starts() -> Starts {
    let many = format!("answered for {MANY_NODES} nodes or more");
    let sorts = || SORTS.into_iter().zip(WANTED).chain([(&many[..], OF_MANY)]);
    let read = (1..=VERSIONS).flat_map(|version| {
        let what = move |sort: &str| format!("starts of why in version {version}, {sort}");
        sorts().map(move |(sort, wanted)| (what(sort), wanted))
    });
    let refused = (1..=11).map(|number| (format!("starts of why, refusal {number}"), OF_REFUSAL));
    Starts::of(read.chain(refused).collect())
}

/// Where an answer on a file stands among the sorts.
pub fn sort(study: &Study, asked: Question, verdict: &Verdict) -> usize {
    match verdict {
        Ok(None) => 0,
        Ok(Some(Reason { table: Table::Left, condition, .. })) => *condition,
        Ok(Some(Reason { table: Table::Right, condition, .. })) => 3 + condition,
        Ok(Some(Reason { table: Table::Result, .. })) => 7,
        Err(_) => match study.file.nodes.get(asked.node as usize) {
            Some(node) if node.work.is_leaf() => 8,
            None => 9,
            Some(_) => 10,
        },
    }
}

/// The sort for which a start is counted: those of each version with its files of
/// many nodes last, then refusals 1 to 11.
pub fn start_sort(study: &Result<Study, Refusal>, asked: Question, verdict: &Verdict) -> usize {
    let study = match study {
        Err(refusal) => return VERSIONS * OF_VERSION - 1 + refusal.number as usize,
        Ok(study) => study,
    };
    let many = study.file.nodes.len() >= MANY_NODES && verdict.is_ok();
    let sort = if many { SORTS.len() } else { sort(study, asked, verdict) };
    (study.file.version() - 1) * OF_VERSION + sort
}

/// Compares what is printed for two words with the answer to their numbers.
fn compare_words(
    command: &str,
    words: [&str; 2],
    file: &[u8],
    verdict: &Verdict,
) -> Result<(), String> {
    let given = printed(command, &words.map(str::as_bytes), file)?;
    same(&text::why(verdict), &given).map_err(|text| format!("why {words:?}\n{text}"))
}

pub fn compare(
    command: &str,
    file: &[u8],
    asked: Question,
    verdict: &Verdict,
) -> Result<(), String> {
    let words = [asked.node, asked.subject].map(|number| number.to_string());
    compare_words(command, [&words[0], &words[1]], file, verdict)
}

pub fn compare_lengths(command: &str, seed: u64) -> Result<(), String> {
    let asked = Question { node: 63, subject: 15 };
    starts::compare_lengths(seed, |bytes| {
        compare(command, bytes, asked, &verdicts(&study(bytes), &[asked])[0])
    })
}

/// The same question in other words, the highest number there is, and bad words
/// with a file and with none, for a case whose root is a step.
pub fn compare_odd(command: &str, case: &Case) -> Result<(), String> {
    let file = &case.file;
    let study = study(file);
    let root = study.as_ref().map_or(0, |study| study.file.root());
    let asked = |node: u32, subject: u32| verdicts(&study, &[Question { node, subject }]).remove(0);
    let (plain, highest) = (root.to_string(), u32::MAX.to_string());
    let right = asked(root as u32, 0);
    compare_words(command, [&format!("0{root}"), "00"], file, &right)?;
    compare_words(command, [&format!("{root:012}"), &format!("{:012}", 0)], file, &right)?;
    compare_words(command, [&highest, "0"], file, &asked(u32::MAX, 0))?;
    compare_words(command, [&plain, &highest], file, &asked(root as u32, u32::MAX))?;
    for words in BAD {
        compare_bad(command, "why", words, file)?;
    }
    for word in NO_NUMBER {
        compare_bad(command, "why", &[word, b"0"], file)?;
        compare_bad(command, "why", &[plain.as_bytes(), word], &[])?;
    }
    Ok(())
}
