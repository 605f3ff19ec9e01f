//! A join on one pair is kind 5: each file that has one or the other, from version 3 on,
//! is made anew with the two exchanged, and everything must come out the same.

use crate::coverage::Coverage;
use crate::file::{File, MOST_PAIRS, Work};
use crate::generate::Case;
use crate::planner::{Answer, Study, study};
use crate::run;
use crate::views::Profile;
use crate::why::{Verdict, verdicts};

/// How many joins of each sort became one of the other.
#[derive(Default)]
struct Exchanged {
    of_one: usize,
    of_one_repeated: usize,
}

fn exchange(file: &mut File) -> Exchanged {
    let File { nodes, pairs, .. } = file;
    let mut exchanged = Exchanged::default();
    let Some(list) = pairs else { return exchanged };
    for node in nodes {
        match node.work {
            Work::Join { left, right, x, y } if list.len() < MOST_PAIRS => {
                node.work = Work::JoinPairs { left, right, first: list.len(), pairs: vec![(x, y)] };
                list.push([x as u8, y as u8]);
                exchanged.of_one += 1;
            }
            Work::JoinPairs { left, right, ref pairs, .. }
                if pairs.iter().all(|pair| *pair == pairs[0]) =>
            {
                let (x, y) = pairs[0];
                exchanged.of_one += usize::from(pairs.len() == 1);
                exchanged.of_one_repeated += usize::from(pairs.len() > 1);
                node.work = Work::Join { left, right, x, y };
            }
            _ => {}
        }
    }
    exchanged
}

/// A table as it can be compared.
fn parts(table: &Profile) -> ([u64; 4], Vec<u64>) {
    let Profile { visible_clear, visible_sealed, implicit_clear, implicit_sealed, ties } = table;
    let mut tied: Vec<u64> = ties.sets().iter().map(|set| set.bits()).collect();
    tied.sort();
    ([visible_clear, visible_sealed, implicit_clear, implicit_sealed].map(|set| set.bits()), tied)
}

fn same_tables(one: &Study, other: &Study) -> bool {
    let all = |study: &Study| -> Vec<_> { study.tables.iter().flatten().map(parts).collect() };
    all(one) == all(other)
}

/// What is said of the twin must be what was said of the file.
pub fn hold(
    case: &Case,
    first: &Study,
    told: &[Verdict],
    coverage: &mut Coverage,
) -> Result<(), String> {
    let mut file = first.file.clone();
    let Exchanged { of_one, of_one_repeated } = exchange(&mut file);
    if of_one + of_one_repeated == 0 {
        return Ok(());
    }
    let read = study(&file.write());
    let same_whys = verdicts(&read, &case.questions) == told;
    let second = read.map_err(|refusal| format!("the twin is refused: {refusal:?}"))?;
    let choices = [first, &second].map(|study| study.cheapest(&case.rooms));
    let offers = [first, &second].map(|study| study.offered(&case.offer, &case.rooms));
    let ran = |answer: &Answer| {
        run::run(&second.file, &second.views, &answer.choice, &second.plan).is_ok()
    };
    let checks = [
        ("candidates", first.candidates == second.candidates),
        ("tables", same_tables(first, &second)),
        ("plan", first.plan == second.plan && first.handed_sealed == second.handed_sealed),
        ("reasons", same_whys),
        ("choice", choices[0] == choices[1]),
        ("offer", offers[0] == offers[1]),
        ("run", choices[1].as_ref().ok().is_none_or(ran)),
    ];
    if let Some((what, _)) = checks.iter().find(|(_, same)| !same) {
        return Err(format!("a join on one pair and kind 5 differ by their {what}"));
    }
    coverage.pairs.twins += of_one;
    coverage.pairs.repeated_twins += of_one_repeated;
    Ok(())
}
