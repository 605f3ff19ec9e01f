//! Each file of version 3 is planned as one of version 4 too, every grant in force on
//! all days, whatever the night's day: everything must come out the same.

use crate::coverage::Coverage;
use crate::generate::Case;
use crate::layout::{DAYS_AT, form_of};
use crate::planner::{Study, study};
use crate::reading::Refusal;
use crate::record::Record;
use crate::rng::Rng;
use crate::values::Values;
use crate::why::{Verdict, verdicts};

/// What is drawn for it is drawn apart, so that the cases stay as they are.
const APART: u64 = 0x616c_7761_7973_2134;
/// So many of the questions why are asked again: each checks the whole file anew.
const ASKED: usize = 3;
/// So many of the nodes' candidates, likewise.
const NODES: usize = 6;

/// The case in version 4, if it is of version 3 and its header and length are right.
pub fn dated(seed: u64, index: usize, case: &Case) -> Option<Case> {
    let mut values = Values::of(&case.file).ok().filter(|values| values.header.version == 3)?;
    let mut rng = Rng::new(seed ^ APART, index as u64);
    let any = rng.next() as u16;
    values.header.version = 4;
    values.header.day = rng.pick(&[0, any, u16::MAX]);
    let mut twin = Case { file: values.encode(), known: None, ..case.clone() };
    rng.shuffle(&mut twin.asked);
    twin.asked.truncate(NODES);
    twin.questions.truncate(ASKED);
    Some(twin)
}

/// What the planner says of the twin, which must be what it said of the case.
pub fn hold(
    case: &Case,
    twin: &Case,
    first: &Result<Study, Refusal>,
    told: &[Verdict],
    coverage: &mut Coverage,
) -> Result<(), String> {
    let second = study(&twin.file);
    let same_whys = verdicts(&second, &twin.questions) == told[..twin.questions.len()];
    let differ = match (first, &second) {
        (Err(first), Err(second)) => (first != second).then_some("refusal"),
        (Ok(first), Ok(second)) => difference(case, first, second),
        _ => Some("reading"),
    };
    if let Some(what) = differ.or((!same_whys).then_some("reasons")) {
        return Err(format!("in version 4 on all days the {what} differ"));
    }
    coverage.days.twin(first.is_ok());
    Ok(())
}

fn difference(case: &Case, first: &Study, second: &Study) -> Option<&'static str> {
    let both = [first, second];
    let [one, other] = both.map(|study| study.cheapest(&case.rooms));
    let [offered, again] = both.map(|study| study.offered(&case.offer, &case.rooms));
    let checks = [
        ("views", first.views == second.views),
        ("candidates", first.candidates == second.candidates),
        ("plans", first.plan == second.plan && first.handed_sealed == second.handed_sealed),
        ("choices", one == other),
        ("offers", offered == again),
    ];
    checks.into_iter().find(|(_, same)| !same).map(|(what, _)| what)
}

/// The record of the case as the twin's must be: its grants start later by what the
/// header has more, and each is longer.
pub fn expected(case: &Case, record: Record, twin: &Case) -> Record {
    let [old, new] = [3, 4].map(|version| form_of(version).expect("there is such a version"));
    let grown = |[code, from, length]: [u64; 3]| {
        let count = length / DAYS_AT as u64;
        [code, from + (new.header - old.header) as u64, count * new.grant as u64]
    };
    let asked = |node: &usize| case.asked.iter().position(|old| old == node);
    let candidates = twin.asked.iter().filter_map(asked).map(|at| record.candidates[at]).collect();
    let mut whys = record.whys;
    whys.truncate(twin.questions.len());
    let grants = if record.check == 0 { grown(record.grants) } else { record.grants };
    Record { grants, candidates, whys, ..record }
}
