//! What the planner must hold against itself on one case, library or none.

use crate::calendar;
use crate::choice;
use crate::coverage::Coverage;
use crate::every;
use crate::failing::{Failing, Steps};
use crate::generate::{Case, Made};
use crate::planner::{Answer, Study};
use crate::reading::Refusal;
use crate::run;
use crate::twins;
use crate::values::Values;
use crate::why::Verdict;
use crate::whys;

/// Beyond this many choices only the recursion is asked.
const MOST_ENUMERATED: usize = 20_000;

pub fn examine(
    case: &Case,
    study: &Result<Study, Refusal>,
    verdicts: &[Verdict],
    coverage: &mut Coverage,
) -> Result<(), String> {
    coverage.pointers(case, study.is_ok());
    if let Some(known) = &case.known {
        match known.made {
            Made::Pair(fault) => coverage.pairs.fault(fault),
            Made::Day(trial) => coverage.days.trial(trial),
            Made::Carried(trial) => coverage.carried.trial(trial),
        }
        let given = study.as_ref().err();
        if given != known.verdict.as_ref() {
            return Err(format!("made for {known:?}, but read with {given:?}"));
        }
    }
    carried_alike(case, study, coverage)?;
    match study {
        Ok(study) => examine_read(case, study, verdicts, coverage),
        Err(refusal) => {
            coverage.refused(&[*refusal]);
            coverage.users.refused(&case.file);
            grants_wrong(case, refusal, coverage)
        }
    }
}

/// Where the header and the length are right, the check by carried sets says the same.
fn carried_alike(
    case: &Case,
    study: &Result<Study, Refusal>,
    coverage: &mut Coverage,
) -> Result<(), String> {
    let Ok(values) = Values::of(&case.file) else { return Ok(()) };
    let given = study.as_ref().map(|_| ()).map_err(|refusal| *refusal);
    let made = case.known.as_ref().is_some_and(|known| matches!(known.made, Made::Carried(_)));
    coverage.carried.hold(&values, given, made)
}

/// A grant refused with 6 is wrong by its values, too, and none before it is.
fn grants_wrong(case: &Case, refusal: &Refusal, coverage: &mut Coverage) -> Result<(), String> {
    let Ok(values) = Values::of(&case.file) else { return Ok(()) };
    coverage.days.refused(&values, refusal);
    let wrong = |place: usize| calendar::wrong(&values, place).is_some();
    match (0..values.grants.len()).find(|&place| wrong(place)) {
        Some(place) if refusal.number == 6 && refusal.place == place as u64 => Ok(()),
        None if refusal.number != 6 => Ok(()),
        Some(_) if refusal.number < 6 => Ok(()),
        found => Err(format!("wrong by its values is grant {found:?}, but {refusal:?}")),
    }
}

fn examine_read(
    case: &Case,
    study: &Study,
    verdicts: &[Verdict],
    coverage: &mut Coverage,
) -> Result<(), String> {
    let failing = reasons_hold(case, study, verdicts, coverage)?;
    coverage.read(study, &failing);
    if study.file.write() != case.file {
        return Err("the file written again is another".into());
    }
    calendar::hold(study)?;
    user_stands(study)?;
    twins::hold(case, study, verdicts, coverage)?;
    two_ways(study, coverage)?;
    examine_answers(case, study, coverage)?;
    wrong_runs_faulty(study, &case.offer, coverage)?;
    // Only those made tiny: the small ones that happen to be would cost more.
    if case.family == "tiny"
        && let Some(tried) = every::try_every(study)?
    {
        coverage.tried(&tried);
        coverage.pairs.tried(study);
    }
    Ok(())
}

/// What the two planning calls give: refusals as they may come, plans that run.
fn examine_answers(case: &Case, study: &Study, coverage: &mut Coverage) -> Result<(), String> {
    let cheapest = study.cheapest(&case.rooms);
    let offered = study.offered(&case.offer, &case.rooms);
    if let (Ok(answer), Ok(options)) = (&cheapest, study.full_options()) {
        let other = choice::compared_from_first(&study.file, &options);
        coverage.answered(study, answer, other != answer.choice);
        coverage.carried.answered(study, answer, &options);
    }
    if offered.is_ok() {
        coverage.accepted(study);
    }
    if study.file.user.is_some() && cheapest.as_ref().is_err_and(|refusal| refusal.number == 12) {
        return Err("refusal 12 for a file with a user".into());
    }
    let refusals: Vec<Refusal> =
        [&cheapest, &offered].into_iter().filter_map(|r| r.as_ref().err().copied()).collect();
    coverage.refused(&refusals);
    let answers: Vec<&Answer> = [&cheapest, &offered].into_iter().flatten().collect();
    for answer in &answers {
        coverage.keys(&answer.keys);
        coverage.carried.keys(study, answer)?;
        runs_clean(study, answer, coverage)?;
    }
    coverage.users.read(study, case, &answers);
    coverage.pairs.read(study, &answers);
    coverage.days.read(study, cheapest.is_ok(), offered.is_ok());
    Ok(())
}

/// Every answer to why a subject is out is right by a second way; all that
/// fails for each of those asked about.
fn reasons_hold(
    case: &Case,
    study: &Study,
    verdicts: &[Verdict],
    coverage: &mut Coverage,
) -> Result<Vec<Vec<Failing>>, String> {
    let steps = Steps::of(study);
    let mut all = Vec::new();
    for (&asked, verdict) in case.questions.iter().zip(verdicts) {
        let failing = steps.checked(asked, verdict)?;
        coverage.why(whys::sort(study, asked, verdict), &failing);
        coverage.pairs.why(study, asked, verdict);
        all.push(failing);
    }
    Ok(all)
}

/// The leaves that bar a user are those whose tables the run forbids; where none
/// does, the user is a candidate of every step, so that none is without.
fn user_stands(study: &Study) -> Result<(), String> {
    let Some(user) = study.file.user else { return Ok(()) };
    let barred = study.barred_leaves(user);
    let forbidden = run::forbidden_leaf(&study.file, &study.views[user]);
    if barred.first().copied() != forbidden {
        return Err(format!("user {user} is barred by {barred:?}, but forbidden {forbidden:?}"));
    }
    let may_run =
        |node: usize| study.file.owner_at(node).is_some() || study.candidates[node].contains(&user);
    match (0..study.file.nodes.len()).find(|&node| !may_run(node)) {
        Some(step) if barred.is_empty() => {
            Err(format!("user {user} may have all leaves, but is no candidate of step {step}"))
        }
        _ => Ok(()),
    }
}

fn two_ways(study: &Study, coverage: &mut Coverage) -> Result<(), String> {
    let Ok(options) = study.full_options() else { return Ok(()) };
    if choice::choices_within(&options, MOST_ENUMERATED).is_none() {
        return Ok(());
    }
    let (tried, equals) = choice::by_enumeration(&study.file, &options);
    let found = choice::by_recursion(&study.file, &options);
    if tried != found || found.total != choice::total(&study.file, &found.choice()) {
        return Err(format!("by enumeration {tried:?}, by recursion {found:?}"));
    }
    coverage.carried.equals(study, &options, equals);
    coverage.enumerated += 1;
    coverage.tied_totals += usize::from(equals > 1);
    Ok(())
}

fn runs_clean(study: &Study, answer: &Answer, coverage: &mut Coverage) -> Result<(), String> {
    let Study { file, views, plan, .. } = study;
    if let Err(fault) = run::run(file, views, &answer.choice, plan) {
        return Err(format!("the built plan for {:?} ends with {fault:?}", answer.choice));
    }
    let keys = run::keys(file, &answer.choice, plan);
    if keys != answer.keys {
        return Err(format!("keys by chains {keys:?}, by tied sets {:?}", answer.keys));
    }
    coverage.clean_runs += 1;
    Ok(())
}

/// A choice with owners at the leaves and a step's subject that is no
/// candidate has no clean run, so the built plan's is not clean.
fn wrong_runs_faulty(study: &Study, offer: &[u8], coverage: &mut Coverage) -> Result<(), String> {
    let Study { file, views, plan, .. } = study;
    let choice: Vec<usize> = offer.iter().map(|&subject| subject.into()).collect();
    let stands = |node: usize| match file.owner_at(node) {
        Some(owner) => choice[node] == owner,
        None => choice[node] < file.subjects,
    };
    let of_subjects = choice.len() == file.nodes.len() && (0..choice.len()).all(stands);
    if !of_subjects || study.wronged(&choice).is_none() {
        return Ok(());
    }
    // One that only ends at the delivery has reached the root, too.
    if run::run(file, views, &choice, plan).err().is_none_or(|fault| fault.at_delivery()) {
        return Err(format!("the built plan for {choice:?} runs clean, with no candidate"));
    }
    coverage.faulty_runs += 1;
    Ok(())
}
