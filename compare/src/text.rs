//! Answers as the programs print them.

use crate::planner::{Answer, Rooms, Study};
use crate::reading::Refusal;
use crate::why::{Reason, Table, Verdict};

/// Room that the program `plan` lends, and `answers` at most.
pub const WIDEST: Rooms = Rooms { choice: 64, plan: 128, keys: 128 };

fn list(numbers: &[usize]) -> String {
    if numbers.is_empty() {
        return "-".into();
    }
    numbers.iter().map(usize::to_string).collect::<Vec<String>>().join(",")
}

fn answered(study: &Study, answer: &Answer) -> String {
    let steps = answer.steps.map_or(String::new(), |steps| format!(" steps {steps}"));
    let mut out = format!("total {}{steps}\n", answer.total);
    for (node, subject) in answer.choice.iter().enumerate() {
        let opens = list(&study.plan.opens[node].list());
        let seals = list(&study.plan.seals[node].list());
        out += &format!("node {node} subject {subject} opens {opens} seals {seals}\n");
    }
    for key in &answer.keys {
        let (attributes, holders) = (list(&key.attributes), list(&key.holders));
        out += &format!("key {} attributes {attributes} holders {holders}\n", key.attributes[0]);
    }
    out
}

/// The lines for what is asked of a file, or for its refusal, after a word
/// that tells the call.
fn told(
    word: &str,
    study: &Result<Study, Refusal>,
    ask: impl Fn(&Study) -> Result<String, Refusal>,
) -> String {
    match study.as_ref().map_err(|refusal| *refusal).and_then(ask) {
        Ok(lines) => lines,
        Err(refusal) => word.to_owned() + &refused(&refusal),
    }
}

/// The line of a refusal.
pub fn refused(refusal: &Refusal) -> String {
    format!("refused {} place {}\n", refusal.number, refusal.place)
}

/// What `why` prints.
pub fn why(verdict: &Verdict) -> String {
    let reason = match verdict {
        Ok(Some(reason)) => reason,
        Ok(None) => return "candidate\n".into(),
        Err(refusal) => return refused(refusal),
    };
    let Reason { table, condition, attributes } = reason;
    let table = match table {
        Table::Left => "left",
        Table::Right => "right",
        Table::Result => "result",
    };
    format!("{table} {condition} {}\n", list(attributes))
}

/// What `plan` prints.
pub fn cheapest(study: &Result<Study, Refusal>, rooms: &Rooms) -> String {
    told("", study, |study| Ok(answered(study, &study.cheapest(rooms)?)))
}

fn offered(study: &Result<Study, Refusal>, offer: &[u8], rooms: &Rooms) -> String {
    let word = "offered ";
    told(word, study, |study| Ok(word.to_owned() + &answered(study, &study.offered(offer, rooms)?)))
}

fn candidates(study: &Result<Study, Refusal>) -> String {
    let line = |(node, set): (usize, &Vec<usize>)| format!("candidates {node} {}\n", list(set));
    told("candidates ", study, |study| Ok(study.candidates.iter().enumerate().map(line).collect()))
}

fn grants(study: &Result<Study, Refusal>) -> String {
    told("grants ", study, |study| {
        let (from, length) = study.grant_part();
        Ok(format!("grants {from} {length}\n"))
    })
}

/// What `answers` prints for one case.
pub fn case(number: usize, study: &Result<Study, Refusal>, offer: &[u8], rooms: &Rooms) -> String {
    let rooms = Rooms {
        choice: rooms.choice.min(WIDEST.choice),
        plan: rooms.plan.min(WIDEST.plan),
        keys: rooms.keys.min(WIDEST.keys),
    };
    let head = format!("case {number}\n") + &grants(study) + &candidates(study);
    head + &cheapest(study, &rooms) + &offered(study, offer, &rooms) + "rooms kept\n"
}
