//! The sample night in all versions: its text and its figures as the rules print
//! them.

use crate::file::UNUSED;
use crate::layout::USER_AT;
use crate::planner::study;
use crate::reading::refuse;
use crate::text;
use crate::values::{Grant, Node, Values};
use crate::why::{Question, verdicts};
use crate::writer;

/// Who asks in the night's version 2, and what that changes in the text.
const USER: u8 = 2;
const WITHOUT_USER: &str = "key 3 attributes 3 holders 0\n";
const WITH_USER: &str = "key 3 attributes 3 holders 0,2\n";
/// The others, and the leaf that each may not have; the first number of nobody.
const OTHER_USERS: [(u8, usize); 5] = [(0, 2), (1, 0), (3, 0), (4, 0), (5, 0)];
const NOBODY: u8 = 6;
/// The node that is a join.
const JOIN: usize = 3;
/// A night's day; the places of both owners' grants of their own relations, and of 1's
/// grant of the first, for which any's would show it less.
const DAY: u16 = 100;
const OF_OWNERS: [usize; 2] = [0, 8];
const OF_1: usize = 1;

const TEXT: &str = "\
total 14 steps 76
node 0 subject 0 opens - seals 0,2,3
node 1 subject 0 opens - seals -
node 2 subject 1 opens - seals 4,5
node 3 subject 3 opens - seals -
node 4 subject 3 opens - seals -
node 5 subject 4 opens 5 seals -
key 0 attributes 0,4 holders 0,1
key 2 attributes 2 holders 0
key 3 attributes 3 holders 0
key 5 attributes 5 holders 1,4
";

fn expect(what: &str, bytes: &[u8], text: &str) -> Result<(), String> {
    let printed = text::cheapest(&study(bytes), &text::WIDEST);
    if printed == text {
        return Ok(());
    }
    Err(format!("the sample night, {what}: expected\n{text}\nprinted\n{printed}"))
}

pub fn check(bytes: &[u8]) -> Result<(), String> {
    expect("as it is", bytes, TEXT)?;
    let mut fewer = bytes.to_vec();
    fewer[11..15].copy_from_slice(&75u32.to_be_bytes());
    expect("75 steps allowed", &fewer, "refused 13 place 0\n")?;
    expect("740 bytes", &bytes[..740], "refused 3 place 0\n")?;
    expect("742 bytes", &[bytes, &[0]].concat(), "refused 3 place 0\n")?;
    written_again(bytes)?;
    figures(bytes)?;
    check_2(&in_version_2(bytes))
}

/// The night of version 1 with its user.
pub fn in_version_2(bytes: &[u8]) -> Vec<u8> {
    let mut asked = bytes.to_vec();
    asked[3..5].copy_from_slice(&2u16.to_be_bytes());
    asked.insert(USER_AT, USER);
    asked
}

pub fn check_2(bytes: &[u8]) -> Result<(), String> {
    expect("version 2", bytes, &TEXT.replace(WITHOUT_USER, WITH_USER))?;
    let mut fewer = bytes.to_vec();
    fewer[11..15].copy_from_slice(&75u32.to_be_bytes());
    expect("version 2, 75 steps allowed", &fewer, "refused 13 place 0\n")?;
    for length in [15, 16, 741] {
        expect("version 2, cut", &bytes[..length], "refused 3 place 0\n")?;
    }
    expect("version 2, 743 bytes", &[bytes, &[0]].concat(), "refused 3 place 0\n")?;
    written_again(bytes)?;
    let mut other = bytes.to_vec();
    for (user, leaf) in OTHER_USERS {
        other[USER_AT] = user;
        expect(&format!("user {user}"), &other, &format!("refused 17 place {leaf}\n"))?;
        // Who may run a step does not hang on who asks.
        figures(&other)?;
    }
    other[USER_AT] = NOBODY;
    expect(&format!("user {NOBODY}"), &other, "refused 4 place 0\n")?;
    check_3(bytes)?;
    check_4(bytes)?;
    figures(bytes)
}

/// The night of version 2 in version 3, its join kept as it is, and turned into one
/// on the only pair of a list: both give the same text, for a join on one pair is
/// kind 5.
fn check_3(bytes: &[u8]) -> Result<(), String> {
    let text = TEXT.replace(WITHOUT_USER, WITH_USER);
    let mut values = Values::of(bytes).map_err(|refusal| format!("{refusal:?}"))?;
    let kept = values.nodes[JOIN];
    values.header.version = 3;
    expect("version 3", &values.encode(), &text)?;
    values.header.pairs = 1;
    values.pairs = vec![kept.x, kept.y];
    expect("version 3 with a pair", &values.encode(), &text)?;
    let join = Node { kind: 9, x: UNUSED, y: UNUSED, count: 1, ..kept };
    let mut with = |join: Node, version: u16| {
        (values.nodes[JOIN], values.header.version) = (join, version);
        values.encode()
    };
    let joined = with(join, 3);
    expect("version 3, a join on a pair", &joined, &text)?;
    expect("version 3, cut", &joined[..16], "refused 3 place 0\n")?;
    written_again(&joined)?;
    figures(&joined)?;
    let half = Node { needed: 1 << kept.y, ..join };
    expect("half a pair needed", &with(half, 3), "refused 10 place 3\n")?;
    let past = Node { first: 1, ..join };
    expect("a pair past the list", &with(past, 3), "refused 8 place 3\n")
}

/// The night of version 2 in version 4, every grant in force on all days, or on the
/// night's alone; and one of them on other days.
fn check_4(bytes: &[u8]) -> Result<(), String> {
    let text = TEXT.replace(WITHOUT_USER, WITH_USER);
    let mut values = Values::of(bytes).map_err(|refusal| format!("{refusal:?}"))?;
    (values.header.version, values.header.day) = (4, DAY);
    let always = values.encode();
    expect("version 4", &always, &text)?;
    expect("version 4, cut", &always[..18], "refused 3 place 0\n")?;
    written_again(&always)?;
    figures(&always)?;
    values.grants.iter_mut().for_each(|grant| (grant.first, grant.last) = (DAY, DAY));
    expect("version 4, the night alone", &values.encode(), &text)?;
    let with = |place: usize, days: (u16, u16)| {
        let mut other = values.clone();
        (other.grants[place].first, other.grants[place].last) = days;
        other.encode()
    };
    for (relation, grant) in OF_OWNERS.into_iter().enumerate() {
        let refused = format!("refused 7 place {relation}\n");
        expect("the owner's the day after", &with(grant, (DAY + 1, u16::MAX)), &refused)?;
        expect("the owner's the day before", &with(grant, (0, DAY - 1)), &refused)?;
        let refused = format!("refused 6 place {grant}\n");
        expect("first day after last", &with(grant, (DAY + 1, DAY)), &refused)?;
    }
    // By any's, 1 does not see S and may not run the select: six steps fewer.
    let uncovered = text.replace("steps 76", "steps 70");
    expect("1 sees by any's", &with(OF_1, (0, DAY - 1)), &uncovered)?;
    twice(values)
}

/// The first grant once more at the end, on days after the night's or on this one.
fn twice(mut values: Values) -> Result<(), String> {
    let text = TEXT.replace(WITHOUT_USER, WITH_USER);
    let again = values.grants[0];
    let place = values.grants.len();
    values.header.grants += 1;
    values.grants.push(Grant { first: DAY + 1, last: u16::MAX, ..again });
    expect("a pair twice, side by side", &values.encode(), &text)?;
    values.grants[place].first = DAY;
    let refused = format!("refused 6 place {place}\n");
    expect("a pair twice, on one day", &values.encode(), &refused)
}

/// The night's values give its bytes, if there is room for them all.
fn written_again(bytes: &[u8]) -> Result<(), String> {
    let written = |room: usize| Values::of(bytes).and_then(|values| writer::verdict(&values, room));
    let (whole, short) = (written(bytes.len()), written(bytes.len() - 1));
    if whole.as_deref() == Ok(bytes) && short == refuse(15, 4) {
        return Ok(());
    }
    Err(format!("the sample night, written again: {whole:?}; with room short by one: {short:?}"))
}

/// The candidates, and why one is out.
fn figures(bytes: &[u8]) -> Result<(), String> {
    let why = text::why(&verdicts(&study(bytes), &[Question { node: 3, subject: 1 }])[0]);
    if why != "result 3 0,4\n" {
        return Err(format!("the sample night, why subject 1 is out of node 3: {why}"));
    }
    let candidates = study(bytes).map(|study| study.candidates);
    let step = vec![0, 2, 3, 4, 5];
    let printed = [vec![], vec![0, 1, 2, 3, 4, 5], vec![], step.clone(), step, vec![2, 4]];
    if candidates.as_ref().is_ok_and(|candidates| candidates[..] == printed) {
        Ok(())
    } else {
        Err(format!("the sample night, candidates: {candidates:?}"))
    }
}
