//! Files made for one thing that a check gets wrong when it carries sets from record to
//! record and one of them is not kept right: each with the verdict that it must bring.

use crate::dayfaults::{Maker, Shown, Shows, owner};
use crate::file::File;
use crate::generate::{Known, Made};
use crate::grantfaults::*;
use crate::nodefaults::*;
use crate::rng::Rng;
use crate::users;
use crate::valid::{self, Size};

#[derive(Clone, Copy)]
enum Make {
    By(Maker),
    /// A file with several trees.
    Torn(Maker),
    /// Grants of which the one in this place of the list is refused, or none is.
    Grants(&'static [Entry], Option<usize>),
    /// The grants that show an owner its own relation: its own and any's.
    Owner(&'static [Shown], &'static [Shown]),
}

pub struct Trial {
    pub name: &'static str,
    /// The refusal's, or 0 where the file is read.
    pub number: u64,
    /// The lowest version that can be made for it.
    from: usize,
    make: Make,
}

const fn any(number: u64, name: &'static str, make: Make) -> Trial {
    Trial { name, number, from: 1, make }
}

/// Likewise, of version 4 alone.
const fn dated(number: u64, name: &'static str, make: Make) -> Trial {
    Trial { name, number, from: 4, make }
}

use Make::{By, Grants, Owner, Torn};
use Shows::{All, Less, Lowest, Nothing, Others};
use To::{Any, One, Other};

/// A grant in force on the night's day alone.
const fn now(shows: Shows) -> Shown {
    (0, 0, shows)
}

pub const TRIALS: [Trial; 95] = [
    any(5, "an attribute of the relation before", By(shared_with_last)),
    any(5, "an attribute of an earlier relation, others between", By(shared_with_earlier)),
    any(5, "an attribute in none", By(left_over)),
    any(5, "an attribute in none, another in two", By(over_and_shared)),
    any(5, "an attribute not below a", By(past_attributes)),
    any(5, "an owner of 16 or more, there if cut", By(far_owner)),
    any(6, "the first subject that is not there", By(next_subject)),
    any(6, "a subject of 16 to 254, there if cut", By(far_subject)),
    any(6, "subject 254", By(subject_254)),
    any(6, "the first relation that is not there", By(next_relation)),
    any(6, "a relation of 16 or more, there if cut", By(far_relation)),
    any(6, "relation 255", By(relation_255)),
    any(6, "a pair again", Grants(&[of(One), of(One)], Some(1))),
    any(6, "a pair again, another subject's between", Grants(&BESIDE_OTHER, Some(2))),
    any(
        6,
        "a pair again, the subject's of another relation between",
        Grants(&BESIDE_SELF, Some(2)),
    ),
    any(6, "a pair again, any's between", Grants(&[of(One), of(Any), of(One)], Some(2))),
    any(6, "any's again", Grants(&[of(Any), of(Any)], Some(1))),
    any(6, "any's again, a subject's between", Grants(&[of(Any), of(One), of(Any)], Some(2))),
    any(6, "any's again, any's of another relation between", Grants(&BESIDE_ANY, Some(2))),
    any(6, "a pair three times", Grants(&[of(One), of(One), of(One)], Some(1))),
    any(6, "a pair again within another", Grants(&NESTED, Some(2))),
    any(6, "a pair again across another", Grants(&CROSSED, Some(2))),
    any(0, "a subject's on two relations", Grants(&[of(One), elsewhere(One)], None)),
    any(0, "two subjects' of one relation", Grants(&[of(One), of(Other)], None)),
    any(0, "own and any's", Grants(&[of(One), of(Any)], None)),
    any(0, "any's and own", Grants(&[of(Any), of(One)], None)),
    any(0, "two subjects' of two relations", Grants(&SQUARE, None)),
    dated(6, "of three the later two share a day", Grants(&LATER_TWO, Some(2))),
    dated(6, "of three the first and the last share a day", Grants(&ENDS, Some(2))),
    dated(6, "of three the first two share a day", Grants(&FIRST_TWO, Some(1))),
    dated(6, "of four the second and the last share a day", Grants(&SECOND, Some(3))),
    dated(6, "of four the third and the last share a day", Grants(&THIRD, Some(3))),
    dated(6, "of three the last shares days with both", Grants(&WITH_BOTH, Some(2))),
    dated(6, "of two subjects' on the same days one's share a day", Grants(&TWO_ROWS, Some(5))),
    dated(6, "any's share a day, own on the same days", Grants(&ANY_AMONG, Some(4))),
    dated(0, "two subjects' on the same days", Grants(&SAME_DAYS, None)),
    dated(0, "of two relations on the same days", Grants(&SAME_DAYS_ELSEWHERE, None)),
    dated(0, "own and any's on the same days", Grants(&SAME_DAYS_ANY, None)),
    any(7, "none the owner's, none any's", Owner(&[], &[])),
    any(7, "the owner's less, any's all", Owner(&[now(Less)], &[now(All)])),
    any(7, "the owner's nothing, any's all", Owner(&[now(Nothing)], &[now(All)])),
    any(7, "the owner's and any's all together", Owner(&[now(Lowest)], &[now(Others)])),
    any(7, "the owner's all but one", Owner(&[now(Others)], &[])),
    any(7, "any's all but one", Owner(&[], &[now(Others)])),
    any(7, "two owners without their views", By(two_blind)),
    any(6, "a pair again, also owners without their views", By(blind_and_again)),
    any(7, "owners without their views, also a node taken twice", By(blind_and_taken_twice)),
    any(0, "any's all, none the owner's", Owner(&[], &[now(All)])),
    any(0, "the owner's all, any's nothing", Owner(&[now(All)], &[now(Nothing)])),
    dated(7, "the owner's all together, a part over", Owner(&[now(Lowest), (-9, -1, Others)], &[])),
    dated(
        7,
        "the owner's all together, a part to come",
        Owner(&[(1, 9, Lowest), now(Others)], &[]),
    ),
    dated(7, "any's all together, a part over", Owner(&[], &[(-9, -1, Lowest), now(Others)])),
    dated(7, "the owner's part over, any's rest", Owner(&[(-9, -1, Lowest)], &[now(Others)])),
    dated(7, "the owner's less, its all over", Owner(&[now(Less), (-9, -1, All)], &[(-9, 9, All)])),
    dated(0, "the owner's all, its less over and to come", Owner(&ALL_NOW, &[(-9, 9, Less)])),
    dated(0, "the owner's nothing over, any's all", Owner(&[(-9, -1, Nothing)], &[now(All)])),
    any(8, "both operands the same", By(same_operands)),
    any(8, "a left operand taken again as left", By(|rng, file| taken_twice(rng, &file, 0, 0))),
    any(8, "a left operand taken again as right", By(|rng, file| taken_twice(rng, &file, 0, 1))),
    any(8, "a right operand taken again as left", By(|rng, file| taken_twice(rng, &file, 1, 0))),
    any(8, "a right operand taken again as right", By(|rng, file| taken_twice(rng, &file, 1, 1))),
    any(8, "a node taken three times", By(taken_thrice)),
    any(
        9,
        "no relation, later a node taken twice",
        By(|rng, file| later_taken_twice(rng, file, false)),
    ),
    any(
        10,
        "too much needed, later a node taken twice",
        By(|rng, file| later_taken_twice(rng, file, true)),
    ),
    any(8, "a node its own operand", By(|rng, file| operand(rng, &file, |_, node, _| node))),
    any(8, "the next node an operand", By(|rng, file| operand(rng, &file, |_, node, _| node + 1))),
    any(8, "an operand of 64 or more, right if cut", By(far_operand)),
    any(8, "a used operand left at 255", By(|rng, file| operand(rng, &file, |_, _, _| 255))),
    any(
        8,
        "an unused operand, a node taken before",
        By(|rng, file| unused_operand(rng, &file, false)),
    ),
    any(
        8,
        "an unused operand, the used one again",
        By(|rng, file| unused_operand(rng, &file, true)),
    ),
    any(8, "an operand of a leaf", By(operand_of_leaf)),
    any(8, "a leaf without a parent", Torn(|_, file| parentless(&file, 1, true))),
    any(8, "a step without a parent", Torn(|_, file| parentless(&file, 1, false))),
    any(8, "two without a parent, the lower a leaf", Torn(|_, file| parentless(&file, 2, true))),
    any(8, "two without a parent, the lower a step", Torn(|_, file| parentless(&file, 2, false))),
    any(8, "one without a parent, also a wrong price", Torn(parentless_priced)),
    any(10, "the last needs too much, also one without a parent", Torn(parentless_needing)),
    any(9, "the relation of the leaf before", By(|rng, file| relation_twice(rng, file, true))),
    any(9, "the relation of an earlier leaf", By(|rng, file| relation_twice(rng, file, false))),
    any(9, "a leaf's relation not there", By(|rng, file| relation_of_leaf(rng, &file, false))),
    any(9, "a leaf's relation there if cut", By(|rng, file| relation_of_leaf(rng, &file, true))),
    any(9, "what the node before shows", By(|rng, file| unseen(rng, file, shown_before))),
    any(
        9,
        "what the operand does not show any more",
        By(|rng, file| unseen(rng, file, shown_below)),
    ),
    any(9, "what no leaf shows", By(|rng, file| unseen(rng, file, shown_nowhere))),
    any(11, "an own link not 0", By(|rng, file| links(rng, file, |_, _, _| vec![]))),
    any(11, "an own link not 0, one before it over", By(|rng, file| links(rng, file, before_own))),
    any(11, "an own link not 0, one after it over", By(|rng, file| links(rng, file, after_own))),
    any(
        11,
        "an own link not 0, one in another row over",
        By(|rng, file| links(rng, file, in_another_row)),
    ),
    any(11, "a leaf's price not 0", By(|rng, file| rows(rng, file, true, false))),
    any(11, "a leaf's price not 0, a step's over", By(|rng, file| rows(rng, file, true, true))),
    any(11, "two of a step's row over", By(two_of_a_row)),
    any(11, "a step's over, also an own link not 0", By(step_and_link)),
    any(0, "all prices at the most", By(all_at_the_most)),
    any(0, "links alone decide", By(|rng, file| links_decide(rng, file, 9))),
    any(0, "links alone decide, many the same", By(|rng, file| links_decide(rng, file, 1))),
];

/// What stands between two of one pair.
const BESIDE_OTHER: [Entry; 3] = [of(One), of(Other), of(One)];
const BESIDE_SELF: [Entry; 3] = [of(One), elsewhere(One), of(One)];
const BESIDE_ANY: [Entry; 3] = [of(Any), elsewhere(Any), of(Any)];
/// Two pairs, each twice.
const NESTED: [Entry; 4] = [of(One), of(Other), of(Other), of(One)];
const CROSSED: [Entry; 4] = [of(One), elsewhere(Other), of(One), elsewhere(Other)];
const SQUARE: [Entry; 4] = [of(One), elsewhere(Other), elsewhere(One), of(Other)];

/// One pair's grants, of which some share a day.
const LATER_TWO: [Entry; 3] = [on(of(One), 0, 9), on(of(One), 20, 30), on(of(One), 30, 40)];
const ENDS: [Entry; 3] = [on(of(One), 10, 19), on(of(One), 20, 30), on(of(One), 0, 10)];
const FIRST_TWO: [Entry; 3] = [on(of(One), 0, 9), on(of(One), 9, 30), on(of(One), 40, 50)];
const WITH_BOTH: [Entry; 3] = [on(of(One), 0, 9), on(of(One), 20, 30), on(of(One), 5, 25)];
const SECOND: [Entry; 4] =
    [on(of(One), 0, 9), on(of(One), 20, 30), on(of(One), 40, 50), on(of(One), 25, 26)];
const THIRD: [Entry; 4] =
    [on(of(One), 0, 9), on(of(One), 20, 30), on(of(One), 40, 50), on(of(One), 50, 60)];
const TWO_ROWS: [Entry; 6] = [
    on(of(One), 0, 9),
    on(of(Other), 0, 9),
    on(elsewhere(One), 0, 9),
    on(of(One), 10, 19),
    on(of(Other), 10, 19),
    on(of(One), 19, 30),
];
const ANY_AMONG: [Entry; 5] = [
    on(of(Any), 0, 9),
    on(of(One), 0, 9),
    on(of(Any), 20, 30),
    on(of(One), 20, 30),
    on(of(Any), 9, 12),
];
/// Grants of several pairs on the same days, of none two that share one.
const SAME_DAYS: [Entry; 4] =
    [on(of(One), 0, 9), on(of(Other), 0, 9), on(of(Other), 10, 30), on(of(One), 10, 30)];
const SAME_DAYS_ELSEWHERE: [Entry; 4] =
    [on(of(One), 0, 9), on(elsewhere(One), 0, 9), on(elsewhere(One), 10, 30), on(of(One), 10, 30)];
const SAME_DAYS_ANY: [Entry; 4] =
    [on(of(One), 0, 9), on(of(Any), 0, 9), on(of(Any), 10, 30), on(of(One), 10, 30)];
/// What shows an owner all that night, and less before and after it.
const ALL_NOW: [Shown; 3] = [(-9, -1, Less), (0, 0, All), (1, 9, Less)];

/// Those that are read bring many calls, so they are small.
const READ: [Size; 4] = [Size::Tiny, Size::Small, Size::Small, Size::Small];
/// Among those that are refused are some with every count at its limit.
const REFUSED: [Size; 8] = [
    Size::Tiny,
    Size::Small,
    Size::Small,
    Size::Joined,
    Size::Medium,
    Size::Broad,
    Size::Longest,
    Size::Longest,
];

/// A valid file, or one of several trees, that a trial may be made of.
fn base(rng: &mut Rng, trial: &Trial) -> File {
    let size = if trial.number == 0 { rng.pick(&READ) } else { rng.pick(&REFUSED) };
    let version = trial.from.max(valid::version(rng));
    let mut file = valid::file(rng, size, version, matches!(trial.make, Torn(_)));
    if version > 1 && trial.number == 0 {
        users::name_allowed(rng, &mut file);
    }
    file
}

/// A file made for the trial that this number has.
pub fn file(rng: &mut Rng, trial: usize) -> (Vec<u8>, Known) {
    let Trial { number, make, .. } = TRIALS[trial];
    loop {
        let file = base(rng, &TRIALS[trial]);
        let made = match make {
            By(make) | Torn(make) => make(rng, file),
            Grants(list, refused) => entries(rng, file, list, refused),
            Owner(own, any) => owner(rng, file, own, any),
        };
        if let Some((bytes, place)) = made {
            return (bytes, Known::of(Made::Carried(trial), number, place));
        }
    }
}
