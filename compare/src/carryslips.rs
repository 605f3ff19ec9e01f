//! Known ways to go wrong over what is carried from record to record, over the holders
//! of keys by what each subject touches, and over links. A case for which one of them
//! gives another verdict, other holders or another choice would show it: such are counted.

use crate::carried::{Slip, verdict};
use crate::choice::{self, Options};
use crate::file::File;
use crate::planner::{Answer, Key, Study};
use crate::reading::Refusal;
use crate::values::Values;

/// Those that another verdict shows.
pub const OF_VERDICT: [(Slip, &str); 33] = [
    (Slip::AttributesOfTheLast, "attributes of the relation before alone kept"),
    (Slip::NothingLeftOver, "attributes left over let through"),
    (Slip::SubjectsOfTheLast, "a pair again let through, another subject's between"),
    (Slip::SubjectsOfOneRelation, "one set of subjects kept for all relations"),
    (Slip::SubjectsOfAnother, "the set of subjects of another relation asked"),
    (Slip::AnyAs15, "any kept as subject 15"),
    (Slip::SubjectCut, "a grant's subject cut to 4 bits"),
    (Slip::RelationCut, "a grant's relation cut to 4 bits"),
    (Slip::FirstOfPair, "a shared day looked for in the pair's first grant alone"),
    (Slip::LastOfPair, "a shared day looked for in the pair's last grant alone"),
    (Slip::OutOfForce, "a grant out of force counted for the owner"),
    (Slip::OutOfForceHides, "an own grant out of force hides any's from the owner"),
    (Slip::OwnAndAny, "own and any's joined for the owner"),
    (Slip::OwnElsewhereHides, "an own grant of another relation hides any's from the owner"),
    (Slip::OwnAlone, "any's not looked at for the owner"),
    (Slip::AnyAlone, "own not looked at for the owner"),
    (Slip::TakenTwice, "a child taken twice let through"),
    (Slip::TakenLeft, "a right operand taken again let through"),
    (Slip::TakenRight, "a left operand taken again let through"),
    (Slip::BothTheSame, "two operands the same let through"),
    (Slip::OperandCut, "an operand cut to 6 bits"),
    (Slip::XAsOperand, "x kept as an operand taken"),
    (Slip::RelationTwice, "a relation taken twice let through"),
    (Slip::RelationOfTheLast, "the relation of the leaf before alone kept"),
    (Slip::XAsRelation, "a step's x kept as a relation taken"),
    (Slip::LeafRelationCut, "a leaf's relation cut to 4 bits"),
    (Slip::HighestOrphan, "the highest node without a parent named"),
    (Slip::NoOrphan, "a node without a parent let through"),
    (Slip::SeenBefore, "what the node before shows taken for what the operand shows"),
    (Slip::OwnLink, "a link to itself not asked to be 0"),
    (Slip::OwnLinkLate, "a link to itself asked after its row"),
    (Slip::LeafPrice, "a leaf's prices not asked to be 0"),
    (Slip::LinksFirst, "link prices asked before step prices"),
];

/// Those that other holders of keys show.
pub const OF_HOLDERS: [&str; 5] = [
    "what the next subject touches asked",
    "what lower subjects touch kept for the next",
    "what a subject's last node touches alone kept",
    "openings left out of what is touched",
    "sealings left out of what is touched",
];

/// Those that another cheapest choice shows.
pub const OF_CHOICE: [&str; 2] = ["links' prices turned", "links' prices left out"];
/// Up to so many nodes the other choices are looked for.
const FEW_NODES: usize = 12;

/// Of each slip, whether it gives another verdict than there is.
pub fn shown_by_verdict(values: &Values, given: Result<(), Refusal>) -> [bool; OF_VERDICT.len()] {
    OF_VERDICT.map(|(slip, _)| verdict(values, Some(slip)) != given)
}

/// What each subject opens, seals and, as the user, takes sealed at the delivery.
pub struct Touched {
    pub opens: Vec<u64>,
    pub seals: Vec<u64>,
    pub delivered: Vec<u64>,
    /// What the last node of each touches.
    last: Vec<u64>,
}

impl Touched {
    pub fn by(study: &Study, choice: &[usize]) -> Touched {
        let none = vec![0; study.file.subjects];
        let mut touched = Touched {
            opens: none.clone(),
            seals: none.clone(),
            delivered: none.clone(),
            last: none,
        };
        for (node, &subject) in choice.iter().enumerate() {
            let [opens, seals] = [study.plan.opens[node], study.plan.seals[node]];
            touched.opens[subject] |= opens.bits();
            touched.seals[subject] |= seals.bits();
            touched.last[subject] = opens.bits() | seals.bits();
        }
        if let Some(user) = study.file.user {
            touched.delivered[user] = study.handed_sealed.bits();
        }
        touched
    }

    fn all(&self, subject: usize) -> u64 {
        self.opens[subject] | self.seals[subject] | self.delivered[subject]
    }

    /// Whether each key has just the holders for whom what is asked of them meets it.
    fn holds(&self, keys: &[Key], asked: impl Fn(usize) -> u64) -> bool {
        let asked: Vec<u64> = (0..self.opens.len()).map(asked).collect();
        keys.iter().all(|key| {
            let group = group(key);
            let holds = |subject: &usize| asked[*subject] & group != 0;
            (0..asked.len()).filter(holds).eq(key.holders.iter().copied())
        })
    }

    /// The keys by what each touches are those given; of each slip, whether it gives
    /// others.
    pub fn shown(&self, keys: &[Key]) -> Result<[bool; OF_HOLDERS.len()], String> {
        if !self.holds(keys, |subject| self.all(subject)) {
            return Err(format!("others hold keys by what they touch than {keys:?}"));
        }
        let subjects = self.opens.len();
        let [opens, seals, delivered] = [&self.opens, &self.seals, &self.delivered];
        Ok([
            self.holds(keys, |subject| self.all((subject + 1) % subjects)),
            self.holds(keys, |subject| (0..=subject).fold(0, |sum, one| sum | self.all(one))),
            self.holds(keys, |subject| self.last[subject] | delivered[subject]),
            self.holds(keys, |subject| seals[subject] | delivered[subject]),
            self.holds(keys, |subject| opens[subject] | delivered[subject]),
        ]
        .map(|same| !same))
    }

    /// Of a key, whether somebody holds it who only opens, only seals, or only takes the
    /// delivery, and whether somebody touches what other keys seal and not this one's.
    pub fn sorts(&self, key: &Key) -> [bool; 4] {
        let group = group(key);
        let has = |touched: &[u64], subject: usize| touched[subject] & group != 0;
        let only = |at: usize| {
            key.holders.iter().any(|&subject| {
                let each = [&self.opens, &self.seals, &self.delivered];
                let met = each.map(|touched| has(touched, subject));
                (0..3).all(|other| met[other] == (other == at))
            })
        };
        let elsewhere = |subject: usize| self.all(subject) != 0 && self.all(subject) & group == 0;
        [only(0), only(1), only(2), (0..self.opens.len()).any(elsewhere)]
    }
}

fn group(key: &Key) -> u64 {
    key.attributes.iter().fold(0, |sum, attribute| sum | 1 << attribute)
}

/// Whether each step has one price for all that may run it, and some has several.
pub fn even_steps(file: &File, options: &Options) -> bool {
    let even = |(prices, subjects): (&Vec<u64>, &Vec<usize>)| {
        subjects.iter().all(|&subject| prices[subject] == prices[subjects[0]])
    };
    file.step_prices.iter().zip(options).all(even) && options.iter().any(|list| list.len() > 1)
}

/// The choices that slips over links give, of files of few nodes.
pub fn shown_by_choice(
    study: &Study,
    answer: &Answer,
    options: &Options,
) -> [bool; OF_CHOICE.len()] {
    if study.file.nodes.len() > FEW_NODES {
        return [false; OF_CHOICE.len()];
    }
    let shows = |link: &dyn Fn(usize, usize) -> u64| {
        let mut file = study.file.clone();
        for (from, row) in file.link_prices.iter_mut().enumerate() {
            row.iter_mut().enumerate().for_each(|(to, price)| *price = link(from, to));
        }
        choice::by_recursion(&file, options).choice() != answer.choice
    };
    [shows(&|from, to| study.file.link_prices[to][from]), shows(&|_, _| 0)]
}
