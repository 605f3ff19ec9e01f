//! All that the calls of the library give for one case, refused or not.

use crate::generate::Case;
use crate::planner::{Answer, Rooms, Study};
use crate::reading::Refusal;
use crate::sets::Flags;
use crate::why::{Question, Reason, Verdict};

/// Elements kept beyond each room, which no call may touch.
const GUARD: usize = 8;

#[derive(PartialEq, Debug)]
pub struct Outcome {
    pub code: u64,
    pub choice: Vec<u8>,
    pub plan: Vec<u64>,
    pub keys: Vec<u64>,
    pub total: u64,
    pub steps: u32,
}

/// What a question brings, and all that it leaves in the numbers passed.
#[derive(PartialEq, Debug)]
pub struct Told {
    pub code: u64,
    pub table: u8,
    pub condition: u8,
    pub set: u64,
}

#[derive(PartialEq, Debug)]
pub struct Record {
    pub check: u64,
    /// Code, start and length.
    pub grants: [u64; 3],
    /// Of each node asked: code and set.
    pub candidates: Vec<(u64, u16)>,
    pub whys: Vec<Told>,
    pub cheapest: Outcome,
    pub offered: Outcome,
}

impl Outcome {
    /// What a call that writes nothing leaves.
    pub fn untouched(rooms: &Rooms, fill: u8) -> Outcome {
        let wide = u64::from_ne_bytes([fill; 8]);
        Outcome {
            code: 0,
            choice: vec![fill; rooms.choice + GUARD],
            plan: vec![wide; rooms.plan + GUARD],
            keys: vec![wide; rooms.keys + GUARD],
            total: wide,
            steps: wide as u32,
        }
    }

    fn expected(
        study: &Result<Study, Refusal>,
        case: &Case,
        ask: impl Fn(&Study) -> Result<Answer, Refusal>,
    ) -> Outcome {
        let mut outcome = Outcome::untouched(&case.rooms, case.fill);
        match study.as_ref().map_err(|refusal| *refusal).and_then(|s| Ok((s, ask(s)?))) {
            Ok((study, answer)) => outcome.fill_in(study, &answer),
            Err(refusal) => outcome.code = code(&refusal),
        }
        outcome
    }

    fn fill_in(&mut self, study: &Study, answer: &Answer) {
        let Answer { choice, keys, total, steps } = answer;
        // Only the call that finds a choice is lent room for it.
        if let Some(steps) = *steps {
            self.steps = steps as u32;
            for (node, &subject) in choice.iter().enumerate() {
                self.choice[node] = subject as u8;
            }
        }
        for node in 0..choice.len() {
            self.plan[2 * node] = study.plan.opens[node].bits();
            self.plan[2 * node + 1] = study.plan.seals[node].bits();
        }
        for attribute in 0..study.file.attributes {
            self.keys[2 * attribute] = 64;
            self.keys[2 * attribute + 1] = 0;
        }
        for key in keys {
            for attribute in &key.attributes {
                self.keys[2 * attribute] = key.attributes[0] as u64;
                self.keys[2 * attribute + 1] = Flags::of(&key.holders).bits();
            }
        }
        self.total = *total;
    }
}

impl Told {
    /// What a call that writes nothing leaves.
    pub fn untouched(fill: u8) -> Told {
        Told { code: 0, table: fill, condition: fill, set: u64::from_ne_bytes([fill; 8]) }
    }

    fn expected(verdict: &Verdict, fill: u8) -> Told {
        match verdict {
            Err(refusal) => Told { code: code(refusal), ..Told::untouched(fill) },
            Ok(None) => Told { code: 0, table: 0, condition: 0, set: 0 },
            Ok(Some(Reason { table, condition, attributes })) => Told {
                code: 0,
                table: 1 + *table as u8,
                condition: *condition as u8,
                set: Flags::of(attributes).bits(),
            },
        }
    }
}

impl Record {
    /// How the records of one case differ, if they do: of many questions the
    /// first that is answered otherwise.
    pub fn difference(&self, given: &Record, questions: &[Question]) -> Option<String> {
        let both = self.whys.iter().zip(&given.whys);
        let other = questions.iter().zip(both).find(|(_, (expected, given))| expected != given);
        if let Some((asked, (expected, given))) = other {
            return Some(format!("why {asked:?}\nexpected {expected:?}\ngiven    {given:?}"));
        }
        (self != given).then(|| format!("expected {self:?}\ngiven    {given:?}"))
    }
}

pub fn code(refusal: &Refusal) -> u64 {
    refusal.number << 32 | refusal.place
}

pub fn expected(study: &Result<Study, Refusal>, verdicts: &[Verdict], case: &Case) -> Record {
    let untouched = u64::from_ne_bytes([case.fill; 8]);
    let candidates = |&node: &usize| match study {
        Err(refusal) => (code(refusal), untouched as u16),
        Ok(study) => {
            let set = study.candidates.get(node).map_or(0, |list| Flags::of(list).bits());
            (0, set as u16)
        }
    };
    let grants = match study {
        Err(refusal) => [code(refusal), untouched, untouched],
        Ok(study) => {
            let (from, length) = study.grant_part();
            [0, from as u64, length as u64]
        }
    };
    Record {
        check: study.as_ref().err().map_or(0, code),
        grants,
        candidates: case.asked.iter().map(candidates).collect(),
        whys: verdicts.iter().map(|verdict| Told::expected(verdict, case.fill)).collect(),
        cheapest: Outcome::expected(study, case, |study| study.cheapest(&case.rooms)),
        offered: Outcome::expected(study, case, |study| study.offered(&case.offer, &case.rooms)),
    }
}
