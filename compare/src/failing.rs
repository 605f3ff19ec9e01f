//! All that fails of what a candidate must pass, by the planner's profiles:
//! each table, each condition, all that offends. The first of it is the reason.

use crate::planner::Study;
use crate::reading::Refusal;
use crate::sets::Flags;
use crate::views::{Profile, View};
use crate::why::{Question, Reason, Table, Verdict};

/// A condition that fails in a table. Of conditions 1 and 2 each attribute that
/// offends stands alone, of condition 3 tied sets do, by their first members
/// rising. `visible` has the columns that the condition is about.
pub struct Failing {
    pub table: Table,
    pub condition: usize,
    pub offending: Vec<Vec<usize>>,
    pub visible: Flags,
}

impl Failing {
    pub fn naming(&self, attributes: &[usize]) -> Reason {
        Reason { table: self.table, condition: self.condition, attributes: attributes.to_vec() }
    }

    pub fn reason(&self) -> Reason {
        self.naming(&self.offending[0])
    }
}

/// A table of a step, its tied sets by their first members rising.
struct Looked<'a> {
    table: Table,
    profile: &'a Profile,
    tied: Vec<Flags>,
}

/// The tables of each step, and none of a leaf.
pub struct Steps<'a> {
    study: &'a Study,
    looked: Vec<Vec<Looked<'a>>>,
}

impl Looked<'_> {
    fn failing(&self, view: &View) -> impl Iterator<Item = Failing> {
        let Profile { visible_clear, visible_sealed, implicit_clear, implicit_sealed, .. } =
            self.profile;
        let alone = |set: Flags| set.list().into_iter().map(|attribute| vec![attribute]).collect();
        let torn = |set: &&Flags| !set.within(&view.clear) && !set.within(&view.sealed);
        let seen = view.clear.or(&view.sealed);
        let conditions: [(Vec<Vec<usize>>, Flags); 3] = [
            (alone(visible_clear.or(implicit_clear).minus(&view.clear)), *visible_clear),
            (alone(visible_sealed.or(implicit_sealed).minus(&seen)), *visible_sealed),
            (self.tied.iter().filter(torn).map(Flags::list).collect(), self.profile.visible()),
        ];
        let table = self.table;
        (1..).zip(conditions).filter_map(move |(condition, (offending, visible))| {
            let fails = !offending.is_empty();
            fails.then_some(Failing { table, condition, offending, visible })
        })
    }
}

fn looked(table: Table, profile: &Profile) -> Looked<'_> {
    let mut tied = profile.ties.sets();
    tied.sort_by_key(Flags::list);
    Looked { table, profile, tied }
}

fn of_node(tables: &[Profile]) -> Vec<Looked<'_>> {
    match tables {
        [left, result] => vec![looked(Table::Left, left), looked(Table::Result, result)],
        [left, right, result] => vec![
            looked(Table::Left, left),
            looked(Table::Right, right),
            looked(Table::Result, result),
        ],
        _ => Vec::new(),
    }
}

impl Steps<'_> {
    pub fn of(study: &Study) -> Steps<'_> {
        Steps { study, looked: study.tables.iter().map(|tables| of_node(tables)).collect() }
    }

    /// What fails for a subject at a step, in the order in which it is looked
    /// at; `None` where the node is no step or the subject is not there.
    fn failing(&self, asked: Question) -> Option<Vec<Failing>> {
        let view = self.study.views.get(asked.subject as usize)?;
        let looked = self.looked.get(asked.node as usize).filter(|looked| !looked.is_empty())?;
        Some(looked.iter().flat_map(|table| table.failing(view)).collect())
    }

    /// Holds an answer against the candidates and against all that fails, which
    /// is handed out.
    pub fn checked(&self, asked: Question, given: &Verdict) -> Result<Vec<Failing>, String> {
        let told = |what: &str| Err(format!("why {asked:?} gives {given:?}, {what}"));
        let (failing, reason) = match (self.failing(asked), given) {
            (Some(failing), Ok(reason)) => (failing, reason),
            (None, Err(refusal))
                if *refusal == (Refusal { number: 16, place: asked.node.into() }) =>
            {
                return Ok(Vec::new());
            }
            (Some(_), Err(_)) => return told("but step and subject are there"),
            (None, _) => return told("but no such step or no such subject is there"),
        };
        let candidates = &self.study.candidates[asked.node as usize];
        if reason.is_none() != candidates.contains(&(asked.subject as usize)) {
            return told(&format!("with the candidates {candidates:?}"));
        }
        if *reason != failing.first().map(Failing::reason) {
            let all: Vec<Reason> = failing.iter().map(Failing::reason).collect();
            return told(&format!("but there fail {all:?}"));
        }
        match reason {
            Some(Reason { table: Table::Result, condition: 1 | 2, .. }) => {
                told("which never comes up")
            }
            _ => Ok(failing),
        }
    }
}
