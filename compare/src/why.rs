//! Why a subject is out of a step: the first thing that fails. Read straight
//! from the text, attribute by attribute: neither the planner's profiles nor
//! its candidates are used, so that they can be held against it.

use crate::days::Days;
use crate::file::{File, Grant, Node, Work};
use crate::planner::Study;
use crate::reading::Refusal;

/// What is asked: a node and a subject, there or not.
#[derive(Clone, Copy, Debug)]
pub struct Question {
    pub node: u32,
    pub subject: u32,
}

/// The tables in the order in which they are looked at.
#[derive(Clone, Copy, PartialEq, Eq, Debug)]
pub enum Table {
    Left,
    Right,
    Result,
}

/// What fails first: conditions 1 and 2 name one attribute, condition 3 a whole
/// tied set, rising.
#[derive(Clone, PartialEq, Eq, Debug)]
pub struct Reason {
    pub table: Table,
    pub condition: usize,
    pub attributes: Vec<usize>,
}

/// No reason is a candidate.
pub type Verdict = Result<Option<Reason>, Refusal>;

#[derive(Clone, Copy, PartialEq, Eq)]
enum Form {
    Clear,
    Sealed,
}

/// How a subject sees each attribute, if at all.
type Sight = Vec<Option<Form>>;

/// What a table holds of one attribute: its column, and the tests in its past.
#[derive(Clone, Copy, Default)]
struct Held {
    column: Option<Form>,
    tested_clear: bool,
    tested_sealed: bool,
}

/// A table by attributes, with its tied sets, each of them rising.
#[derive(Clone)]
struct Contents {
    held: Vec<Held>,
    tied: Vec<Vec<usize>>,
}

/// Of each node the tables that are looked at, none for a leaf, and of each
/// subject what it sees.
struct Reasons {
    steps: Vec<Vec<(Table, Contents)>>,
    sights: Vec<Sight>,
}

/// The own grant for a relation, or else the one to any, or else nothing.
/// The grant by which a subject sees a relation, if there is one. Looked for from the
/// last record to the first, among those that have begun and are not over.
fn in_force(file: &File, relation: usize, subject: usize) -> Option<&Grant> {
    let mut to_any = None;
    for grant in file.grants.iter().rev().filter(|grant| grant.relation == relation) {
        let Days { first, last } = grant.days;
        if (first..=last).contains(&file.nights_day()) {
            match grant.subject {
                Some(one) if one == subject => return Some(grant),
                Some(_) => {}
                None => to_any = Some(grant),
            }
        }
    }
    to_any
}

fn sight(file: &File, subject: usize) -> Sight {
    let mut sight = vec![None; file.attributes];
    for relation in 0..file.relations.len() {
        let Some(grant) = in_force(file, relation, subject) else { continue };
        for (attribute, seen) in sight.iter_mut().enumerate() {
            if grant.clear.has(attribute) {
                *seen = Some(Form::Clear);
            } else if grant.sealed.has(attribute) {
                *seen = Some(Form::Sealed);
            }
        }
    }
    sight
}

/// Whether a column that a step has before it is there after it.
fn stays(work: &Work, attribute: usize) -> bool {
    match *work {
        Work::Leaf { set, .. } | Work::Project { set, .. } | Work::Count { set, .. } => {
            set.has(attribute)
        }
        Work::Aggregate { set, x, .. } => set.has(attribute) || attribute == x,
        Work::Function { set, x, .. } => !set.has(attribute) || attribute == x,
        Work::SelectValue { .. }
        | Work::SelectPair { .. }
        | Work::Product { .. }
        | Work::Join { .. }
        | Work::JoinPairs { .. } => true,
    }
}

impl Contents {
    fn joined(attributes: usize, operands: &[Contents]) -> Contents {
        let mut sum = Contents { held: vec![Held::default(); attributes], tied: Vec::new() };
        for operand in operands {
            for (into, from) in sum.held.iter_mut().zip(&operand.held) {
                into.column = into.column.or(from.column);
                into.tested_clear |= from.tested_clear;
                into.tested_sealed |= from.tested_sealed;
            }
            for set in &operand.tied {
                sum.tie(set.clone());
            }
        }
        sum
    }

    /// Ties attributes, and with them every tied set that they meet.
    fn tie(&mut self, mut members: Vec<usize>) {
        let (met, apart): (Vec<_>, Vec<_>) =
            self.tied.drain(..).partition(|set| set.iter().any(|a| members.contains(a)));
        members.extend(met.into_iter().flatten());
        members.sort();
        members.dedup();
        self.tied = apart;
        self.tied.push(members);
    }

    fn test(&mut self, attribute: usize) {
        let held = &mut self.held[attribute];
        match held.column {
            Some(Form::Clear) => held.tested_clear = true,
            Some(Form::Sealed) => held.tested_sealed = true,
            None => unreachable!("what a step tests is visible to it"),
        }
    }

    fn least_view(&self, step: &Node) -> Contents {
        let mut view = self.clone();
        for (attribute, held) in view.held.iter_mut().enumerate() {
            let form = if step.needed.has(attribute) { Form::Clear } else { Form::Sealed };
            held.column = held.column.and(Some(form));
        }
        view
    }

    fn result(work: &Work, attributes: usize, operands: &[Contents]) -> Contents {
        let mut table = Contents::joined(attributes, operands);
        match *work {
            Work::Leaf { .. } => {
                table.held.iter_mut().for_each(|held| held.column = Some(Form::Clear))
            }
            Work::Project { .. } | Work::Product { .. } => {}
            Work::SelectValue { x, .. } => table.test(x),
            Work::Aggregate { set, .. } | Work::Count { set, .. } => {
                set.list().into_iter().for_each(|attribute| table.test(attribute));
            }
            Work::SelectPair { x, y, .. } | Work::Join { x, y, .. } => table.tie(vec![x, y]),
            Work::Function { set, .. } => table.tie(set.list()),
            Work::JoinPairs { ref pairs, .. } => {
                pairs.iter().for_each(|&(x, y)| table.tie(vec![x, y]));
            }
        }
        for (attribute, held) in table.held.iter_mut().enumerate() {
            held.column = held.column.filter(|_| stays(work, attribute));
        }
        table
    }

    /// The first condition that fails, and what it names.
    fn fails(&self, sight: &Sight) -> Option<(usize, Vec<usize>)> {
        let lowest = |offends: fn(&Held, Option<Form>) -> bool| {
            (0..sight.len()).find(|&attribute| offends(&self.held[attribute], sight[attribute]))
        };
        let clear_unseen = |held: &Held, seen| {
            let clear = held.column == Some(Form::Clear) || held.tested_clear;
            clear && seen != Some(Form::Clear)
        };
        let sealed_unseen = |held: &Held, seen: Option<Form>| {
            let sealed = held.column == Some(Form::Sealed) || held.tested_sealed;
            sealed && seen.is_none()
        };
        let torn = |set: &&Vec<usize>| {
            let all = |form: Form| set.iter().all(|&attribute| sight[attribute] == Some(form));
            !all(Form::Clear) && !all(Form::Sealed)
        };
        if let Some(attribute) = lowest(clear_unseen) {
            return Some((1, vec![attribute]));
        }
        if let Some(attribute) = lowest(sealed_unseen) {
            return Some((2, vec![attribute]));
        }
        let first = self.tied.iter().filter(torn).min_by_key(|set| set[0])?;
        Some((3, first.clone()))
    }
}

impl Reasons {
    fn of(file: &File) -> Reasons {
        let mut results: Vec<Contents> = Vec::new();
        let mut steps = Vec::new();
        for node in &file.nodes {
            let views: Vec<Contents> =
                node.work.children().map(|child| results[child].least_view(node)).collect();
            let result = Contents::result(&node.work, file.attributes, &views);
            let mut looked: Vec<(Table, Contents)> =
                [Table::Left, Table::Right].into_iter().zip(views).collect();
            if !node.work.is_leaf() {
                looked.push((Table::Result, result.clone()));
            }
            steps.push(looked);
            results.push(result);
        }
        let sights = (0..file.subjects).map(|subject| sight(file, subject)).collect();
        Reasons { steps, sights }
    }

    fn verdict(&self, asked: Question) -> Verdict {
        let step = self.steps.get(asked.node as usize).filter(|tables| !tables.is_empty());
        let (Some(tables), Some(sight)) = (step, self.sights.get(asked.subject as usize)) else {
            return Err(Refusal { number: 16, place: asked.node.into() });
        };
        Ok(tables.iter().find_map(|(table, contents)| {
            let (condition, attributes) = contents.fails(sight)?;
            Some(Reason { table: *table, condition, attributes })
        }))
    }
}

/// The answers to questions about one file.
pub fn verdicts(study: &Result<Study, Refusal>, questions: &[Question]) -> Vec<Verdict> {
    match study {
        Err(refusal) => vec![Err(*refusal); questions.len()],
        Ok(study) => {
            let reasons = Reasons::of(&study.file);
            questions.iter().map(|&asked| reasons.verdict(asked)).collect()
        }
    }
}
