//! What each subject sees, and the tables it may have.

use crate::file::{File, Grant, Work};
use crate::sets::{Flags, Ties};

/// P and E of one subject: what it sees in clear and what sealed.
#[derive(Clone, PartialEq, Debug)]
pub struct View {
    pub clear: Flags,
    pub sealed: Flags,
}

/// The own grant in force that day, or else the one to any, or else nothing.
pub fn of_relation(grants: &[Grant], day: u16, relation: usize, subject: usize) -> View {
    let find = |to: Option<usize>| {
        let in_force = |grant: &&Grant| grant.days.has(day);
        let to_pair = |grant: &&Grant| grant.relation == relation && grant.subject == to;
        grants.iter().filter(in_force).find(to_pair)
    };
    match find(Some(subject)).or_else(|| find(None)) {
        Some(grant) => View { clear: grant.clear, sealed: grant.sealed },
        None => View { clear: Flags::NONE, sealed: Flags::NONE },
    }
}

fn of_subject(file: &File, day: u16, subject: usize) -> View {
    let mut view = View { clear: Flags::NONE, sealed: Flags::NONE };
    for relation in 0..file.relations.len() {
        let part = of_relation(&file.grants, day, relation, subject);
        view.clear = view.clear.or(&part.clear);
        view.sealed = view.sealed.or(&part.sealed);
    }
    view
}

/// What each subject sees on a day.
pub fn on(file: &File, day: u16) -> Vec<View> {
    (0..file.subjects).map(|subject| of_subject(file, day, subject)).collect()
}

#[derive(Clone)]
pub struct Profile {
    pub visible_clear: Flags,
    pub visible_sealed: Flags,
    pub implicit_clear: Flags,
    pub implicit_sealed: Flags,
    pub ties: Ties,
}

impl Profile {
    /// The operands' parts joined; of no operands, the empty profile.
    fn joined(operands: &[Profile]) -> Profile {
        let mut sum = Profile {
            visible_clear: Flags::NONE,
            visible_sealed: Flags::NONE,
            implicit_clear: Flags::NONE,
            implicit_sealed: Flags::NONE,
            ties: Ties::none(),
        };
        for operand in operands {
            sum.visible_clear = sum.visible_clear.or(&operand.visible_clear);
            sum.visible_sealed = sum.visible_sealed.or(&operand.visible_sealed);
            sum.implicit_clear = sum.implicit_clear.or(&operand.implicit_clear);
            sum.implicit_sealed = sum.implicit_sealed.or(&operand.implicit_sealed);
            sum.ties.join(&operand.ties);
        }
        sum
    }

    pub fn visible(&self) -> Flags {
        self.visible_clear.or(&self.visible_sealed)
    }

    /// The table with just the given ones of its visible attributes clear.
    pub fn with_clear(&self, clear: &Flags) -> Profile {
        let visible = self.visible();
        Profile {
            visible_clear: visible.and(clear),
            visible_sealed: visible.minus(clear),
            ..self.clone()
        }
    }

    fn test(&mut self, tested: &Flags) {
        self.implicit_clear = self.implicit_clear.or(&tested.and(&self.visible_clear));
        self.implicit_sealed = self.implicit_sealed.or(&tested.and(&self.visible_sealed));
    }

    pub fn result(work: &Work, operands: &[Profile]) -> Profile {
        let mut table = Profile::joined(operands);
        match *work {
            Work::Leaf { set, .. } => table.visible_clear = set,
            Work::Project { .. } | Work::Product { .. } => {}
            Work::SelectValue { x, .. } => table.test(&Flags::of(&[x])),
            Work::SelectPair { x, y, .. } | Work::Join { x, y, .. } => table.ties.tie(&[x, y]),
            Work::Aggregate { set, .. } | Work::Count { set, .. } => table.test(&set),
            Work::Function { set, .. } => table.ties.tie(&set.list()),
            Work::JoinPairs { ref pairs, .. } => {
                pairs.iter().for_each(|&(x, y)| table.ties.tie(&[x, y]));
            }
        }
        let after = work.visible_after(&table.visible());
        table.visible_clear = table.visible_clear.and(&after);
        table.visible_sealed = table.visible_sealed.and(&after);
        table
    }
}

pub fn may_have(view: &View, table: &Profile) -> bool {
    let either = view.clear.or(&view.sealed);
    let one_form = |set: &Flags| set.within(&view.clear) || set.within(&view.sealed);
    table.visible_clear.or(&table.implicit_clear).within(&view.clear)
        && table.visible_sealed.or(&table.implicit_sealed).within(&either)
        && table.ties.sets().iter().all(one_form)
}
