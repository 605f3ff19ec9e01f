//! Tables over least views, candidates, and why a subject is none.

use super::reading::Night;
use super::{NODES, SUBJECTS, View, lowest, members, within};

#[derive(Clone, Copy, Default)]
pub struct Table {
    pub clear: u64,
    pub sealed: u64,
    implicit_clear: u64,
    implicit_sealed: u64,
    /// From where to where its tied sets, which are disjoint, stand among all tables'.
    tied: (usize, usize),
}

impl Table {
    /// Those of the needed attributes that are visible in clear, the others sealed.
    fn least_view(&self, needed: u64) -> Table {
        let visible = self.clear | self.sealed;
        Table { clear: visible & needed, sealed: visible & !needed, ..*self }
    }

    fn merge(&mut self, other: &Table) {
        self.clear |= other.clear;
        self.sealed |= other.sealed;
        self.implicit_clear |= other.implicit_clear;
        self.implicit_sealed |= other.implicit_sealed;
    }

    /// All that must be seen in clear, and all that must be seen in some form.
    fn shown(&self) -> (u64, u64) {
        (self.clear | self.implicit_clear, self.sealed | self.implicit_sealed)
    }

    /// Conditions 1 and 2.
    fn is_shown_to(&self, view: &View) -> bool {
        let (clear, sealed) = self.shown();
        within(clear, view.clear) && within(sealed, view.clear | view.sealed)
    }
}

/// Of the nodes that were asked for; the others' are blank.
pub struct Tables {
    each: [Table; NODES],
    tied: Vec<u64>,
}

/// Ties one more set to those from a place on: every one that it meets is merged with
/// it.
fn tie(tied: &mut Vec<u64>, from: usize, mut set: u64) {
    let mut kept = from;
    for at in from..tied.len() {
        let other = tied[at];
        if other & set == 0 {
            tied[kept] = other;
            kept += 1;
        } else {
            set |= other;
        }
    }
    tied.truncate(kept);
    tied.push(set);
}

impl Night<'_> {
    /// The node and all that its table is worked out from.
    pub fn below(&self, node: usize) -> u64 {
        let mut below = 1 << node;
        for i in (0..=node).rev() {
            if below >> i & 1 == 1 {
                below = self.nodes[i].children().fold(below, |set, child| set | 1 << child);
            }
        }
        below
    }

    /// The tables of these nodes, with whom all below them are.
    pub fn tables(&self, nodes: u64) -> Tables {
        let each = [Table::default(); NODES];
        let mut tables = Tables { each, tied: Vec::with_capacity(8 * NODES) };
        for i in members(nodes) {
            tables.each[i] = tables.table(self, i);
        }
        tables
    }
}

impl Tables {
    pub fn of(&self, node: usize) -> &Table {
        &self.each[node]
    }

    pub fn tied(&self, table: &Table) -> &[u64] {
        &self.tied[table.tied.0..table.tied.1]
    }

    /// A node's table, once its operands' are there.
    fn table(&mut self, night: &Night, i: usize) -> Table {
        let node = &night.nodes[i];
        let mut table = Table::default();
        if node.is_leaf() {
            table.clear = node.set;
            return table;
        }
        let from = self.tied.len();
        for child in node.children() {
            let operand = self.each[child].least_view(node.needed);
            table.merge(&operand);
            // the operands' relations differ, so no set of one meets one of the other
            self.tied.extend_from_within(operand.tied.0..operand.tied.1);
        }
        table.implicit_clear |= node.tested() & table.clear;
        table.implicit_sealed |= node.tested() & table.sealed;
        table.clear &= night.visible[i];
        table.sealed &= night.visible[i];
        for set in node.together(night.pairs) {
            tie(&mut self.tied, from, set);
        }
        table.tied = (from, self.tied.len());
        table
    }

    /// What the subject of a step takes and makes: the least views of its left and its
    /// right operand, and the result. An operand that isn't there is blank.
    fn handled(&self, night: &Night, i: usize) -> [Table; 3] {
        let node = &night.nodes[i];
        let operand = |child: u8| {
            let table = self.each.get(child as usize);
            table.map_or(Table::default(), |table| table.least_view(node.needed))
        };
        [operand(node.left), operand(node.right), self.each[i]]
    }

    /// May a subject with this view have what a step handles?
    fn permit(&self, handled: &[Table; 3], view: &View) -> bool {
        // operands' tied sets lie within the result's, and a set that is split stays split
        // when it grows, so condition 3 is asked of the result alone
        handled.iter().all(|table| table.is_shown_to(view))
            && self.tied(&handled[2]).iter().all(|&set| unmixed(set, view))
    }

    /// May a subject with this view run the step?
    pub fn permit_step(&self, night: &Night, i: usize, view: &View) -> bool {
        self.permit(&self.handled(night, i), view)
    }

    /// The subjects that may have each operand's least view and the result.
    pub fn candidates(&self, night: &Night, i: usize, views: &[View; SUBJECTS]) -> u16 {
        let handled = self.handled(night, i);
        let mut set = 0;
        for (p, view) in views[..night.s].iter().enumerate() {
            if self.permit(&handled, view) {
                set |= 1 << p;
            }
        }
        set
    }

    /// The first of the tables of a step that the subject may not have, the condition
    /// that fails, and what offends.
    pub fn reason(&self, night: &Night, i: usize, view: &View) -> Option<(u8, u8, u64)> {
        (1..).zip(self.handled(night, i)).find_map(|(place, table)| {
            self.offence(&table, view).map(|(condition, set)| (place, condition, set))
        })
    }

    fn offence(&self, table: &Table, view: &View) -> Option<(u8, u64)> {
        let (clear, sealed) = table.shown();
        let unseen = [clear & !view.clear, sealed & !(view.clear | view.sealed)];
        if let Some((condition, &set)) = (1..).zip(&unseen).find(|(_, set)| **set != 0) {
            return Some((condition, lowest(set)));
        }
        let mixed = self.tied(table).iter().copied().filter(|&set| !unmixed(set, view));
        mixed.min_by_key(|&set| lowest(set)).map(|set| (3, set))
    }
}

/// Whether all of a tied set is seen in clear, or all sealed.
fn unmixed(set: u64, view: &View) -> bool {
    within(set, view.clear) || within(set, view.sealed)
}
