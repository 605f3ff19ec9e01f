//! The run of a plan, stated over columns and past steps as the rules state
//! it. It uses no profiles: that the two agree is what is being tested.

use crate::file::{File, Work};
use crate::planner::{Key, Plan};
use crate::sets::{Flags, WIDTH};
use crate::views::View;

#[derive(Clone, Copy, PartialEq)]
enum Form {
    Clear,
    /// Sealed under the key of that name.
    Sealed(usize),
}

/// What a past step left behind that the rules ask about.
#[derive(Clone)]
enum Past {
    Tested { attribute: usize, clear: bool },
    Tied(Flags),
}

#[derive(Clone)]
struct Table {
    columns: Vec<(usize, Form)>,
    past: Vec<Past>,
}

#[derive(Clone, Copy, PartialEq, Debug)]
pub enum Fault {
    Stuck(usize),
    Forbidden(usize),
    /// The root was reached, but the user lacks a key of its table.
    UserStuck,
    /// The root was reached, but its table is forbidden to the user.
    UserForbidden,
}

impl Fault {
    pub fn at_delivery(&self) -> bool {
        matches!(self, Fault::UserStuck | Fault::UserForbidden)
    }
}

impl Table {
    fn form(&self, attribute: usize) -> Option<Form> {
        self.columns.iter().find(|column| column.0 == attribute).map(|column| column.1)
    }

    fn turn(&mut self, attribute: usize, form: Form) {
        for column in &mut self.columns {
            if column.0 == attribute {
                column.1 = form;
            }
        }
    }
}

/// The ties that a step's past holds: of the kinds that read together, and of each
/// pair of a join on several. Without a list made for each call: runs are many.
fn ties_of(work: &Work) -> impl Iterator<Item = Flags> {
    let one = match *work {
        Work::SelectPair { x, y, .. } | Work::Join { x, y, .. } => Some(Flags::of(&[x, y])),
        Work::Function { set, .. } => Some(set),
        _ => None,
    };
    let pairs = if let Work::JoinPairs { pairs, .. } = work { &pairs[..] } else { &[] };
    one.into_iter().chain(pairs.iter().map(|&(x, y)| Flags::of(&[x, y])))
}

/// Attributes linked to `start` by a chain of ties, itself among them.
fn chain(ties: &[Flags], start: usize) -> Flags {
    let mut reached = Flags::of(&[start]);
    loop {
        let wider =
            ties.iter().filter(|tie| tie.meets(&reached)).fold(reached, |sum, tie| sum.or(tie));
        if wider == reached {
            return reached;
        }
        reached = wider;
    }
}

fn forbidden(view: &View, table: &Table) -> bool {
    let outside = |attribute: usize, clear: bool| {
        !view.clear.has(attribute) && (clear || !view.sealed.has(attribute))
    };
    if table.columns.iter().any(|&(attribute, form)| outside(attribute, form == Form::Clear)) {
        return true;
    }
    let mut ties = Vec::new();
    for past in &table.past {
        match *past {
            Past::Tested { attribute, clear } if outside(attribute, clear) => return true,
            Past::Tested { .. } => {}
            Past::Tied(tie) => ties.push(tie),
        }
    }
    ties.iter().flat_map(Flags::list).any(|start| {
        let linked = chain(&ties, start);
        !linked.within(&view.clear) && !linked.within(&view.sealed)
    })
}

fn leaf(set: &Flags) -> Table {
    let columns = set.list().into_iter().map(|a| (a, Form::Clear)).collect();
    Table { columns, past: Vec::new() }
}

/// The lowest leaf whose table, as the leaf holds it, is forbidden.
pub fn forbidden_leaf(file: &File, view: &View) -> Option<usize> {
    file.nodes.iter().position(|node| match &node.work {
        Work::Leaf { set, .. } => forbidden(view, &leaf(set)),
        _ => false,
    })
}

/// One run: the plan and choice, and the keys that follow from them.
struct Run<'a> {
    file: &'a File,
    views: &'a [View],
    choice: &'a [usize],
    plan: &'a Plan,
    key_of: [Option<&'a Key>; WIDTH],
}

/// What is still sealed in the table that the root hands over, its own sealing
/// included: by the openings and sealings alone, as keys are, so that it is there
/// even for those that get stuck.
fn handed_sealed(file: &File, plan: &Plan) -> Flags {
    let mut left: Vec<(Flags, Flags)> = Vec::new();
    for (index, node) in file.nodes.iter().enumerate() {
        let (mut seen, mut sealed) = (Flags::NONE, Flags::NONE);
        for child in node.work.children() {
            seen = seen.or(&left[child].0);
            sealed = sealed.or(&left[child].1);
        }
        let after = node.work.visible_after(&seen);
        sealed = sealed.minus(&plan.opens[index]).or(&plan.seals[index]);
        left.push((after, sealed.and(&after)));
    }
    left[file.root()].1
}

/// The keys of any openings and sealings. Every step is in the root's past. To
/// the user, if there is one, the delivery is one opening more.
pub fn keys(file: &File, choice: &[usize], plan: &Plan) -> Vec<Key> {
    let delivery = file.user.map(|user| (user, handed_sealed(file, plan)));
    let ties: Vec<Flags> = file.nodes.iter().flat_map(|node| ties_of(&node.work)).collect();
    let sealed: Vec<usize> =
        (0..file.attributes).filter(|&a| plan.seals.iter().any(|seals| seals.has(a))).collect();
    let mut keys: Vec<Key> = Vec::new();
    for &attribute in &sealed {
        let linked = chain(&ties, attribute);
        let attributes: Vec<usize> = sealed.iter().copied().filter(|&a| linked.has(a)).collect();
        if attributes[0] != attribute {
            continue;
        }
        let touches = |node: &usize| {
            attributes.iter().any(|&a| plan.opens[*node].has(a) || plan.seals[*node].has(a))
        };
        let mut holders: Vec<usize> =
            (0..choice.len()).filter(touches).map(|node| choice[node]).collect();
        let taken = |(_, opened): &(usize, Flags)| attributes.iter().any(|&a| opened.has(a));
        holders.extend(delivery.filter(taken).map(|(user, _)| user));
        holders.sort();
        holders.dedup();
        keys.push(Key { attributes, holders });
    }
    keys
}

impl Run<'_> {
    fn ask(&self, node: usize, table: &Table) -> Result<(), Fault> {
        let refused = forbidden(&self.views[self.choice[node]], table);
        if refused { Err(Fault::Forbidden(node)) } else { Ok(()) }
    }

    /// Operands as they arrive, opened as the plan says.
    fn open(&self, node: usize, operands: &mut [Table]) -> Result<(), Fault> {
        for attribute in self.plan.opens[node].list() {
            let holds =
                self.key_of[attribute].is_some_and(|key| key.holders.contains(&self.choice[node]));
            let place = operands
                .iter_mut()
                .find(|table| matches!(table.form(attribute), Some(Form::Sealed(_))));
            match place {
                Some(table) if holds => table.turn(attribute, Form::Clear),
                _ => return Err(Fault::Stuck(node)),
            }
        }
        Ok(())
    }

    /// The step itself, over operands already opened.
    fn work(&self, node: usize, operands: Vec<Table>) -> Result<Table, Fault> {
        let (work, needed) = (&self.file.nodes[node].work, &self.file.nodes[node].needed);
        let mut table = Table { columns: Vec::new(), past: Vec::new() };
        for operand in operands {
            table.columns.extend(operand.columns);
            table.past.extend(operand.past);
        }
        if needed.list().iter().any(|&a| table.form(a) != Some(Form::Clear)) {
            return Err(Fault::Stuck(node));
        }
        for tie in ties_of(work) {
            let members = tie.list();
            let form = table.form(members[0]);
            if members.iter().any(|&a| table.form(a) != form) {
                return Err(Fault::Stuck(node));
            }
            table.past.push(Past::Tied(tie));
        }
        self.test(work, &mut table);
        let before = table.columns.iter().map(|column| column.0).collect::<Vec<usize>>();
        let after = work.visible_after(&Flags::of(&before));
        table.columns.retain(|column| after.has(column.0));
        Ok(table)
    }

    fn test(&self, work: &Work, table: &mut Table) {
        let tested = match *work {
            Work::SelectValue { x, .. } => Flags::of(&[x]),
            Work::Aggregate { set, .. } | Work::Count { set, .. } => set,
            _ => Flags::NONE,
        };
        for attribute in tested.list() {
            let clear = table.form(attribute) == Some(Form::Clear);
            table.past.push(Past::Tested { attribute, clear });
        }
    }

    fn seal(&self, node: usize, table: &mut Table) -> Result<(), Fault> {
        for attribute in self.plan.seals[node].list() {
            match (table.form(attribute), self.key_of[attribute]) {
                (Some(Form::Clear), Some(key)) => {
                    table.turn(attribute, Form::Sealed(key.attributes[0]));
                }
                _ => return Err(Fault::Stuck(node)),
            }
        }
        Ok(())
    }

    fn node(&self, node: usize, mut operands: Vec<Table>) -> Result<Table, Fault> {
        // A leaf opens nothing and its subject is never asked.
        for operand in &operands {
            self.ask(node, operand)?;
        }
        self.open(node, &mut operands)?;
        for operand in &operands {
            self.ask(node, operand)?;
        }
        let mut table = match &self.file.nodes[node].work {
            Work::Leaf { set, .. } => leaf(set),
            _ => {
                let table = self.work(node, operands)?;
                self.ask(node, &table)?;
                table
            }
        };
        self.seal(node, &mut table)?;
        Ok(table)
    }

    /// The user takes what the root hands over and opens all that is sealed,
    /// whoever ran the root.
    fn deliver(&self, user: usize, mut table: Table) -> Result<(), Fault> {
        if forbidden(&self.views[user], &table) {
            return Err(Fault::UserForbidden);
        }
        for column in &mut table.columns {
            if column.1 != Form::Clear {
                let key = self.key_of[column.0];
                if !key.is_some_and(|key| key.holders.contains(&user)) {
                    return Err(Fault::UserStuck);
                }
                column.1 = Form::Clear;
            }
        }
        let refused = forbidden(&self.views[user], &table);
        if refused { Err(Fault::UserForbidden) } else { Ok(()) }
    }
}

/// Runs any openings and sealings, and the delivery where there is a user; the
/// first fault, if there is one.
pub fn run(file: &File, views: &[View], choice: &[usize], plan: &Plan) -> Result<(), Fault> {
    let keys = keys(file, choice, plan);
    let mut key_of = [None; WIDTH];
    for key in &keys {
        for &attribute in &key.attributes {
            key_of[attribute] = Some(key);
        }
    }
    let run = Run { file, views, choice, plan, key_of };
    let mut tables: Vec<Option<Table>> = Vec::new();
    for (index, node) in file.nodes.iter().enumerate() {
        let take = |child: usize| tables[child].take().expect("a child has one parent");
        let operands = node.work.children().map(take).collect();
        let table = run.node(index, operands)?;
        tables.push(Some(table));
    }
    match (file.user, tables.pop().flatten()) {
        (Some(user), Some(table)) => run.deliver(user, table),
        _ => Ok(()),
    }
}
