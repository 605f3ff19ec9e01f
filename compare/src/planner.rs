//! The planner: candidates, steps, the plan with its keys, and the answers of
//! the two planning calls.

use crate::choice::{self, Options};
use crate::file::{File, Node, Work};
use crate::reading::{Refusal, read, refuse};
use crate::sets::{Flags, Ties};
use crate::views::{self, Profile, View, may_have};

/// A readable file with all that follows from it before any choice.
pub struct Study {
    pub file: File,
    pub views: Vec<View>,
    pub candidates: Vec<Vec<usize>>,
    pub plan: Plan,
    /// What is sealed in the table that the root hands over.
    pub handed_sealed: Flags,
    pub tables: Vec<Vec<Profile>>,
}

#[derive(Clone, PartialEq, Debug)]
pub struct Plan {
    pub opens: Vec<Flags>,
    pub seals: Vec<Flags>,
}

#[derive(Clone, PartialEq, Debug)]
pub struct Key {
    /// Rising; the first names the key.
    pub attributes: Vec<usize>,
    pub holders: Vec<usize>,
}

#[derive(PartialEq, Debug)]
pub struct Answer {
    pub choice: Vec<usize>,
    pub keys: Vec<Key>,
    pub total: u64,
    /// The planned call alone reports steps.
    pub steps: Option<u64>,
}

/// Lengths of the lent rooms, in elements.
#[derive(Clone, Copy, Debug)]
pub struct Rooms {
    pub choice: usize,
    pub plan: usize,
    pub keys: usize,
}

pub fn study(bytes: &[u8]) -> Result<Study, Refusal> {
    let file = read(bytes)?;
    let views = views::on(&file, file.nights_day());
    let tables = tables(&file, |_| {});
    let candidates = candidates(&file, &views, &tables);
    let (plan, handed_sealed) = plan(&file);
    Ok(Study { file, views, candidates, plan, handed_sealed, tables })
}

fn result(tables: &[Profile]) -> &Profile {
    tables.last().expect("every node has a result")
}

/// Of each node its operands' least views, and last its result, worked out
/// upwards. The rules alter no table once it is worked out; `alter` is for those
/// who do.
pub fn tables(file: &File, alter: impl Fn(&mut Profile)) -> Vec<Vec<Profile>> {
    let mut tables: Vec<Vec<Profile>> = Vec::new();
    for node in &file.nodes {
        let mut of_node: Vec<Profile> =
            node.work.children().map(|c| result(&tables[c]).with_clear(&node.needed)).collect();
        let mut result = Profile::result(&node.work, &of_node);
        alter(&mut result);
        of_node.push(result);
        tables.push(of_node);
    }
    tables
}

/// Each node's candidates.
pub fn candidates(file: &File, views: &[View], tables: &[Vec<Profile>]) -> Vec<Vec<usize>> {
    let of_node = |(node, asked): (&Node, &Vec<Profile>)| {
        let fits = |&subject: &usize| asked.iter().all(|table| may_have(&views[subject], table));
        let steps_alone = if node.work.is_leaf() { 0 } else { file.subjects };
        (0..steps_alone).filter(fits).collect()
    };
    file.nodes.iter().zip(tables).map(of_node).collect()
}

/// Openings and sealings, and what the root leaves sealed: the same for every
/// choice.
fn plan(file: &File) -> (Plan, Flags) {
    let mut left: Vec<Profile> = Vec::new();
    let mut plan = Plan { opens: Vec::new(), seals: Vec::new() };
    for (index, node) in file.nodes.iter().enumerate() {
        let mut opens = Flags::NONE;
        let mut operands = Vec::new();
        for child in node.work.children() {
            let arrived = &left[child];
            let opened = arrived.visible_sealed.and(&node.needed);
            operands.push(arrived.with_clear(&arrived.visible_clear.or(&opened)));
            opens = opens.or(&opened);
        }
        let result = Profile::result(&node.work, &operands);
        let seals = if index == file.root() { Flags::NONE } else { result.visible_clear };
        left.push(result.with_clear(&result.visible_clear.minus(&seals)));
        plan.opens.push(opens);
        plan.seals.push(seals);
    }
    (plan, left[file.root()].visible_sealed)
}

impl Study {
    /// Where the section of grant records starts, and its length in bytes.
    pub fn grant_part(&self) -> (usize, usize) {
        let layout = self.file.layout();
        (layout.grants, layout.nodes - layout.grants)
    }

    fn options(&self) -> Options {
        let nodes = 0..self.file.nodes.len();
        let of_node = |node: usize| match self.file.owner_at(node) {
            Some(owner) => vec![owner],
            None => self.candidates[node].clone(),
        };
        nodes.map(of_node).collect()
    }

    /// What every node may be given, or the lowest step that has nobody.
    pub fn full_options(&self) -> Result<Options, Refusal> {
        let options = self.options();
        match options.iter().position(Vec::is_empty) {
            Some(node) => refuse(12, node),
            None => Ok(options),
        }
    }

    pub fn steps(&self) -> u64 {
        let options = self.options();
        let mut steps = 0;
        for (parent, node) in self.file.nodes.iter().enumerate() {
            for child in node.work.children() {
                steps += options[parent].len() * options[child].len();
            }
        }
        steps as u64
    }

    /// Whether the choice gives every leaf its owner and every step a
    /// candidate; if not, the lowest node that it wrongs.
    pub fn wronged(&self, choice: &[usize]) -> Option<usize> {
        let options = self.options();
        (0..choice.len()).find(|&node| !options[node].contains(&choice[node]))
    }

    /// The root's result over least views.
    pub fn root_table(&self) -> &Profile {
        result(&self.tables[self.file.root()])
    }

    fn root_ties(&self) -> &Ties {
        &self.root_table().ties
    }

    /// How many attributes the widest of the root's tied sets has.
    pub fn widest_tie(&self) -> usize {
        self.root_ties().sets().iter().map(|set| set.list().len()).max().unwrap_or(0)
    }

    /// Whether some chosen subject sees an attribute of a leaf below its step
    /// only sealed.
    pub fn meets_sealed(&self, choice: &[usize]) -> bool {
        let mut below: Vec<Flags> = Vec::new();
        for node in &self.file.nodes {
            let own = if let Work::Leaf { set, .. } = node.work { set } else { Flags::NONE };
            below.push(node.work.children().fold(own, |sum, child| sum.or(&below[child])));
        }
        choice.iter().zip(below).any(|(&subject, set)| self.views[subject].sealed.meets(&set))
    }

    /// The leaves, rising, whose tables as the leaves hold them, all in clear, this
    /// user may not have.
    pub fn barred_leaves(&self, user: usize) -> Vec<usize> {
        let barred = |&leaf: &usize| !may_have(&self.views[user], result(&self.tables[leaf]));
        self.file.leaves().into_iter().filter(barred).collect()
    }

    /// Whether the user, if there is one, may have every leaf's table.
    pub fn user_passes(&self) -> Result<(), Refusal> {
        let barred = self.file.user.map_or(Vec::new(), |user| self.barred_leaves(user));
        match barred.first() {
            Some(&leaf) => refuse(17, leaf),
            None => Ok(()),
        }
    }

    pub fn keys(&self, choice: &[usize]) -> Vec<Key> {
        self.keys_delivered(choice, self.file.user)
    }

    /// The keys if the root's table is delivered to this user, or to nobody.
    pub fn keys_delivered(&self, choice: &[usize], user: Option<usize>) -> Vec<Key> {
        let Plan { opens, seals } = &self.plan;
        let mut waiting: Vec<usize> = seals.iter().fold(Flags::NONE, |sum, s| sum.or(s)).list();
        let mut keys = Vec::new();
        while let Some(&lowest) = waiting.first() {
            let (attributes, rest) =
                waiting.iter().partition(|&&other| self.root_ties().together(lowest, other));
            waiting = rest;
            let group = Flags::of(&attributes);
            let mut holders = Flags::NONE;
            for (node, &subject) in choice.iter().enumerate() {
                if opens[node].or(&seals[node]).meets(&group) {
                    holders.put(subject);
                }
            }
            if let Some(user) = user
                && self.handed_sealed.meets(&group)
            {
                holders.put(user);
            }
            keys.push(Key { attributes, holders: holders.list() });
        }
        keys
    }

    fn answer(&self, choice: Vec<usize>, steps: Option<u64>) -> Answer {
        let keys = self.keys(&choice);
        let total = choice::total(&self.file, &choice);
        Answer { choice, keys, total, steps }
    }

    pub fn room_suffices(&self, rooms: &Rooms) -> Result<(), Refusal> {
        let nodes = self.file.nodes.len();
        let wants = [nodes, 2 * nodes, 2 * self.file.attributes];
        let lent = [rooms.choice, rooms.plan, rooms.keys];
        match (0..3).find(|&room| lent[room] < wants[room]) {
            Some(room) => refuse(15, room + 1),
            None => Ok(()),
        }
    }

    /// What every node may be given, if the user may ask for it and the search
    /// may take its steps.
    pub fn searched(&self) -> Result<Options, Refusal> {
        self.user_passes()?;
        let options = self.full_options()?;
        let suffices = self.steps() <= u64::from(self.file.allowed);
        if suffices { Ok(options) } else { refuse(13, 0) }
    }

    pub fn cheapest(&self, rooms: &Rooms) -> Result<Answer, Refusal> {
        let options = self.searched()?;
        self.room_suffices(rooms)?;
        let best = choice::by_recursion(&self.file, &options);
        Ok(self.answer(best.choice(), Some(self.steps())))
    }

    /// Whether every node is offered a subject that may be given it.
    pub fn fitting(&self, offer: &[u8]) -> Result<Vec<usize>, Refusal> {
        if offer.len() != self.file.nodes.len() {
            return refuse(14, self.file.nodes.len());
        }
        let choice: Vec<usize> = offer.iter().map(|&subject| subject.into()).collect();
        match self.wronged(&choice) {
            Some(node) => refuse(14, node),
            None => Ok(choice),
        }
    }

    pub fn offered(&self, offer: &[u8], rooms: &Rooms) -> Result<Answer, Refusal> {
        self.user_passes()?;
        let choice = self.fitting(offer)?;
        // The offered call is lent no room for a choice.
        self.room_suffices(&Rooms { choice: usize::MAX, ..*rooms })?;
        Ok(self.answer(choice, None))
    }
}
