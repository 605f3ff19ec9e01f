//! Valid files, made as the rules' own terms and then written.

use crate::cycles;
use crate::file::*;
use crate::grants::{grants, nonempty_subset, subset};
use crate::layout::VERSIONS;
use crate::pairs;
use crate::rng::Rng;
use crate::sets::Flags;

#[derive(Clone, Copy)]
pub enum Size {
    /// Few enough nodes and attributes for every plan to be tried.
    Tiny,
    /// Likewise, with a join of two leaves, wide enough for two pairs on their own.
    Paired,
    Small,
    /// Likewise, with joins of all relations, wide enough for several pairs.
    Joined,
    /// Few attributes in many steps, so that each is tested, tied and dropped.
    Deep,
    /// Enough subjects and steps for many choices, at prices that make equals.
    Even,
    Medium,
    Middle,
    Broad,
    Large,
    /// Every count at its limit.
    Longest,
}

/// Counts that a tree with all its leaves can have.
struct Shape {
    subjects: usize,
    relations: usize,
    attributes: usize,
    nodes: usize,
    leaves: usize,
    /// Whether attributes are dealt to the relations in turn.
    dealt: bool,
}

fn shape(rng: &mut Rng, size: Size) -> Shape {
    let (subjects, most_relations, most_attributes, nodes) = match size {
        Size::Tiny => ((1, 3), 2, 3, (1, 5)),
        Size::Paired => return paired(rng),
        Size::Joined => return joined(rng),
        Size::Small => ((1, 5), 4, 9, (1, 10)),
        Size::Deep => ((3, 12), 2, 4, (1, 9)),
        Size::Even => ((4, 8), 3, 8, (5, 12)),
        Size::Medium => ((1, 9), 8, 24, (1, 24)),
        Size::Middle => ((4, 9), 12, 40, (20, 39)),
        Size::Broad => ((10, 16), 16, 64, (40, 64)),
        Size::Large => ((8, 16), 16, 64, (24, 64)),
        Size::Longest => ((16, 16), 16, 64, (64, 64)),
    };
    let longest = matches!(size, Size::Longest);
    let mut up_to = |low: usize, most: usize| if longest { most } else { rng.within(low, most) };
    let subjects = up_to(subjects.0, subjects.1);
    let relations = up_to(1, most_relations);
    let attributes = up_to(relations, most_attributes);
    let nodes = up_to(nodes.0, nodes.1);
    let leaves = up_to(1, relations.min(nodes.div_ceil(2)));
    Shape { subjects, relations, attributes, nodes, leaves, dealt: false }
}

/// Each step more than the join multiplies the plans, so that few can have one.
fn paired(rng: &mut Rng) -> Shape {
    let nodes = rng.pick(&[3, 3, 3, 3, 4]);
    let attributes = if nodes == 3 { rng.pick(&[3, 4, 4, 4, 4, 5]) } else { rng.within(2, 3) };
    let subjects = rng.pick(&[2, 3, 3]);
    Shape { subjects, relations: 2, attributes, nodes, leaves: 2, dealt: true }
}

fn joined(rng: &mut Rng) -> Shape {
    let relations = rng.within(2, 3);
    let attributes = rng.within(2 * relations, 16);
    let nodes = 2 * relations - 1 + rng.below(5);
    let subjects = rng.within(2, 5);
    Shape { subjects, relations, attributes, nodes, leaves: relations, dealt: false }
}

fn relations(rng: &mut Rng, shape: &Shape) -> Vec<Relation> {
    let mut attributes: Vec<usize> = (0..shape.attributes).collect();
    rng.shuffle(&mut attributes);
    let mut sets = vec![Flags::NONE; shape.relations];
    for (turn, &attribute) in attributes.iter().enumerate() {
        let in_turn = shape.dealt || turn < shape.relations;
        let index = if in_turn { turn % shape.relations } else { rng.below(shape.relations) };
        sets[index].put(attribute);
    }
    sets.into_iter().map(|set| Relation { owner: rng.below(shape.subjects), set }).collect()
}

/// Trees still growing: nodes made so far and those without a parent.
struct Forest<'a> {
    rng: &'a mut Rng,
    relations: &'a [Relation],
    untaken: Vec<usize>,
    nodes: Vec<Node>,
    roots: Vec<(usize, Flags)>,
    need_chance: usize,
    /// Of a hundred joins, so many are on several pairs. Where there are such, fewer
    /// are products and leaves hold more, so that there is something to pair.
    paired: usize,
    /// Used again and again: parts that must outlive a column show only when
    /// it is tested in one form, used in the other, and then dropped.
    favourite: usize,
}

impl Forest<'_> {
    fn take_root(&mut self) -> (usize, Flags) {
        let at = self.rng.below(self.roots.len());
        self.roots.swap_remove(at)
    }

    fn add(&mut self, work: Work, before: &Flags) {
        let reads = work.reads();
        let needs = self.rng.percent(self.need_chance);
        let needed = match &work {
            _ if !needs => Flags::NONE,
            Work::JoinPairs { pairs, .. } => pairs::needed(self.rng, pairs),
            work if !work.together().is_empty() => reads,
            _ => subset(self.rng, &reads, 60),
        };
        self.roots.push((self.nodes.len(), work.visible_after(before)));
        self.nodes.push(Node { work, needed, size: 0 });
    }

    fn leaf(&mut self) {
        let relation = self.untaken.pop().expect("no more leaves than relations");
        let densities = if self.paired > 0 { [70, 100, 100] } else { [30, 70, 100] };
        let density = self.rng.pick(&densities);
        let set = nonempty_subset(self.rng, &self.relations[relation].set, density);
        self.add(Work::Leaf { relation, set }, &Flags::NONE);
    }

    fn binary(&mut self) {
        let (left, left_seen) = self.take_root();
        let (right, right_seen) = self.take_root();
        let products = if self.paired > 0 { (100 - self.paired) / 2 } else { 35 };
        let work = if self.rng.percent(products) {
            Work::Product { left, right }
        } else if self.paired > 0 && self.rng.percent(self.paired) {
            let pairs = pairs::draw(self.rng, &left_seen, &right_seen);
            Work::JoinPairs { left, right, first: 0, pairs }
        } else {
            let x = self.rng.pick(&left_seen.list());
            let y = self.rng.pick(&right_seen.list());
            Work::Join { left, right, x, y }
        };
        self.add(work, &left_seen.or(&right_seen));
    }

    fn unary(&mut self) {
        let (from, seen) = self.take_root();
        let rng = &mut *self.rng;
        let attributes = seen.list();
        let (any, y) = (rng.pick(&attributes), rng.pick(&attributes));
        let again = seen.has(self.favourite) && rng.percent(40);
        let x = if again { self.favourite } else { any };
        let only_x = Flags::of(&[x]);
        let work = match rng.below(12) {
            0 | 1 => Work::Project { from, set: nonempty_subset(rng, &seen, 75) },
            2..=4 => Work::SelectValue { from, x },
            5 | 6 => Work::SelectPair { from, x, y },
            7 | 8 => Work::Aggregate { from, set: subset(rng, &seen.minus(&only_x), 60), x },
            9 => Work::Count { from, set: nonempty_subset(rng, &seen, 70) },
            _ => Work::Function { from, set: subset(rng, &seen, 25).or(&only_x), x },
        };
        self.add(work, &seen);
    }

    /// Grows `leaves` leaves into trees of `nodes` nodes in all, so many of
    /// them in the end as `trees` says.
    fn grow(&mut self, nodes: usize, leaves: usize, trees: usize) {
        let (mut leaf, mut binary) = (leaves, leaves - trees);
        let mut unary = nodes - leaf - binary;
        while leaf + binary + unary > 0 {
            let can_join = binary > 0 && self.roots.len() > 1;
            let can_work = unary > 0 && !self.roots.is_empty();
            match self.rng.below(3) {
                0 if leaf > 0 => {
                    leaf -= 1;
                    self.leaf();
                }
                1 if can_join => {
                    binary -= 1;
                    self.binary();
                }
                2 if can_work => {
                    unary -= 1;
                    self.unary();
                }
                _ => {}
            }
        }
    }
}

/// A price of the file's mood: few values make ties, the highest the edge.
fn price(rng: &mut Rng, mood: usize, most: u64) -> u64 {
    match mood {
        0 => 0,
        1 => 1,
        2 => rng.below(2) as u64,
        3 => rng.within(1, 3) as u64,
        4 => rng.within(0, 30) as u64,
        5 => most,
        6 => most - rng.below(3) as u64,
        _ => rng.next() % (most + 1),
    }
}

/// The moods of sizes, step prices and link prices. At even prices many choices
/// have the least total, by ways so different that the order of comparing
/// tells; at the highest, totals need more than 32 bits.
fn moods(rng: &mut Rng, even: bool) -> [usize; 3] {
    match rng.below(10) {
        _ if even => [rng.pick(&[1, 2, 3]), rng.pick(&[2, 3]), 2],
        0..=2 => moods(rng, true),
        3 => [rng.within(5, 6), rng.below(8), rng.within(5, 6)],
        _ => [rng.below(8), rng.below(8), rng.below(8)],
    }
}

fn prices(rng: &mut Rng, file: &mut File, even: bool) {
    let moods = moods(rng, even);
    for node in &mut file.nodes {
        node.size = price(rng, moods[0], MOST_SIZE);
    }
    for node in &file.nodes {
        let leaf = node.work.is_leaf();
        let of_step = |_| if leaf { 0 } else { price(rng, moods[1], MOST_STEP_PRICE) };
        file.step_prices.push((0..file.subjects).map(of_step).collect());
    }
    for from in 0..file.subjects {
        let of_link = |to| if from == to { 0 } else { price(rng, moods[2], MOST_LINK_PRICE) };
        file.link_prices.push((0..file.subjects).map(of_link).collect());
    }
}

/// Of a hundred joins, so many are on several pairs.
fn paired_joins(size: Size, version: usize) -> usize {
    match size {
        _ if version < 3 => 0,
        Size::Paired => 95,
        _ => 65,
    }
}

/// A version, each as often.
pub fn version(rng: &mut Rng) -> usize {
    rng.within(1, VERSIONS)
}

/// A file that keeps every rule, save that a part of those asked for `torn` have
/// more than one tree. Any number of steps is allowed in it, and its user, if the
/// version has one, is anybody.
pub fn file(rng: &mut Rng, size: Size, version: usize, torn: bool) -> File {
    let shape = shape(rng, size);
    let relations = relations(rng, &shape);
    let grants = grants(rng, shape.subjects, &relations, size);
    let mut untaken: Vec<usize> = (0..shape.relations).collect();
    rng.shuffle(&mut untaken);
    let trees = if torn { rng.within(1, shape.leaves.min(3)) } else { 1 };
    let need_chance = rng.pick(&[0, 20, 50, 90]);
    let favourite = rng.below(shape.attributes);
    let mut forest = Forest {
        rng,
        relations: &relations,
        untaken,
        nodes: Vec::new(),
        roots: Vec::new(),
        need_chance,
        paired: paired_joins(size, version),
        favourite,
    };
    forest.grow(shape.nodes, shape.leaves, trees);
    let mut nodes = forest.nodes;
    let full = matches!(size, Size::Longest);
    let mut file = File {
        user: (version >= 2).then(|| rng.below(shape.subjects)),
        pairs: (version >= 3).then(|| pairs::place(rng, &mut nodes, shape.attributes, full)),
        day: (version >= 4).then(|| cycles::night(rng)),
        subjects: shape.subjects,
        attributes: shape.attributes,
        allowed: u32::MAX,
        relations,
        grants,
        nodes,
        step_prices: Vec::new(),
        link_prices: Vec::new(),
    };
    cycles::date(rng, &mut file);
    prices(rng, &mut file, matches!(size, Size::Even));
    file
}
