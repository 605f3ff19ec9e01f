//! Refusals 5 to 11 by sets of bits that are carried from record to record in one loop,
//! as a check that searches no earlier record does it. It must say what the reader says;
//! and it can be told to make a known slip, to see which files would show it.

use crate::file::{MOST_JOINED, MOST_LINK_PRICE, MOST_SIZE, MOST_STEP_PRICE};
use crate::reading::{Refusal, refuse};
use crate::values::{Grant, Node, Values, with_days, with_pairs};

/// A way to keep or to ask a carried set wrongly.
#[derive(Clone, Copy, PartialEq, Debug)]
pub enum Slip {
    AttributesOfTheLast,
    NothingLeftOver,
    SubjectsOfTheLast,
    SubjectsOfOneRelation,
    SubjectsOfAnother,
    AnyAs15,
    SubjectCut,
    RelationCut,
    FirstOfPair,
    LastOfPair,
    OutOfForce,
    OutOfForceHides,
    OwnAndAny,
    OwnElsewhereHides,
    OwnAlone,
    AnyAlone,
    TakenTwice,
    TakenLeft,
    TakenRight,
    BothTheSame,
    OperandCut,
    XAsOperand,
    RelationTwice,
    RelationOfTheLast,
    XAsRelation,
    LeafRelationCut,
    HighestOrphan,
    NoOrphan,
    SeenBefore,
    OwnLink,
    OwnLinkLate,
    LeafPrice,
    LinksFirst,
}

/// Kinds, bit k for kind k, by what they use.
const LEFT: u16 = 0b11_1111_1110;
const RIGHT: u16 = 0b10_0011_0000;
const X: u16 = 0b01_0110_1101;
const Y: u16 = 0b00_0010_1000;
const SET: u16 = 0b01_1100_0011;
const PAIRS: u16 = 0b10_0000_0000;
/// Kinds that read all they read together.
const TOGETHER: u16 = 0b01_0010_1000;
/// The bit of any among subjects.
const ANY: u32 = 16;

struct Check<'a> {
    values: &'a Values,
    slip: Option<Slip>,
}

/// What each subject sees of its own and what any sees, by the grants so far.
#[derive(Default)]
struct Seen {
    /// Of each relation, the subjects that have had a grant.
    had: [u32; 16],
    /// The subjects that have had one of whatever relation.
    all: u32,
    own: [u64; 16],
    any: u64,
    /// Of each subject, the relations with a grant of its own in force.
    in_force: [u16; 16],
}

/// What the nodes so far have taken and show.
struct Nodes {
    taken: u64,
    /// Of these, what the next one's operands are held against: all, but for slips.
    held: u64,
    relations: u16,
    visible: [u64; 64],
}

/// The refusal of values whose header and counts are right, with a slip or with none.
pub fn verdict(values: &Values, slip: Option<Slip>) -> Result<(), Refusal> {
    let check = Check { values, slip };
    check.relations()?;
    check.grants()?;
    check.nodes()?;
    check.prices()
}

fn bit(set: u64, member: u8) -> bool {
    member < 64 && set >> member & 1 == 1
}

fn within(set: u64, other: u64) -> bool {
    set & !other == 0
}

impl Check<'_> {
    fn slips(&self, slip: Slip) -> bool {
        self.slip == Some(slip)
    }

    fn relations(&self) -> Result<(), Refusal> {
        let header = &self.values.header;
        let all = u64::MAX >> (64 - header.attributes);
        let (mut taken, mut sum) = (0, 0);
        for (place, relation) in self.values.relations.iter().enumerate() {
            let known = relation.owner < header.subjects && within(relation.set, all);
            if !known || relation.set == 0 || relation.set & taken != 0 {
                return refuse(5, place);
            }
            taken = if self.slips(Slip::AttributesOfTheLast) { 0 } else { taken } | relation.set;
            sum |= relation.set;
        }
        let left = sum != all && !self.slips(Slip::NothingLeftOver);
        if left { refuse(5, self.values.relations.len()) } else { Ok(()) }
    }

    fn grants(&self) -> Result<(), Refusal> {
        let mut seen = Seen::default();
        for (place, grant) in self.values.grants.iter().enumerate() {
            if !self.grant(&mut seen, place, grant) {
                return refuse(6, place);
            }
        }
        for (place, relation) in self.values.relations.iter().enumerate() {
            let (own, any) = (seen.own[usize::from(relation.owner)], seen.any);
            let of_owner = seen.in_force[usize::from(relation.owner)];
            let hidden = match self.slip {
                Some(Slip::OwnElsewhereHides) => of_owner != 0,
                _ => of_owner >> place & 1 == 1,
            };
            let clear = match self.slip {
                Some(Slip::OwnAndAny) => own | any,
                Some(Slip::OwnAlone) => own,
                Some(Slip::AnyAlone) => any,
                _ if hidden => own,
                _ => any,
            };
            if !within(relation.set, clear) {
                return refuse(7, place);
            }
        }
        Ok(())
    }

    /// Whether a grant is right, and what is carried on if it is.
    fn grant(&self, seen: &mut Seen, place: usize, grant: &Grant) -> bool {
        let header = &self.values.header;
        let cut = |slip: Slip, number: u8| if self.slips(slip) { number & 15 } else { number };
        let relation = cut(Slip::RelationCut, grant.relation);
        let any = grant.subject == 255;
        let subject = if any { 255 } else { cut(Slip::SubjectCut, grant.subject) };
        if relation >= header.relations || !(any || subject < header.subjects) {
            return false;
        }
        let all = self.values.relations[usize::from(relation)].set;
        let dated = with_days(header.version);
        let sets_right = grant.clear & grant.sealed == 0 && within(grant.clear | grant.sealed, all);
        if !sets_right || dated && grant.first > grant.last {
            return false;
        }
        let relation = usize::from(relation);
        let of_any = if self.slips(Slip::AnyAs15) { 15 } else { ANY };
        let to = 1 << if any { of_any } else { u32::from(subject) };
        if self.had(seen, relation) & to != 0 && self.shares(place, grant) {
            return false;
        }
        let had = &mut seen.had[relation];
        *had = if self.slips(Slip::SubjectsOfTheLast) { 0 } else { *had } | to;
        seen.all |= to;
        self.show(seen, grant, relation, usize::from(subject));
        true
    }

    /// The subjects that have had a grant of a relation.
    fn had(&self, seen: &Seen, relation: usize) -> u32 {
        match self.slip {
            Some(Slip::SubjectsOfOneRelation) => seen.all,
            Some(Slip::SubjectsOfAnother) => seen.had[relation ^ 1],
            _ => seen.had[relation],
        }
    }

    /// Whether a pair that may have had a grant had one on a day of this one's.
    fn shares(&self, place: usize, grant: &Grant) -> bool {
        if !with_days(self.values.header.version) {
            return true;
        }
        let pair = |old: &&Grant| [old.relation, old.subject] == [grant.relation, grant.subject];
        let shared = |old: &Grant| old.first <= grant.last && grant.first <= old.last;
        let mut earlier = self.values.grants[..place].iter().filter(pair);
        match self.slip {
            Some(Slip::FirstOfPair) => earlier.next().is_some_and(shared),
            Some(Slip::LastOfPair) => earlier.next_back().is_some_and(shared),
            _ => earlier.any(shared),
        }
    }

    /// What the grant shows that night.
    fn show(&self, seen: &mut Seen, grant: &Grant, relation: usize, subject: usize) {
        let header = &self.values.header;
        let in_force =
            !with_days(header.version) || (grant.first..=grant.last).contains(&header.day);
        let counts = in_force || self.slips(Slip::OutOfForce);
        if subject == 255 {
            seen.any |= if counts { grant.clear } else { 0 };
            return;
        }
        seen.own[subject] |= if counts { grant.clear } else { 0 };
        let hides = counts || self.slips(Slip::OutOfForceHides);
        seen.in_force[subject] |= u16::from(hides) << relation;
    }

    fn nodes(&self) -> Result<(), Refusal> {
        let mut nodes = Nodes { taken: 0, held: 0, relations: 0, visible: [0; 64] };
        for (place, node) in self.values.nodes.iter().enumerate() {
            let node = self.operands_cut(node);
            if !self.shaped(&nodes, place, &node) {
                return refuse(8, place);
            }
            let shown = self.operands(&nodes, place, &node);
            if !self.keeps_rules(&nodes, &node, shown) {
                return refuse(9, place);
            }
            if !self.needs_right(&node) {
                return refuse(10, place);
            }
            self.carry(&mut nodes, &node);
            nodes.visible[place] = after(&node, shown);
        }
        let free = !nodes.taken & ((1 << (self.values.nodes.len() - 1)) - 1);
        match free {
            0 => Ok(()),
            _ if self.slips(Slip::NoOrphan) => Ok(()),
            _ if self.slips(Slip::HighestOrphan) => refuse(8, free.ilog2() as usize),
            _ => refuse(8, free.trailing_zeros() as usize),
        }
    }

    /// The node as a check has it that cuts operands to 6 bits, if this one does.
    fn operands_cut(&self, node: &Node) -> Node {
        let cut = |operand: u8| if operand == 255 { 255 } else { operand & 63 };
        match self.slip {
            Some(Slip::OperandCut) => {
                Node { left: cut(node.left), right: cut(node.right), ..*node }
            }
            _ => *node,
        }
    }

    fn shaped(&self, nodes: &Nodes, place: usize, node: &Node) -> bool {
        let paired = with_pairs(self.values.header.version);
        if node.kind > 9 || node.kind == 9 && !paired {
            return false;
        }
        let uses = |kinds: u16| kinds >> node.kind & 1 == 1;
        let free = |operand: u8| usize::from(operand) < place && !bit(nodes.held, operand);
        let right =
            |kinds: u16, operand: u8| if uses(kinds) { free(operand) } else { operand == 255 };
        let same = uses(RIGHT) && node.left == node.right && !self.slips(Slip::BothTheSame);
        let [first, count] = [node.first, node.count].map(usize::from);
        let named = match paired {
            false => true,
            true if uses(PAIRS) => {
                (1..=MOST_JOINED).contains(&count) && first + count <= self.values.pairs.len() / 2
            }
            true => [first, count] == [0, 0],
        };
        right(LEFT, node.left)
            && right(RIGHT, node.right)
            && !same
            && (uses(X) || node.x == 255)
            && (uses(Y) || node.y == 255)
            && (uses(SET) || node.set == 0)
            && node.spare == [0; 3]
            && u64::from(node.size) <= MOST_SIZE
            && named
    }

    /// What the left and the right operand show.
    fn operands(&self, nodes: &Nodes, place: usize, node: &Node) -> [u64; 2] {
        let uses = |kinds: u16| kinds >> node.kind & 1 == 1;
        let shown = |kinds: u16, operand: u8| {
            if uses(kinds) { nodes.visible[usize::from(operand)] } else { 0 }
        };
        match self.slip {
            Some(Slip::SeenBefore) if uses(LEFT) && !uses(RIGHT) => [nodes.visible[place - 1], 0],
            _ => [shown(LEFT, node.left), shown(RIGHT, node.right)],
        }
    }

    /// A node's pairs as they stand in the list; of other kinds none.
    fn pairs(&self, node: &Node) -> impl Iterator<Item = [u8; 2]> {
        let named = if node.kind == 9 { usize::from(node.count) } else { 0 };
        let list = self.values.pairs.as_chunks().0;
        list.iter().skip(node.first.into()).take(named).copied()
    }

    fn keeps_rules(&self, nodes: &Nodes, node: &Node, [left, right]: [u64; 2]) -> bool {
        let Node { x, y, set, .. } = *node;
        match node.kind {
            0 => {
                let x = if self.slips(Slip::LeafRelationCut) { x & 15 } else { x };
                let relation = self.values.relations.get(usize::from(x));
                let taken = bit(nodes.relations.into(), x);
                set != 0 && !taken && relation.is_some_and(|of| within(set, of.set))
            }
            1 | 7 => set != 0 && within(set, left),
            2 => bit(left, x),
            3 => bit(left, x) && bit(left, y),
            4 => true,
            5 => bit(left, x) && bit(right, y),
            6 => within(set, left) && bit(left & !set, x),
            9 => self.pairs(node).all(|[x, y]| bit(left, x) && bit(right, y)),
            _ => within(set, left) && bit(set, x),
        }
    }

    fn needs_right(&self, node: &Node) -> bool {
        let both = |[x, y]: [u8; 2]| 1u64 << x | 1 << y;
        let reads = match node.kind {
            2 => 1 << node.x,
            3 | 5 => both([node.x, node.y]),
            6 => node.set | 1 << node.x,
            7 | 8 => node.set,
            _ => self.pairs(node).fold(0, |sum, pair| sum | both(pair)),
        };
        let half = |set: u64| node.needed & set != 0 && !within(set, node.needed);
        let whole = TOGETHER >> node.kind & 1 == 0 || !half(reads);
        within(node.needed, reads) && whole && !self.pairs(node).any(|pair| half(both(pair)))
    }

    /// The operands and the relation that the node takes.
    fn carry(&self, nodes: &mut Nodes, node: &Node) {
        let of = |operand: u8| 1u64.checked_shl(operand.into()).unwrap_or(0);
        let [left, right] = [of(node.left), of(node.right)];
        nodes.taken |= left | right;
        nodes.held |= match self.slip {
            Some(Slip::TakenTwice) => 0,
            Some(Slip::TakenLeft) => left,
            Some(Slip::TakenRight) => right,
            Some(Slip::XAsOperand) => left | right | of(node.x),
            _ => left | right,
        };
        let x = of(node.x) as u16;
        match self.slip {
            Some(Slip::RelationTwice) => {}
            Some(Slip::XAsRelation) => nodes.relations |= x,
            Some(Slip::RelationOfTheLast) if node.kind == 0 => nodes.relations = x,
            _ if node.kind == 0 => nodes.relations |= x,
            _ => {}
        }
    }

    /// The most that each price in a node's row may be, of a leaf's 0.
    fn most_of_step(&self, node: &Node) -> u64 {
        let asked = node.kind != 0 || self.slips(Slip::LeafPrice);
        if asked { MOST_STEP_PRICE } else { 0 }
    }

    fn prices(&self) -> Result<(), Refusal> {
        let Values { nodes, step_prices, link_prices, .. } = self.values;
        let subjects = usize::from(self.values.header.subjects);
        let rows = nodes.iter().zip(step_prices.chunks(subjects)).enumerate();
        let over = |(row, (node, prices)): (usize, (&Node, &[u32]))| {
            let wrong = |&price: &u32| u64::from(price) > self.most_of_step(node);
            Some(row * subjects + prices.iter().position(wrong)?)
        };
        let step = rows.map(over).find_map(|place| place);
        let links = link_prices.chunks(subjects).enumerate();
        let link = links.map(|(row, prices)| self.link(row, prices)).find_map(|place| place);
        let link = link.map(|place| nodes.len() * subjects + place);
        let first = if self.slips(Slip::LinksFirst) { link.or(step) } else { step.or(link) };
        first.map_or(Ok(()), |place| refuse(11, place))
    }

    /// The first wrong price in a row of links.
    fn link(&self, row: usize, prices: &[u32]) -> Option<usize> {
        let over = |to: &usize| u64::from(prices[*to]) > MOST_LINK_PRICE && *to != row;
        let own = prices[row] != 0 && !self.slips(Slip::OwnLink);
        let mut wrong = (0..prices.len()).filter(|to| over(to) || own && *to == row);
        let first = match self.slip {
            Some(Slip::OwnLinkLate) => wrong.clone().find(over).or(wrong.next()),
            _ => wrong.next(),
        };
        first.map(|to| row * prices.len() + to)
    }
}

/// What is visible after a node, given what its operands show.
fn after(node: &Node, [left, right]: [u64; 2]) -> u64 {
    let x = 1u64.checked_shl(node.x.into()).unwrap_or(0);
    match node.kind {
        0 | 1 | 7 => node.set,
        6 => node.set | x,
        8 => left & !node.set | x,
        _ => left | right,
    }
}
