//! Refusals at numbers that only just fit a set of 16, of 32 or of 64 bits: which of
//! the files made for what is carried have them.

use crate::values::{Grant, Node, Values};

/// A refusal's number, what is counted of it, and whether values have it at the place.
pub struct Edge {
    pub number: u64,
    pub what: &'static str,
    pub holds: fn(&Values, usize) -> bool,
}

const fn edge(number: u64, what: &'static str, holds: fn(&Values, usize) -> bool) -> Edge {
    Edge { number, what, holds }
}

pub const EDGES: [Edge; 12] = [
    edge(5, "attribute 63 in two", |values, place| {
        let has = |at: usize| values.relations[at].set >> 63 == 1;
        place < values.relations.len() && has(place) && (0..place).any(has)
    }),
    edge(6, "a pair again, subject 15", |values, place| {
        again(values, place, |to| to.subject == 15)
    }),
    edge(6, "a pair again, relation 15", |values, place| {
        again(values, place, |to| to.relation == 15)
    }),
    edge(6, "any's again, relation 15", |values, place| {
        again(values, place, |to| [to.relation, to.subject] == [15, 255])
    }),
    edge(7, "relation 15", |_, place| place == 15),
    edge(7, "owner 15", |values, place| values.relations[place].owner == 15),
    edge(8, "node 63 takes one again", |values, place| {
        place == 63 && taken_again(values, place, |_| true)
    }),
    edge(8, "an operand of 32 or more taken again", |values, place| {
        taken_again(values, place, |operand| operand >= 32)
    }),
    edge(8, "a node of 32 or more without a parent", |values, place| {
        let takes = |node: &Node| [node.left, node.right].map(usize::from).contains(&place);
        place >= 32 && !values.nodes.iter().any(takes)
    }),
    edge(9, "relation 15 taken again", |values, place| {
        let leaf = |node: &Node| node.kind == 0 && node.x == 15;
        leaf(&values.nodes[place]) && values.nodes[..place].iter().any(leaf)
    }),
    edge(11, "the first link", |values, place| place == values.step_prices.len()),
    edge(11, "the last link", |values, place| {
        place + 1 == values.step_prices.len() + values.link_prices.len()
    }),
];

/// Whether the grant is of such a pair, and an earlier one is of the same.
fn again(values: &Values, place: usize, such: fn(&Grant) -> bool) -> bool {
    let grant = &values.grants[place];
    let same = |old: &Grant| [old.relation, old.subject] == [grant.relation, grant.subject];
    such(grant) && values.grants[..place].iter().any(same)
}

/// Whether the node takes such an operand that an earlier one has taken.
fn taken_again(values: &Values, place: usize, such: fn(u8) -> bool) -> bool {
    let operands = |node: &Node| [node.left, node.right];
    let taken =
        |operand: u8| values.nodes[..place].iter().any(|node| operands(node).contains(&operand));
    operands(&values.nodes[place]).into_iter().any(|one| one < 64 && such(one) && taken(one))
}
