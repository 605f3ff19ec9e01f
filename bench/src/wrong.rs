//! Ways to change the values that are handed to the writer.

use crate::records::{Grant, Node, Relation, Values};

/// Other versions, counts outside their limits, lists that are longer or shorter than the
/// counts say, two of these at once, and other numbers in fields that a version may not
/// have: wrong where it has them, not looked at where it hasn't.
pub const CHANGES: [fn(&mut Values); 36] = [
    |values| values.header.version = 0,
    |values| values.header.version = 5,
    |values| values.header.version += 256,
    |values| (values.header.version, values.header.nodes) = (0, 0),
    |values| values.header.subjects = 0,
    |values| values.header.subjects = 17,
    |values| values.header.relations = 0,
    |values| values.header.relations = 17,
    |values| values.header.attributes = 0,
    |values| values.header.attributes = 65,
    |values| values.header.nodes = 0,
    |values| values.header.nodes = 65,
    |values| values.header.grants = 273,
    |values| values.header.user = values.header.subjects,
    |values| values.header.user = 255,
    |values| values.header.pairs ^= 1,
    |values| values.header.day ^= 1,
    |values| values.header.grants ^= 1,
    |values| values.relations.push(Relation::default()),
    |values| _ = values.relations.pop(),
    |values| values.grants.push(Grant::default()),
    |values| _ = values.grants.pop(),
    |values| values.nodes.push(Node::default()),
    |values| _ = values.nodes.pop(),
    |values| values.pairs.push(0),
    |values| values.pairs.extend([0; 2]),
    |values| _ = values.pairs.pop(),
    |values| values.step_prices.push(0),
    |values| _ = values.step_prices.pop(),
    |values| values.link_prices.push(0),
    |values| _ = values.link_prices.pop(),
    // as many bytes all the same
    |values| values.step_prices.extend(values.link_prices.pop()),
    |values| values.nodes.iter_mut().for_each(|node| node.count ^= 1),
    |values| values.nodes.iter_mut().for_each(|node| node.first = 255),
    |values| values.grants.iter_mut().for_each(|grant| (grant.first, grant.last) = (1, 0)),
    |values| values.grants.iter_mut().for_each(|grant| grant.last = values.header.day),
];
