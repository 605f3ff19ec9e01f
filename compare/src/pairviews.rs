//! Views that tell one pair of a join from another. As grants are drawn, hardly a
//! subject sees one pair clear, another sealed, and neither half and half.

use crate::days::Days;
use crate::file::{File, Grant, Work};
use crate::rng::Rng;
use crate::sets::{Flags, Ties};

/// Gives one subject or two such views, for most files that have a join on two
/// pairs or more.
pub fn tell_apart(rng: &mut Rng, file: &mut File) {
    let several = |work: &Work| matches!(work, Work::JoinPairs { pairs, .. } if pairs.len() > 1);
    if !file.nodes.iter().any(|node| several(&node.work)) || rng.percent(30) {
        return;
    }
    let mut ties = Ties::none();
    for set in file.nodes.iter().flat_map(|node| node.work.together()) {
        ties.tie(&set.list());
    }
    // Who owns an operand sees all of it in clear, and so each pair.
    let owns = |subject: usize| file.relations.iter().any(|relation| relation.owner == subject);
    let strangers: Vec<usize> = (0..file.subjects).filter(|&subject| !owns(subject)).collect();
    for _ in 0..rng.within(1, 2) {
        let anyone = rng.below(file.subjects);
        let subject = if strangers.is_empty() { anyone } else { rng.pick(&strangers) };
        let clear = in_one_form_each(rng, file, &ties, subject);
        grant(file, subject, &clear);
    }
}

/// What is seen in clear, so that of what is tied together all is or nothing; now and
/// then one attribute is torn off. What a subject owns it sees in clear, and mostly
/// what is needed, so that it may run steps.
fn in_one_form_each(rng: &mut Rng, file: &File, ties: &Ties, subject: usize) -> Flags {
    let own = file.relations.iter().filter(|relation| relation.owner == subject);
    let own = own.fold(Flags::NONE, |sum, relation| sum.or(&relation.set));
    let needed = file.nodes.iter().fold(Flags::NONE, |sum, node| sum.or(&node.needed));
    let wanted = if rng.percent(80) { own.or(&needed) } else { own };
    let mut clear = Flags::NONE;
    for first in 0..file.attributes {
        let together: Vec<usize> =
            (0..file.attributes).filter(|&other| ties.together(first, other)).collect();
        let set = Flags::of(&together);
        if together[0] == first && (set.meets(&wanted) || rng.percent(40)) {
            clear = clear.or(&set);
        }
    }
    let torn = Flags::of(&[rng.below(file.attributes)]);
    match rng.below(8) {
        0 => clear.minus(&torn),
        1 => clear.or(&torn),
        _ => clear,
    }
}

/// All that is not clear is sealed.
fn grant(file: &mut File, subject: usize, clear: &Flags) {
    for relation in 0..file.relations.len() {
        let set = file.relations[relation].set;
        if file.relations[relation].owner != subject {
            let (clear, sealed) = (set.and(clear), set.minus(clear));
            file.put(Grant { relation, subject: Some(subject), clear, sealed, days: Days::ALL });
        }
    }
}
