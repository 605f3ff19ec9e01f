//! What both sides are asked of a file, readable or not: every call, with numbers that are
//! there and that are not, and with rooms that are long enough and too short.

use crate::held::Held;
use crate::ordinary;
use crate::records::{Header, Node, Values};
use crate::sides::{Lent, Ordinary, Side};
use crate::wrong::CHANGES;

/// Where the steps allowed stand.
const ALLOWED: std::ops::Range<usize> = 11..15;

/// A file, and its values if it is read.
struct Asked<'a> {
    bytes: &'a [u8],
    values: Option<Values>,
}

/// Every call on a file.
pub fn all(held: &mut Held, bytes: &[u8]) -> Result<(), String> {
    let read = held.check(bytes)?.is_some();
    write(held, bytes)?;
    write_changed(held, bytes)?;
    let values = if read { ordinary::values(bytes).ok() } else { None };
    let asked = Asked { bytes, values };
    asked.nodes(held)?;
    let offer = asked.choices(held)?;
    asked.offers(held, &offer)
}

/// The values that stand in a file, if its header and its length are right: `write` gives
/// the file again, or refuses it as `check` does.
pub fn write(held: &mut Held, bytes: &[u8]) -> Result<(), String> {
    let Ok(values) = ordinary::values(bytes) else { return Ok(()) };
    held.write(&values, bytes.len() - 1)?;
    match held.write(&values, bytes.len())? {
        Some(written) if written != bytes => Err("write: not the file that they are of".into()),
        _ => Ok(()),
    }
}

/// These values, changed in each way.
fn write_changed(held: &mut Held, bytes: &[u8]) -> Result<(), String> {
    let Ok(values) = ordinary::values(bytes) else { return Ok(()) };
    for (at, change) in CHANGES.iter().enumerate() {
        let mut values = values.clone();
        change(&mut values);
        for room in [0, Lent::ALL.file] {
            held.write(&values, room).map_err(|what| format!("change {at}: {what}"))?;
        }
    }
    Ok(())
}

/// Numbers of no node or subject where there are so many: two would be the last one's if
/// they were cut to 8 or 16 bits.
fn absent(count: u8) -> [u32; 6] {
    let [count, last] = [count, count.saturating_sub(1)].map(u32::from);
    [count, 64, 255, (1 << 8) + last, (1 << 16) + last, u32::MAX]
}

/// The rooms as they must be, then each set of them one entry short: of plan and keys, or
/// of the choice too.
fn short(exact: Lent, rooms: usize) -> impl Iterator<Item = Lent> {
    (0..1 << rooms).map(move |short: usize| {
        let less = |length: usize, room: usize| length.saturating_sub(short >> room & 1);
        let Lent { plan, keys, choice, .. } = exact;
        Lent { plan: less(plan, 0), keys: less(keys, 1), choice: less(choice, 2), ..exact }
    })
}

impl Asked<'_> {
    /// Of a file that isn't read all counts are 0.
    fn header(&self) -> Header {
        self.values.as_ref().map_or(Header::default(), |values| values.header)
    }

    /// The rooms as long as they must be.
    fn exact(&self) -> Lent {
        let Header { nodes, attributes, .. } = self.header();
        let [n, a] = [nodes, attributes].map(usize::from);
        Lent { choice: n, plan: 2 * n, keys: 2 * a, file: 0 }
    }

    /// `candidates` and `why`, of every node and subject and of some that aren't there.
    fn nodes(&self, held: &mut Held) -> Result<(), String> {
        let Header { nodes, subjects, .. } = self.header();
        for node in [(1 << 32) + usize::from(nodes.saturating_sub(1)), usize::MAX] {
            held.candidates(self.bytes, node)?;
        }
        for node in (0..nodes.into()).chain(absent(nodes)) {
            held.candidates(self.bytes, node as usize)?;
            for subject in (0..subjects.into()).chain(absent(subjects)) {
                held.why(self.bytes, node, subject)?;
            }
        }
        Ok(())
    }

    /// `cheapest` of the file, with rooms of every length, and of the file with other
    /// steps allowed. The choice that is offered then: the cheapest, if there is one.
    fn choices(&self, held: &mut Held) -> Result<Vec<u8>, String> {
        let exact = self.exact();
        for lent in short(exact, 3).chain([Lent::ALL, Lent::NONE]) {
            held.cheapest(self.bytes, lent)?;
        }
        let Some(values) = &self.values else { return Ok(Vec::new()) };
        let Some((steps, choice)) = held.cheapest(&self.allowing(u32::MAX), exact)? else {
            return Ok(self.lowest(values));
        };
        for allowed in [steps, steps.saturating_sub(1)] {
            for lent in [exact, Lent::NONE] {
                held.cheapest(&self.allowing(allowed), lent)?;
            }
        }
        Ok(choice)
    }

    fn allowing(&self, steps: u32) -> Vec<u8> {
        let mut bytes = self.bytes.to_vec();
        bytes[ALLOWED].copy_from_slice(&steps.to_be_bytes());
        bytes
    }

    /// Of each node the owner or the lowest candidate; a number of nobody where a step has
    /// none.
    fn lowest(&self, values: &Values) -> Vec<u8> {
        let of_node = |(i, node): (usize, &Node)| match node.kind {
            0 => values.relations[node.x as usize].owner,
            _ => Ordinary::candidates(self.bytes, i).unwrap_or(0).trailing_zeros() as u8,
        };
        values.nodes.iter().enumerate().map(of_node).collect()
    }

    /// `offered` with the choice, and with ones that are wrong in one entry, in all of
    /// them, or in their length.
    fn offers(&self, held: &mut Held, choice: &[u8]) -> Result<(), String> {
        let (exact, s) = (self.exact(), self.header().subjects);
        for lent in short(exact, 2).chain([Lent::ALL]) {
            held.offered(self.bytes, choice, lent)?;
        }
        let next = |subject: u8| if subject + 1 < s { subject + 1 } else { 0 };
        let mut wrong = vec![Vec::new(), [choice, &[0]].concat()];
        wrong.extend(choice.split_last().map(|(_, fewer)| fewer.to_vec()));
        wrong.push(choice.iter().map(|&subject| next(subject)).collect());
        for (node, &subject) in choice.iter().enumerate() {
            for other in [next(subject), s, 16, 255] {
                let mut offer = choice.to_vec();
                offer[node] = other;
                wrong.push(offer);
            }
        }
        for offer in wrong {
            for lent in [exact, Lent::NONE] {
                held.offered(self.bytes, &offer, lent)?;
            }
        }
        Ok(())
    }
}
