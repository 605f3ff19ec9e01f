//! The writer: what it must do with the values of a case's file, and with others
//! that are made of them.

use std::time::{Duration, Instant};

use crate::coverage::Coverage;
use crate::generate::Case;
use crate::hex;
use crate::orders;
use crate::planner::Study;
use crate::reading::Refusal;
use crate::rng::Rng;
use crate::values::Values;
use crate::writer::{Order, Written, verdict};

/// The linked library's writer, or the one that plays it.
pub type Writer = fn(&Order) -> Written;

/// What is drawn for the writer is drawn apart, so that the cases stay as they are.
const APART: u64 = 0x7772_6974_6572_7321;

/// A writer, and how long its calls took.
pub struct Asked {
    pub writer: Writer,
    pub spent: Duration,
}

impl Asked {
    fn compare(&mut self, order: &Order, verdict: &Result<Vec<u8>, Refusal>) -> Result<(), String> {
        let expected = Written::expected(order, verdict);
        let start = Instant::now();
        let given = (self.writer)(order);
        self.spent += start.elapsed();
        if given == expected { Ok(()) } else { Err(difference(order, &expected, &given)) }
    }

    /// The case's file through its values and back, then one order made of them.
    pub fn case(
        &mut self,
        seed: u64,
        index: usize,
        case: &Case,
        study: &Result<Study, Refusal>,
        coverage: &mut Coverage,
    ) -> Result<(), String> {
        let mut rng = Rng::new(seed ^ APART, index as u64);
        let values = Values::of(&case.file);
        let base = match values {
            Ok(values) => {
                self.back(&mut rng, case, study, &values)?;
                values
            }
            Err(refusal) if study.as_ref().err() == Some(&refusal) && refusal.number < 5 => {
                orders::tiny(&mut rng)
            }
            Err(refusal) => return Err(format!("no values, but {refusal:?}")),
        };
        let refused = study.as_ref().err().map(|refusal| refusal.number);
        coverage.writes.back(base.header.version, refused);
        let order = orders::order(&mut rng, base);
        let verdict = verdict(&order.values, order.room);
        reads_back(&order, &verdict)?;
        coverage.writes.order(&order, &verdict);
        self.compare(&order, &verdict)
    }

    /// What was read, written again, is the same file; what was refused is refused
    /// again, with the same number and place. The room is long enough.
    fn back(
        &mut self,
        rng: &mut Rng,
        case: &Case,
        study: &Result<Study, Refusal>,
        values: &Values,
    ) -> Result<(), String> {
        if values.encode() != case.file {
            return Err("the file's values give other bytes".into());
        }
        let room = case.file.len() + rng.pick(&[0, 0, 0, 1, 50]);
        let order = Order { values: values.clone(), room, fill: case.fill, bare: case.bare };
        let verdict = match study {
            Ok(_) => Ok(case.file.clone()),
            Err(refusal) => Err(*refusal),
        };
        self.compare(&order, &verdict)
    }
}

/// What is written has the same values in it; the refusals are a writer's.
fn reads_back(order: &Order, verdict: &Result<Vec<u8>, Refusal>) -> Result<(), String> {
    let right = match verdict {
        Err(refusal) => matches!(refusal.number, 2..=11 | 15),
        Ok(bytes) => Values::of(bytes) == Ok(order.values.meant()),
    };
    if right { Ok(()) } else { Err(format!("{}\nverdict {verdict:?}", label(order))) }
}

/// All it takes to make the order again.
fn label(order: &Order) -> String {
    let Order { values, room, fill, bare } = order;
    format!(
        "order {:?}, lists of {:?}, bytes {}\nroom {room} fill {fill} bare {bare}",
        values.header,
        values.lengths(),
        hex(&values.encode())
    )
}

fn difference(order: &Order, expected: &Written, given: &Written) -> String {
    let told = |written: &Written| {
        let Written { code, written, check, .. } = written;
        format!(
            "refusal {} place {}, written holds {written}, check {check:?}",
            code >> 32,
            *code as u32
        )
    };
    let both = expected.room.iter().zip(&given.room);
    let room = match both.enumerate().find(|(_, (expected, given))| expected != given) {
        None => "the rooms are the same".into(),
        Some((at, (expected, given))) => {
            format!("the rooms differ from byte {at} on, expected {expected}, given {given}")
        }
    };
    format!("{}\nexpected {}\ngiven    {}\n{room}", label(order), told(expected), told(given))
}
