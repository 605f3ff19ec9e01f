//! The writer's verdict, said over the values, and all that a call leaves.

use crate::reading::{Refusal, read, refuse};
use crate::record::code;
use crate::values::{Header, Values, with_user};

/// Bytes kept behind each room, which no call may touch.
const GUARD: usize = 16;

/// What is handed to the writer.
#[derive(Clone)]
pub struct Order {
    pub values: Values,
    /// How many bytes are lent.
    pub room: usize,
    /// What the room holds before the call follows from it.
    pub fill: u8,
    /// The address that is passed where a length is 0.
    pub bare: usize,
}

/// What a call brings, and all that it leaves in what it was lent.
#[derive(PartialEq, Debug)]
pub struct Written {
    pub code: u64,
    pub written: u64,
    /// The room, with what lies behind it.
    pub room: Vec<u8>,
    /// The verdict on the file that was written, if one was.
    pub check: Option<u64>,
}

impl Written {
    /// What a call that writes nothing leaves. Hardly two bytes in a row are the
    /// same, so that bytes put back at another place show.
    pub fn untouched(order: &Order) -> Written {
        let before = |at: usize| order.fill.wrapping_add((at as u8).wrapping_mul(37));
        let room = (0..order.room + GUARD).map(before).collect();
        let written = u64::from_ne_bytes([order.fill; 8]);
        Written { code: 0, written, room, check: None }
    }

    pub fn expected(order: &Order, verdict: &Result<Vec<u8>, Refusal>) -> Written {
        let mut out = Written::untouched(order);
        match verdict {
            Err(refusal) => out.code = code(refusal),
            Ok(bytes) => {
                out.room[..bytes.len()].copy_from_slice(bytes);
                out.written = bytes.len() as u64;
                out.check = Some(0);
            }
        }
        out
    }

    /// The file that was written, if one was and it lies in the room.
    pub fn file(&self) -> Option<&[u8]> {
        if self.code == 0 { self.room.get(..self.written as usize) } else { None }
    }
}

/// Which of subjects, relations, attributes, nodes, grants and user are outside
/// their limits.
pub fn outside(header: &Header) -> [bool; 6] {
    let Header { version, subjects, relations, attributes, nodes, grants, user, .. } = *header;
    [
        subjects == 0 || subjects > 16,
        relations == 0 || relations > 16,
        attributes == 0 || attributes > 64,
        nodes == 0 || nodes > 64,
        grants > 272,
        with_user(version) && user >= subjects,
    ]
}

/// The file that is written, or the refusal: 1 cannot arise, and of what reading
/// refuses only 5 to 11 is left once the header and the lists fit.
pub fn verdict(values: &Values, room: usize) -> Result<Vec<u8>, Refusal> {
    if !(1..=4).contains(&values.header.version) {
        return refuse(2, 0);
    }
    if outside(&values.header).contains(&true) {
        return refuse(4, 0);
    }
    if values.lengths() != values.header.asks() {
        return refuse(3, 0);
    }
    let bytes = values.encode();
    read(&bytes)?;
    if room < bytes.len() { refuse(15, 4) } else { Ok(bytes) }
}
