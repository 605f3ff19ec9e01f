//! The two sides, each behind the same calls.

use crate::ordinary::{self, Refusal};
use crate::records::{Grant, Header, Node, Relation, Values};

// As include/tollburrow.h has them.
unsafe extern "C" {
    fn tollburrow_check(file: *const u8, length: usize) -> u64;
    fn tollburrow_candidates(file: *const u8, length: usize, node: u64, set: *mut u16) -> u64;
    fn tollburrow_why(
        file: *const u8,
        length: usize,
        node: u32,
        subject: u32,
        table: *mut u8,
        condition: *mut u8,
        set: *mut u64,
    ) -> u64;
    fn tollburrow_cheapest(
        file: *const u8,
        length: usize,
        choice: *mut u8,
        choice_length: usize,
        plan: *mut u64,
        plan_length: usize,
        keys: *mut u64,
        keys_length: usize,
        total: *mut u64,
        steps: *mut u32,
    ) -> u64;
    fn tollburrow_offered(
        file: *const u8,
        length: usize,
        offer: *const u8,
        offer_length: usize,
        plan: *mut u64,
        plan_length: usize,
        keys: *mut u64,
        keys_length: usize,
        total: *mut u64,
    ) -> u64;
    fn tollburrow_write(
        header: *const Header,
        relations: *const Relation,
        relations_length: usize,
        grants: *const Grant,
        grants_length: usize,
        nodes: *const Node,
        nodes_length: usize,
        pairs: *const u8,
        pairs_length: usize,
        step_prices: *const u32,
        step_prices_length: usize,
        link_prices: *const u32,
        link_prices_length: usize,
        room: *mut u8,
        room_length: usize,
        written: *mut u64,
    ) -> u64;
}

/// How long a file can be.
const LONGEST: usize = 13_697;

/// How much is lent of each room.
#[derive(Clone, Copy, PartialEq)]
pub struct Lent {
    pub choice: usize,
    pub plan: usize,
    pub keys: usize,
    pub file: usize,
}

impl Lent {
    pub const NONE: Lent = Lent { choice: 0, plan: 0, keys: 0, file: 0 };
    pub const ALL: Lent = Lent { choice: 64, plan: 128, keys: 128, file: LONGEST };
}

/// Rooms of the greatest length that is asked, of which a part is lent.
#[derive(Clone, PartialEq)]
pub struct Rooms {
    pub choice: [u8; Lent::ALL.choice],
    pub plan: [u64; Lent::ALL.plan],
    pub keys: [u64; Lent::ALL.keys],
    pub file: [u8; Lent::ALL.file],
    lent: Lent,
}

/// What is lent, of choice, plan, keys and file.
type Parts<'a> = (&'a mut [u8], &'a mut [u64], &'a mut [u64], &'a mut [u8]);

impl Rooms {
    pub fn new() -> Box<Rooms> {
        Rooms::lending(Lent::ALL)
    }

    pub fn lending(lent: Lent) -> Box<Rooms> {
        Box::new(Rooms {
            choice: [0xa5; Lent::ALL.choice],
            plan: [0xa5a5; Lent::ALL.plan],
            keys: [0x5a5a; Lent::ALL.keys],
            file: [0xa5; Lent::ALL.file],
            lent,
        })
    }

    fn parts(&mut self) -> Parts<'_> {
        let Rooms { choice, plan, keys, file, lent } = self;
        (
            &mut choice[..lent.choice],
            &mut plan[..lent.plan],
            &mut keys[..lent.keys],
            &mut file[..lent.file],
        )
    }
}

/// Zero, or the refusal as number * 2^32 + place.
fn answer<T>(code: u64, value: T) -> Result<T, Refusal> {
    if code == 0 { Ok(value) } else { Err(((code >> 32) as u8, code as u32)) }
}

pub trait Side {
    fn check(file: &[u8]) -> Result<(), Refusal>;
    fn candidates(file: &[u8], node: usize) -> Result<u16, Refusal>;
    /// Table, condition and set; zeros for a candidate.
    fn why(file: &[u8], node: u32, subject: u32) -> Result<(u8, u8, u64), Refusal>;
    /// Total and steps, with choice, plan and keys in the rooms.
    fn cheapest(file: &[u8], rooms: &mut Rooms) -> Result<(u64, u32), Refusal>;
    /// The total, with plan and keys in the rooms.
    fn offered(file: &[u8], offer: &[u8], rooms: &mut Rooms) -> Result<u64, Refusal>;
    /// How many bytes the file has that is in its room then.
    fn write(values: &Values, rooms: &mut Rooms) -> Result<usize, Refusal>;
}

pub struct Ordinary;
pub struct Library;

impl Side for Ordinary {
    #[inline(never)]
    fn check(file: &[u8]) -> Result<(), Refusal> {
        ordinary::check(file)
    }

    #[inline(never)]
    fn candidates(file: &[u8], node: usize) -> Result<u16, Refusal> {
        ordinary::candidates(file, node)
    }

    #[inline(never)]
    fn why(file: &[u8], node: u32, subject: u32) -> Result<(u8, u8, u64), Refusal> {
        ordinary::why(file, node, subject)
    }

    #[inline(never)]
    fn cheapest(file: &[u8], rooms: &mut Rooms) -> Result<(u64, u32), Refusal> {
        let (choice, plan, keys, _) = rooms.parts();
        ordinary::cheapest(file, choice, plan, keys)
    }

    #[inline(never)]
    fn offered(file: &[u8], offer: &[u8], rooms: &mut Rooms) -> Result<u64, Refusal> {
        let (_, plan, keys, _) = rooms.parts();
        ordinary::offered(file, offer, plan, keys)
    }

    #[inline(never)]
    fn write(values: &Values, rooms: &mut Rooms) -> Result<usize, Refusal> {
        ordinary::write(values, rooms.parts().3)
    }
}

// What is passed is slices with their lengths, the lent parts of rooms with theirs, and
// single numbers of our own; no two of them overlap.
impl Side for Library {
    #[inline(never)]
    fn check(file: &[u8]) -> Result<(), Refusal> {
        // SAFETY: as said above.
        answer(unsafe { tollburrow_check(file.as_ptr(), file.len()) }, ())
    }

    #[inline(never)]
    fn candidates(file: &[u8], node: usize) -> Result<u16, Refusal> {
        let mut set = 0;
        // SAFETY: as said above.
        let code =
            unsafe { tollburrow_candidates(file.as_ptr(), file.len(), node as u64, &mut set) };
        answer(code, set)
    }

    #[inline(never)]
    fn why(file: &[u8], node: u32, subject: u32) -> Result<(u8, u8, u64), Refusal> {
        let (mut table, mut condition, mut set) = (0, 0, 0);
        let (start, length) = (file.as_ptr(), file.len());
        // SAFETY: as said above.
        let code = unsafe {
            tollburrow_why(start, length, node, subject, &mut table, &mut condition, &mut set)
        };
        answer(code, (table, condition, set))
    }

    #[inline(never)]
    fn cheapest(file: &[u8], rooms: &mut Rooms) -> Result<(u64, u32), Refusal> {
        let (mut total, mut steps) = (0, 0);
        let (choice, plan, keys, _) = rooms.parts();
        // SAFETY: as said above.
        let code = unsafe {
            tollburrow_cheapest(
                file.as_ptr(),
                file.len(),
                choice.as_mut_ptr(),
                choice.len(),
                plan.as_mut_ptr(),
                plan.len(),
                keys.as_mut_ptr(),
                keys.len(),
                &mut total,
                &mut steps,
            )
        };
        answer(code, (total, steps))
    }

    #[inline(never)]
    fn offered(file: &[u8], offer: &[u8], rooms: &mut Rooms) -> Result<u64, Refusal> {
        let mut total = 0;
        let (_, plan, keys, _) = rooms.parts();
        // SAFETY: as said above.
        let code = unsafe {
            tollburrow_offered(
                file.as_ptr(),
                file.len(),
                offer.as_ptr(),
                offer.len(),
                plan.as_mut_ptr(),
                plan.len(),
                keys.as_mut_ptr(),
                keys.len(),
                &mut total,
            )
        };
        answer(code, total)
    }

    #[inline(never)]
    fn write(values: &Values, rooms: &mut Rooms) -> Result<usize, Refusal> {
        let Values { header, relations, grants, nodes, pairs, step_prices, link_prices } = values;
        let (room, mut written) = (rooms.parts().3, 0);
        // SAFETY: as said above.
        let code = unsafe {
            tollburrow_write(
                header,
                relations.as_ptr(),
                relations.len(),
                grants.as_ptr(),
                grants.len(),
                nodes.as_ptr(),
                nodes.len(),
                pairs.as_ptr(),
                pairs.len(),
                step_prices.as_ptr(),
                step_prices.len(),
                link_prices.as_ptr(),
                link_prices.len(),
                room.as_mut_ptr(),
                room.len(),
                &mut written,
            )
        };
        answer(code, written as usize)
    }
}
