//! The library's C functions, each behind a call that keeps its promises about
//! pointers, and the record of all of them for one case.

use crate::generate::Case;
use crate::planner::Rooms;
use crate::record::{Outcome, Record, Told};
use crate::values::{Grant, Header, Node, Relation, Values};
use crate::why::Question;
use crate::writer::{Order, Written};

unsafe extern "C" {
    fn tollburrow_check(file: *const u8, n: usize) -> u64;
    fn tollburrow_grant_records(file: *const u8, n: usize, from: *mut u64, length: *mut u64)
    -> u64;
    fn tollburrow_candidates(file: *const u8, n: usize, node: usize, set: *mut u16) -> u64;
    fn tollburrow_cheapest(
        file: *const u8,
        n: usize,
        choice: *mut u8,
        c: usize,
        plan: *mut u64,
        p: usize,
        keys: *mut u64,
        k: usize,
        total: *mut u64,
        steps: *mut u32,
    ) -> u64;
    fn tollburrow_offered(
        file: *const u8,
        n: usize,
        offer: *const u8,
        o: usize,
        plan: *mut u64,
        p: usize,
        keys: *mut u64,
        k: usize,
        total: *mut u64,
    ) -> u64;
    fn tollburrow_why(
        file: *const u8,
        n: usize,
        node: u32,
        subject: u32,
        table: *mut u8,
        condition: *mut u8,
        set: *mut u64,
    ) -> u64;
    fn tollburrow_write(
        header: *const Header,
        relations: *const Relation,
        r: usize,
        grants: *const Grant,
        g: usize,
        nodes: *const Node,
        n: usize,
        pairs: *const u8,
        p: usize,
        step_prices: *const u32,
        s: usize,
        link_prices: *const u32,
        l: usize,
        room: *mut u8,
        length: usize,
        written: *mut u64,
    ) -> u64;
}

// As C lays the records out on both machines that the library is built for.
const _: () = assert!(size_of::<Header>() == 16 && size_of::<Relation>() == 16);
const _: () = assert!(size_of::<Grant>() == 24 && size_of::<Node>() == 32);

/// Where what is lent lies; where nothing is, the bare address.
fn at<T>(bare: usize, lent: usize, start: *const T) -> *const T {
    if lent == 0 { std::ptr::without_provenance(bare) } else { start }
}

fn room<T>(bare: usize, lent: usize, room: &mut [T]) -> *mut T {
    at(bare, lent, room.as_mut_ptr()).cast_mut()
}

/// A file, an offer or a list as it is passed: its address and its length.
fn passed<T>(bare: usize, items: &[T]) -> (*const T, usize) {
    (at(bare, items.len(), items.as_ptr()), items.len())
}

fn grants(case: &Case, untouched: u64) -> [u64; 3] {
    let (file, n) = passed(case.bare, &case.file);
    let (mut from, mut length) = (untouched, untouched);
    // SAFETY: a slice with its length, and two numbers of our own.
    let code = unsafe { tollburrow_grant_records(file, n, &mut from, &mut length) };
    [code, from, length]
}

fn candidates(case: &Case, node: usize, untouched: u16) -> (u64, u16) {
    let (file, n) = passed(case.bare, &case.file);
    let mut set = untouched;
    // SAFETY: a slice with its length, and a number of our own.
    let code = unsafe { tollburrow_candidates(file, n, node, &mut set) };
    (code, set)
}

fn why(case: &Case, asked: Question) -> Told {
    let (file, n) = passed(case.bare, &case.file);
    let mut told = Told::untouched(case.fill);
    let Told { table, condition, set, .. } = &mut told;
    // SAFETY: a slice with its length, and three numbers of our own.
    told.code =
        unsafe { tollburrow_why(file, n, asked.node, asked.subject, table, condition, set) };
    told
}

fn cheapest(case: &Case) -> Outcome {
    let mut out = Outcome::untouched(&case.rooms, case.fill);
    let (file, n) = passed(case.bare, &case.file);
    let Rooms { choice, plan, keys } = case.rooms;
    // SAFETY: each room is longer than the length that is lent of it.
    out.code = unsafe {
        tollburrow_cheapest(
            file,
            n,
            room(case.bare, choice, &mut out.choice),
            choice,
            room(case.bare, plan, &mut out.plan),
            plan,
            room(case.bare, keys, &mut out.keys),
            keys,
            &mut out.total,
            &mut out.steps,
        )
    };
    out
}

fn offered(case: &Case) -> Outcome {
    let mut out = Outcome::untouched(&case.rooms, case.fill);
    let (file, n) = passed(case.bare, &case.file);
    let (offer, o) = passed(case.bare, &case.offer);
    let Rooms { plan, keys, .. } = case.rooms;
    // SAFETY: each room is longer than the length that is lent of it.
    out.code = unsafe {
        tollburrow_offered(
            file,
            n,
            offer,
            o,
            room(case.bare, plan, &mut out.plan),
            plan,
            room(case.bare, keys, &mut out.keys),
            keys,
            &mut out.total,
        )
    };
    out
}

pub fn record(case: &Case) -> Record {
    let untouched = u64::from_ne_bytes([case.fill; 8]);
    let (file, n) = passed(case.bare, &case.file);
    let of_node = |&node: &usize| candidates(case, node, untouched as u16);
    Record {
        // SAFETY: a slice with its length.
        check: unsafe { tollburrow_check(file, n) },
        grants: grants(case, untouched),
        candidates: case.asked.iter().map(of_node).collect(),
        whys: case.questions.iter().map(|&asked| why(case, asked)).collect(),
        cheapest: cheapest(case),
        offered: offered(case),
    }
}

pub fn write(order: &Order) -> Written {
    let Order { values, room: lent, bare, .. } = order;
    let Values { header, relations, grants, nodes, pairs, step_prices, link_prices } = values;
    let mut out = Written::untouched(order);
    let (relations, r) = passed(*bare, relations);
    let (grants, g) = passed(*bare, grants);
    let (nodes, n) = passed(*bare, nodes);
    let (pairs, p) = passed(*bare, pairs);
    let (steps, s) = passed(*bare, step_prices);
    let (links, l) = passed(*bare, link_prices);
    let start = room(*bare, *lent, &mut out.room);
    let written = &mut out.written;
    // SAFETY: slices with their lengths; the room is longer than what is lent of it.
    out.code = unsafe {
        tollburrow_write(
            header, relations, r, grants, g, nodes, n, pairs, p, steps, s, links, l, start, *lent,
            written,
        )
    };
    // SAFETY: a slice with its length.
    out.check = out.file().map(|file| unsafe { tollburrow_check(file.as_ptr(), file.len()) });
    out
}
