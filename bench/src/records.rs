//! The values of a plan file, laid out as include/tollburrow.h has them.

#[repr(C)]
#[derive(Clone, Copy, Default)]
pub struct Header {
    pub version: u16,
    pub subjects: u8,
    pub relations: u8,
    pub attributes: u8,
    pub nodes: u8,
    pub grants: u16,
    pub steps: u32,
    pub user: u8,
    pub pairs: u8,
    pub day: u16,
}

#[repr(C)]
#[derive(Clone, Copy, Default)]
pub struct Relation {
    pub owner: u8,
    pub set: u64,
}

#[repr(C)]
#[derive(Clone, Copy, Default)]
pub struct Grant {
    pub relation: u8,
    pub subject: u8,
    pub first: u16,
    pub last: u16,
    pub clear: u64,
    pub sealed: u64,
}

#[repr(C)]
#[derive(Clone, Copy, Default)]
pub struct Node {
    pub kind: u8,
    pub left: u8,
    pub right: u8,
    pub x: u8,
    pub y: u8,
    pub spare: [u8; 3],
    pub set: u64,
    pub needed: u64,
    pub size: u32,
    pub first: u8,
    pub count: u8,
}

// As C lays the records out on both machines that the library is built for.
const _: () = assert!(size_of::<Header>() == 16 && size_of::<Relation>() == 16);
const _: () = assert!(size_of::<Grant>() == 24 && size_of::<Node>() == 32);

#[derive(Clone, Default)]
pub struct Values {
    pub header: Header,
    pub relations: Vec<Relation>,
    pub grants: Vec<Grant>,
    pub nodes: Vec<Node>,
    /// Two bytes for each.
    pub pairs: Vec<u8>,
    pub step_prices: Vec<u32>,
    pub link_prices: Vec<u32>,
}
