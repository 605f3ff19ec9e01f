//! Where each value stands in a plan file, by its version and its counts.

/// Versions 1 to 4; each keeps what earlier ones have added.
pub const VERSIONS: usize = 4;
/// How long the header of version 1 is. Version 2 puts the user behind it, version 3
/// the number of pairs behind the user, version 4 the night's day behind that.
const HEADER: usize = 15;
pub const USER_AT: usize = HEADER;
pub const PAIRS_AT: usize = HEADER + 1;
pub const DAY_AT: usize = HEADER + 2;
pub const RELATION: usize = 9;
/// Where a grant's record ends in version 1; from version 4 on its first and its last
/// day follow.
pub const DAYS_AT: usize = 18;
/// Where the record of a node ends in version 1; from version 3 on the number of
/// its first pair and a count follow.
pub const NAMED_AT: usize = 28;
/// How long a file of each version can be, every count at its limit.
pub const LONGEST: [usize; VERSIONS] = [11_967, 11_968, 12_607, 13_697];

/// How long the header and the records of a grant and of a node are.
#[derive(Clone, Copy)]
pub struct Form {
    pub header: usize,
    pub grant: usize,
    pub node: usize,
}

/// The form of a version, if there is such a version.
pub fn form_of(version: u64) -> Option<Form> {
    let form = |header, grant, node| Some(Form { header, grant, node });
    match version {
        1 => form(HEADER, DAYS_AT, NAMED_AT),
        2 => form(HEADER + 1, DAYS_AT, NAMED_AT),
        3 => form(HEADER + 2, DAYS_AT, NAMED_AT + 2),
        4 => form(HEADER + 4, DAYS_AT + 4, NAMED_AT + 2),
        _ => None,
    }
}

/// The counts that tell how long the sections are.
pub struct Counts {
    pub form: Form,
    pub subjects: usize,
    pub relations: usize,
    pub grants: usize,
    pub nodes: usize,
    pub pairs: usize,
}

/// Where each section starts, and how far apart the grants and the nodes are.
pub struct Layout {
    pub relations: usize,
    pub grants: usize,
    pub grant: usize,
    pub nodes: usize,
    pub node: usize,
    pub pairs: usize,
    pub step_prices: usize,
    pub link_prices: usize,
    pub end: usize,
}

impl Layout {
    pub fn of(counts: &Counts) -> Layout {
        let Form { header, grant, node } = counts.form;
        let relations = header;
        let grants = relations + RELATION * counts.relations;
        let nodes = grants + grant * counts.grants;
        let pairs = nodes + node * counts.nodes;
        let step_prices = pairs + 2 * counts.pairs;
        let link_prices = step_prices + 4 * counts.nodes * counts.subjects;
        let end = link_prices + 4 * counts.subjects * counts.subjects;
        Layout { relations, grants, grant, nodes, node, pairs, step_prices, link_prices, end }
    }

    pub fn grant_at(&self, index: usize) -> usize {
        self.grants + self.grant * index
    }

    pub fn node_at(&self, index: usize) -> usize {
        self.nodes + self.node * index
    }
}
