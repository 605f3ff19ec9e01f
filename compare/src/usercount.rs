//! What the cases have touched of versions and users: headers, refusal 17 and
//! deliveries.

use crate::coverage::{LONG_NODES, Line, count, line};
use crate::damage::OTHER_VERSIONS;
use crate::generate::Case;
use crate::layout::{USER_AT, VERSIONS, form_of};
use crate::planner::{Answer, Study};
use crate::reading::{read, version};
use crate::userslips;

/// The floor for each version, and for each of those that there are not.
const LEAST_READABLE: usize = 13_500;
const LEAST_OF_VERSION: usize = 55;
/// Floors for the slips, in the order of their names.
const LEAST_SHOWN: [usize; userslips::NAMES.len()] = [
    40_000, 27_500, 5_700, 3_350, 2_350, 160, 780, 2_850, 10_500, 5_300, 5_800, 1_050, 6_500, 4_100,
];

/// What is counted of headers that are refused.
#[derive(Default)]
struct Headers {
    /// By the version, from 2 on.
    short: [usize; VERSIONS - 1],
    short_with_bad_count: usize,
    user_alone: usize,
    user_first_past: usize,
    user_and_length: usize,
    other_versions: [usize; OTHER_VERSIONS.len()],
}

/// What is counted of refusals 17.
#[derive(Default)]
struct Barred {
    later_leaf: usize,
    several_leaves: usize,
    without_candidate: usize,
    steps_exceed: usize,
    bad_offer: usize,
    short_room: usize,
}

/// What is counted of answers to a user, of both calls.
#[derive(Default)]
struct Delivered {
    cheapest: usize,
    offered: usize,
    seen: usize,
    user_ran_root: usize,
    all_clear: usize,
    leaf_alone: usize,
    long: usize,
}

#[derive(Default)]
pub struct Users {
    readable: [usize; VERSIONS],
    headers: Headers,
    barred: Barred,
    delivered: Delivered,
    slips: [usize; userslips::NAMES.len()],
}

/// Whether each count of a header is within its limits.
fn counts_fit(header: &[u8]) -> bool {
    let grants = u16::from_be_bytes([header[9], header[10]]);
    let up_to = |most: u8, counts: &[u8]| counts.iter().all(|count| (1..=most).contains(count));
    up_to(16, &header[5..7]) && up_to(64, &header[7..9]) && grants <= 272
}

/// Whether the length would be refused if the user were right.
fn too_long_or_short(file: &[u8]) -> bool {
    let mut righted = file.to_vec();
    righted[USER_AT] = 0;
    read(&righted).is_err_and(|refusal| refusal.number == 3)
}

impl Headers {
    fn refused(&mut self, file: &[u8]) {
        let Ok(version) = version(file) else { return };
        for (counted, other) in self.other_versions.iter_mut().zip(OTHER_VERSIONS) {
            *counted += count(version == other);
        }
        let Some(form) = form_of(version).filter(|_| version > 1) else { return };
        if file.len() + 1 == form.header {
            self.short[version as usize - 2] += 1;
            self.short_with_bad_count += count(!counts_fit(file));
        }
        if file.len() >= form.header && counts_fit(file) && file[USER_AT] >= file[5] {
            self.user_alone += 1;
            self.user_first_past += count(file[USER_AT] == file[5]);
            self.user_and_length += count(too_long_or_short(file));
        }
    }

    fn lines(&self) -> Vec<Line> {
        let mut lines = vec![
            line("headers of version 2 with 15 bytes", self.short[0], 80),
            line("headers of version 3 with 16 bytes", self.short[1], 360),
            line("headers of version 4 with 18 bytes", self.short[2], 200),
            line("headers so short, a count out of its limits", self.short_with_bad_count, 330),
            line("headers refused for the user alone", self.user_alone, 540),
            line(
                "headers so refused, the user's number is that of subjects",
                self.user_first_past,
                140,
            ),
            line("headers so refused, the length wrong too", self.user_and_length, 180),
        ];
        let versions = OTHER_VERSIONS.iter().zip(self.other_versions);
        lines.extend(versions.map(|(version, counted)| {
            line(&format!("headers of version {version}"), counted, LEAST_OF_VERSION)
        }));
        lines
    }
}

impl Barred {
    /// A refusal 17 with what would have been refused after it.
    fn count(&mut self, study: &Study, case: &Case, leaves: &[usize]) {
        let steps_exceed = study.steps() > u64::from(study.file.allowed);
        let without_candidate = study.full_options().is_err();
        self.later_leaf += count(leaves[0] > 0);
        self.several_leaves += count(leaves.len() > 1);
        self.without_candidate += count(without_candidate);
        self.steps_exceed += count(!without_candidate && steps_exceed);
        self.bad_offer += count(study.fitting(&case.offer).is_err());
        self.short_room += count(study.room_suffices(&case.rooms).is_err());
    }

    fn lines(&self) -> [Line; 6] {
        [
            line("refusals 17 at a leaf that is not the first", self.later_leaf, 1_650),
            line("refusals 17, several such leaves", self.several_leaves, 700),
            line("refusals 17, a step without a candidate too", self.without_candidate, 700),
            line("refusals 17, more steps than allowed too", self.steps_exceed, 990),
            line("refusals 17, a bad offer too", self.bad_offer, 2_500),
            line("refusals 17, room too short too", self.short_room, 1_350),
        ]
    }
}

impl Delivered {
    fn count(&mut self, study: &Study, user: usize, answer: &Answer) {
        let root = study.file.root();
        let by_steps = study.keys_delivered(&answer.choice, None);
        self.cheapest += count(answer.steps.is_some());
        self.offered += count(answer.steps.is_none());
        self.seen += count(by_steps != answer.keys);
        self.user_ran_root += count(root > 0 && answer.choice[root] == user);
        self.all_clear += count(root > 0 && study.handed_sealed.is_empty());
        self.leaf_alone += count(root == 0);
        self.long += count(study.file.nodes.len() >= LONG_NODES);
    }

    fn lines(&self) -> [Line; 7] {
        [
            line("cheapest answered to a user", self.cheapest, 22_000),
            line("offers accepted from a user", self.offered, 20_500),
            line("answers to a user, the user a holder by the delivery alone", self.seen, 15_500),
            line("answers to a user, the user ran the root", self.user_ran_root, 23_500),
            line("answers to a user, a step's table delivered all clear", self.all_clear, 4_950),
            line("answers to a user, a leaf alone", self.leaf_alone, 3_700),
            line("answers to a user, 20 nodes or more", self.long, 3_150),
        ]
    }
}

impl Users {
    pub fn refused(&mut self, file: &[u8]) {
        self.headers.refused(file);
    }

    /// A readable file, and the answers that it brought.
    pub fn read(&mut self, study: &Study, case: &Case, answers: &[&Answer]) {
        self.readable[study.file.version() - 1] += 1;
        let shown = userslips::shown(&case.file, study, answers);
        for (slip, shown) in self.slips.iter_mut().zip(shown) {
            *slip += count(shown);
        }
        let Some(user) = study.file.user else { return };
        match &study.barred_leaves(user)[..] {
            [] => answers.iter().for_each(|answer| self.delivered.count(study, user, answer)),
            leaves => self.barred.count(study, case, leaves),
        }
    }

    pub fn lines(&self) -> Vec<Line> {
        let readable = (1..).zip(self.readable);
        let mut lines: Vec<Line> = readable
            .map(|(version, n)| {
                line(&format!("readable files of version {version}"), n, LEAST_READABLE)
            })
            .collect();
        lines.extend(self.headers.lines());
        lines.extend(self.barred.lines());
        lines.extend(self.delivered.lines());
        let slips = userslips::NAMES.iter().zip(self.slips).zip(LEAST_SHOWN);
        lines.extend(slips.map(|((name, shown), least)| {
            line(&format!("files that would show {name}"), shown, least)
        }));
        lines
    }
}
