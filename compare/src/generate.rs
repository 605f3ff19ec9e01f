//! Cases: a file, an offer and room lengths, each case from the seed and its
//! index alone.

use crate::broken;
use crate::carryfaults;
use crate::cycles;
use crate::dayfaults::{self, TRIALS};
use crate::file::File;
use crate::pairfaults::{self, FAULTS};
use crate::pairviews::tell_apart;
use crate::planner::{Rooms, Study, study};
use crate::reading::Refusal;
use crate::rng::Rng;
use crate::served::serve;
use crate::users;
use crate::valid::{self, Size};
use crate::why::Question;

#[derive(Clone)]
pub struct Case {
    pub family: &'static str,
    pub file: Vec<u8>,
    pub offer: Vec<u8>,
    pub rooms: Rooms,
    /// What every byte of the rooms holds before a call.
    pub fill: u8,
    /// The nodes whose candidates are asked.
    pub asked: Vec<usize>,
    /// What is asked about why a subject is out.
    pub questions: Vec<Question>,
    /// The address that is passed where a length is 0.
    pub bare: usize,
    /// What the file is made for, where it is made for one thing.
    pub known: Option<Known>,
}

/// What a file is made for, and the refusal that it must bring, if any.
#[derive(Clone, Debug)]
pub struct Known {
    pub made: Made,
    pub verdict: Option<Refusal>,
}

/// A fault over pairs, or a trial of days or of what is carried from record to record,
/// by its place among them.
#[derive(Clone, Copy, Debug)]
pub enum Made {
    Pair(usize),
    Day(usize),
    Carried(usize),
}

impl Known {
    /// Refused with this number at this place, or read where the number is 0.
    pub fn of(made: Made, number: u64, place: usize) -> Known {
        let refusal = Refusal { number, place: place as u64 };
        Known { made, verdict: (number > 0).then_some(refusal) }
    }
}

/// One in so many cases, after which the families come round again.
const ROUND: usize = 50;
/// Up to so many nodes, why is asked of every subject at each step; of more, of so
/// many subjects: each question checks the whole file anew, and a file at its
/// limits would take some 800 of them.
const ALL_ASKED: usize = 24;
const SOME_ASKED: usize = 3;
/// Of a hundred tiny or small files that may have joins on several pairs, so many
/// are made for them.
const PAIRED: usize = 60;
/// Of a hundred files that need not be answered, so many are of another night than the
/// one they were made for, if they have one.
const OTHER_NIGHTS: usize = 8;
/// Of a hundred large files, so many of each size. Most are served, so that
/// they are answered.
const LARGE: [(usize, &str, Size, bool); 6] = [
    (40, "broad", Size::Broad, true),
    (17, "middle", Size::Middle, true),
    (20, "large served", Size::Large, true),
    (8, "large", Size::Large, false),
    (11, "longest served", Size::Longest, true),
    (4, "longest", Size::Longest, false),
];
/// One case in so many brings one more, drawn apart, so that the cases stay as they are.
const BESIDE: usize = 8;
const APART: u64 = 0x6361_7272_6965_6421;
/// The longest file that the program `answers` takes.
pub const LONGEST_TAKEN: usize = 16_384;
pub const LONGEST_OFFER: usize = 255;

pub fn case(seed: u64, index: usize, large_every: usize) -> Case {
    let mut rng = Rng::new(seed, index as u64);
    let (round, slot) = (index / ROUND, index % ROUND);
    if index % large_every == large_every - 1 {
        return large(&mut rng);
    }
    match slot {
        0..=12 => valid_case(&mut rng, "small", Size::Small, false),
        13 | 35 => {
            let turn = round * 2 + usize::from(slot == 35);
            let (file, known) = dayfaults::file(&mut rng, turn % TRIALS.len());
            Case { known: Some(known), ..finish(&mut rng, "days", file, false) }
        }
        14..=15 => valid_case(&mut rng, "even", Size::Even, true),
        16..=21 => valid_case(&mut rng, "tiny", Size::Tiny, false),
        22..=24 => valid_case(&mut rng, "medium", Size::Medium, false),
        25..=27 => valid_case(&mut rng, "deep", Size::Deep, false),
        40..=41 => {
            let (file, known) = pairfaults::file(&mut rng, (round * 2 + slot - 40) % FAULTS.len());
            Case { known: Some(known), ..finish(&mut rng, "pair fault", file, false) }
        }
        _ => {
            let (family, file) = broken::file(seed, round, slot, &mut rng);
            finish(&mut rng, family, file, false)
        }
    }
}

/// The one more that a case brings, if it does: made for something that is carried from
/// record to record, each such thing in its turn.
pub fn beside(seed: u64, index: usize) -> Option<Case> {
    if !index.is_multiple_of(BESIDE) {
        return None;
    }
    let mut rng = Rng::new(seed ^ APART, index as u64);
    let trial = index / BESIDE % carryfaults::TRIALS.len();
    let (file, known) = carryfaults::file(&mut rng, trial);
    let read = known.verdict.is_none();
    Some(Case { known: Some(known), ..finish(&mut rng, "carried", file, read) })
}

fn large(rng: &mut Rng) -> Case {
    let mut turn = rng.below(100);
    for (share, family, size, served) in LARGE {
        if turn < share {
            return valid_case(rng, family, size, served);
        }
        turn -= share;
    }
    unreachable!("the shares make up a hundred")
}

/// A valid file with the steps it allows at the edge or away from it. One that
/// is served mostly has all else fit too, so that it is answered.
fn valid_case(rng: &mut Rng, family: &'static str, size: Size, served: bool) -> Case {
    let version = valid::version(rng);
    let size = match size {
        Size::Tiny if version >= 3 && rng.percent(PAIRED) => Size::Paired,
        Size::Small if version >= 3 && rng.percent(PAIRED) => Size::Joined,
        size => size,
    };
    let mut file = valid::file(rng, size, version, false);
    tell_apart(rng, &mut file);
    if served {
        serve(rng, &mut file);
    }
    let fits = served && rng.percent(90);
    users::name(rng, &mut file, fits);
    if !served && rng.percent(OTHER_NIGHTS) {
        cycles::other_night(rng, &mut file);
    }
    if let Ok(study) = study(&file.write()) {
        let steps = study.steps() as u32;
        file.allowed = match mode(rng, 7, fits) {
            0..=3 => steps,
            4 => steps + rng.below(100) as u32,
            5 | 6 => u32::MAX,
            7 | 8 => steps.saturating_sub(1),
            _ => rng.below(steps as usize + 1) as u32,
        };
    }
    finish(rng, family, file.write(), fits)
}

/// One of ten ways to draw something, of which the first `right` fit.
fn mode(rng: &mut Rng, right: usize, fits: bool) -> usize {
    rng.below(if fits { right } else { 10 })
}

fn finish(rng: &mut Rng, family: &'static str, file: Vec<u8>, fits: bool) -> Case {
    let study = study(&file).ok();
    let offer = match &study {
        Some(study) => offer(rng, study, fits),
        None => {
            let length = rng.pick(&[0, 1, 5, 64, LONGEST_OFFER]);
            rng.bytes(length)
        }
    };
    let rooms = rooms(rng, study.as_ref(), fits);
    let fill = if rng.percent(50) { 165 } else { rng.next() as u8 };
    let asked = asked(rng, study.as_ref().map_or(1, |study| study.file.nodes.len()));
    let bare = rng.pick(&[0, 0, 1, usize::MAX]);
    let questions = match &study {
        Some(study) => questions(rng, &study.file),
        None => {
            let number = rng.pick(&[0, 64, u32::MAX]);
            [0, number].map(|number| Question { node: number, subject: number }).to_vec()
        }
    };
    Case { family, file, offer, rooms, fill, asked, questions, bare, known: None }
}

/// Every subject at each step or some, the leaves, and numbers that are not there:
/// among them some that would be if they were cut to 8 or 16 bits.
fn questions(rng: &mut Rng, file: &File) -> Vec<Question> {
    let (nodes, subjects) = (file.nodes.len() as u32, file.subjects as u32);
    let (leaves, steps): (Vec<u32>, Vec<u32>) =
        (0..nodes).partition(|&node| file.nodes[node as usize].work.is_leaf());
    let some_step = |rng: &mut Rng| if steps.is_empty() { 0 } else { rng.pick(&steps) };
    let some_subject = |rng: &mut Rng| rng.below(file.subjects) as u32;
    let mut out = vec![Question { node: nodes, subject: subjects }];
    for &node in &steps {
        let mut asked: Vec<u32> = (0..subjects).collect();
        if file.nodes.len() > ALL_ASKED {
            rng.shuffle(&mut asked);
            asked.truncate(SOME_ASKED);
        }
        out.extend(asked.into_iter().map(|subject| Question { node, subject }));
    }
    let cut = [1 << 8, 1 << 16].map(|past| past + some_step(rng));
    let no_steps = [nodes, nodes + 1, 255, 256, u32::MAX].into_iter().chain(cut).chain(leaves);
    out.extend(no_steps.map(|node| Question { node, subject: some_subject(rng) }));
    let cut = [1 << 8, 1 << 16].map(|past| past + some_subject(rng));
    let nobody = [subjects, 255, u32::MAX].into_iter().chain(cut);
    out.extend(nobody.map(|subject| Question { node: some_step(rng), subject }));
    // The first of a sort is the one that goes to the program.
    rng.shuffle(&mut out);
    out
}

/// Every node of the file, the number after the last, and one far past it.
fn asked(rng: &mut Rng, count: usize) -> Vec<usize> {
    (0..=count).chain([rng.pick(&[count + 1, 255, 1 << 32, usize::MAX])]).collect()
}

fn offer(rng: &mut Rng, study: &Study, fits: bool) -> Vec<u8> {
    let file = &study.file;
    let nodes = file.nodes.len();
    let mut right = |node: usize| match (file.owner_at(node), &study.candidates[node][..]) {
        (Some(owner), _) => owner as u8,
        (None, []) => rng.below(file.subjects) as u8,
        (None, candidates) => rng.pick(candidates) as u8,
    };
    let mut offer: Vec<u8> = (0..nodes).map(&mut right).collect();
    let past = rng.pick(&[255, file.subjects as u8, 64]);
    let wrong = if rng.percent(70) { rng.below(file.subjects) as u8 } else { past };
    match mode(rng, 5, fits) {
        0..=4 => {}
        5 | 6 => offer[rng.below(nodes)] = wrong,
        7 => {
            let leaves: Vec<usize> = (0..nodes).filter(|&n| file.owner_at(n).is_some()).collect();
            offer[rng.pick(&leaves)] = wrong;
        }
        8 => {
            let length = rng.pick(&[0, nodes - 1, nodes + 1, LONGEST_OFFER]);
            offer.resize(length, 0);
        }
        _ => offer = rng.bytes(nodes).iter().map(|byte| byte % file.subjects as u8).collect(),
    }
    offer
}

fn rooms(rng: &mut Rng, study: Option<&Study>, fits: bool) -> Rooms {
    let Some(study) = study else {
        let [choice, plan, keys] = [64, 128, 128].map(|widest| rng.within(0, widest));
        return Rooms { choice, plan, keys };
    };
    let nodes = study.file.nodes.len();
    let mut lengths = [nodes, 2 * nodes, 2 * study.file.attributes];
    let one = rng.below(3);
    match mode(rng, 7, fits) {
        0..=4 => {}
        5 => lengths = lengths.map(|length| length + rng.within(1, 9)),
        6 => lengths[one] += rng.within(1, 9),
        7 => lengths[one] -= 1,
        8 => lengths[one] = 0,
        _ => lengths = lengths.map(|length| length + rng.below(3) - 1),
    }
    Rooms { choice: lengths[0], plan: lengths[1], keys: lengths[2] }
}
