//! Times of both sides, as one process measures them.

use std::hint::black_box;

use crate::files::{File, HOUSES, NODES, STEPS, SUBJECTS};
use crate::sides::{Library, Ordinary, Rooms, Side};

/// Rounds of each side, in turns, after a first one that is dropped. Where a side
/// is so slow that they don't fit in so many nanoseconds there are fewer, and where
/// not even one does, the first counts.
const ROUNDS: usize = 31;
const ROUNDS_TIME: f64 = 60e6;
/// Nanoseconds that a round takes at least.
const ROUND_TIME: f64 = 1e6;

#[derive(Clone, Copy, PartialEq)]
pub enum Call {
    Check,
    /// One call for every node of the file.
    Candidates,
    /// One call for every step, of one subject.
    Why,
    Cheapest,
    /// With the cheapest choice as the offer.
    Offered,
    /// Of the file's own values.
    Write,
}

pub const CALLS: [Call; 6] =
    [Call::Check, Call::Candidates, Call::Why, Call::Cheapest, Call::Offered, Call::Write];

/// A run of a call on a file, or on several.
pub type Run = fn(&[File], &mut Rooms);

impl Call {
    pub fn name(self) -> &'static str {
        match self {
            Call::Check => "check",
            Call::Candidates => "candidates",
            Call::Why => "why",
            Call::Cheapest => "cheapest",
            Call::Offered => "offered",
            Call::Write => "write",
        }
    }

    /// As the table has it.
    pub fn label(self) -> String {
        match self {
            Call::Candidates => format!("{} x{NODES}", self.name()),
            Call::Why => format!("{} x{STEPS}", self.name()),
            _ => self.name().into(),
        }
    }

    pub fn by<S: Side>(self) -> Run {
        match self {
            Call::Check => check::<S>,
            Call::Candidates => candidates::<S>,
            Call::Why => why::<S>,
            Call::Cheapest => cheapest::<S>,
            Call::Offered => offered::<S>,
            Call::Write => write::<S>,
        }
    }
}

const ANSWERED: &str = "the files are answered";

fn check<S: Side>(files: &[File], _: &mut Rooms) {
    for file in files {
        black_box(S::check(black_box(&file.bytes))).expect(ANSWERED);
    }
}

fn candidates<S: Side>(files: &[File], _: &mut Rooms) {
    for file in files {
        for node in 0..NODES {
            black_box(S::candidates(black_box(&file.bytes), node)).expect(ANSWERED);
        }
    }
}

/// The subject of whom a step is asked.
fn asked(step: usize) -> u32 {
    (step % SUBJECTS) as u32
}

fn why<S: Side>(files: &[File], _: &mut Rooms) {
    for file in files {
        for step in file.steps() {
            let answer = S::why(black_box(&file.bytes), step as u32, asked(step));
            black_box(answer).expect(ANSWERED);
        }
    }
}

fn cheapest<S: Side>(files: &[File], rooms: &mut Rooms) {
    for file in files {
        black_box(S::cheapest(black_box(&file.bytes), rooms)).expect(ANSWERED);
        black_box(&rooms);
    }
}

fn offered<S: Side>(files: &[File], rooms: &mut Rooms) {
    for file in files {
        let answer = S::offered(black_box(&file.bytes), black_box(&file.offer), rooms);
        black_box(answer).expect(ANSWERED);
        black_box(&rooms);
    }
}

fn write<S: Side>(files: &[File], rooms: &mut Rooms) {
    for file in files {
        black_box(S::write(black_box(&file.values), rooms)).expect(ANSWERED);
        black_box(&rooms);
    }
}

#[repr(C)]
struct Timespec {
    seconds: i64,
    nanoseconds: i64,
}

unsafe extern "C" {
    fn clock_gettime(clock: i32, time: *mut Timespec) -> i32;
}

/// The processor time of this thread (Linux), which other work on the machine
/// disturbs less than the clock on the wall.
fn processor_time() -> f64 {
    const CLOCK_THREAD_CPUTIME_ID: i32 = 3;
    let mut time = Timespec { seconds: 0, nanoseconds: 0 };
    // SAFETY: a record of our own.
    let failed = unsafe { clock_gettime(CLOCK_THREAD_CPUTIME_ID, &mut time) };
    assert_eq!(failed, 0, "there is such a clock");
    time.seconds as f64 * 1e9 + time.nanoseconds as f64
}

/// Nanoseconds of so many runs.
fn round(run: Run, files: &[File], runs: usize) -> f64 {
    let mut rooms = Rooms::new();
    let start = processor_time();
    for _ in 0..runs {
        run(files, &mut rooms);
    }
    processor_time() - start
}

/// How many runs make a round, and how long it took. It warms up, too.
fn first_round(run: Run, files: &[File]) -> (usize, f64) {
    let mut runs = 1;
    loop {
        let time = round(run, files, runs);
        if time >= ROUND_TIME {
            return (runs, time);
        }
        runs *= 2;
    }
}

/// Nanoseconds of a run on each side, the least of the rounds, and how many
/// rounds there were.
pub struct Times {
    pub ordinary: f64,
    pub library: f64,
    pub rounds: usize,
}

fn times(call: Call, files: &[File], rounds_time: f64) -> Times {
    let runs = [call.by::<Ordinary>(), call.by::<Library>()];
    let firsts = runs.map(|run| first_round(run, files));
    let whole: f64 = firsts.iter().map(|first| first.1).sum();
    let rounds = ((rounds_time / whole) as usize).min(ROUNDS);
    if rounds == 0 {
        let [ordinary, library] = firsts.map(|(count, time)| time / count as f64);
        return Times { ordinary, library, rounds: 1 };
    }
    let mut least = [f64::MAX; 2];
    for _ in 0..rounds {
        for side in 0..2 {
            let count = firsts[side].0;
            least[side] = least[side].min(round(runs[side], files, count) / count as f64);
        }
    }
    Times { ordinary: least[0], library: least[1], rounds }
}

pub fn of_file(call: Call, file: &File) -> Times {
    times(call, std::slice::from_ref(file), ROUNDS_TIME)
}

/// Of the cheapest choice of all houses, one after the other.
pub fn of_houses(files: &[File]) -> Times {
    times(Call::Cheapest, &files[..HOUSES], 16.0 * ROUNDS_TIME)
}

/// One run, for a profiler that counts what happens in this function.
#[unsafe(no_mangle)]
#[inline(never)]
pub fn counted_run(run: Run, file: &File, rooms: &mut Rooms) {
    run(std::slice::from_ref(file), rooms);
    // So that the run isn't the last thing here, and is called from here.
    black_box(());
}
