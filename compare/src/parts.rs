//! The cases in parts, each on a thread of its own, which go through all that is
//! compared and count by themselves.

use std::thread;
use std::time::{Duration, Instant};

use crate::always;
use crate::answers;
use crate::coverage::{Coverage, Line};
use crate::examine;
use crate::generate::{self, Case};
use crate::hex;
#[cfg(feature = "library")]
use crate::library;
use crate::options::Options;
use crate::planner::{self, Study};
use crate::plans;
use crate::reading::Refusal;
use crate::record::{self, Record};
use crate::rewrites;
use crate::rng::Rng;
use crate::standin;
use crate::starts::Starts;
use crate::why::{self, Verdict};
use crate::whys;
use crate::writes::{Asked, Writer};

/// The linked library's record of a case, and its writer.
#[derive(Clone, Copy)]
pub struct Linked {
    record: fn(&Case) -> Record,
    writer: Writer,
}
#[cfg(feature = "library")]
pub const LINKED: Option<Linked> = Some(Linked { record: library::record, writer: library::write });
#[cfg(not(feature = "library"))]
pub const LINKED: Option<Linked> = None;

/// All it takes to make the case again, or to send it by hand.
fn label(options: &Options, index: usize, case: &Case) -> String {
    let Case { family, file, offer, rooms, fill, asked, bare, .. } = case;
    format!(
        "seed {} case {index} large {} ({family})\nfile {}\noffer {}\n{rooms:?} fill {fill} \
        asked {asked:?} bare {bare}",
        options.seed,
        options.large_every,
        hex(file),
        hex(offer)
    )
}

/// Which cases go to the program `answers`.
fn sent(options: &Options) -> Vec<bool> {
    let lines = if options.answers.is_some() { options.lines.min(options.cases) } else { 0 };
    let mut marks: Vec<bool> = (0..options.cases).map(|index| index < lines).collect();
    Rng::new(options.seed, u64::MAX).shuffle(&mut marks);
    marks
}

/// Each thread takes so many cases by turns: a prime, so that what comes up once
/// in so many cases does not all fall to one thread.
const BLOCK: usize = 97;

/// One thread's part of the cases, and what it has counted.
pub struct Part<'a> {
    options: &'a Options,
    number: usize,
    coverage: Coverage,
    stream: answers::Stream,
    plans: Starts,
    whys: Starts,
    rewrites: Starts,
    linked: Option<Linked>,
    writer: Asked,
    in_library: Duration,
}

impl<'a> Part<'a> {
    fn new(options: &'a Options, number: usize) -> Part<'a> {
        let part = |starts: Starts| starts.part(number, options.threads);
        let linked = LINKED.filter(|_| !options.alone);
        let writer = linked.map_or(standin::write as Writer, |linked| linked.writer);
        Part {
            options,
            number,
            coverage: Coverage::default(),
            stream: answers::Stream::default(),
            plans: part(plans::starts()),
            whys: part(whys::starts()),
            rewrites: part(rewrites::starts()),
            linked,
            writer: Asked { writer, spent: Duration::ZERO },
            in_library: Duration::ZERO,
        }
    }

    /// The case of this number, and the one more that it brings, if it does.
    fn case(&mut self, index: usize, send: bool) -> Result<(), String> {
        let case = generate::case(self.options.seed, index, self.options.large_every);
        let more = generate::beside(self.options.seed, index);
        for (send, case) in [(send, Some(&case)), (false, more.as_ref())] {
            let Some(case) = case else { continue };
            self.compare(index, send, case)
                .map_err(|text| format!("{}\n{text}", label(self.options, index, case)))?;
        }
        Ok(())
    }

    /// The library's record of a case, if one is linked, is the expected one.
    fn record(&mut self, expected: &Record, case: &Case) -> Result<(), String> {
        let Some(linked) = self.linked else { return Ok(()) };
        let start = Instant::now();
        let given = (linked.record)(case);
        self.in_library += start.elapsed();
        match expected.difference(&given, &case.questions) {
            Some(text) => Err(text),
            None => Ok(()),
        }
    }

    fn compare(&mut self, index: usize, send: bool, case: &Case) -> Result<(), String> {
        let study = planner::study(&case.file);
        let verdicts = why::verdicts(&study, &case.questions);
        examine::examine(case, &study, &verdicts, &mut self.coverage)?;
        let twin = always::dated(self.options.seed, index, case);
        let of_twin = |twin: &Case, text| format!("twin {}\n{text}", hex(&twin.file));
        if let Some(twin) = &twin {
            always::hold(case, twin, &study, &verdicts, &mut self.coverage)
                .map_err(|text| of_twin(twin, text))?;
        }
        if self.linked.is_some() {
            let expected = record::expected(&study, &verdicts, case);
            self.record(&expected, case)?;
            if let Some(twin) = &twin {
                self.record(&always::expected(case, expected, twin), twin)
                    .map_err(|text| of_twin(twin, text))?;
            }
        }
        self.writer.case(self.options.seed, index, case, &study, &mut self.coverage)?;
        if send {
            self.stream.add(label(self.options, index, case), case, &study);
        }
        self.start(index, case, &study, &verdicts)
    }

    /// Starts the programs on the case, if it is one of those wanted.
    fn start(
        &mut self,
        index: usize,
        case: &Case,
        study: &Result<Study, Refusal>,
        verdicts: &[Verdict],
    ) -> Result<(), String> {
        let cases = self.options.cases;
        if let Some(command) = &self.options.plan
            && self.plans.takes(plans::sort(study), index, cases)
        {
            plans::compare(command, &case.file, study)?;
        }
        if let Some(command) = &self.options.rewrite {
            for (sort, room) in rewrites::sorts(study, index, case.file.len()) {
                if self.rewrites.takes(sort, index, cases) {
                    rewrites::compare(command, &case.file, room)?;
                }
            }
        }
        let Some(command) = &self.options.why else { return Ok(()) };
        for (&asked, verdict) in case.questions.iter().zip(verdicts) {
            if self.whys.takes(whys::start_sort(study, asked, verdict), index, cases) {
                whys::compare(command, &case.file, asked, verdict)?;
            }
        }
        Ok(())
    }

    /// Its cases, up to the first that differs, and then `answers` on those that go to it.
    fn all(mut self, sent: &[bool]) -> Result<Part<'a>, String> {
        for (index, &send) in sent.iter().enumerate() {
            if index / BLOCK % self.options.threads == self.number {
                self.case(index, send)?;
            }
        }
        if let Some(command) = &self.options.answers {
            self.stream.compare_all(command)?;
        }
        Ok(self)
    }

    /// The table's lines; of the programs, those that were asked for.
    pub fn lines(&self) -> Vec<Line> {
        let Options { answers, plan, why, rewrite, .. } = self.options;
        let mut lines = self.coverage.lines();
        if answers.is_some() {
            lines.extend(self.stream.lines(self.options.lines.min(self.options.cases)));
        }
        let starts = [(plan, &self.plans), (why, &self.whys), (rewrite, &self.rewrites)];
        for (_, starts) in starts.into_iter().filter(|(command, _)| command.is_some()) {
            lines.extend(starts.lines());
        }
        lines
    }

    /// The time in the library, its writer's too.
    pub fn in_library(&self) -> Duration {
        self.in_library + self.linked.map_or(Duration::ZERO, |_| self.writer.spent)
    }
}

/// All parts, each on a thread of its own. Where some differ, the first difference
/// of each is told, whichever was found sooner.
pub fn all(options: &Options) -> Result<Vec<Part<'_>>, String> {
    let sent = &sent(options);
    let ended: Vec<Result<Part, String>> = thread::scope(|scope| {
        let part = |number| scope.spawn(move || Part::new(options, number).all(sent));
        let started: Vec<_> = (0..options.threads).map(part).collect();
        started.into_iter().map(|part| part.join().expect("a part ends")).collect()
    });
    let told: Vec<String> = ended.iter().filter_map(|part| part.as_ref().err().cloned()).collect();
    if told.is_empty() { ended.into_iter().collect() } else { Err(told.join("\n\n")) }
}
