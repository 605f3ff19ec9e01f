//! The program `answers`: cases over its standard input, its lines compared.

use crate::coverage::{Line, line};
use crate::generate::{Case, LONGEST_OFFER, LONGEST_TAKEN};
use crate::layout::VERSIONS;
use crate::planner::{Rooms, Study, study};
use crate::program::printed;
use crate::reading::Refusal;
use crate::text;

/// Cases as they are sent, and the lines each must bring.
#[derive(Default)]
pub struct Stream {
    input: Vec<u8>,
    expected: Vec<String>,
    labels: Vec<String>,
    /// How many of the files are read, by the version.
    read: [usize; VERSIONS],
}

fn header(file: usize, offer: usize, rooms: &Rooms) -> Vec<u8> {
    let mut out = (file as u32).to_be_bytes().to_vec();
    out.extend((offer as u32).to_be_bytes());
    for room in [rooms.choice, rooms.plan, rooms.keys] {
        out.extend((room as u16).to_be_bytes());
    }
    out
}

impl Stream {
    pub fn add(&mut self, label: String, case: &Case, study: &Result<Study, Refusal>) {
        self.input.extend(header(case.file.len(), case.offer.len(), &case.rooms));
        self.input.extend(&case.file);
        self.input.extend(&case.offer);
        let number = self.expected.len();
        self.expected.push(text::case(number, study, &case.offer, &case.rooms));
        self.labels.push(label);
        if let Ok(study) = study {
            self.read[study.file.version() - 1] += 1;
        }
    }

    /// The table's lines, where so many cases were wanted.
    pub fn lines(&self, wanted: usize) -> Vec<Line> {
        let sent = line("cases through answers", self.expected.len(), wanted);
        let of_version = |(version, &read): (usize, &usize)| {
            let what = format!("readable files of version {version} through answers");
            line(&what, read, wanted * 11 / 100)
        };
        [sent].into_iter().chain((1..).zip(&self.read).map(of_version)).collect()
    }

    /// Sends the cases with `tail` after them, which must bring `last`.
    fn compare(&self, command: &str, tail: &[u8], last: &str) -> Result<(), String> {
        let output = printed(command, &[], &[&self.input[..], tail].concat())?;
        let mut rest = &output[..];
        for (number, lines) in self.expected.iter().enumerate() {
            let Some(after) = rest.strip_prefix(&lines[..]) else {
                let end = rest.find(&format!("\ncase {}\n", number + 1)).unwrap_or(rest.len());
                let label = &self.labels[number];
                return Err(format!("{label}\nexpected\n{lines}\nprinted\n{}", &rest[..end]));
            };
            rest = after;
        }
        if rest == last { Ok(()) } else { Err(format!("at the end {last:?}, printed {rest:?}")) }
    }

    pub fn compare_all(&self, command: &str) -> Result<(), String> {
        self.compare(command, &[], "")
    }
}

/// Runs that end early, and lengths just within what is taken.
pub fn compare_cuts(command: &str, case: &Case) -> Result<(), String> {
    let widest = Case {
        family: "widest",
        file: vec![b'A'; LONGEST_TAKEN],
        offer: vec![0; LONGEST_OFFER],
        ..case.clone()
    };
    let mut lead = Stream::default();
    lead.add("before the cut".into(), case, &study(&case.file));
    lead.add("the longest taken".into(), &widest, &study(&widest.file));
    let (file, offer) = (case.file.len(), case.offer.len());
    let whole = [&header(file, offer, &case.rooms)[..], &case.file, &case.offer].concat();
    for length in [1, 13, 14, 14 + file - 1, whole.len() - 1] {
        lead.compare(command, &whole[..length], "cut\n")?;
    }
    for (file, offer) in [(LONGEST_TAKEN + 1, 1), (1, LONGEST_OFFER + 1), (u32::MAX as usize, 0)] {
        let mut tail = header(file, offer, &case.rooms);
        tail.resize(tail.len() + LONGEST_TAKEN + 2 * LONGEST_OFFER, 0);
        lead.compare(command, &tail, "cut\n")?;
    }
    Stream::default().compare_all(command)
}
