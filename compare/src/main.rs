//! Compares the library with a planner written apart from it, case by case.

mod always;
mod answers;
mod broken;
mod calendar;
mod carried;
mod carrycount;
mod carryedges;
mod carryfaults;
mod carryslips;
mod choice;
mod coverage;
mod cycles;
mod damage;
mod daycount;
mod dayfaults;
mod days;
mod dayslips;
mod every;
mod examine;
mod failing;
mod file;
mod generate;
mod grantfaults;
mod grants;
mod layout;
#[cfg(feature = "library")]
mod library;
mod longest;
mod night;
mod nodefaults;
mod options;
mod orders;
mod paircount;
mod pairfaults;
mod pairs;
mod pairslips;
mod pairviews;
mod parts;
mod planner;
mod plans;
mod program;
mod reading;
mod record;
mod rewrites;
mod rng;
mod run;
mod served;
mod sets;
mod slips;
mod small;
mod standin;
mod starts;
mod text;
mod twins;
mod usercount;
mod users;
mod userslips;
mod valid;
mod valuefaults;
mod values;
mod views;
mod why;
mod whys;
mod writecount;
mod writer;
mod writes;

use std::process::ExitCode;
use std::time::{Duration, Instant};

use generate::Case;
use options::Options;
use parts::Part;
use planner::Study;

/// Checks the sample night, in the versions that are there.
fn nights(options: &Options) -> Result<(), String> {
    let read = |path: &String| std::fs::read(path).map_err(|error| format!("{path}: {error}"));
    let first = options.night.as_ref().map(read).transpose()?;
    let second = options.night2.as_ref().map(read).transpose()?;
    if let Some(bytes) = &first {
        night::check(bytes)?;
        println!("the sample night gives its text");
    }
    if let Some(bytes) = &second {
        night::check_2(bytes)?;
        println!("the sample night of version 2 gives its text");
    }
    match (first, second) {
        (Some(first), Some(second)) if night::in_version_2(&first) != second => {
            Err("the sample nights differ by more than the user".into())
        }
        _ => Ok(()),
    }
}

fn hex(bytes: &[u8]) -> String {
    bytes.iter().map(|byte| format!("{byte:02x}")).collect()
}

/// The first small case, read and with an offer, that `fits`.
fn readable(options: &Options, fits: impl Fn(&Study) -> bool) -> Case {
    let mut cases = (0..).map(|index| generate::case(options.seed, index, usize::MAX));
    let whole = |case: &Case| {
        !case.offer.is_empty() && planner::study(&case.file).is_ok_and(|study| fits(&study))
    };
    cases.find(whole).expect("most small cases are readable")
}

/// The programs on inputs that are no case: cut, at the limits, with odd words.
fn programs(options: &Options) -> Result<(), String> {
    if let Some(command) = &options.answers {
        answers::compare_cuts(command, &readable(options, |_| true))?;
    }
    if let Some(command) = &options.plan {
        plans::compare_lengths(command, options.seed)?;
    }
    if let Some(command) = &options.why {
        whys::compare_lengths(command, options.seed)?;
        let with_step = |study: &Study| study.file.nodes.len() > 1;
        whys::compare_odd(command, &readable(options, with_step))?;
    }
    if let Some(command) = &options.rewrite {
        rewrites::compare_lengths(command, options.seed)?;
        rewrites::compare_odd(command, &readable(options, |_| true))?;
    }
    Ok(())
}

fn all(options: &Options) -> Result<(), String> {
    nights(options)?;
    let start = Instant::now();
    let parts = parts::all(options)?;
    let whole = start.elapsed().as_secs_f64();
    programs(options)?;
    let Options { cases, seed, large_every, threads, .. } = *options;
    let library: Duration = parts.iter().map(Part::in_library).sum();
    let library = library.as_secs_f64();
    println!("cases: {cases}, seed {seed}");
    println!("seconds: {whole:.1} on {threads} threads, in the library {library:.1} of them all");
    let lines = coverage::together(parts.iter().map(Part::lines).collect());
    coverage::told(&lines, cases >= coverage::FULL && large_every == coverage::FULL_LARGE)
}

/// Does what is asked and says how it ended.
fn done(options: Options) -> Result<String, String> {
    if let Some((folder, count)) = &options.longest {
        let written = longest::write(folder, *count, options.seed)?;
        return Ok(format!("{written} files written"));
    }
    if let Some((path, count)) = &options.small {
        let written = small::write(path, *count, options.seed)?;
        return Ok(format!("{written} files written"));
    }
    all(&options)?;
    Ok("no difference".into())
}

fn main() -> ExitCode {
    match options::options().and_then(done) {
        Ok(text) => {
            println!("{text}");
            ExitCode::SUCCESS
        }
        Err(text) => {
            println!("FAILED\n{text}");
            ExitCode::FAILURE
        }
    }
}
