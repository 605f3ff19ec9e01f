//! An ordinary planner beside the library, on the same plan files:
//!
//!     bench check FOLDER SMALL      whether both answer the same on every file
//!     bench time FOLDER             the table of times
//!     bench lines FOLDER            what one process measures for it
//!     bench stack                   how much stack the deepest files need
//!     bench once SIDE CALL FILE     one run, for a profiler
//!
//! SIDE is ordinary or library, CALL one of those that are timed.

mod agree;
mod asked;
mod deep;
mod files;
mod held;
mod ordinary;
mod records;
mod sides;
mod stack;
mod table;
mod timing;
mod wrong;

use std::path::Path;
use std::process::ExitCode;

use files::File;
use sides::{Library, Ordinary, Rooms};
use timing::{CALLS, counted_run};

fn once(side: &str, call: &str, path: &str) -> Result<(), String> {
    let call = CALLS.into_iter().find(|known| known.name() == call);
    let run = match (side, call) {
        ("ordinary", Some(call)) => call.by::<Ordinary>(),
        ("library", Some(call)) => call.by::<Library>(),
        _ => return Err("no such side or call".into()),
    };
    counted_run(run, &File::read(Path::new(path))?, &mut Rooms::new());
    Ok(())
}

fn done(words: &[&str]) -> Result<(), String> {
    match words {
        ["check", folder, small] => {
            agree::check(&files::of(folder)?, &deep::files()?, &files::small(small)?)
        }
        ["time", folder] => table::print(folder),
        ["lines", folder] => {
            print!("{}", table::lines(&files::of(folder)?));
            Ok(())
        }
        ["stack"] => stack::print(&deep::files()?),
        ["once", side, call, path] => once(side, call, path),
        _ => {
            Err("check FOLDER SMALL | time FOLDER | lines FOLDER | stack | once SIDE CALL FILE"
                .into())
        }
    }
}

fn main() -> ExitCode {
    let words: Vec<String> = std::env::args().skip(1).collect();
    let words: Vec<&str> = words.iter().map(String::as_str).collect();
    match done(&words) {
        Ok(()) => ExitCode::SUCCESS,
        Err(text) => {
            eprintln!("{}", text.trim_end());
            ExitCode::FAILURE
        }
    }
}
