//! The table of times: several processes, each of which measures every file.

use std::process::{Command, Stdio};

use crate::files::{File, HOUSES, NODES, SETS, STEPS, VERSIONS};
use crate::timing::{self, CALLS, Call, Times};

const PROCESSES: usize = 5;
/// What the lines of all houses have in the place of a set.
const ALL: &str = "houses";

fn line(set: &str, version: u16, call: Call, times: Times) -> String {
    let Times { ordinary, library, rounds } = times;
    format!("{set} {version} {} {ordinary} {library} {rounds}\n", call.name())
}

/// What one process measures: a line for each sort of call on each file.
pub fn lines(files: &[File]) -> String {
    let mut text = String::new();
    for file in files.iter().filter(|file| file.is_timed()) {
        for call in CALLS {
            text += &line(&file.set, file.version, call, timing::of_file(call, file));
        }
    }
    text + &line(ALL, 0, Call::Cheapest, timing::of_houses(files))
}

fn measured(folder: &str) -> Result<String, String> {
    let said = |error: std::io::Error| format!("a process that measures: {error}");
    let bench = std::env::current_exe().map_err(said)?;
    let mut command = Command::new(bench);
    let output = command.args(["lines", folder]).stderr(Stdio::inherit()).output().map_err(said)?;
    if !output.status.success() {
        return Err(format!("a process that measures: {}", output.status));
    }
    String::from_utf8(output.stdout).map_err(|error| error.to_string())
}

struct Line {
    set: String,
    version: u16,
    call: String,
    times: Times,
}

fn parsed(line: &str) -> Option<Line> {
    let words: Vec<&str> = line.split(' ').collect();
    let &[set, version, call, ordinary, library, rounds] = &words[..] else { return None };
    let times = Times {
        ordinary: ordinary.parse().ok()?,
        library: library.parse().ok()?,
        rounds: rounds.parse().ok()?,
    };
    Some(Line { set: set.into(), version: version.parse().ok()?, call: call.into(), times })
}

/// Of some lines the means of both sides, their ratio, and the lowest and the highest
/// ratio on a file.
type Row = [f64; 5];

/// What one process says, if it has such lines.
fn row<'a>(lines: impl Iterator<Item = &'a Line>) -> Option<Row> {
    let some: Vec<&Times> = lines.map(|line| &line.times).collect();
    let mean = |of: fn(&&Times) -> f64| some.iter().map(of).sum::<f64>() / some.len() as f64;
    let ratios = || some.iter().map(|times| times.library / times.ordinary);
    let (lowest, highest) = (ratios().reduce(f64::min)?, ratios().reduce(f64::max)?);
    let [ordinary, library] = [mean(|times| times.ordinary), mean(|times| times.library)];
    Some([ordinary, library, library / ordinary, lowest, highest])
}

fn median(mut values: Vec<f64>) -> f64 {
    values.sort_by(f64::total_cmp);
    let n = values.len();
    (values[(n - 1) / 2] + values[n / 2]) / 2.0
}

/// The medians of what the processes say, each of lines that are wanted.
fn medians(processes: &[Vec<Line>], wanted: impl Fn(&Line) -> bool) -> Result<Row, String> {
    let of_process = |lines: &Vec<Line>| row(lines.iter().filter(|line| wanted(line)));
    let rows: Option<Vec<Row>> = processes.iter().map(of_process).collect();
    let rows = rows.ok_or("a process that measures left something out")?;
    Ok(std::array::from_fn(|of| median(rows.iter().map(|row| row[of]).collect())))
}

fn print_row(name: &str, version: &str, [ordinary, library, ratio, lowest, highest]: Row) {
    println!(
        "{name:<14} {version:<10} {ordinary:>10.0} {library:>12.0} {ratio:>8.2} \
         {lowest:>8.2} to {highest:.2}"
    );
}

/// The rows of a set: of each call those of every version, and of all together.
fn print_set(processes: &[Vec<Line>], set: &str) -> Result<(), String> {
    let title = format!("{set} candidates");
    println!("{title:<25}   ordinary      library    ratio  by file");
    for call in CALLS {
        let of_call = |line: &Line| line.set == set && line.call == call.name();
        let mut label = call.label();
        for version in VERSIONS {
            let row = medians(processes, |line| of_call(line) && line.version == version)?;
            print_row(&label, &format!("version {version}"), row);
            label.clear();
        }
        print_row(&label, "mean", medians(processes, of_call)?);
    }
    println!();
    Ok(())
}

pub fn print(folder: &str) -> Result<(), String> {
    let mut processes = Vec::new();
    for _ in 0..PROCESSES {
        let lines: Option<Vec<Line>> = measured(folder)?.lines().map(parsed).collect();
        processes.push(lines.ok_or("a process that measures said something else")?);
    }
    println!("nanoseconds of processor time");
    for set in SETS {
        print_set(&processes, set)?;
    }
    let [ordinary, library, ratio, ..] = medians(&processes, |line| line.set == ALL)?;
    let [ordinary, library] = [ordinary, library].map(|time| time / 1e6);
    println!("{HOUSES} houses, cheapest choice of each, one after the other:");
    println!("ordinary {ordinary:.2} ms, library {library:.2} ms, ratio {ratio:.2}");
    let rounds = processes.iter().flatten().map(|line| line.times.rounds);
    let fewest = rounds.min().unwrap_or(0);
    println!("(x{NODES}: of every node, x{STEPS}: of every step, one call each; the mean over the");
    println!(
        "files of the least of {fewest} or more rounds in turns; medians of {PROCESSES} processes)"
    );
    Ok(())
}
