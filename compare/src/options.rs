//! What the runner is asked to do.

use crate::coverage;
use crate::parts::LINKED;

pub struct Options {
    pub cases: usize,
    pub seed: u64,
    pub large_every: usize,
    pub threads: usize,
    pub lines: usize,
    pub answers: Option<String>,
    pub plan: Option<String>,
    pub why: Option<String>,
    pub rewrite: Option<String>,
    pub night: Option<String>,
    pub night2: Option<String>,
    pub longest: Option<(String, usize)>,
    pub small: Option<(String, usize)>,
    pub alone: bool,
}

fn defaults() -> Options {
    Options {
        cases: coverage::FULL,
        seed: 1,
        large_every: coverage::FULL_LARGE,
        threads: 2,
        lines: 1_000,
        answers: None,
        plan: None,
        why: None,
        rewrite: None,
        night: None,
        night2: None,
        longest: None,
        small: None,
        alone: false,
    }
}

pub fn options() -> Result<Options, String> {
    let mut options = defaults();
    let mut words = std::env::args().skip(1);
    while let Some(word) = words.next() {
        let mut value = || words.next().ok_or(format!("{word} needs a value"));
        let number = |text: String| text.parse::<u64>().map_err(|_| format!("{text}: no number"));
        match &word[..] {
            "--alone" => options.alone = true,
            "--answers" => options.answers = Some(value()?),
            "--plan" => options.plan = Some(value()?),
            "--why" => options.why = Some(value()?),
            "--rewrite" => options.rewrite = Some(value()?),
            "--night" => options.night = Some(value()?),
            "--night2" => options.night2 = Some(value()?),
            "--longest" => options.longest = Some((value()?, number(value()?)? as usize)),
            "--small" => options.small = Some((value()?, number(value()?)? as usize)),
            "--cases" => options.cases = number(value()?)? as usize,
            "--seed" => options.seed = number(value()?)?,
            "--lines" => options.lines = number(value()?)? as usize,
            "--threads" => options.threads = number(value()?)?.max(1) as usize,
            "--large" => options.large_every = number(value()?)?.max(1) as usize,
            _ => return Err(format!("{word}: no such option")),
        }
    }
    let writes = options.longest.is_some() || options.small.is_some();
    if !options.alone && !writes && LINKED.is_none() {
        return Err("built without the library: only --alone, --longest and --small run".into());
    }
    Ok(options)
}
