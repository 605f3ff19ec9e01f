//! Programs: words after their name, bytes over their standard input, the bytes
//! or the text they print.

use std::ffi::OsStr;
use std::io::Write;
use std::os::unix::ffi::OsStrExt;
use std::path::Path;
use std::process::{Command, Stdio};

/// What a program printed, and what it said over standard error.
pub struct Said {
    pub printed: Vec<u8>,
    pub error: String,
}

/// Runs a program, or a shell command to which the words are appended, on the
/// input.
pub fn ask(command: &str, words: &[&[u8]], input: &[u8]) -> Result<Said, String> {
    let mut asked = if Path::new(command).is_file() {
        Command::new(command)
    } else {
        let mut shell = Command::new("sh");
        shell.args(["-c", &format!("{command} \"$@\""), "sh"]);
        shell
    };
    asked.args(words.iter().map(|word| OsStr::from_bytes(word)));
    asked.stdin(Stdio::piped()).stdout(Stdio::piped()).stderr(Stdio::piped());
    let told = |error: std::io::Error| format!("{command}: {error}");
    let mut child = asked.spawn().map_err(told)?;
    let mut stdin = child.stdin.take().expect("piped");
    // A thread of its own, or both sides would wait for each other's pipe. A
    // run that ends early need not read on, so a broken pipe is no fault.
    let output = std::thread::scope(|scope| {
        scope.spawn(move || {
            let _ = stdin.write_all(input);
        });
        child.wait_with_output().map_err(told)
    })?;
    Ok(Said { printed: output.stdout, error: text(command, output.stderr)? })
}

fn text(command: &str, bytes: Vec<u8>) -> Result<String, String> {
    String::from_utf8(bytes).map_err(|_| format!("{command}: printed no text"))
}

/// The bytes alone; what is said over standard error is passed on.
pub fn printed_bytes(command: &str, words: &[&[u8]], input: &[u8]) -> Result<Vec<u8>, String> {
    let said = ask(command, words, input)?;
    eprint!("{}", said.error);
    Ok(said.printed)
}

/// Likewise the text.
pub fn printed(command: &str, words: &[&[u8]], input: &[u8]) -> Result<String, String> {
    text(command, printed_bytes(command, words, input)?)
}
