//! The programs of the repository: they are started, and what they print is read.

use second::entry::Case;
use second::text::line_of_text;
use std::ffi::OsStr;
use std::io::Write;
use std::path::PathBuf;
use std::process::{Command, Stdio};
use std::thread;

/// The repository.
pub const ROOT: &str = concat!(env!("CARGO_MANIFEST_DIR"), "/../..");

/// What a program comes to.
pub struct Ended {
    /// The status, or none if it was killed.
    pub status: Option<i32>,
    /// What it printed.
    pub text: String,
}

impl Ended {
    /// What it printed, as one line.
    pub fn line(&self) -> String {
        line_of_text(&self.text)
    }
}

/// A file below target/.
pub fn target(file: &str) -> PathBuf {
    [ROOT, "target", file].iter().collect()
}

/// A program below target/.
pub fn of(file: &str) -> Command {
    Command::new(target(file))
}

/// Starts a program with some input and waits for its end.
pub fn start(command: &mut Command, input: Vec<u8>) -> Result<Ended, String> {
    let name = command.get_program().to_owned();
    let said = |error| format!("{}: {error}", OsStr::display(&name));
    let command = command.stdin(Stdio::piped()).stdout(Stdio::piped());
    let mut child = command.spawn().map_err(said)?;
    let mut stdin = child.stdin.take().expect("it is piped");
    // A program that ends before all is read is judged by what it prints.
    let writer = thread::spawn(move || stdin.write_all(&input).is_ok());
    let output = child.wait_with_output().map_err(said)?;
    writer.join().expect("the writer ends");
    Ok(Ended {
        status: output.status.code(),
        text: String::from_utf8_lossy(&output.stdout).into_owned(),
    })
}

/// What the program `runs` answers to some cases, all in one stream.
pub fn runs<C: Case>(cases: &[C]) -> Result<Vec<String>, String> {
    let streams = cases
        .iter()
        .map(|case| case.packed().expect("`runs` answers it").stream());
    let ended = start(&mut of("bin/runs"), streams.collect::<Vec<_>>().concat())?;
    match ended.status {
        Some(0) => Ok(ended.text.lines().map(str::to_string).collect()),
        status => Err(format!("`runs` ends with status {status:?}")),
    }
}

/// What the program `runs` answers to the case of a line.
pub fn answer_of_runs<C: Case>(line: &str) -> Result<String, String> {
    let answers = runs(&[C::of_line(line)?])?;
    match &answers[..] {
        [answer] => Ok(answer.clone()),
        _ => Ok(format!("{} lines", answers.len())),
    }
}

#[cfg(test)]
mod tests {
    use super::*;

    #[test]
    fn a_program_gets_its_input_and_ends() {
        let ended = start(&mut Command::new("cat"), b"one\ntwo\n".to_vec()).unwrap();
        assert_eq!(
            (ended.status, ended.line()),
            (Some(0), "one / two".to_string())
        );
        let long = vec![b'x'; 1_000_000];
        let ended = start(&mut Command::new("cat"), long).unwrap();
        assert_eq!(ended.text.len(), 1_000_000);
        let long = vec![b'x'; 1_000_000];
        let ended = start(Command::new("sh").arg("-c").arg("exit 3"), long).unwrap();
        assert_eq!((ended.status, ended.text), (Some(3), String::new()));
        assert!(start(&mut of("no/such/program"), vec![]).is_err());
    }
}
