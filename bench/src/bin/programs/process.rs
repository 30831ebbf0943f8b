//! Programs as processes, with the input from a file: what they print, and how long they take.

use bench::quartiles;
use std::fs::{self, File};
use std::io;
use std::path::{Path, PathBuf};
use std::process::{Command, Stdio};
use std::time::Instant;

pub const ROUNDS: usize = 5;

#[derive(Clone, Copy)]
pub enum Sink {
    Nowhere,
    /// A pipe that is read as fast as may be.
    Reader,
}

pub struct Program {
    path: PathBuf,
    words: &'static [&'static str],
}

/// What a program is given, in a file.
pub struct Input {
    path: PathBuf,
}

fn root() -> PathBuf {
    Path::new(env!("CARGO_MANIFEST_DIR")).join("..")
}

impl Input {
    fn new(name: &str, content: &[u8]) -> io::Result<Input> {
        let folder = root().join("target/bench");
        fs::create_dir_all(&folder)?;
        let path = folder.join(name);
        fs::write(&path, content)?;
        Ok(Input { path })
    }
}

impl Program {
    /// The one that a variable names, or the proved one of this name.
    pub fn proved(variable: &str, name: &str) -> Program {
        let named = std::env::var_os(variable).map(PathBuf::from);
        Program {
            path: named.unwrap_or(root().join("crates").join(name).join("out").join(name)),
            words: &[],
        }
    }

    /// The peer's of this name, by these words.
    pub fn peer(name: &str, words: &'static [&'static str]) -> Program {
        Program {
            path: root().join("peer/target/release").join(name),
            words,
        }
    }

    fn command(&self, input: &Input) -> io::Result<Command> {
        let mut command = Command::new(&self.path);
        command.args(self.words).stdin(File::open(&input.path)?);
        Ok(command)
    }

    fn lines(&self, input: &Input) -> io::Result<Vec<u8>> {
        Ok(self
            .command(input)?
            .stderr(Stdio::inherit())
            .output()?
            .stdout)
    }

    /// Seconds from the start of the program to its end.
    fn time(&self, input: &Input, sink: Sink) -> io::Result<f64> {
        let mut command = self.command(input)?;
        let start = Instant::now();
        match sink {
            Sink::Nowhere => {
                command.stdout(Stdio::null()).status()?;
            }
            Sink::Reader => {
                let mut child = command.stdout(Stdio::piped()).spawn()?;
                if let Some(mut lines) = child.stdout.take() {
                    io::copy(&mut lines, &mut io::sink())?;
                }
                child.wait()?;
            }
        }
        Ok(start.elapsed().as_secs_f64())
    }
}

/// An input that is measured: the lines of all programs are the same.
pub fn checked(programs: &[Program], name: &str, content: &[u8]) -> io::Result<Input> {
    let input = Input::new(name, content)?;
    let lines = programs[0].lines(&input)?;
    for program in &programs[1..] {
        assert!(program.lines(&input)? == lines, "the lines for {name}");
    }
    Ok(input)
}

/// The medians of rounds in turn, so that a change of the machine's pace meets all alike. A round is a run on each input.
pub fn medians<const N: usize>(
    programs: &[Program; N],
    inputs: &[Input],
    sink: Sink,
) -> io::Result<[f64; N]> {
    let mut times = [(); N].map(|()| Vec::new());
    for _ in 0..ROUNDS {
        for (program, times) in programs.iter().zip(&mut times) {
            let each = inputs.iter().map(|input| program.time(input, sink));
            times.push(each.sum::<io::Result<f64>>()?);
        }
    }
    Ok(times.map(|times| quartiles(times)[1]))
}

/// What is said of each program's seconds, and the proved one's by those of the others.
pub fn row<const N: usize>(what: &str, seconds: [f64; N], said: impl Fn(f64) -> String) {
    let ratios = seconds[1..]
        .iter()
        .map(|s| format!("{:.2}", seconds[0] / s));
    let columns: Vec<String> = seconds.map(said).into_iter().chain(ratios).collect();
    println!("| {what} | {} |", columns.join(" | "));
}
