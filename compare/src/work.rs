//! Work shared by two threads, programs run on inputs, and what is said where two answers differ.

use std::fs;
use std::io::{Read, Write};
use std::path::{Path, PathBuf};
use std::process::{ChildStdin, Command, Stdio};
use std::sync::atomic::{AtomicUsize, Ordering};
use std::sync::Mutex;
use std::thread;
use std::time::Duration;

const THREADS: usize = 2;
/// Pieces below this come with a pause between them, so that the program reads them one by one.
const SMALL: usize = 64;
/// So much is shown of a line that differs, and so much of that before the place.
const SHOWN: usize = 160;
const BEFORE: usize = 80;
const PAUSE: Duration = Duration::from_micros(20);

pub fn root() -> PathBuf {
    Path::new(env!("CARGO_MANIFEST_DIR")).join("..")
}

/// The program that a variable names, or the proved one.
pub fn program(variable: &str, name: &str) -> PathBuf {
    match std::env::var_os(variable) {
        Some(path) => path.into(),
        None => root().join("crates").join(name).join("out").join(name),
    }
}

/// The results of pieces of work 0 to `count`, two at a time, in any order.
pub fn share<T: Send>(count: usize, work: impl Fn(usize) -> T + Sync) -> Vec<T> {
    let (next, results) = (AtomicUsize::new(0), Mutex::new(Vec::new()));
    let take = || loop {
        let number = next.fetch_add(1, Ordering::Relaxed);
        if number >= count {
            break;
        }
        let result = work(number);
        results.lock().expect("no work panics").push(result);
    };
    thread::scope(|scope| {
        for _ in 0..THREADS {
            scope.spawn(take);
        }
    });
    results.into_inner().expect("no work panics")
}

/// Ends early where the program stops reading, as it does after a refused plan.
fn feed(mut to: ChildStdin, input: &[u8], piece: usize) {
    for part in input.chunks(piece) {
        if to.write_all(part).is_err() {
            break;
        }
        if piece < SMALL {
            thread::sleep(PAUSE);
        }
    }
}

/// What a program writes for an input that comes in pieces of this size; at the end, if it did not end well, how.
pub fn run(program: &Path, input: &[u8], piece: usize) -> Vec<u8> {
    let mut child = Command::new(program)
        .stdin(Stdio::piped())
        .stdout(Stdio::piped())
        .spawn()
        .unwrap_or_else(|error| panic!("{}: {error}", program.display()));
    let (to, from) = (child.stdin.take(), child.stdout.take());
    let mut output = Vec::new();
    thread::scope(|scope| {
        scope.spawn(|| feed(to.expect("it is piped"), input, piece));
        let read = from.expect("it is piped").read_to_end(&mut output);
        read.expect("a pipe is read");
    });
    let status = child.wait().expect("the program was started");
    if !status.success() {
        output.extend(format!("\n{status}\n").bytes());
    }
    output
}

/// Two answers that differ, and the input.
pub struct Difference {
    pub what: String,
    pub number: usize,
    /// Where in the output, as far as that is not said below.
    pub at: String,
    pub input: Vec<u8>,
    pub proved: String,
    pub peer: String,
}

/// How many characters two lines have in common at the front.
fn common(one: &str, other: &str) -> usize {
    one.chars()
        .zip(other.chars())
        .take_while(|(a, b)| a == b)
        .count()
}

/// The part of a line around a place.
fn part(line: &str, at: usize) -> String {
    let start = at.saturating_sub(BEFORE);
    let shown: String = line.chars().skip(start).take(SHOWN).collect();
    let before = if start > 0 { "..." } else { "" };
    format!("{before}{shown:?}")
}

impl Difference {
    /// The first line in which two outputs differ.
    pub fn of(what: &str, number: usize, input: &[u8], proved: &[u8], peer: &[u8]) -> Option<Self> {
        if proved == peer {
            return None;
        }
        let lines = |bytes: &[u8]| String::from_utf8_lossy(bytes).into_owned();
        let (proved, peer) = (lines(proved), lines(peer));
        let (mut ours, mut theirs) = (proved.split_inclusive('\n'), peer.split_inclusive('\n'));
        let (line, proved, peer) = (1..)
            .map(|line| (line, ours.next(), theirs.next()))
            .find(|(_, a, b)| a != b || a.is_none())?;
        let from = common(proved.unwrap_or(""), peer.unwrap_or(""));
        let shown = |line: Option<&str>| line.map_or("no line".into(), |l| part(l, from));
        Some(Difference {
            what: what.to_string(),
            number,
            at: format!(", line {line}"),
            input: input.to_vec(),
            proved: shown(proved),
            peer: shown(peer),
        })
    }

    /// Says it, and stores the input.
    pub fn tell(&self) {
        let folder = root().join("target/compare");
        let name = self.what.replace(' ', "-");
        let path = folder.join(format!("{name}-{}", self.number));
        let stored = fs::create_dir_all(&folder).and_then(|()| fs::write(&path, &self.input));
        println!("{}, number {}{}:", self.what, self.number, self.at);
        println!("  proved  {}", self.proved);
        println!("  peer    {}", self.peer);
        match stored {
            Ok(()) => println!(
                "  input   target/compare/{}",
                path.file_name().unwrap_or_default().display()
            ),
            Err(error) => println!("  input   not stored: {error}"),
        }
    }
}
