//! The case program: each line of the proved one against that of the peer.

use crate::given::{case, record};
use crate::met::{Images, Met, Sides};
use crate::watch::{self, Watched};
use crate::work::{program, run, share, Difference};
use peer::calls::{PLAIN, TUNED};
use std::path::Path;

/// The kinds, and how many cases of each are made.
const KINDS: [(u8, &str, usize); 19] = [
    (b'R', "readings", 20_000),
    (b'N', "names", 4_000),
    (b'W', "writings", 6_000),
    (b'H', "hold times", 8_000),
    (b'G', "longest waits", 8_000),
    (b'B', "budgets", 6_000),
    (b'T', "wait times", 6_000),
    (b'Q', "requirements", 6_000),
    (b'A', "admissions", 3_000),
    (b'L', "all hold times", 3_000),
    (b'D', "sheets", 4_000),
    (b'M', "lists", 3_000),
    (b'P', "lists with their lines", 3_000),
    (b'O', "lists with their lines on a state", 6_000),
    (b'E', "lines in one buffer", 6_000),
    (b'S', "calls on a state", 20_000),
    (b'V', "lists with each state", 3_000),
    (b'I', "calls on an image", 12_000),
    (b'F', "images with each byte changed", 2_000),
];
/// So many cases go to one run of the program.
const BATCH: usize = 100;
/// One batch in so many goes through the plain machine, the others through the tuned one.
const BY_PLAIN: usize = 4;

#[derive(Default)]
struct Found {
    met: Met,
    sides: Sides,
    admitted: usize,
    not_admitted: usize,
    images: Images,
    watched: Watched,
    differences: Vec<Difference>,
}

fn batch((kind, what, start): (u8, &str, usize), proved: &Path) -> Found {
    let cases: Vec<_> = (start..start + BATCH).map(|n| (n, case(kind, n))).collect();
    let records = cases
        .iter()
        .map(|(number, case)| record(kind, *number, case));
    let records: Vec<_> = records.collect();
    let output = run(proved, &records.concat(), usize::MAX);
    let mut lines = by_case(&output);
    let machine = if (start / BATCH).is_multiple_of(BY_PLAIN) {
        PLAIN
    } else {
        TUNED
    };
    let mut found = Found::default();
    for ((number, case), record) in cases.iter().zip(&records) {
        let line = lines.next().unwrap_or_default();
        let peer = peer::cases::line(&record[4..], &machine).unwrap_or_default() + "\n";
        let difference = Difference::of(what, *number, record, line, peer.as_bytes());
        found.differences.extend(difference);
        found.put_answers(case, &String::from_utf8_lossy(line));
        if kind == b'V' {
            watch_line((*number, case), record, line, &mut found);
        }
    }
    let rest: Vec<u8> = lines.flatten().copied().collect();
    let difference = Difference::of(what, start, &records.concat(), &rest, b"");
    found.differences.extend(difference);
    found
}

/// What is printed for each case: a line that begins with its number, and with some those of a sheet or of calls, which begin with a
/// word.
fn by_case(output: &[u8]) -> impl Iterator<Item = &[u8]> {
    output.chunk_by(|&end, &start| !(end == b'\n' && start.is_ascii_digit()))
}

impl Found {
    /// The answers of a line, behind its label: one, or those of a list, each with a state behind it or not.
    fn put_answers(&mut self, case: &[u8], line: &str) {
        let answers = line.trim_end().split_once(": ");
        let answers = answers.map_or("", |(_, answers)| answers);
        for answer in answers.split("; ") {
            self.met.put(answer);
            self.sides.put(answer);
            self.images.put(case, answer);
            self.admitted += usize::from(answer == "admitted");
            self.not_admitted += usize::from(answer == "not admitted");
        }
    }

    /// What came up.
    fn add(&mut self, other: &Found) {
        self.met.add(&other.met);
        self.sides.add(&other.sides);
        self.admitted += other.admitted;
        self.not_admitted += other.not_admitted;
        self.images.add(&other.images);
        self.watched.add(&other.watched);
    }

    fn tell(&self) {
        self.met.tell();
        self.sides.tell();
        println!(
            "  {} plans admitted, {} not.",
            self.admitted, self.not_admitted
        );
        self.images.tell();
        self.watched.tell();
    }
}

/// The promise, on the line of the proved program alone.
fn watch_line((number, case): (usize, &[u8]), record: &[u8], line: &[u8], found: &mut Found) {
    match watch::list(case, &String::from_utf8_lossy(line)) {
        Ok(watched) => found.watched.add(&watched),
        Err(error) => found.differences.push(Difference {
            what: "promise".to_string(),
            number,
            at: String::new(),
            input: record.to_vec(),
            proved: error,
            peer: "the document's limits".to_string(),
        }),
    }
}

/// Compares all cases, says how many there were and what was watched, and gives what differs.
pub fn compare(times: usize) -> Vec<Difference> {
    let proved = program("CASES", "cases");
    let kinds = KINDS.map(|(kind, what, count)| (kind, what, times * count));
    let batches = kinds.iter().flat_map(|&(kind, what, count)| {
        (0..count)
            .step_by(BATCH)
            .map(move |start| (kind, what, start))
    });
    let batches: Vec<_> = batches.collect();
    let found = share(batches.len(), |number| batch(batches[number], &proved));
    let kinds = kinds.map(|(_, what, count)| format!("{count} {what}"));
    println!("The case program: {}.", kinds.join(", "));
    let mut all = Found::default();
    found.iter().for_each(|f| all.add(f));
    all.tell();
    found.into_iter().flat_map(|f| f.differences).collect()
}
