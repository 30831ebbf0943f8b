//! The datasheet program: the sheet of the proved one against that of the peer.

use crate::met::{Met, Sides};
use crate::programs::piece;
use crate::work::{program, run, share, Difference};
use compare::damage::maybe_broken;
use compare::plans::{unhurried, Size};
use compare::random::Random;

const INPUTS: usize = 8_000;
/// Not the letter of the sheets among the cases, so that the plans are others.
const KIND: u8 = b'd';

/// A plan, now and then a broken one, with nothing behind it or some bytes, or many more than the programs read at once;
/// an end within the plan, or nothing.
fn input(random: &mut Random) -> Vec<u8> {
    let good = unhurried(Size::some(random), random);
    let mut input = maybe_broken(good, 5, random);
    let behind = match random.below(16) {
        0 => random.within(65_000, 200_000),
        1..=3 => random.within(4, 3_000),
        4..=6 => random.within(1, 3),
        _ => 0,
    };
    match random.below(64) {
        0 => input.clear(),
        1..=3 => input.truncate(random.below(input.len() + 1)),
        4 => input = random.bytes(input.len()),
        _ => input.extend(random.bytes(behind)),
    }
    input
}

/// What came up among the lines, so that one can see what the comparison was made of.
#[derive(Default)]
struct Lines {
    all: usize,
    holds: usize,
    /// Hold times of tasks that are not the only users of their processor.
    with_fellows: usize,
    sides: Sides,
    admitted: usize,
    /// Plans that are admitted with a waiting side at the slack.
    just_admitted: usize,
    not_admitted: usize,
    /// Plans that would be admitted but for one waiting side, which is one above the slack.
    just_not: usize,
}

impl Lines {
    /// A line of one sheet, whose last one is whether the plan is admitted.
    fn put(&mut self, line: &str) {
        self.all += 1;
        self.sides.put(line);
        match line.split(' ').collect::<Vec<_>>()[..] {
            ["hold", _, _, _, fellows, _] => {
                self.holds += 1;
                self.with_fellows += usize::from(fellows != "0");
            }
            ["admitted", "yes"] => {
                self.admitted += 1;
                self.just_admitted += usize::from(self.sides.at > 0);
            }
            ["admitted", "no"] => {
                self.not_admitted += 1;
                self.just_not += usize::from((self.sides.unmet, self.sides.above) == (1, 1));
            }
            _ => (),
        }
    }

    fn add(&mut self, other: &Lines) {
        self.all += other.all;
        self.holds += other.holds;
        self.with_fellows += other.with_fellows;
        self.sides.add(&other.sides);
        self.admitted += other.admitted;
        self.just_admitted += other.just_admitted;
        self.not_admitted += other.not_admitted;
        self.just_not += other.just_not;
    }

    fn tell(&self) {
        println!(
            "  {} plans admitted, {} of them with a waiting side at the slack; {} not, {} of them by one alone that is one above it; \
             {} hold times, {} of them of tasks with fellows.",
            self.admitted,
            self.just_admitted,
            self.not_admitted,
            self.just_not,
            self.holds,
            self.with_fellows
        );
        self.sides.tell();
    }
}

struct Found {
    lines: Lines,
    met: Met,
    difference: Option<Difference>,
}

fn one(number: usize, proved: &std::path::Path) -> Found {
    let mut random = Random::of(KIND, number);
    let input = input(&mut random);
    let output = run(proved, &input, piece(input.len(), &mut random));
    let mut peer = Vec::new();
    peer::sheet::run(&mut &input[..], &mut peer).expect("memory is read and written");
    let (mut lines, mut met) = (Lines::default(), Met::default());
    for line in String::from_utf8_lossy(&output).lines() {
        lines.put(line);
        met.put(line);
    }
    Found {
        lines,
        met,
        difference: Difference::of("datasheet", number, &input, &output, &peer),
    }
}

/// Compares all inputs, says how many there were, and gives what differs.
pub fn compare(times: usize) -> Vec<Difference> {
    let proved = program("DATASHEET", "datasheet");
    let inputs = INPUTS * times;
    let found = share(inputs, |number| one(number, &proved));
    let (mut lines, mut met) = (Lines::default(), Met::default());
    for f in &found {
        lines.add(&f.lines);
        met.add(&f.met);
    }
    println!(
        "The datasheet program: {inputs} inputs, {} lines.",
        lines.all
    );
    lines.tell();
    met.tell_refused();
    found.into_iter().filter_map(|f| f.difference).collect()
}
