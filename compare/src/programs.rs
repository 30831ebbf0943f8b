//! The printing program: the lines of the proved one against those of the peer.

use crate::met::Met;
use crate::work::{program, run, share, Difference};
use compare::damage::maybe_broken;
use compare::lists::{Habits, Maker};
use compare::plans::{some, Size};
use compare::random::Random;
use peer::calls::{Mode, PLAIN, TUNED};

const INPUTS: usize = 8_000;
const KIND: u8 = b'P';
/// One in so many goes through the plain machine too, and one in so many through the mode that looks at the plan once.
const BY_PLAIN: usize = 8;
const BY_ONCE: usize = 3;

/// Most lists are short; some are longer than a piece that the programs read.
fn count(random: &mut Random) -> usize {
    match random.below(40) {
        0 if random.once_in(5) => random.within(21_000, 50_000),
        0 => random.within(1_000, 6_000),
        1..=9 => random.within(20, 300),
        10..=19 => random.within(6, 20),
        _ => random.below(6),
    }
}

/// A plan and calls; now and then a broken plan, an end within the plan, bytes left over, or nothing.
fn input(random: &mut Random) -> Vec<u8> {
    let good = some(Size::some(random), random);
    let file = maybe_broken(good, 6, random);
    let habits = Habits {
        wrong: 1,
        odd: 1,
        ..Habits::some(random)
    };
    let count = count(random);
    let calls = Maker::new(&file, habits).list(count, random);
    let mut input = [&file[..], &calls].concat();
    match random.below(64) {
        0 => input.clear(),
        1..=2 => input.truncate(random.below(file.len() + 1)),
        3 => input = random.bytes(input.len()),
        4..=19 => {
            let count = random.within(1, 2);
            input.extend(random.bytes(count));
        }
        _ => (),
    }
    input
}

/// Mostly all at once; short inputs now and then byte by byte.
pub fn piece(length: usize, random: &mut Random) -> usize {
    match random.below(24) {
        0 if length < 200 => 1,
        0..=1 if length < 2_000 => random.within(2, 40),
        0..=1 => random.within(64, 5_000),
        _ => usize::MAX,
    }
}

struct Found {
    lines: usize,
    met: Met,
    differences: Vec<Difference>,
}

/// The modes of the peer that an input goes through.
fn modes(number: usize) -> impl Iterator<Item = Mode> {
    let all = [
        (Mode::Each(TUNED), 1),
        (Mode::Once, BY_ONCE),
        (Mode::Each(PLAIN), BY_PLAIN),
    ];
    let wanted = all
        .into_iter()
        .filter(move |(_, n)| number.is_multiple_of(*n));
    wanted.map(|(mode, _)| mode)
}

fn one(number: usize, proved: &std::path::Path) -> Found {
    let mut random = Random::of(KIND, number);
    let input = input(&mut random);
    let output = run(proved, &input, piece(input.len(), &mut random));
    let mut differences = Vec::new();
    for mode in modes(number) {
        let mut peer = Vec::new();
        peer::program::run(&mut &input[..], &mut peer, &mode).expect("memory is read and written");
        let found = Difference::of("program", number, &input, &output, &peer);
        differences.extend(found);
    }
    let (mut lines, mut met) = (0, Met::default());
    for line in String::from_utf8_lossy(&output).lines() {
        lines += 1;
        met.put(line);
    }
    Found {
        lines,
        met,
        differences,
    }
}

/// Compares all inputs, says how many there were, and gives what differs.
pub fn compare(times: usize) -> Vec<Difference> {
    let proved = program("MSPIS", "mspis");
    let inputs = INPUTS * times;
    let found = share(inputs, |number| one(number, &proved));
    let lines: usize = found.iter().map(|f| f.lines).sum();
    println!("The printing program: {inputs} inputs, {lines} lines.");
    let mut met = Met::default();
    found.iter().for_each(|f| met.add(&f.met));
    met.tell();
    found.into_iter().flat_map(|f| f.differences).collect()
}
