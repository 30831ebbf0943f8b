//! Times, by rounds in turn, so that a change of the machine's pace meets both sides alike.

use bench::quartiles;
use std::hint::black_box;
use std::time::Instant;

/// How many rounds, and how many calls in each.
#[derive(Clone, Copy)]
pub struct Pace {
    pub rounds: usize,
    pub calls: u32,
}

impl Pace {
    pub fn told(self) -> String {
        format!("{} rounds of {}", self.rounds, self.calls)
    }
}

/// Nanoseconds for a call, over one round.
pub fn round(calls: u32, ask: impl Fn(&[u8]) -> u64, file: &[u8]) -> f64 {
    let start = Instant::now();
    for _ in 0..calls {
        black_box(ask(black_box(file)));
    }
    start.elapsed().as_nanos() as f64 / f64::from(calls)
}

pub fn report(
    what: &str,
    pace: Pace,
    file: &[u8],
    proved: impl Fn(&[u8]) -> u64,
    peer: impl Fn(&[u8]) -> u64,
) {
    assert_eq!(proved(file) % 256, 0, "the plan is read");
    measure(what, pace, 1, file, proved, peer);
}

/// Each call to a side makes `each` calls of the machine; the times are of one of these.
pub fn measure(
    what: &str,
    pace: Pace,
    each: usize,
    file: &[u8],
    proved: impl Fn(&[u8]) -> u64,
    peer: impl Fn(&[u8]) -> u64,
) {
    assert_eq!(proved(file), peer(file));
    let sides: [Side; 2] = [
        ("proved", &|calls| round(calls, &proved, file)),
        ("peer", &|calls| round(calls, &peer, file)),
    ];
    println!("{what}, {} bytes, {}", file.len(), pace.told());
    measure_sides(pace, each, &sides);
}

/// A name, and the time of a call over a round of so many.
pub type Side<'a> = (&'a str, &'a dyn Fn(u32) -> f64);

/// All sides in turn; the ratios are those of the first to each of the others.
pub fn measure_sides(pace: Pace, each: usize, sides: &[Side]) {
    let mut times = vec![Vec::with_capacity(pace.rounds); sides.len()];
    for _ in 0..pace.rounds {
        for (times, (_, round)) in times.iter_mut().zip(sides) {
            times.push(round(pace.calls) / each as f64);
        }
    }
    let width = sides.iter().map(|(name, _)| name.len()).max().unwrap_or(0);
    let mut medians = Vec::new();
    for ((name, _), times) in sides.iter().zip(times) {
        let [low, median, high] = quartiles(times);
        println!("  {name:<width$}  median {median:11.1} ns   (middle half {low:.1} to {high:.1})");
        medians.push(median);
    }
    for ((name, _), median) in sides.iter().zip(&medians).skip(1) {
        println!("  {} / {name}  {:.2}", sides[0].0, medians[0] / median);
    }
}
