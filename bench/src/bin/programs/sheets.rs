//! The datasheet programs beside each other. A program makes one sheet, so the start of a process is in every figure; the first row
//! has nothing else in it.

use crate::process::{checked, medians, row, Input, Program, Sink, ROUNDS};
use bench::plans;
use compare::plans::Size;
use compare::random::Random;
use std::io;

const PLANS: usize = 200;
/// Of the plans whose sheets take many times as long as the start of a process.
const LONG: usize = 3;

/// The proved program, and the peer's.
type Programs = [Program; 2];

fn inputs(programs: &Programs, files: Vec<Vec<u8>>) -> io::Result<Vec<Input>> {
    let each = files.iter().enumerate();
    each.map(|(n, file)| checked(programs, &format!("sheet-{n}"), file))
        .collect()
}

fn milliseconds(programs: &Programs, what: &str, files: Vec<Vec<u8>>) -> io::Result<()> {
    let inputs = inputs(programs, files)?;
    let seconds = medians(programs, &inputs, Sink::Nowhere)?;
    let each = |s| format!("{:.2}", s * 1e3 / inputs.len() as f64);
    row(what, seconds, each);
    Ok(())
}

pub fn measure() -> io::Result<()> {
    let programs = [
        Program::proved("DATASHEET", "datasheet"),
        Program::peer("peer-datasheet", &[]),
    ];
    let made = |plan: fn(&mut Random) -> Vec<u8>| {
        let numbers = 0..PLANS;
        numbers.map(|n| plan(&mut Random::of(b'D', n))).collect()
    };
    println!("Milliseconds a sheet, with the start of the program in it, medians of {ROUNDS} rounds in turn:");
    println!("\n| plans | proved | peer | proved / peer |");
    println!("|---|---|---|---|");
    milliseconds(&programs, "no input", vec![vec![]; PLANS])?;
    let largest = made(|random| compare::plans::some(Size::full(64), random));
    let what = format!("{PLANS} of 64 tasks, 16 resources and 255 sections");
    milliseconds(&programs, &what, largest)?;
    let what = format!("{PLANS} of all sizes");
    milliseconds(&programs, &what, made(plans::some))?;
    for processors in [8, 2] {
        let what = format!("64 tasks on {processors} processors, T near 65,535");
        milliseconds(&programs, &what, vec![plans::busy(processors); LONG])?;
    }
    Ok(())
}
