//! The printing programs beside each other, on long lists of calls: the proved one and the peer's, in each of its modes; and the
//! datasheet programs.

#![forbid(unsafe_code)]

mod process;
mod sheets;

use bench::{lists, plans};
use compare::lists::{Habits, Maker};
use compare::plans::Size;
use compare::random::Random;
use process::{medians, row, Input, Program, Sink, ROUNDS};
use std::io;
use std::process::ExitCode;

const CALLS: usize = 1_000_000;
/// As the comparison's lists, with queues that are neither full nor empty and calls of every kind.
const MIX: Habits = Habits {
    requests: 6,
    releases: 3,
    give_ups: 1,
    ticks: 2,
    wrong: 1,
    odd: 0,
    run: 6,
};

const PROGRAMS: usize = 4;
/// The proved program, the peer, the peer where it looks at the plan once as the proved one does, and by its plain machine.
type Programs = [Program; PROGRAMS];
type Seconds = [f64; PROGRAMS];

fn programs() -> Programs {
    let by = |words| Program::peer("peer-mspis", words);
    let proved = Program::proved("MSPIS", "mspis");
    [proved, by(&[]), by(&["once"]), by(&["plain"])]
}

/// A plan and calls, as one input.
fn checked(programs: &Programs, name: &str, plan: &[u8], calls: &[u8]) -> io::Result<[Input; 1]> {
    let input = process::checked(programs, name, &[plan, calls].concat())?;
    Ok([input])
}

fn heading(first: &str) {
    println!(
        "\n| {first} | proved | peer | peer once | peer, plain machine \
         | proved / peer | proved / peer once | proved / plain |"
    );
    println!("|---|---|---|---|---|---|---|---|");
}

fn pace(what: &str, calls: usize, seconds: Seconds) {
    row(what, seconds, |s| {
        format!("{s:.2} s, {:.0} a second", calls as f64 / s)
    });
}

fn microseconds(what: &str, calls: usize, seconds: Seconds) {
    row(what, seconds, |s| format!("{:.2}", s * 1e6 / calls as f64));
}

/// A plan of so many tasks, and calls of the mix.
fn mixed(tasks: usize, count: usize) -> (Vec<u8>, Vec<u8>) {
    let mut random = Random::of(b'B', tasks);
    let plan = compare::plans::some(Size::full(tasks), &mut random);
    let calls = Maker::new(&plan, MIX).list(count, &mut random);
    (plan, calls)
}

/// A million calls: the mix, and ticks with every resource held. Gives the seconds of the mix.
fn at_length(programs: &Programs, plan: &[u8], calls: &[u8]) -> io::Result<Seconds> {
    let mix = checked(programs, "mix", plan, calls)?;
    let long = plans::long();
    let held = checked(programs, "held", &long, &lists::held(&long, CALLS))?;
    println!(
        "{CALLS} calls, medians of {ROUNDS} rounds in turn, on plans of {} and {} bytes:",
        plan.len(),
        long.len()
    );
    heading("calls, and where the lines go");
    let seconds = medians(programs, &mix, Sink::Nowhere)?;
    pace("mix of calls, /dev/null", CALLS, seconds);
    let to_pipe = medians(programs, &mix, Sink::Reader)?;
    pace("mix of calls, a pipe that is read", CALLS, to_pipe);
    let ticks = medians(programs, &held, Sink::Nowhere)?;
    pace("ticks with 16 held resources, /dev/null", CALLS, ticks);
    Ok(seconds)
}

fn by_calls(programs: &Programs, plan: &[u8], calls: &[u8]) -> io::Result<()> {
    for count in [CALLS / 8, CALLS / 4, CALLS / 2] {
        let input = checked(programs, "part", plan, &calls[..3 * count])?;
        let seconds = medians(programs, &input, Sink::Nowhere)?;
        microseconds(&count.to_string(), count, seconds);
    }
    Ok(())
}

fn by_size(programs: &Programs) -> io::Result<()> {
    for tasks in [8, 16, 32, 64] {
        let (plan, calls) = mixed(tasks, CALLS / 4);
        let input = checked(programs, "size", &plan, &calls)?;
        let seconds = medians(programs, &input, Sink::Nowhere)?;
        microseconds(&format!("{tasks}, {}", plan.len()), CALLS / 4, seconds);
    }
    Ok(())
}

/// The printing programs.
fn calls() -> io::Result<()> {
    let programs = programs();
    let (plan, calls) = mixed(64, CALLS);
    let seconds = at_length(&programs, &plan, &calls)?;
    println!("\nMicroseconds a call of the mix, by the number of calls:");
    heading("calls");
    by_calls(&programs, &plan, &calls)?;
    microseconds(&CALLS.to_string(), CALLS, seconds);
    println!(
        "\nMicroseconds a call of the mix, {} calls, by the size of the plan:",
        CALLS / 4
    );
    heading("tasks, bytes");
    by_size(&programs)
}

fn both() -> io::Result<()> {
    calls()?;
    println!();
    sheets::measure()
}

fn main() -> ExitCode {
    let words: Vec<String> = std::env::args().skip(1).collect();
    let measured = match words.iter().map(String::as_str).collect::<Vec<_>>()[..] {
        [] => both(),
        ["calls"] => calls(),
        ["sheets"] => sheets::measure(),
        _ => Err(io::Error::other("programs [calls | sheets]")),
    };
    match measured {
        Ok(()) => ExitCode::SUCCESS,
        Err(error) => {
            eprintln!("{error}");
            ExitCode::FAILURE
        }
    }
}
