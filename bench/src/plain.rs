//! The same numbers from the peer.

use peer::machine::{Answer, State};

fn last(n: usize) -> usize {
    n.saturating_sub(1)
}

/// Above the refusal, for a plan that is read, the sum of the numbers in the last task row, the last name's length and the
/// last section row. Which rows these are is known from the file alone, so neither side can leave rows out.
#[inline(never)]
pub fn read(file: &[u8]) -> u64 {
    match peer::read(file) {
        Ok(plan) => {
            let t = plan.tasks[last(plan.counts.tasks.into())];
            let length = plan.lengths[last(plan.counts.resources.into())];
            let s = plan.sections[last(plan.counts.sections.into())];
            let task = u64::from(t.processor)
                + u64::from(t.tag)
                + u64::from(t.priority)
                + u64::from(t.period)
                + u64::from(t.execution);
            let section = u64::from(s.task) + u64::from(s.resource) + u64::from(s.length);
            256 * (task + u64::from(length) + section)
        }
        Err(refusal) => refusal.number().into(),
    }
}

/// Which hold time is asked is not known before, so neither side can leave any out. The peer has resource q by task i at
/// q * 64 + i, the proved table at i * 16 + q: x asks both for the same figure.
#[inline(never)]
pub fn hold_at(file: &[u8], x: u16) -> u64 {
    match peer::analysis::hold_times(file) {
        Ok(times) => {
            let x = usize::from(x % 1024);
            256 * u64::from(times[x % 16 * 64 + x / 16])
        }
        Err(number) => number.into(),
    }
}

#[inline(never)]
pub fn admission(file: &[u8]) -> u64 {
    match peer::analysis::admission(file) {
        Ok(admitted) => 256 * u64::from(admitted),
        Err(number) => number.into(),
    }
}

#[inline(never)]
pub fn sheet(file: &[u8], out: &mut [u8]) -> u64 {
    match peer::sheet::write(file, out) {
        Ok(length) => 256 * length as u64,
        Err(refusal) => refusal.number().into(),
    }
}

/// An answer: the refusal in the low byte, above it which answer it is, and its values.
pub fn answer_number(answer: &Answer) -> u64 {
    match *answer {
        Answer::Granted => 256,
        Answer::Waits { ahead, limit } => 512 + (u64::from(ahead) << 16) + (u64::from(limit) << 24),
        Answer::Next(tag) => 768 + (u64::from(tag) << 16),
        Answer::Free => 1024,
        Answer::Ticked { cuts, grants } => {
            1280 + (u64::from(cuts) << 16) + (u64::from(grants) << 32)
        }
        Answer::Left => 1536,
        Answer::Refused(k) => k.into(),
    }
}

/// A part of a state: the row of a task, that of a resource, and one slot of its queue.
pub fn row_of(state: &State, x: u8) -> u64 {
    let task = state.tasks[usize::from(x % 64)];
    let line = state.lines[usize::from(x % 16)];
    u64::from(task.resource)
        + (u64::from(task.place) << 8)
        + (u64::from(line.queued) << 16)
        + (u64::from(line.hold_left) << 24)
        + (u64::from(line.budget_left) << 40)
        + (u64::from(line.queue[usize::from(x / 16 % 8)]) << 56)
}

/// Makes a list of calls on a fresh machine, and gives part `x` of its state, by the machine that is tuned for speed.
#[inline(never)]
pub fn tuned_row(file: &[u8], calls: &[u8], x: u8) -> u64 {
    row_of(&peer::machine::run(file, calls, &mut |_, _| ()), x)
}

/// The same by the plain one.
#[inline(never)]
pub fn row(file: &[u8], calls: &[u8], x: u8) -> u64 {
    row_of(&peer::plain::run(file, calls), x)
}

/// Puts the image of a fresh state into lent bytes.
#[inline(never)]
pub fn start(file: &[u8], image: &mut [u8]) -> u64 {
    peer::image::start(file, image)
}
