//! The state as the image of document 02, in lent bytes: start, request, release, give-up and tick, each answered in 64 bits.
//!
//! Each call reads the plan once, then the image. Its length, header and holders are checked here, all else by the machine's own test of
//! the state that it shows. The bytes change once a call is accepted, and behind the image never.

use crate::analysis::{checked, tasks};
use crate::calls::{Call, Machine};
use crate::machine::{self, Answer, Line, Standing, State, NONE};
use crate::{read, Counts, Plan, MAX_RESOURCES, MAX_TASKS};

const TOO_SHORT: u8 = 24;
/// In the place of the refusal of a state by value.
pub const NOT_SOUND: u8 = 25;

const HEADER: usize = 4;
const RESOURCE_ROW: usize = 14;
const TASK_ROW: usize = 2;

/// The length of the longest image.
pub const MAX_IMAGE: usize = HEADER + RESOURCE_ROW * MAX_RESOURCES + TASK_ROW * MAX_TASKS;

/// Where the task rows begin; below 256 in every plan.
fn tasks_at(counts: Counts) -> usize {
    HEADER + RESOURCE_ROW * usize::from(counts.resources)
}

/// The length of a plan's image.
pub fn length(counts: Counts) -> usize {
    tasks_at(counts) + TASK_ROW * usize::from(counts.tasks)
}

fn header(counts: Counts) -> [u8; HEADER] {
    let tasks_at = tasks_at(counts) as u8;
    [counts.tasks, counts.resources, HEADER as u8, tasks_at]
}

/// The parts of an image in lent bytes.
struct Parts<'a> {
    header: &'a mut [u8],
    resources: &'a mut [[u8; RESOURCE_ROW]],
    tasks: &'a mut [[u8; TASK_ROW]],
}

impl Parts<'_> {
    /// Check 24.
    fn of(counts: Counts, lent: &mut [u8]) -> Result<Parts<'_>, u8> {
        let image = lent.get_mut(..length(counts)).ok_or(TOO_SHORT)?;
        let (front, tasks) = image.split_at_mut(tasks_at(counts));
        let (header, resources) = front.split_at_mut(HEADER);
        Ok(Parts {
            header,
            resources: resources.as_chunks_mut().0,
            tasks: tasks.as_chunks_mut().0,
        })
    }

    /// The state that the image shows; none where the header does not fit the plan, or a holder is not who it has to be in a sound
    /// state. Whether the state is one is not looked at.
    fn state(&self, plan: &Plan) -> Option<State> {
        if *self.header != header(plan.counts) {
            return None;
        }
        let mut state = State::FRESH;
        for (to, &[resource, place]) in state.tasks.iter_mut().zip(self.tasks.iter()) {
            *to = Standing { resource, place };
        }
        let mut fit = true;
        for (q, row) in self.resources.iter().enumerate().take(MAX_RESOURCES) {
            let [queued, holder, h0, h1, b0, b1, queue @ ..] = *row;
            let line = Line {
                queued,
                queue,
                hold_left: u16::from_le_bytes([h0, h1]),
                budget_left: u16::from_le_bytes([b0, b1]),
            };
            fit &= holder_fits(plan, &state.tasks, q as u8, &line, holder);
            state.lines[q] = line;
        }
        fit.then_some(state)
    }

    /// Puts in all rows.
    fn put(&mut self, plan: &Plan, state: &State) {
        let holders = holders(plan, state);
        let lines = state.lines.iter().zip(holders);
        for (row, (line, holder)) in self.resources.iter_mut().zip(lines) {
            let ([h0, h1], [b0, b1]) =
                (line.hold_left.to_le_bytes(), line.budget_left.to_le_bytes());
            let (front, queue) = row.split_at_mut(6);
            front.copy_from_slice(&[line.queued, holder, h0, h1, b0, b1]);
            queue.copy_from_slice(&line.queue);
        }
        for (row, s) in self.tasks.iter_mut().zip(&state.tasks) {
            *row = [s.resource, s.place];
        }
    }
}

/// Whether `holder` is the first task of the head, of which a sound state has just one; or none where nobody is queued.
#[inline]
fn holder_fits(
    plan: &Plan,
    standings: &[Standing; MAX_TASKS],
    resource: u8,
    line: &Line,
    holder: u8,
) -> bool {
    if line.queued == 0 {
        return holder == NONE;
    }
    let first = Standing { resource, place: 0 };
    let row = usize::from(holder);
    let task = tasks(plan).get(row);
    task.is_some_and(|task| {
        (task.processor == line.queue[0]) & (standings[row % MAX_TASKS] == first)
    })
}

/// By resource, the first task of the head in a sound state, or none.
fn holders(plan: &Plan, state: &State) -> [u8; MAX_RESOURCES] {
    let mut holders = [NONE; MAX_RESOURCES];
    for (row, (task, s)) in (0u8..).zip(tasks(plan).iter().zip(&state.tasks)) {
        if s.place == 0 {
            let q = usize::from(s.resource) % MAX_RESOURCES;
            if state.lines[q].queue[0] == task.processor {
                holders[q] = row;
            }
        }
    }
    holders
}

/// Puts the image of a sound state at the front of what is lent; refused 24.
pub fn store(plan: &Plan, state: &State, lent: &mut [u8]) -> Result<(), u8> {
    let mut parts = Parts::of(plan.counts, lent)?;
    parts.header.copy_from_slice(&header(plan.counts));
    parts.put(plan, state);
    Ok(())
}

/// An answer, from the low byte up: the refusal or 0; 1 if a request waits, the number ahead, the limit; 1 if a tag follows a release,
/// the tag; the two words of a tick.
pub fn word(answer: Answer) -> u64 {
    let bytes = match answer {
        Answer::Granted | Answer::Free | Answer::Left => [0; 8],
        Answer::Waits { ahead, limit } => {
            let [l0, l1, l2, l3] = limit.to_le_bytes();
            [0, 1, ahead, l0, l1, l2, l3, 0]
        }
        Answer::Next(tag) => {
            let [low, high] = tag.to_le_bytes();
            [0, 1, low, high, 0, 0, 0, 0]
        }
        Answer::Ticked { cuts, grants } => {
            let ([c0, c1], [g0, g1]) = (cuts.to_le_bytes(), grants.to_le_bytes());
            [0, c0, c1, g0, g1, 0, 0, 0]
        }
        Answer::Refused(number) => [number, 0, 0, 0, 0, 0, 0, 0],
    };
    u64::from_le_bytes(bytes)
}

/// Checks the image, makes a call on the state that it shows, and puts in the next one.
#[inline]
fn make_on(
    plan: &Plan,
    lent: &mut [u8],
    call: impl FnOnce(&Plan, &mut State) -> Result<Answer, u8>,
) -> Result<Answer, u8> {
    let mut parts = Parts::of(plan.counts, lent)?;
    let mut state = parts.state(plan).ok_or(NOT_SOUND)?;
    let answer = call(plan, &mut state).map_err(|number| match number {
        machine::NOT_SOUND => NOT_SOUND,
        _ => number,
    })?;
    parts.put(plan, &state);
    Ok(answer)
}

/// Checks the plan and the image, and makes a call.
#[inline]
fn make(
    file: &[u8],
    image: &mut [u8],
    call: impl FnOnce(&Plan, &mut State) -> Result<Answer, u8>,
) -> u64 {
    let answer = read(file);
    let made = checked(&answer).and_then(|plan| make_on(plan, image, call));
    word(made.unwrap_or_else(Answer::Refused))
}

/// Puts in the image of a fresh state, whatever was there.
pub fn start(file: &[u8], image: &mut [u8]) -> u64 {
    let answer = read(file);
    let stored = checked(&answer).and_then(|plan| store(plan, &State::FRESH, image));
    stored.map_or_else(u64::from, |()| 0)
}

/// A task asks for a resource.
pub fn request(machine: &Machine, file: &[u8], image: &mut [u8], tag: u16, resource: u8) -> u64 {
    make(file, image, |plan, state| {
        (machine.on_plan.request)(plan, state, tag, resource)
    })
}

/// A task gives a resource back.
pub fn release(machine: &Machine, file: &[u8], image: &mut [u8], tag: u16, resource: u8) -> u64 {
    make(file, image, |plan, state| {
        (machine.on_plan.release)(plan, state, tag, resource)
    })
}

/// A waiting task leaves the line.
pub fn give_up(machine: &Machine, file: &[u8], image: &mut [u8], tag: u16, resource: u8) -> u64 {
    make(file, image, |plan, state| {
        (machine.on_plan.give_up)(plan, state, tag, resource)
    })
}

/// A tick passes.
pub fn tick(machine: &Machine, file: &[u8], image: &mut [u8]) -> u64 {
    make(file, image, machine.on_plan.tick)
}

/// The call of a letter, S for a start; none for another one. A start and a tick take neither tag nor resource.
pub fn call(machine: &Machine, file: &[u8], image: &mut [u8], call: Call) -> Option<u64> {
    let Call { tag, resource, .. } = call;
    match call.letter {
        b'S' => Some(start(file, image)),
        b'Q' => Some(request(machine, file, image, tag, resource)),
        b'R' => Some(release(machine, file, image, tag, resource)),
        b'W' => Some(give_up(machine, file, image, tag, resource)),
        b'T' => Some(tick(machine, file, image)),
        _ => None,
    }
}

#[cfg(test)]
mod tests;
