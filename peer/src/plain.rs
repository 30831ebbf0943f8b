//! The machine of document 01 once more: start, request, release, tick and document 02's give-up on a state given by value,
//! written plainly, with no thought of speed beyond leaving out work that serves nothing. It has the states and answers of `machine`.
//!
//! Each call reads and checks the plan file and the state anew. A refusal gives the state back as it was.

use crate::analysis::{checked, hold_times_of, row_of, sections};
use crate::analysis::{LOCAL, NOT_DECLARED, UNKNOWN_RESOURCE};
use crate::machine::{Answer, Line, Standing, State, NONE, NOT_SOUND};
use crate::{read, Plan, MAX_PROCESSORS, MAX_RESOURCES, MAX_TASKS};

const ALREADY_IN_LINE: u8 = 15;
const NOT_HOLDING: u8 = 16;
const NOT_WAITING: u8 = 23;

impl Line {
    fn is_free(&self) -> bool {
        self.queued == 0
    }

    fn front(&self) -> usize {
        self.queue[0].into()
    }

    fn append(&mut self, processor: usize) {
        self.queue[usize::from(self.queued)] = processor as u8;
        self.queued += 1;
    }

    /// Takes a processor out of the queue, wherever it stands.
    fn remove(&mut self, processor: usize) {
        let mut to = 0;
        for at in 0..usize::from(self.queued) {
            if usize::from(self.queue[at]) != processor {
                self.queue[to] = self.queue[at];
                to += 1;
            }
        }
        self.queue[to] = NONE;
        self.queued -= 1;
    }
}

/// A checked plan with all its hold times and budgets.
struct Tables<'a> {
    plan: &'a Plan,
    holds: [u16; MAX_RESOURCES * MAX_TASKS],
    budgets: [[u16; MAX_PROCESSORS]; MAX_RESOURCES],
}

impl<'a> Tables<'a> {
    fn of(plan: &'a Plan) -> Tables<'a> {
        let mut tables = Tables {
            plan,
            holds: hold_times_of(plan),
            budgets: [[0; MAX_PROCESSORS]; MAX_RESOURCES],
        };
        for s in sections(plan) {
            let (row, resource) = (usize::from(s.task), usize::from(s.resource));
            let hold = tables.hold(resource, row);
            let budget = &mut tables.budgets[resource][tables.processor(row)];
            *budget = hold.max(*budget);
        }
        tables
    }

    /// 0 where the task does not use the resource or the resource is local.
    fn hold(&self, resource: usize, row: usize) -> u16 {
        self.holds[resource * MAX_TASKS + row]
    }

    fn processor(&self, row: usize) -> usize {
        self.plan.tasks[row].processor.into()
    }

    fn declares(&self, row: usize, resource: u8) -> bool {
        sections(self.plan)
            .iter()
            .any(|s| usize::from(s.task) == row && s.resource == resource)
    }

    fn wait_time(&self, processor: usize, resource: usize) -> u32 {
        let budgets = &self.budgets[resource];
        let all: u32 = budgets.iter().map(|&b| u32::from(b)).sum();
        all - u32::from(budgets[processor])
    }

    /// Refusals 11 and 12; the row of the task.
    fn find(&self, tag: u16, resource: u8) -> Result<usize, u8> {
        let row = row_of(self.plan, tag)?;
        if resource >= self.plan.counts.resources {
            return Err(UNKNOWN_RESOURCE);
        }
        Ok(row)
    }
}

/// The task queues of a state, one behind the other: that of resource q and processor k has `counts[q][k]` rows from
/// `starts[q][k]` on.
struct Queues {
    starts: [[u8; MAX_PROCESSORS]; MAX_RESOURCES],
    counts: [[u8; MAX_PROCESSORS]; MAX_RESOURCES],
    rows: [u8; MAX_TASKS],
}

impl Queues {
    /// None where a task stands in line for what it may not, or the places of a queue have a gap or a repetition.
    fn of(tables: &Tables, tasks: &[Standing; MAX_TASKS]) -> Option<Queues> {
        let counts = count_in_line(tables, tasks)?;
        let starts = starts_of(&counts);
        let mut rows = [NONE; MAX_TASKS];
        for (row, &standing) in tasks.iter().enumerate() {
            if standing == Standing::NONE {
                continue;
            }
            let (q, k) = (usize::from(standing.resource), tables.processor(row));
            if standing.place >= counts[q][k] {
                return None;
            }
            let to = &mut rows[usize::from(starts[q][k] + standing.place)];
            if *to != NONE {
                return None;
            }
            *to = row as u8;
        }
        Some(Queues {
            starts,
            counts,
            rows,
        })
    }

    /// The task rows of one queue in order.
    fn queue(&self, resource: usize, processor: usize) -> &[u8] {
        let start = usize::from(self.starts[resource][processor]);
        let count = usize::from(self.counts[resource][processor]);
        &self.rows[start..start + count]
    }
}

/// How many tasks of each processor are in line for each resource. None where one is so for a resource past the plan's,
/// a local one or one it does not declare, or is itself past the plan's tasks: the hold times of these are 0.
fn count_in_line(
    tables: &Tables,
    tasks: &[Standing; MAX_TASKS],
) -> Option<[[u8; MAX_PROCESSORS]; MAX_RESOURCES]> {
    let mut counts = [[0; MAX_PROCESSORS]; MAX_RESOURCES];
    for (row, &standing) in tasks.iter().enumerate() {
        if standing == Standing::NONE {
            continue;
        }
        let resource = usize::from(standing.resource);
        if standing.resource >= tables.plan.counts.resources || tables.hold(resource, row) == 0 {
            return None;
        }
        counts[resource][tables.processor(row)] += 1;
    }
    Some(counts)
}

fn starts_of(
    counts: &[[u8; MAX_PROCESSORS]; MAX_RESOURCES],
) -> [[u8; MAX_PROCESSORS]; MAX_RESOURCES] {
    let mut starts = [[0; MAX_PROCESSORS]; MAX_RESOURCES];
    let mut next = 0;
    for (starts, counts) in starts.iter_mut().zip(counts) {
        for (start, count) in starts.iter_mut().zip(counts) {
            *start = next;
            next += count;
        }
    }
    starts
}

/// Whether the processors with a task in line, and no others, are queued once each, and what is left is in its bounds.
fn line_is_sound(tables: &Tables, queues: &Queues, resource: usize, line: &Line) -> bool {
    if usize::from(line.queued) > MAX_PROCESSORS {
        return false;
    }
    let (used, unused) = line.queue.split_at(line.queued.into());
    let mut queued = [false; MAX_PROCESSORS];
    for &processor in used {
        let k = usize::from(processor);
        if k >= MAX_PROCESSORS || queued[k] {
            return false;
        }
        queued[k] = true;
    }
    if unused.iter().any(|&processor| processor != NONE) {
        return false;
    }
    for (&queued, &count) in queued.iter().zip(&queues.counts[resource]) {
        if queued != (count > 0) {
            return false;
        }
    }
    if line.is_free() {
        return *line == Line::FREE;
    }
    let head = line.front();
    let holder = usize::from(queues.queue(resource, head)[0]);
    (1..=tables.hold(resource, holder)).contains(&line.hold_left)
        && (line.hold_left..=tables.budgets[resource][head]).contains(&line.budget_left)
}

/// The task queues of a sound state; refusal 19 of any other.
fn check_state(tables: &Tables, state: &State) -> Result<Queues, u8> {
    let queues = Queues::of(tables, &state.tasks).ok_or(NOT_SOUND)?;
    for (resource, line) in state.lines.iter().enumerate() {
        if !line_is_sound(tables, &queues, resource, line) {
            return Err(NOT_SOUND);
        }
    }
    Ok(queues)
}

/// Gives the head its whole budget and grants `row`, its first task.
fn begin(tables: &Tables, line: &mut Line, resource: usize, row: usize) {
    line.budget_left = tables.budgets[resource][line.front()];
    line.hold_left = tables.hold(resource, row);
}

/// Ends the hold of a resource that is held; the row granted next, if any.
fn end_hold(tables: &Tables, queues: &Queues, state: &mut State, resource: usize) -> Option<usize> {
    let line = &mut state.lines[resource];
    let processor = line.front();
    let queue = queues.queue(resource, processor);
    state.tasks[usize::from(queue[0])] = Standing::NONE;
    for &row in &queue[1..] {
        state.tasks[usize::from(row)].place -= 1;
    }
    let own_next = queue.get(1).map(|&row| usize::from(row));
    if let Some(row) = own_next {
        let hold = tables.hold(resource, row);
        if hold <= line.budget_left {
            line.hold_left = hold;
            return Some(row);
        }
    }
    line.remove(processor);
    if own_next.is_some() {
        line.append(processor);
    }
    if line.is_free() {
        *line = Line::FREE;
        return None;
    }
    let first = match own_next {
        Some(row) if line.front() == processor => row,
        _ => queues.queue(resource, line.front())[0].into(),
    };
    begin(tables, line, resource, first);
    Some(first)
}

/// As [`request`], on a checked plan, with the state where it is; a refusal leaves it.
pub fn request_on(plan: &Plan, state: &mut State, tag: u16, resource: u8) -> Result<Answer, u8> {
    let tables = Tables::of(plan);
    let queues = check_state(&tables, state)?;
    let row = tables.find(tag, resource)?;
    let q = usize::from(resource);
    if tables.hold(q, row) == 0 {
        let declared = tables.declares(row, resource);
        return Err(if declared { LOCAL } else { NOT_DECLARED });
    }
    if state.tasks[row] != Standing::NONE {
        return Err(ALREADY_IN_LINE);
    }
    let k = tables.processor(row);
    let queue = queues.queue(q, k);
    let ahead = queue.len() as u8;
    state.tasks[row] = Standing {
        resource,
        place: ahead,
    };
    let line = &mut state.lines[q];
    if line.is_free() {
        line.append(k);
        begin(&tables, line, q, row);
        return Ok(Answer::Granted);
    }
    if queue.is_empty() {
        line.append(k);
    }
    let holds = queue
        .iter()
        .map(|&row| u32::from(tables.hold(q, row.into())));
    let limit = holds.sum::<u32>() + (u32::from(ahead) + 1) * tables.wait_time(k, q);
    Ok(Answer::Waits { ahead, limit })
}

/// As [`release`], on a checked plan.
pub fn release_on(plan: &Plan, state: &mut State, tag: u16, resource: u8) -> Result<Answer, u8> {
    let tables = Tables::of(plan);
    let queues = check_state(&tables, state)?;
    let row = tables.find(tag, resource)?;
    let q = usize::from(resource);
    let first = Standing { resource, place: 0 };
    let line = &state.lines[q];
    if state.tasks[row] != first || line.front() != tables.processor(row) {
        return Err(NOT_HOLDING);
    }
    Ok(match end_hold(&tables, &queues, state, q) {
        Some(next) => Answer::Next(tables.plan.tasks[next].tag),
        None => Answer::Free,
    })
}

/// As [`give_up`], on a checked plan.
pub fn give_up_on(plan: &Plan, state: &mut State, tag: u16, resource: u8) -> Result<Answer, u8> {
    let tables = Tables::of(plan);
    let queues = check_state(&tables, state)?;
    let row = tables.find(tag, resource)?;
    let q = usize::from(resource);
    let standing = state.tasks[row];
    let k = tables.processor(row);
    let line = &mut state.lines[q];
    if standing.resource != resource || standing.place == 0 && line.front() == k {
        return Err(NOT_WAITING);
    }
    let queue = queues.queue(q, k);
    if queue.len() == 1 {
        line.remove(k);
    }
    state.tasks[row] = Standing::NONE;
    for &behind in &queue[usize::from(standing.place) + 1..] {
        state.tasks[usize::from(behind)].place -= 1;
    }
    Ok(Answer::Left)
}

/// As [`tick`], on a checked plan.
pub fn tick_on(plan: &Plan, state: &mut State) -> Result<Answer, u8> {
    let tables = Tables::of(plan);
    let queues = check_state(&tables, state)?;
    let (mut cuts, mut grants) = (0, 0);
    for resource in 0..usize::from(tables.plan.counts.resources) {
        let line = &mut state.lines[resource];
        if line.is_free() {
            continue;
        }
        line.hold_left -= 1;
        line.budget_left -= 1;
        if line.hold_left == 0 {
            cuts |= 1 << resource;
            if end_hold(&tables, &queues, state, resource).is_some() {
                grants |= 1 << resource;
            }
        }
    }
    Ok(Answer::Ticked { cuts, grants })
}

/// Checks a file, and runs one call on a copy of the state. A call changes it only after its last check.
fn call(
    file: &[u8],
    state: &State,
    change: impl FnOnce(&Plan, &mut State) -> Result<Answer, u8>,
) -> (Answer, State) {
    let mut next = *state;
    let answer = read(file);
    let made = checked(&answer).and_then(|plan| change(plan, &mut next));
    (made.unwrap_or_else(Answer::Refused), next)
}

/// 0 or the plan's refusal, and a fresh state.
pub fn start(file: &[u8]) -> (u8, State) {
    let refusal = read(file).map_or_else(|refusal| refusal.number(), |_| 0);
    (refusal, State::FRESH)
}

pub fn request(file: &[u8], state: &State, tag: u16, resource: u8) -> (Answer, State) {
    call(file, state, |plan, next| {
        request_on(plan, next, tag, resource)
    })
}

pub fn release(file: &[u8], state: &State, tag: u16, resource: u8) -> (Answer, State) {
    call(file, state, |plan, next| {
        release_on(plan, next, tag, resource)
    })
}

pub fn give_up(file: &[u8], state: &State, tag: u16, resource: u8) -> (Answer, State) {
    call(file, state, |plan, next| {
        give_up_on(plan, next, tag, resource)
    })
}

pub fn tick(file: &[u8], state: &State) -> (Answer, State) {
    call(file, state, tick_on)
}

/// The state after a list of calls of three bytes from a fresh state: a letter, a tag and a resource, both 0 after T.
/// Other triples, and bytes left over, are skipped.
pub fn run(file: &[u8], calls: &[u8]) -> State {
    let (_, mut state) = start(file);
    for triple in calls.chunks_exact(3) {
        let (tag, resource) = (u16::from(triple[1]), triple[2]);
        state = match (triple[0], tag, resource) {
            (b'Q', _, _) => request(file, &state, tag, resource).1,
            (b'R', _, _) => release(file, &state, tag, resource).1,
            (b'W', _, _) => give_up(file, &state, tag, resource).1,
            (b'T', 0, 0) => tick(file, &state).1,
            _ => state,
        };
    }
    state
}

#[cfg(test)]
mod tests;
