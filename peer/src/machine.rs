//! The machine of document 01, which grants global resources by Rules 4 to 6 of the paper, with the give-up of document 02.
//!
//! Each call checks the file and the state it is given, and gives its answer with the next state; after a refusal that is
//! the state given. What it needs stands in tables of fixed size: longest sections from one pass over the sections, then
//! hold times and budgets for those processors alone that are asked about, and who is in line from one pass over the tasks.
//! [`Once`] has all that comes from the plan worked out before, and its calls check the state alone.
//! The loops that are marked not to be inlined have the registers to themselves.

use crate::analysis::{checked, processor, row_of, rows, sections, tasks, Order};
use crate::analysis::{ALL, LOCAL, NOT_DECLARED, UNKNOWN_RESOURCE, UNKNOWN_TAG};
use crate::{read, Plan, Refusal, MAX_PROCESSORS, MAX_RESOURCES, MAX_TASKS};

const IN_LINE: u8 = 15;
const NOT_HELD: u8 = 16;
pub(crate) const NOT_SOUND: u8 = 19;
const NOT_WAITING: u8 = 23;

/// Stands where there is no resource, place, processor or task.
pub const NONE: u8 = u8::MAX;

/// The resource a task is in line for, and its place in its processor's queue for it.
#[derive(Clone, Copy, Debug, PartialEq, Eq)]
pub struct Standing {
    pub resource: u8,
    pub place: u8,
}

/// The processors queued for a resource, and what is left to the holder and to the head.
#[derive(Clone, Copy, Debug, PartialEq, Eq)]
pub struct Line {
    pub queued: u8,
    pub queue: [u8; MAX_PROCESSORS],
    pub hold_left: u16,
    pub budget_left: u16,
}

#[derive(Clone, Copy, Debug, PartialEq, Eq)]
pub struct State {
    pub lines: [Line; MAX_RESOURCES],
    pub tasks: [Standing; MAX_TASKS],
}

#[derive(Clone, Copy, Debug, PartialEq, Eq)]
pub enum Answer {
    Granted,
    Waits {
        ahead: u8,
        limit: u32,
    },
    /// The tag granted next.
    Next(u16),
    Free,
    Ticked {
        cuts: u16,
        grants: u16,
    },
    /// The task gave up.
    Left,
    Refused(u8),
}

impl Standing {
    pub const NONE: Standing = Standing {
        resource: NONE,
        place: NONE,
    };
}

impl State {
    /// Nobody is in line.
    pub const FRESH: State = State {
        lines: [Line::FREE; MAX_RESOURCES],
        tasks: [Standing::NONE; MAX_TASKS],
    };
}

impl Line {
    pub const FREE: Line = Line {
        queued: 0,
        queue: [NONE; MAX_PROCESSORS],
        hold_left: 0,
        budget_left: 0,
    };

    #[inline]
    fn head(&self) -> usize {
        usize::from(self.queue[0]) % MAX_PROCESSORS
    }

    fn join(&mut self, k: usize) {
        self.queue[usize::from(self.queued) % MAX_PROCESSORS] = k as u8;
        self.queued += 1;
    }

    /// The processor at a place leaves, and those behind it move up.
    #[inline]
    fn leave(&mut self, place: usize) {
        let queue = u64::from_le_bytes(self.queue);
        let moved = queue >> 8 | u64::from(NONE) << 56;
        let behind = u64::MAX << (8 * place);
        self.queue = (queue & !behind | moved & behind).to_le_bytes();
        self.queued -= 1;
    }
}

/// A tag of a file is a byte.
const TAGS: usize = 256;
const SLOTS: usize = MAX_RESOURCES * MAX_PROCESSORS;
/// How many tasks are looked at side by side: two figures of each fill the registers.
const ABREAST: usize = 32;

/// Where a table keeps what belongs to a resource and a processor.
#[inline]
fn slot(q: usize, k: usize) -> usize {
    (q * MAX_PROCESSORS + k) % SLOTS
}

/// A figure for each resource.
type Row = [u16; MAX_RESOURCES];
/// A length for each task; signed, since the plain instruction set has the maximum of signed words only.
type Column = [i16; MAX_TASKS];

/// The figures of a plan.
struct Figures<'a> {
    plan: &'a Plan,
    order: Order,
    /// All ones where the resource is global, else 0.
    global: Row,
    /// By task, its longest section on each resource; once its processor is filled, its hold times of global ones.
    holds: [Row; MAX_TASKS],
    /// The longest sections by resource.
    lengths: [Column; MAX_RESOURCES],
    /// The longest of a task's longest sections on global resources, and by how much the next is shorter.
    longest: Column,
    shorter: Column,
    /// By processor, its budgets on global resources.
    budgets: [Row; MAX_PROCESSORS],
    /// The sums of the budgets that are there.
    totals: [u32; MAX_RESOURCES],
    /// The processors whose hold times and budgets are there, as bits.
    filled: u8,
}

/// The figures of a plan, and who is in line.
struct Tables<'a, 'b> {
    figures: &'a mut Figures<'b>,
    /// By slot, the sum of 1 << place of its tasks.
    places: [u64; SLOTS],
    /// By slot, its task at place 0 or none; behind them, one at another place.
    first: [u8; 2 * SLOTS],
}

impl Figures<'_> {
    #[inline]
    fn new(plan: &Plan) -> Figures<'_> {
        Figures {
            plan,
            order: Order::of(plan, ALL),
            global: [0; MAX_RESOURCES],
            holds: [[0; MAX_RESOURCES]; MAX_TASKS],
            lengths: [[0; MAX_TASKS]; MAX_RESOURCES],
            longest: [0; MAX_TASKS],
            shorter: [0; MAX_TASKS],
            budgets: [[0; MAX_RESOURCES]; MAX_PROCESSORS],
            totals: [0; MAX_RESOURCES],
            filled: 0,
        }
    }

    /// The longest sections, which resources are global, and each task's longest on those.
    #[inline(never)]
    fn put_plan(&mut self) {
        let holds = self.holds.as_flattened_mut();
        let lengths = self.lengths.as_flattened_mut();
        for &s in sections(self.plan) {
            let (task, resource) = rows(s);
            let to = &mut holds[task * MAX_RESOURCES + resource];
            *to = s.length.max(*to);
            lengths[resource * MAX_TASKS + task] = *to as i16;
        }
        self.put_global();
        self.put_longest();
    }

    /// A resource is global where not only the greatest of what the processors have there is above 0, but the next too.
    fn put_global(&mut self) {
        let mut greatest = [0i16; MAX_RESOURCES];
        let mut next = [0i16; MAX_RESOURCES];
        for k in 0..MAX_PROCESSORS {
            let mut used = [0; MAX_RESOURCES];
            for row in self.order.on(k) {
                for (u, length) in used.iter_mut().zip(&self.holds[row]) {
                    *u |= length;
                }
            }
            for q in 0..MAX_RESOURCES {
                let used = used[q] as i16;
                next[q] = next[q].max(greatest[q].min(used));
                greatest[q] = greatest[q].max(used);
            }
        }
        self.global = next.map(|n| if n == 0 { 0 } else { u16::MAX });
    }

    /// Many tasks side by side, resource after resource.
    fn put_longest(&mut self) {
        for part in 0..MAX_TASKS / ABREAST {
            let rows = part * ABREAST..(part + 1) * ABREAST;
            let mut longest = [0; ABREAST];
            let mut next = [0; ABREAST];
            for (lengths, global) in self.lengths.iter().zip(self.global) {
                if global == 0 {
                    continue;
                }
                for (i, &length) in lengths[rows.clone()].iter().enumerate() {
                    next[i] = length.min(longest[i]).max(next[i]);
                    longest[i] = length.max(longest[i]);
                }
            }
            for (i, row) in rows.enumerate() {
                self.longest[row] = longest[i];
                self.shorter[row] = longest[i] - next[i];
            }
        }
    }

    /// Sees to it that the hold times and budgets of processor `k` are there.
    #[inline]
    fn fill(&mut self, k: usize) {
        if self.filled >> k & 1 == 0 {
            self.filled |= 1 << k;
            self.put_holds(k);
        }
    }

    /// From the highest priority down. To the hold times of the lower tasks each adds its longest section; on a resource
    /// where it has that one, the next, which is as long where it has two. What comes out for local resources says nothing.
    #[inline(never)]
    fn put_holds(&mut self, k: usize) {
        let mut above = [0; MAX_RESOURCES];
        let mut budgets = [0; MAX_RESOURCES];
        for row in self.order.on(k) {
            let (longest, shorter) = (self.longest[row] as u16, self.shorter[row] as u16);
            let holds = &mut self.holds[row];
            for q in 0..MAX_RESOURCES {
                let own = holds[q];
                let unused = if own == 0 { u16::MAX } else { 0 };
                let there = if own == longest { u16::MAX } else { 0 };
                holds[q] = (own + above[q]) & !unused;
                budgets[q] = holds[q].max(budgets[q]);
                above[q] = above[q] + longest - (shorter & there);
            }
        }
        self.budgets[k] = budgets;
        for (total, budget) in self.totals.iter_mut().zip(budgets) {
            *total += u32::from(budget);
        }
    }

    #[inline]
    fn fill_all(&mut self) {
        if self.filled != ALL {
            (0..MAX_PROCESSORS).for_each(|k| self.fill(k));
        }
    }

    /// The sum of the budgets of the other processors.
    fn wait_time(&mut self, k: usize, q: usize) -> u32 {
        self.fill_all();
        self.totals[q] - u32::from(self.budgets[k][q])
    }

    /// Checks 13 and 14.
    fn may_use(&self, row: usize, q: usize) -> Result<(), u8> {
        match (self.lengths[q][row], self.global[q]) {
            (0, _) => Err(NOT_DECLARED),
            (_, 0) => Err(LOCAL),
            _ => Ok(()),
        }
    }
}

/// Who is in line.
impl Tables<'_, '_> {
    #[inline]
    fn new<'a, 'b>(figures: &'a mut Figures<'b>) -> Tables<'a, 'b> {
        Tables {
            figures,
            places: [0; SLOTS],
            first: [NONE; 2 * SLOTS],
        }
    }

    /// Puts in the tasks in line, and gives their number; none where one is in line for what it may not use.
    #[inline(never)]
    fn put_tasks(&mut self, state: &State) -> Option<u32> {
        let figures = &*self.figures;
        let (mut count, mut beyond, mut shortest) = (0, 0, u16::MAX);
        for (row, &task) in tasks(figures.plan).iter().enumerate() {
            let s = state.tasks[row % MAX_TASKS];
            if s != Standing::NONE {
                count += 1;
                // No resource is 16 or more, no place 64.
                beyond |= u16::from_le_bytes([s.resource, s.place]) & 0xc0f0;
                let q = usize::from(s.resource) % MAX_RESOURCES;
                let slot = slot(q, processor(task));
                let places = &mut self.places[slot];
                *places = places.wrapping_add(1u64.wrapping_shl(s.place.into()));
                self.first[slot + if s.place == 0 { 0 } else { SLOTS }] = row as u8;
                // A longest section or a hold time, 0 where the task may not use the resource.
                let length = figures.holds[row % MAX_TASKS][q] & figures.global[q];
                shortest = shortest.min(length);
            }
        }
        ((beyond == 0) & (shortest > 0)).then_some(count)
    }

    /// A number with a byte for each processor: 1 where it has a task at place 0, else 0. A task's row is below 128, and
    /// what stands for none is not.
    #[inline]
    fn present(&self, q: usize) -> u64 {
        let first = self.first.as_chunks().0[q];
        !u64::from_le_bytes(first) >> 7 & 0x0101_0101_0101_0101
    }

    /// The number of places taken from 0 up, none left out, by the processors of a line. None where not just those with a
    /// task at place 0 are queued, each once, or where the line is not empty behind them.
    fn taken(&self, q: usize, line: &Line) -> Option<u32> {
        let queue = line.queue.get(..line.queued.into())?;
        let (mut beyond, mut count, mut present) = (0, 0, 0u64);
        for &k in queue {
            let places = self.places[slot(q, usize::from(k) % MAX_PROCESSORS)];
            beyond |= k;
            count += places.trailing_ones();
            present += 1u64.wrapping_shl(8 * u32::from(k));
        }
        let rest = u64::MAX.checked_shl(8 * u32::from(line.queued));
        let sound = (usize::from(beyond) < MAX_PROCESSORS)
            & (present == self.present(q))
            & (u64::from_le_bytes(line.queue) >= rest.unwrap_or(0));
        sound.then_some(count)
    }

    #[inline]
    fn first(&self, q: usize, k: usize) -> usize {
        usize::from(self.first[slot(q, k)]) % MAX_TASKS
    }

    fn times_are_sound(&mut self, q: usize, line: &Line) -> bool {
        if line.queued == 0 {
            return line.hold_left | line.budget_left == 0;
        }
        let k = line.head();
        self.figures.fill(k);
        let hold = self.figures.holds[self.first(q, k)][q];
        (1 <= line.hold_left)
            & (line.hold_left <= hold)
            & (line.hold_left <= line.budget_left)
            & (line.budget_left <= self.figures.budgets[k][q])
    }

    /// Puts in who is in line; whether the state is sound.
    ///
    /// A slot has at least as many tasks as its sum of 1 << place has ones, and this at least as many as stand at its low
    /// end; just as many where the tasks have the places from 0 up, one each. So the ends of the slots that are queued are
    /// as many as the tasks in line just where this holds for each slot, and all are queued.
    fn put_state(&mut self, state: &State) -> bool {
        let past = &state.tasks[tasks(self.figures.plan).len()..];
        if past.iter().any(|&s| s != Standing::NONE) {
            return false;
        }
        let Some(count) = self.put_tasks(state) else {
            return false;
        };
        let mut places = 0;
        for (q, line) in state.lines.iter().enumerate() {
            let Some(taken) = self.taken(q, line) else {
                return false;
            };
            places += taken;
            if !self.times_are_sound(q, line) {
                return false;
            }
        }
        places == count
    }
}

/// The rules.
impl Tables<'_, '_> {
    /// The head begins: it gets its whole budget and its first task, which is given, is granted.
    fn begin(&mut self, q: usize, line: &mut Line) -> usize {
        let k = line.head();
        let row = self.first(q, k);
        self.figures.fill(k);
        line.hold_left = self.figures.holds[row][q];
        line.budget_left = self.figures.budgets[k][q];
        row
    }

    /// The holder has left, and `follower` is now first of the head's tasks; none of them is in line where it is `NONE`.
    /// Gives the task that is granted, if any.
    fn pass_on(&mut self, q: usize, line: &mut Line, follower: u8) -> Option<usize> {
        if follower == NONE {
            line.leave(0);
            if line.queued == 0 {
                *line = Line::FREE;
                return None;
            }
            return Some(self.begin(q, line));
        }
        let row = usize::from(follower) % MAX_TASKS;
        let hold = self.figures.holds[row][q];
        if hold <= line.budget_left {
            line.hold_left = hold;
            return Some(row);
        }
        let k = line.head();
        self.first[slot(q, k)] = follower;
        line.leave(0);
        line.join(k);
        Some(self.begin(q, line))
    }

    /// The limit of a task behind all those of processor `k` that are in line, of which there are `ahead`.
    fn limit(&mut self, q: usize, k: usize, ahead: u8, tasks: &[Standing; MAX_TASKS]) -> u32 {
        self.figures.fill(k);
        let mut limit = (u32::from(ahead) + 1) * self.figures.wait_time(k, q);
        for row in self.figures.order.on(k) {
            let in_line = usize::from(tasks[row].resource) == q;
            limit += u32::from(in_line) * u32::from(self.figures.holds[row][q]);
        }
        limit
    }
}

/// The holders of the resources in `ended` leave, and those behind them move up. Gives, by resource, the task that is now
/// first of the head's, or none.
fn move_up(plan: &Plan, next: &mut State, ended: u16) -> [u8; MAX_RESOURCES] {
    let mut heads = [NONE; MAX_RESOURCES];
    for (q, line) in next.lines.iter().enumerate() {
        if ended >> q & 1 == 1 {
            heads[q] = line.queue[0];
        }
    }
    let mut followers = [NONE; MAX_RESOURCES];
    for (row, (task, s)) in tasks(plan).iter().zip(&mut next.tasks).enumerate() {
        let q = usize::from(s.resource) % MAX_RESOURCES;
        if (s.resource == NONE) | (heads[q] != task.processor) {
            continue;
        }
        match s.place {
            0 => *s = Standing::NONE,
            1 => {
                s.place = 0;
                followers[q] = row as u8;
            }
            _ => s.place -= 1,
        }
    }
    followers
}

/// Takes 1 from what is left of each held resource, and gives those whose hold is over.
fn count_down(lines: &mut [Line; MAX_RESOURCES]) -> u16 {
    let mut over = 0;
    for (q, line) in lines.iter_mut().enumerate() {
        let held = u16::from(line.queued != 0);
        line.hold_left -= held;
        line.budget_left -= held;
        over |= (held & u16::from(line.hold_left == 0)) << q;
    }
    over
}

/// The row of a task, or the refusal of its tag.
type Found = Result<usize, u8>;

/// The calls, after the checks of the file and the state. A refusal leaves the state as it is.
impl Tables<'_, '_> {
    /// Checks 11, which came with the task's row, and 12: the rows of a task and a resource.
    fn asked(&self, row: Found, resource: u8) -> Result<(usize, usize), u8> {
        let row = row?;
        if resource >= self.figures.plan.counts.resources {
            return Err(UNKNOWN_RESOURCE);
        }
        Ok((row % MAX_TASKS, usize::from(resource) % MAX_RESOURCES))
    }

    fn request(&mut self, next: &mut State, row: Found, resource: u8) -> Result<Answer, u8> {
        let (row, q) = self.asked(row, resource)?;
        self.figures.may_use(row, q)?;
        if next.tasks[row] != Standing::NONE {
            return Err(IN_LINE);
        }
        let k = processor(self.figures.plan.tasks[row]);
        let place = self.places[slot(q, k)].trailing_ones() as u8;
        let line = &mut next.lines[q];
        let free = line.queued == 0;
        if place == 0 {
            line.join(k);
            self.first[slot(q, k)] = row as u8;
        }
        let answer = if free {
            self.begin(q, line);
            Answer::Granted
        } else {
            let limit = self.limit(q, k, place, &next.tasks);
            Answer::Waits {
                ahead: place,
                limit,
            }
        };
        next.tasks[row] = Standing { resource, place };
        Ok(answer)
    }

    fn release(&mut self, next: &mut State, row: Found, resource: u8) -> Result<Answer, u8> {
        let (row, q) = self.asked(row, resource)?;
        let first = Standing { resource, place: 0 };
        let head = next.lines[q].queue[0];
        if (next.tasks[row] != first) | (head != self.figures.plan.tasks[row].processor) {
            return Err(NOT_HELD);
        }
        let followers = move_up(self.figures.plan, next, 1 << q);
        let granted = self.pass_on(q, &mut next.lines[q], followers[q]);
        Ok(granted.map_or(Answer::Free, |row| {
            Answer::Next(self.figures.plan.tasks[row].tag)
        }))
    }

    fn give_up(&mut self, next: &mut State, row: Found, resource: u8) -> Result<Answer, u8> {
        let (row, q) = self.asked(row, resource)?;
        let k = self.figures.plan.tasks[row].processor;
        let (line, Standing { place, .. }) = (&mut next.lines[q], next.tasks[row]);
        let holds = (place == 0) & (line.queue[0] == k);
        if (next.tasks[row].resource != resource) | holds {
            return Err(NOT_WAITING);
        }
        next.tasks[row] = Standing::NONE;
        let k = usize::from(k) % MAX_PROCESSORS;
        let count = self.places[slot(q, k)].trailing_ones();
        if count == 1 {
            let place = line.queue.iter().position(|&p| usize::from(p) == k);
            line.leave(place.unwrap_or(0));
        } else if u32::from(place) + 1 < count {
            self.close_up(&mut next.tasks, k, Standing { resource, place });
        }
        Ok(Answer::Left)
    }

    /// The tasks of processor `k` that stand behind a place which was left move up.
    fn close_up(&self, tasks: &mut [Standing; MAX_TASKS], k: usize, left: Standing) {
        for row in self.figures.order.on(k) {
            let s = &mut tasks[row];
            let behind = (s.resource == left.resource) & (s.place > left.place);
            s.place -= u8::from(behind);
        }
    }

    fn tick(&mut self, next: &mut State) -> Answer {
        let cuts = count_down(&mut next.lines);
        let mut grants = 0;
        if cuts != 0 {
            let followers = move_up(self.figures.plan, next, cuts);
            for q in (0..MAX_RESOURCES).filter(|&q| cuts >> q & 1 == 1) {
                let granted = self.pass_on(q, &mut next.lines[q], followers[q]);
                grants |= u16::from(granted.is_some()) << q;
            }
        }
        Answer::Ticked { cuts, grants }
    }
}

/// Checks a state and makes a call.
#[inline]
fn make(
    figures: &mut Figures,
    next: &mut State,
    call: impl FnOnce(&mut Tables, &mut State) -> Result<Answer, u8>,
) -> Result<Answer, u8> {
    let mut tables = Tables::new(figures);
    if !tables.put_state(next) {
        return Err(NOT_SOUND);
    }
    call(&mut tables, next)
}

/// Works out what a call needs of a checked plan, checks the state and makes the call.
#[inline]
fn make_on(
    plan: &Plan,
    next: &mut State,
    call: impl FnOnce(&mut Tables, &mut State) -> Result<Answer, u8>,
) -> Result<Answer, u8> {
    let mut figures = Figures::new(plan);
    figures.put_plan();
    make(&mut figures, next, call)
}

/// As [`request`], on a checked plan, with the state where it is; a refusal leaves it.
pub fn request_on(plan: &Plan, next: &mut State, tag: u16, resource: u8) -> Result<Answer, u8> {
    make_on(plan, next, |tables, next| {
        tables.request(next, row_of(plan, tag), resource)
    })
}

/// As [`release`], on a checked plan.
pub fn release_on(plan: &Plan, next: &mut State, tag: u16, resource: u8) -> Result<Answer, u8> {
    make_on(plan, next, |tables, next| {
        tables.release(next, row_of(plan, tag), resource)
    })
}

/// As [`give_up`], on a checked plan.
pub fn give_up_on(plan: &Plan, next: &mut State, tag: u16, resource: u8) -> Result<Answer, u8> {
    make_on(plan, next, |tables, next| {
        tables.give_up(next, row_of(plan, tag), resource)
    })
}

/// A tick in which nothing happens.
const IDLE: Answer = Answer::Ticked { cuts: 0, grants: 0 };

/// As [`tick`], on a checked plan. Where nobody is in line, there is nothing more to check.
pub fn tick_on(plan: &Plan, next: &mut State) -> Result<Answer, u8> {
    if *next == State::FRESH {
        return Ok(IDLE);
    }
    make_on(plan, next, |tables, next| Ok(tables.tick(next)))
}

/// Checks a file, and makes a call on its plan and a copy of the state.
#[inline]
fn on_file(
    file: &[u8],
    state: &State,
    call: impl FnOnce(&Plan, &mut State) -> Result<Answer, u8>,
) -> (Answer, State) {
    let mut next = *state;
    let answer = read(file);
    let made = checked(&answer).and_then(|plan| call(plan, &mut next));
    (made.unwrap_or_else(Answer::Refused), next)
}

/// The refusal of the plan, or 0, and the fresh state.
pub fn start(file: &[u8]) -> (u8, State) {
    let refusal = read(file).map_or_else(Refusal::number, |_| 0);
    (refusal, State::FRESH)
}

/// Whether a state is sound under a checked plan.
pub fn sound(plan: &Plan, state: &State) -> bool {
    let mut figures = Figures::new(plan);
    figures.put_plan();
    Tables::new(&mut figures).put_state(state)
}

/// A task asks for a resource.
pub fn request(file: &[u8], state: &State, tag: u16, resource: u8) -> (Answer, State) {
    on_file(file, state, |plan, next| {
        request_on(plan, next, tag, resource)
    })
}

/// A task gives a resource back.
pub fn release(file: &[u8], state: &State, tag: u16, resource: u8) -> (Answer, State) {
    on_file(file, state, |plan, next| {
        release_on(plan, next, tag, resource)
    })
}

/// A waiting task leaves the line.
pub fn give_up(file: &[u8], state: &State, tag: u16, resource: u8) -> (Answer, State) {
    on_file(file, state, |plan, next| {
        give_up_on(plan, next, tag, resource)
    })
}

/// A tick passes.
pub fn tick(file: &[u8], state: &State) -> (Answer, State) {
    on_file(file, state, tick_on)
}

/// A checked plan with all that can be known of it before a call. Each call checks the state alone.
pub struct Once<'a> {
    figures: Figures<'a>,
    /// By tag, the row of its task or none.
    rows: [u8; TAGS],
}

impl Once<'_> {
    pub fn new(plan: &Plan) -> Once<'_> {
        let mut figures = Figures::new(plan);
        figures.put_plan();
        figures.fill_all();
        let mut rows = [NONE; TAGS];
        for (row, task) in tasks(plan).iter().enumerate() {
            rows[usize::from(task.tag) % TAGS] = row as u8;
        }
        Once { figures, rows }
    }

    fn row(&self, tag: u16) -> Found {
        match self.rows.get(usize::from(tag)) {
            None | Some(&NONE) => Err(UNKNOWN_TAG),
            Some(&row) => Ok(row.into()),
        }
    }

    /// A task asks for a resource.
    pub fn request(&mut self, state: &State, tag: u16, resource: u8) -> (Answer, State) {
        let (row, mut next) = (self.row(tag), *state);
        let answer = make(&mut self.figures, &mut next, |tables, next| {
            tables.request(next, row, resource)
        });
        (answer.unwrap_or_else(Answer::Refused), next)
    }

    /// A task gives a resource back.
    pub fn release(&mut self, state: &State, tag: u16, resource: u8) -> (Answer, State) {
        let (row, mut next) = (self.row(tag), *state);
        let answer = make(&mut self.figures, &mut next, |tables, next| {
            tables.release(next, row, resource)
        });
        (answer.unwrap_or_else(Answer::Refused), next)
    }

    /// A waiting task leaves the line.
    pub fn give_up(&mut self, state: &State, tag: u16, resource: u8) -> (Answer, State) {
        let (row, mut next) = (self.row(tag), *state);
        let answer = make(&mut self.figures, &mut next, |tables, next| {
            tables.give_up(next, row, resource)
        });
        (answer.unwrap_or_else(Answer::Refused), next)
    }

    /// A tick passes.
    pub fn tick(&mut self, state: &State) -> (Answer, State) {
        let mut next = *state;
        if next == State::FRESH {
            return (IDLE, next);
        }
        let answer = make(&mut self.figures, &mut next, |tables, next| {
            Ok(tables.tick(next))
        });
        (answer.unwrap_or_else(Answer::Refused), next)
    }
}

/// Makes the calls of a list, three bytes for each, from a fresh state on; shows each answer with the state that came with
/// it, and gives the last state. Bytes that are no call are passed over.
pub fn run(file: &[u8], calls: &[u8], each: &mut dyn FnMut(&Answer, &State)) -> State {
    let mut state = State::FRESH;
    for call in calls.chunks_exact(3) {
        let (answer, next) = match (call[0], call[1], call[2]) {
            (b'Q', tag, resource) => request(file, &state, tag.into(), resource),
            (b'R', tag, resource) => release(file, &state, tag.into(), resource),
            (b'W', tag, resource) => give_up(file, &state, tag.into(), resource),
            (b'T', 0, 0) => tick(file, &state),
            _ => continue,
        };
        each(&answer, &next);
        state = next;
    }
    state
}

#[cfg(test)]
mod tests {
    use super::*;
    use crate::analysis::{budget, hold_time, wait_time};
    use crate::samples::{self, bus, refused_files, Numbers, SectionRow, LISTING};
    use crate::Section;
    use Answer::*;

    /// Processor, tag, priority.
    type TaskRow = (u8, u16, u8);

    /// The machine asks for no period and no execution time.
    fn file(processors: u8, resources: u8, tasks: &[TaskRow], sections: &[SectionRow]) -> Vec<u8> {
        let longest = |&(k, tag, priority): &TaskRow| (k, tag, priority, u16::MAX, u16::MAX);
        let tasks: Vec<_> = tasks.iter().map(longest).collect();
        samples::file(processors, resources, &tasks, sections)
    }

    /// A file with a state that each call moves on.
    struct Bench {
        file: Vec<u8>,
        state: State,
    }

    impl Bench {
        fn new(file: Vec<u8>) -> Bench {
            let (refusal, state) = start(&file);
            assert_eq!((refusal, state), (0, State::FRESH));
            Bench { file, state }
        }

        fn took(&mut self, (answer, next): (Answer, State)) -> Answer {
            if let Refused(_) = answer {
                assert_eq!(next, self.state);
            }
            assert!(sound(&read(&self.file).unwrap(), &next));
            self.state = next;
            answer
        }

        fn q(&mut self, tag: u16, resource: u8) -> Answer {
            self.took(request(&self.file, &self.state, tag, resource))
        }

        fn r(&mut self, tag: u16, resource: u8) -> Answer {
            self.took(release(&self.file, &self.state, tag, resource))
        }

        fn w(&mut self, tag: u16, resource: u8) -> Answer {
            self.took(give_up(&self.file, &self.state, tag, resource))
        }

        fn t(&mut self) -> Answer {
            self.took(tick(&self.file, &self.state))
        }

        /// Ticks in which nothing happens.
        fn quiet(&mut self, ticks: u32) {
            for _ in 0..ticks {
                assert_eq!(self.t(), ticked(0, 0));
            }
        }

        /// A give-up that is accepted.
        fn gone(&mut self, tag: u16, resource: u8) {
            assert_eq!(self.w(tag, resource), Left);
        }

        /// The rows of the tasks of processor `k` in line, in order.
        fn tasks(&self, q: usize, k: usize) -> Vec<usize> {
            let figures = Figures::of(&self.file);
            Model::of(&figures, &self.state).tasks[k][q].clone()
        }

        /// Hold left and budget left.
        fn left(&self, q: usize) -> (u16, u16) {
            let line = &self.state.lines[q];
            (line.hold_left, line.budget_left)
        }

        fn queue(&self, q: usize) -> &[u8] {
            let line = &self.state.lines[q];
            &line.queue[..line.queued.into()]
        }
    }

    fn ticked(cuts: u16, grants: u16) -> Answer {
        Ticked { cuts, grants }
    }

    fn waits(ahead: u8, limit: u32) -> Answer {
        Waits { ahead, limit }
    }

    fn answers(file: &[u8], calls: &[u8]) -> (Vec<Answer>, State) {
        let mut answers = Vec::new();
        let mut last = State::FRESH;
        let state = run(file, calls, &mut |answer, state| {
            answers.push(*answer);
            last = *state;
        });
        assert_eq!(state, last);
        (answers, state)
    }

    #[test]
    fn the_listing() {
        let expected = [
            Granted,
            waits(0, 3),
            ticked(0, 0),
            ticked(0, 0),
            ticked(1, 1),
            Refused(16),
            Free,
        ];
        assert_eq!(answers(&bus(), LISTING), (expected.to_vec(), State::FRESH));
    }

    #[test]
    fn a_list_passes_over_what_is_no_call() {
        let others = b"X\x14\0q\x0a\0T\x01\0T\0\x01\0\0\0";
        let mut calls = others.to_vec();
        for call in LISTING.chunks(3) {
            calls.extend_from_slice(call);
            calls.extend_from_slice(others);
        }
        let expected = answers(&bus(), LISTING);
        assert_eq!(answers(&bus(), &calls), expected);
        for left_over in [&b"T"[..], b"T\0"] {
            let longer = [LISTING, left_over].concat();
            assert_eq!(answers(&bus(), &longer), expected);
        }
        assert_eq!(answers(&bus(), others), (vec![], State::FRESH));
        let refused = (vec![Refused(1); 7], State::FRESH);
        assert_eq!(answers(b"", LISTING), refused);
    }

    /// Figure 2, with the times of C6, for which the machine does not ask.
    fn figure2() -> Vec<u8> {
        samples::figure2(61)
    }

    /// The paper's instants 1 to 3, before what happens at 3.
    fn instant3() -> Bench {
        let mut b = Bench::new(figure2());
        assert_eq!(b.q(12, 0), Granted);
        assert_eq!(b.q(2, 0), waits(0, 7));
        assert_eq!((b.queue(0), b.left(0)), (&[1, 0][..], (4, 7)));
        b.quiet(2);
        b
    }

    #[test]
    fn c3_the_request_first() {
        let mut b = instant3();
        assert_eq!(b.q(11, 0), waits(1, 4 + 2 * 10));
        assert_eq!(b.r(12, 0), Next(11));
        assert_eq!((b.queue(0), b.left(0)), (&[1, 0][..], (3, 5)));
    }

    #[test]
    fn c3_the_release_first() {
        let mut b = instant3();
        assert_eq!(b.r(12, 0), Next(2));
        assert_eq!((b.queue(0), b.left(0)), (&[0][..], (3, 10)));
        assert_eq!(b.q(11, 0), waits(0, 10));
        assert_eq!(b.queue(0), [0, 1]);
    }

    #[test]
    fn c4_a_cut_at_18_in_the_papers_example() {
        let mut b = instant3();
        b.q(11, 0);
        b.r(12, 0);
        assert_eq!(b.q(1, 0), waits(1, 3 + 2 * 7));
        b.quiet(1);
        assert_eq!(b.q(4, 0), waits(2, 3 + 2 + 3 * 7));
        b.quiet(1);
        assert_eq!(b.q(3, 1), Granted);
        // Instant 6: the hold time of the first task of P2 is over, and so is its section.
        assert_eq!(b.t(), ticked(1, 1));
        assert_eq!((b.queue(0), b.left(0)), (&[0][..], (3, 10)));
        assert_eq!(b.r(11, 0), Refused(16));
        b.quiet(1);
        assert_eq!(b.q(11, 1), waits(0, 10));
        b.quiet(1);
        assert_eq!(b.q(13, 0), waits(0, 10));
        // Instant 9: from the second task of P1 to the first, within the budget.
        assert_eq!(b.t(), ticked(1, 1));
        assert_eq!((b.queue(0), b.left(0)), (&[0, 1][..], (2, 7)));
        assert_eq!(b.q(12, 1), waits(1, 2 + 2 * 10));
        b.quiet(1);
        // Instant 11: 5 are left and the fourth needs 10.
        assert_eq!(b.t(), ticked(1, 1));
        assert_eq!((b.queue(0), b.left(0)), (&[1, 0][..], (7, 7)));
        b.quiet(3);
        // Instant 14, and at 16 a processor sent back that is alone in the queue.
        assert_eq!(b.r(3, 1), Next(11));
        assert_eq!(b.left(1), (2, 4));
        b.quiet(1);
        assert_eq!(b.t(), ticked(2, 2));
        assert_eq!((b.queue(1), b.left(1)), (&[1][..], (4, 4)));
        b.quiet(1);
        assert_eq!(b.r(12, 1), Free);
        // Instant 18.
        assert_eq!(b.t(), ticked(1, 1));
        assert_eq!((b.queue(0), b.left(0)), (&[0][..], (10, 10)));
        b.quiet(1);
        assert_eq!(b.r(13, 0), Refused(16));
        assert_eq!(b.r(4, 0), Free);
        assert_eq!(b.state, State::FRESH);
    }

    /// On processor 0, hold times of 5 and 8; the second waits behind the first, then processor 1 with a hold time of 4.
    fn two_and_one() -> Bench {
        let tasks = [(0, 1, 2), (0, 2, 1), (1, 3, 1)];
        let mut b = Bench::new(file(2, 1, &tasks, &[(0, 0, 5), (1, 0, 8), (2, 0, 4)]));
        assert_eq!(b.q(1, 0), Granted);
        assert_eq!(b.left(0), (5, 8));
        assert_eq!(b.q(2, 0), waits(1, 5 + 2 * 4));
        assert_eq!(b.q(3, 0), waits(0, 8));
        b
    }

    #[test]
    fn c5_a_hold_time_equal_to_the_budget_left() {
        let mut b = two_and_one();
        assert_eq!(b.r(1, 0), Next(2));
        assert_eq!((b.queue(0), b.left(0)), (&[0, 1][..], (8, 8)));
    }

    #[test]
    fn c5_a_hold_time_one_more_than_the_budget_left() {
        let mut b = two_and_one();
        b.quiet(1);
        assert_eq!(b.left(0), (4, 7));
        assert_eq!(b.r(1, 0), Next(3));
        assert_eq!((b.queue(0), b.left(0)), (&[1, 0][..], (4, 4)));
        // A request of the first task now comes behind the second, which kept its place.
        assert_eq!(b.q(1, 0), waits(1, 8 + 2 * 4));
        b.quiet(3);
        assert_eq!(b.t(), ticked(1, 1));
        assert_eq!((b.queue(0), b.left(0)), (&[0][..], (8, 8)));
        assert_eq!(
            b.state.tasks[1],
            Standing {
                resource: 0,
                place: 0
            }
        );
        assert_eq!(
            b.state.tasks[0],
            Standing {
                resource: 0,
                place: 1
            }
        );
    }

    #[test]
    fn c5_in_a_tick() {
        for (second, expected) in [(3, (3, 3)), (4, (4, 8))] {
            let tasks = [(0, 1, 3), (0, 2, 2), (0, 3, 1), (1, 4, 1)];
            let sections = [(0, 0, 5), (1, 0, second), (2, 0, 8), (3, 0, 1)];
            let mut b = Bench::new(file(2, 1, &tasks, &sections));
            assert_eq!(b.q(1, 0), Granted);
            assert_eq!(b.q(2, 0), waits(1, 5 + 2));
            b.quiet(4);
            assert_eq!(b.t(), ticked(1, 1));
            assert_eq!((b.queue(0), b.left(0)), (&[0][..], expected));
        }
    }

    #[test]
    fn a_lone_processor_sent_back_begins_afresh() {
        let mut b = two_and_one();
        assert_eq!(b.r(1, 0), Next(2));
        assert_eq!(b.r(2, 0), Next(3));
        assert_eq!(b.q(1, 0), waits(0, 4));
        assert_eq!(b.r(3, 0), Next(1));
        assert_eq!(b.q(2, 0), waits(1, 5 + 2 * 4));
        b.quiet(4);
        assert_eq!(b.t(), ticked(1, 1));
        assert_eq!((b.queue(0), b.left(0)), (&[0][..], (8, 8)));
        assert_eq!(b.q(1, 0), waits(1, 8 + 2 * 4));
        b.quiet(1);
        assert_eq!(b.r(2, 0), Next(1));
        assert_eq!((b.queue(0), b.left(0)), (&[0][..], (5, 7)));
        assert_eq!(b.r(1, 0), Free);
        assert_eq!(b.state, State::FRESH);
    }

    /// Two tasks of processor 0 with hold times of 3, and one of processor 1 with one of 2.
    fn three() -> Vec<u8> {
        let tasks = [(0, 1, 2), (0, 2, 1), (1, 3, 1)];
        file(2, 1, &tasks, &[(0, 0, 3), (1, 0, 3), (2, 0, 2)])
    }

    #[test]
    fn a_limit_of_seven_met_at_the_seventh_tick() {
        let mut b = Bench::new(three());
        assert_eq!(b.q(3, 0), Granted);
        assert_eq!(b.q(1, 0), waits(0, 2));
        assert_eq!(b.q(2, 0), waits(1, 3 + 2 * 2));
        b.quiet(1);
        assert_eq!(b.t(), ticked(1, 1));
        assert_eq!(b.q(3, 0), waits(0, 3));
        // The first task of processor 0 uses its budget up, and the second is told 7 after the request: it has had 2.
        b.quiet(2);
        assert_eq!(b.t(), ticked(1, 1));
        assert_eq!((b.queue(0), b.left(0)), (&[1, 0][..], (2, 2)));
        b.quiet(1);
        assert_eq!(b.t(), ticked(1, 1));
        assert_eq!((b.queue(0), b.left(0)), (&[0][..], (3, 3)));
        assert_eq!(
            b.state.tasks[1],
            Standing {
                resource: 0,
                place: 0
            }
        );
    }

    /// Figure 2 with P2's 12 as holder of R1 and 11 and 13 behind it, and P1's 1, 2 and 4; 3 holds R2. Two ticks are gone.
    fn two_rows() -> Bench {
        let mut b = Bench::new(figure2());
        assert_eq!(b.q(12, 0), Granted);
        assert_eq!(b.q(11, 0), waits(1, 4 + 2 * 10));
        assert_eq!(b.q(13, 0), waits(2, 4 + 3 + 3 * 10));
        assert_eq!(b.q(1, 0), waits(0, 7));
        assert_eq!(b.q(2, 0), waits(1, 2 + 2 * 7));
        assert_eq!(b.q(4, 0), waits(2, 2 + 3 + 3 * 7));
        assert_eq!(b.q(3, 1), Granted);
        b.quiet(2);
        assert_eq!((b.queue(0), b.left(0)), (&[1, 0][..], (2, 5)));
        b
    }

    #[test]
    fn a_task_gives_up_at_each_place_of_the_heads_line() {
        for (tag, rows) in [(11, [6, 7]), (13, [6, 5])] {
            let mut b = two_rows();
            let before = b.state;
            b.gone(tag, 0);
            assert_eq!(
                (b.tasks(0, 1), b.tasks(0, 0)),
                (rows.to_vec(), vec![0, 1, 3])
            );
            // Queues of processors, hold left and budget left stay.
            assert_eq!(b.state.lines, before.lines);
        }
    }

    #[test]
    fn a_task_gives_up_at_each_place_of_another_line() {
        for (tag, rows, [first, second]) in [
            (1, [1, 3], [2, 4]),
            (2, [0, 3], [1, 4]),
            (4, [0, 1], [1, 2]),
        ] {
            let mut b = two_rows();
            let before = b.state;
            b.gone(tag, 0);
            assert_eq!(
                (b.tasks(0, 0), b.tasks(0, 1)),
                (rows.to_vec(), vec![6, 5, 7])
            );
            assert_eq!(b.state.lines, before.lines);
            assert_eq!(b.r(12, 0), Next(11));
            // 13 needs 7 of the 5 that are left.
            assert_eq!(b.r(11, 0), Next(first));
            assert_eq!(b.queue(0), [0, 1]);
            assert_eq!(b.r(first, 0), Next(second));
        }
    }

    #[test]
    fn a_processor_whose_tasks_have_all_given_up_leaves() {
        let mut b = two_rows();
        for tag in [2, 1, 4] {
            assert_eq!(b.queue(0), [1, 0]);
            b.gone(tag, 0);
        }
        assert_eq!((b.queue(0), b.left(0)), (&[1][..], (2, 5)));
        assert_eq!(b.state.lines[0].queue[1..], [NONE; 7]);
        // A new place, and a new limit.
        assert_eq!(b.q(4, 0), waits(0, 7));
        assert_eq!(b.q(1, 0), waits(1, 10 + 2 * 7));
    }

    #[test]
    fn a_task_that_gives_up_and_asks_again_is_last() {
        let mut b = two_rows();
        b.gone(1, 0);
        assert_eq!(b.q(1, 0), waits(2, 3 + 10 + 3 * 7));
        assert_eq!((b.tasks(0, 0), b.queue(0)), (vec![1, 3, 0], &[1, 0][..]));
        // It may ask for another resource too.
        b.gone(11, 0);
        assert_eq!(b.q(11, 1), waits(0, 10));
        b.gone(11, 1);
        assert_eq!((b.queue(1), b.left(1)), (&[0][..], (8, 8)));
    }

    #[test]
    fn a_processor_leaves_from_each_place_behind_the_head() {
        let order = [3, 0, 7, 1, 6, 2, 5, 4];
        let tasks: Vec<TaskRow> = (0..8).map(|k| (k, 50 + u16::from(k), 1)).collect();
        let sections: Vec<SectionRow> = (0..8).map(|k| (k, 0, 2)).collect();
        for place in 1..8 {
            let mut b = Bench::new(file(8, 1, &tasks, &sections));
            order.iter().for_each(|&k| {
                b.q(50 + u16::from(k), 0);
            });
            b.quiet(1);
            b.gone(50 + u16::from(order[place]), 0);
            let rest: Vec<u8> = order.into_iter().filter(|&k| k != order[place]).collect();
            assert_eq!((b.queue(0), b.left(0)), (&rest[..], (1, 1)));
            // It joins again at the tail.
            assert_eq!(b.q(50 + u16::from(order[place]), 0), waits(0, 14));
            assert_eq!(b.queue(0), [&rest[..], &order[place..place + 1]].concat());
        }
    }

    #[test]
    fn a_give_up_brings_a_fellow_on_early() {
        let mut b = Bench::new(three());
        assert_eq!(b.q(3, 0), Granted);
        assert_eq!(b.q(1, 0), waits(0, 2));
        assert_eq!(b.q(2, 0), waits(1, 3 + 2 * 2));
        b.gone(1, 0);
        b.quiet(1);
        // Granted at the second tick, of seven that it was told.
        assert_eq!(b.t(), ticked(1, 1));
        assert_eq!((b.tasks(0, 0), b.left(0)), (vec![1], (3, 3)));
    }

    #[test]
    fn eight_cores_in_a_queue() {
        let tasks: Vec<TaskRow> = (0..8).map(|k| (k, 50 + u16::from(k), 1 + k)).collect();
        let sections: Vec<SectionRow> = (0..8).map(|k| (k, 0, 2 + u16::from(k))).collect();
        let mut b = Bench::new(file(8, 1, &tasks, &sections));
        let order = [3, 0, 7, 1, 6, 2, 5, 4];
        let all: u32 = (2..10).sum();
        assert_eq!(b.q(53, 0), Granted);
        for k in &order[1..] {
            assert_eq!(b.q(50 + k, 0), waits(0, all - 2 - u32::from(*k)));
        }
        assert_eq!(b.queue(0), [3, 0, 7, 1, 6, 2, 5, 4]);
        for (&k, &next) in order.iter().zip(&order[1..]) {
            assert_eq!(b.left(0), (2 + k, 2 + k));
            b.quiet(1 + u32::from(k));
            assert_eq!(b.t(), ticked(1, 1));
            assert_eq!(b.queue(0)[0], next as u8);
            // It goes to the tail of the others, and is told what they have.
            assert_eq!(b.q(50 + k, 0), waits(0, all - 2 - u32::from(k)));
            assert_eq!(b.queue(0)[7], k as u8);
        }
        assert_eq!(b.queue(0), [4, 3, 0, 7, 1, 6, 2, 5]);
        assert_eq!(b.r(54, 0), Next(53));
        assert_eq!(b.queue(0), [3, 0, 7, 1, 6, 2, 5]);
    }

    #[test]
    fn a_processor_sent_back_behind_seven_others() {
        let mut tasks: Vec<TaskRow> = (0..8).map(|k| (k, k.into(), 2)).collect();
        tasks.push((5, 55, 1));
        let sections: Vec<SectionRow> = (0..9).map(|i| (i, 0, 2)).collect();
        let mut b = Bench::new(file(8, 1, &tasks, &sections));
        assert_eq!(b.q(5, 0), Granted);
        for k in [0, 1, 2, 3, 4, 6, 7] {
            assert_eq!(b.q(k, 0), waits(0, 14));
        }
        assert_eq!(b.q(55, 0), waits(1, 2 + 2 * 14));
        b.quiet(1);
        assert_eq!(b.r(5, 0), Next(0));
        assert_eq!(b.queue(0), [0, 1, 2, 3, 4, 6, 7, 5]);
        for k in [0, 1, 2, 3, 4, 6] {
            assert_eq!(b.r(k, 0), Next(if k == 4 { 6 } else { k + 1 }));
        }
        assert_eq!(b.r(7, 0), Next(55));
        assert_eq!((b.queue(0), b.left(0)), (&[5][..], (2, 2)));
    }

    #[test]
    fn cuts_on_several_resources_in_one_tick() {
        // Resource q: tasks 2q on processor 0 and 2q + 1 on processor 1, hold times of 3 but on the last.
        let tasks: Vec<TaskRow> = (0..32).map(|i| (i % 2, i.into(), 255 - i)).collect();
        let length = |i| if i / 2 == 15 { 4 } else { 3 };
        let sections: Vec<SectionRow> = (0..32).map(|i| (i, i / 2, length(i))).collect();
        let mut b = Bench::new(file(2, 16, &tasks, &sections));
        // Those above in priority add 3 each, so only the first tasks have what their sections take.
        for q in 0..16 {
            assert_eq!(b.q(2 * u16::from(q), q), Granted);
            if q % 2 == 0 {
                assert_eq!(b.q(2 * u16::from(q) + 1, q), waits(0, 3 + 3 * u32::from(q)));
            }
        }
        for (q, line) in b.state.lines.iter_mut().enumerate() {
            line.hold_left = if q < 12 { 2 } else { 3 };
        }
        b.quiet(1);
        assert_eq!(b.t(), ticked(0x0fff, 0x0555));
        assert_eq!(b.t(), ticked(0xf000, 0x5000));
        for q in 0..16usize {
            let expected = if q % 2 == 0 { &[1][..] } else { &[] };
            assert_eq!(b.queue(q), expected);
        }
        // A grant made in a tick is not counted down in it, and resources do not affect each other.
        assert_eq!([b.left(0), b.left(12)], [(2, 2), (39, 39)]);
        assert_eq!(b.t(), ticked(0, 0));
        assert_eq!(b.t(), ticked(1, 0));
    }

    #[test]
    fn a_queue_as_deep_as_can_be() {
        let tasks: Vec<TaskRow> = (0..64)
            .map(|i| (u8::from(i == 63), i.into(), 1 + i))
            .collect();
        let mut sections: Vec<SectionRow> = (0..64).map(|i| (i, 0, 1000)).collect();
        sections.extend((0..64).map(|i| (i, 1, 1000)));
        let mut b = Bench::new(file(2, 2, &tasks, &sections));
        assert_eq!(b.q(63, 0), Granted);
        // Task i has 62 - i above it, each with a section of 1,000 on the other resource.
        let hold = |i: u32| 1000 * (63 - i);
        let mut sum = 0;
        for i in 0..63 {
            let limit = sum + (i + 1) * 1000;
            assert_eq!(b.q(i as u16, 0), waits(i as u8, limit));
            sum += hold(i);
        }
        assert_eq!(b.r(63, 0), Next(0));
        assert_eq!(b.left(0), (63_000, 63_000));
        for i in 0..62 {
            assert_eq!(b.r(i, 0), Next(i + 1));
        }
        assert_eq!(b.left(0), (1000, 63_000));
        assert_eq!(b.r(62, 0), Free);
    }

    #[test]
    fn refusals_of_a_request() {
        let mut b = Bench::new(figure2());
        for tag in [6, 255, 256 + 1] {
            assert_eq!(b.q(tag, 3), Refused(11));
        }
        assert_eq!(b.q(1, 3), Refused(12));
        assert_eq!(b.q(1, 16), Refused(12));
        assert_eq!(b.q(1, 255), Refused(12));
        assert_eq!(b.q(2, 1), Refused(13));
        assert_eq!(b.q(2, 2), Refused(13));
        assert_eq!(b.q(1, 2), Refused(14));
        assert_eq!(b.q(11, 0), Granted);
        assert_eq!(b.q(1, 0), waits(0, 7));
        // 15 for any resource, and behind 13 and 14.
        assert_eq!(b.q(11, 0), Refused(15));
        assert_eq!(b.q(11, 1), Refused(15));
        assert_eq!(b.q(1, 0), Refused(15));
        assert_eq!(b.q(1, 1), Refused(13));
        assert_eq!(b.q(1, 2), Refused(14));
        assert_eq!(b.q(11, 2), Refused(13));
    }

    #[test]
    fn refusals_of_a_release() {
        let mut b = Bench::new(figure2());
        assert_eq!(b.r(6, 3), Refused(11));
        assert_eq!(b.r(256 + 1, 0), Refused(11));
        assert_eq!(b.r(1, 3), Refused(12));
        assert_eq!(b.r(1, 255), Refused(12));
        assert_eq!(b.r(1, 0), Refused(16));
        // Not declared, and local.
        assert_eq!(b.r(2, 1), Refused(16));
        assert_eq!(b.r(1, 2), Refused(16));
        assert_eq!(b.q(11, 0), Granted);
        assert_eq!(b.q(12, 0), waits(1, 3 + 2 * 10));
        assert_eq!(b.q(1, 0), waits(0, 7));
        for (tag, resource) in [(11, 1), (12, 0), (1, 0), (2, 0), (13, 0)] {
            assert_eq!(b.r(tag, resource), Refused(16));
        }
        assert_eq!(b.r(11, 0), Next(12));
        assert_eq!(b.r(11, 0), Refused(16));
    }

    #[test]
    fn refusals_of_a_give_up() {
        let mut b = Bench::new(figure2());
        for tag in [6, 255, 256 + 1] {
            assert_eq!(b.w(tag, 3), Refused(11));
        }
        for resource in [3, 16, 255] {
            assert_eq!(b.w(1, resource), Refused(12));
        }
        // Nobody is in line: not declared, and local, as well.
        for (tag, resource) in [(1, 0), (2, 1), (1, 2), (5, 2)] {
            assert_eq!(b.w(tag, resource), Refused(23));
        }
        assert_eq!(b.q(11, 0), Granted);
        assert_eq!(b.q(12, 0), waits(1, 3 + 2 * 10));
        assert_eq!(b.q(1, 0), waits(0, 7));
        assert_eq!(b.q(3, 1), Granted);
        // The holder, who waits for another one, who is idle, and a local one and one that is not declared.
        for (tag, resource) in [(11, 0), (3, 1), (12, 1), (11, 1), (13, 0), (1, 2), (1, 1)] {
            assert_eq!(b.w(tag, resource), Refused(23));
        }
        // 11 and 12 come before it.
        assert_eq!(b.w(6, 0), Refused(11));
        assert_eq!(b.w(11, 3), Refused(12));
        b.gone(12, 0);
        assert_eq!(b.w(12, 0), Refused(23));
        b.gone(1, 0);
        assert_eq!(b.r(11, 0), Free);
    }

    #[test]
    fn refusals_of_the_file_come_first_and_then_19() {
        let mut unsound = State::FRESH;
        unsound.lines[15].hold_left = 1;
        for (number, file) in refused_files() {
            assert_eq!(start(&file), (number, State::FRESH));
            for state in [State::FRESH, unsound] {
                let expected = (Refused(number), state);
                assert_eq!(request(&file, &state, 999, 99), expected);
                assert_eq!(release(&file, &state, 999, 99), expected);
                assert_eq!(give_up(&file, &state, 999, 99), expected);
                assert_eq!(tick(&file, &state), expected);
            }
        }
        let expected = (Refused(19), unsound);
        assert_eq!(request(&figure2(), &unsound, 999, 99), expected);
        assert_eq!(release(&figure2(), &unsound, 999, 99), expected);
        assert_eq!(give_up(&figure2(), &unsound, 999, 99), expected);
        assert_eq!(tick(&figure2(), &unsound), expected);
    }

    /// Figure 2 with P2's tasks 11 and 12 and then P1's 2 and 1 in line for R1, and 3 for R2.
    fn busy() -> Bench {
        let mut b = Bench::new(figure2());
        b.q(11, 0);
        b.q(12, 0);
        b.q(2, 0);
        b.q(1, 0);
        b.q(3, 1);
        b.quiet(1);
        assert_eq!((b.queue(0), b.left(0)), (&[1, 0][..], (2, 6)));
        assert_eq!((b.queue(1), b.left(1)), (&[0][..], (9, 9)));
        b
    }

    #[test]
    fn states_that_are_not_sound() {
        const fn standing(resource: u8, place: u8) -> Standing {
            Standing { resource, place }
        }
        type Change = fn(&mut State);
        let changes: [(&str, Change); 39] = [
            ("no resource, a place", |s| s.tasks[4] = standing(NONE, 0)),
            ("a resource, no place", |s| s.tasks[4] = standing(0, NONE)),
            ("no such resource", |s| s.tasks[4] = standing(3, 0)),
            ("no such resource, 16", |s| s.tasks[1].resource = 16),
            ("no such resource, 254", |s| s.tasks[4] = standing(254, 255)),
            ("not declared", |s| s.tasks[4] = standing(0, 2)),
            ("local", |s| s.tasks[4] = standing(2, 0)),
            ("local and queued", |s| {
                s.tasks[4] = standing(2, 0);
                s.lines[2].queued = 1;
                s.lines[2].queue[0] = 0;
                (s.lines[2].hold_left, s.lines[2].budget_left) = (1, 1);
            }),
            ("two at place 0", |s| s.tasks[0].place = 0),
            ("two at place 1", |s| s.tasks[1].place = 1),
            ("three at place 0", |s| {
                s.tasks[0].place = 0;
                s.tasks[3] = standing(0, 0);
            }),
            ("a place left out", |s| s.tasks[0].place = 2),
            ("place 0 left out", |s| s.tasks[1] = Standing::NONE),
            ("a place of 64", |s| s.tasks[0].place = 64 + 1),
            ("a holder without a place", |s| s.tasks[2] = Standing::NONE),
            ("nobody there of a processor", |s| {
                s.tasks[0] = Standing::NONE;
                s.tasks[1] = Standing::NONE;
            }),
            ("a processor not queued", |s| {
                s.lines[0].queued = 1;
                s.lines[0].queue[1] = NONE;
            }),
            ("nobody queued", |s| s.lines[1] = Line::FREE),
            ("queued twice", |s| {
                s.lines[0].queued = 3;
                s.lines[0].queue[2] = 0;
            }),
            ("one twice for another", |s| s.lines[0].queue[1] = 1),
            ("queued without a task", |s| {
                s.lines[1].queued = 2;
                s.lines[1].queue[1] = 1;
            }),
            ("no such processor", |s| s.lines[1].queue[0] = 2),
            ("no such processor, 8", |s| s.lines[1].queue[0] = 8),
            ("no such processor, 9", |s| s.lines[0].queue[0] = 9),
            ("no processor", |s| s.lines[0].queue[1] = NONE),
            ("too few queued", |s| s.lines[0].queued = 1),
            ("too many queued", |s| s.lines[0].queued = 3),
            ("nine queued", |s| s.lines[0].queued = 9),
            ("255 queued", |s| s.lines[2].queued = 255),
            ("filled behind the queue", |s| s.lines[0].queue[7] = 0),
            ("filled though free", |s| s.lines[2].queue[0] = 0),
            ("no hold left", |s| s.lines[0].hold_left = 0),
            ("above the hold time", |s| s.lines[0].hold_left = 4),
            ("above the budget left", |s| s.lines[0].budget_left = 1),
            ("above the budget", |s| s.lines[0].budget_left = 8),
            ("hold left though free", |s| s.lines[2].hold_left = 1),
            ("budget left though free", |s| s.lines[2].budget_left = 1),
            ("a line past the last", |s| s.lines[3].budget_left = 1),
            ("a task past the last", |s| s.tasks[8].place = 0),
        ];
        let b = busy();
        let plan = read(&b.file).unwrap();
        for (what, change) in changes {
            let mut state = b.state;
            change(&mut state);
            assert!(!sound(&plan, &state), "{what}");
            let expected = (Refused(19), state);
            assert_eq!(request(&b.file, &state, 999, 99), expected, "{what}");
            assert_eq!(release(&b.file, &state, 999, 99), expected, "{what}");
            assert_eq!(give_up(&b.file, &state, 999, 99), expected, "{what}");
            assert_eq!(tick(&b.file, &state), expected, "{what}");
        }
        let sound_ones: [Change; 5] = [
            |s| s.lines[0].hold_left = 3,
            |s| s.lines[0].hold_left = 1,
            |s| s.lines[0].budget_left = 2,
            |s| s.lines[0].budget_left = 7,
            |s| (s.tasks[0].place, s.tasks[1].place) = (0, 1),
        ];
        for change in sound_ones {
            let mut state = b.state;
            change(&mut state);
            assert!(sound(&plan, &state));
        }
    }

    /// What the plan says, by the questions of the analysis.
    struct Figures {
        plan: Plan,
        /// By task and resource; none where the task may not use it.
        holds: Vec<Vec<Result<u32, u8>>>,
        /// By processor and resource.
        budgets: Vec<Vec<u32>>,
        waits: Vec<Vec<u32>>,
    }

    impl Figures {
        fn of(file: &[u8]) -> Figures {
            let plan = read(file).unwrap();
            let resources = 0..plan.counts.resources;
            let by_resource = |ask: fn(&[u8], u8, u8) -> Result<u32, u8>| {
                let row = |k| {
                    resources
                        .clone()
                        .map(|q| ask(file, k, q).unwrap())
                        .collect()
                };
                (0..plan.counts.processors).map(row).collect()
            };
            let holds = tasks(&plan).iter().map(|t| {
                let of = |q| hold_time(file, t.tag, q);
                resources.clone().map(of).collect()
            });
            Figures {
                plan,
                holds: holds.collect(),
                budgets: by_resource(budget),
                waits: by_resource(wait_time),
            }
        }

        fn hold(&self, task: usize, resource: usize) -> u32 {
            self.holds[task][resource].unwrap()
        }

        fn processor(&self, task: usize) -> usize {
            self.plan.tasks[task].processor.into()
        }
    }

    /// The rules word by word, on queues.
    struct Model<'a> {
        figures: &'a Figures,
        /// Of each resource, the processors.
        queues: Vec<Vec<usize>>,
        /// Of each processor, for each resource, the tasks.
        tasks: Vec<Vec<Vec<usize>>>,
        hold_left: Vec<u32>,
        budget_left: Vec<u32>,
        /// How often a processor was sent back, and how often one left by a give-up.
        sent_back: u32,
        gave_up: u32,
    }

    impl Model<'_> {
        fn fresh(figures: &Figures) -> Model<'_> {
            let resources = usize::from(figures.plan.counts.resources);
            let processors = usize::from(figures.plan.counts.processors);
            Model {
                figures,
                queues: vec![vec![]; resources],
                tasks: vec![vec![vec![]; resources]; processors],
                hold_left: vec![0; resources],
                budget_left: vec![0; resources],
                sent_back: 0,
                gave_up: 0,
            }
        }

        /// The model of a sound state.
        fn of<'a>(figures: &'a Figures, state: &State) -> Model<'a> {
            let mut model = Model::fresh(figures);
            for (q, line) in state.lines[..model.queues.len()].iter().enumerate() {
                let queue = &line.queue[..line.queued.into()];
                model.queues[q] = queue.iter().map(|&k| k.into()).collect();
                model.hold_left[q] = line.hold_left.into();
                model.budget_left[q] = line.budget_left.into();
            }
            let mut standings: Vec<(u8, usize)> = Vec::new();
            for i in 0..tasks(&figures.plan).len() {
                if state.tasks[i] != Standing::NONE {
                    standings.push((state.tasks[i].place, i));
                }
            }
            standings.sort();
            for (_, i) in standings {
                let q = usize::from(state.tasks[i].resource);
                model.tasks[figures.processor(i)][q].push(i);
            }
            model
        }

        fn state(&self) -> State {
            let mut state = State::FRESH;
            for (q, queue) in self.queues.iter().enumerate() {
                let line = &mut state.lines[q];
                line.queued = queue.len() as u8;
                for (to, &k) in line.queue.iter_mut().zip(queue) {
                    *to = k as u8;
                }
                line.hold_left = self.hold_left[q] as u16;
                line.budget_left = self.budget_left[q] as u16;
            }
            for by_resource in &self.tasks {
                for (q, queue) in by_resource.iter().enumerate() {
                    for (place, &task) in queue.iter().enumerate() {
                        state.tasks[task] = Standing {
                            resource: q as u8,
                            place: place as u8,
                        };
                    }
                }
            }
            state
        }

        fn row(&self, tag: u16) -> Option<usize> {
            tasks(&self.figures.plan).iter().position(|t| t.tag == tag)
        }

        fn in_line(&self, task: usize) -> bool {
            self.tasks.iter().flatten().flatten().any(|&t| t == task)
        }

        fn holder(&self, q: usize) -> Option<usize> {
            let head = *self.queues[q].first()?;
            Some(self.tasks[head][q][0])
        }

        /// A processor that becomes head gets its whole budget and its first task is granted.
        fn becomes_head(&mut self, q: usize) {
            let head = self.queues[q][0];
            let first = self.tasks[head][q][0];
            self.budget_left[q] = self.figures.budgets[head][q];
            self.hold_left[q] = self.figures.hold(first, q);
        }

        fn request(&mut self, tag: u16, resource: u8) -> Answer {
            let Some(task) = self.row(tag) else {
                return Refused(11);
            };
            let q = usize::from(resource);
            if q >= self.queues.len() {
                return Refused(12);
            }
            if let Err(number) = self.figures.holds[task][q] {
                return Refused(number);
            }
            if self.in_line(task) {
                return Refused(15);
            }
            let k = self.figures.processor(task);
            let ahead = self.tasks[k][q].clone();
            self.tasks[k][q].push(task);
            let free = self.queues[q].is_empty();
            if !self.queues[q].contains(&k) {
                self.queues[q].push(k);
            }
            if free {
                self.becomes_head(q);
                return Granted;
            }
            let sum: u32 = ahead.iter().map(|&t| self.figures.hold(t, q)).sum();
            let limit = sum + (ahead.len() as u32 + 1) * self.figures.waits[k][q];
            waits(ahead.len() as u8, limit)
        }

        /// The holder leaves.
        fn leaves(&mut self, q: usize) {
            let k = self.queues[q][0];
            self.tasks[k][q].remove(0);
            if self.tasks[k][q].is_empty() {
                self.queues[q].remove(0);
                if self.queues[q].is_empty() {
                    (self.hold_left[q], self.budget_left[q]) = (0, 0);
                } else {
                    self.becomes_head(q);
                }
                return;
            }
            let hold = self.figures.hold(self.tasks[k][q][0], q);
            if hold <= self.budget_left[q] {
                self.hold_left[q] = hold;
            } else {
                self.queues[q].remove(0);
                self.queues[q].push(k);
                self.becomes_head(q);
                self.sent_back += 1;
            }
        }

        fn release(&mut self, tag: u16, resource: u8) -> Answer {
            let Some(task) = self.row(tag) else {
                return Refused(11);
            };
            let q = usize::from(resource);
            if q >= self.queues.len() {
                return Refused(12);
            }
            if self.holder(q) != Some(task) {
                return Refused(16);
            }
            self.leaves(q);
            let next = self.holder(q);
            next.map_or(Free, |task| Next(self.figures.plan.tasks[task].tag))
        }

        /// A waiting task leaves its task queue, and a processor left with no task leaves the processor queue.
        fn give_up(&mut self, tag: u16, resource: u8) -> Answer {
            let Some(task) = self.row(tag) else {
                return Refused(11);
            };
            let q = usize::from(resource);
            if q >= self.queues.len() {
                return Refused(12);
            }
            let k = self.figures.processor(task);
            let waits = self.tasks[k][q].contains(&task) && self.holder(q) != Some(task);
            if !waits {
                return Refused(23);
            }
            self.tasks[k][q].retain(|&t| t != task);
            if self.tasks[k][q].is_empty() {
                self.queues[q].retain(|&p| p != k);
                self.gave_up += 1;
            }
            Left
        }

        fn tick(&mut self) -> Answer {
            let (mut cuts, mut grants) = (0, 0);
            let held: Vec<usize> = (0..self.queues.len())
                .filter(|&q| !self.queues[q].is_empty())
                .collect();
            for &q in &held {
                self.hold_left[q] -= 1;
                self.budget_left[q] -= 1;
            }
            for q in held {
                if self.hold_left[q] == 0 {
                    cuts |= 1 << q;
                    self.leaves(q);
                    if self.holder(q).is_some() {
                        grants |= 1 << q;
                    }
                }
            }
            ticked(cuts, grants)
        }
    }

    /// A plan of up to the given counts of processors, tasks, resources and sections, with sections of up to `longest`.
    fn made(n: &mut Numbers, most: [usize; 4], longest: usize) -> Vec<u8> {
        let [processors, count, resources, sections] = most.map(|m| m - n.below(m / 2 + 1));
        let mut tags: Vec<u16> = (0..256).collect();
        let mut priorities: Vec<Vec<u8>> = vec![(1..=255).collect(); processors];
        let mut rows: Vec<TaskRow> = Vec::new();
        for _ in 0..count {
            let k = n.below(processors);
            rows.push((k as u8, n.take(&mut tags), n.take(&mut priorities[k])));
        }
        let section = |_| {
            let (task, resource) = (n.below(count), n.below(resources));
            (task as u8, resource as u8, 1 + n.below(longest) as u16)
        };
        let sections: Vec<SectionRow> = (0..sections).map(section).collect();
        file(processors as u8, resources as u8, &rows, &sections)
    }

    #[derive(Clone, Copy, Debug)]
    enum Call {
        Request(u16, u8),
        Release(u16, u8),
        GiveUp(u16, u8),
        Tick,
    }

    impl Call {
        fn on(self, file: &[u8], state: &State) -> (Answer, State) {
            match self {
                Call::Request(tag, resource) => request(file, state, tag, resource),
                Call::Release(tag, resource) => release(file, state, tag, resource),
                Call::GiveUp(tag, resource) => give_up(file, state, tag, resource),
                Call::Tick => tick(file, state),
            }
        }

        /// With the plan looked at before.
        fn once(self, once: &mut Once, state: &State) -> (Answer, State) {
            match self {
                Call::Request(tag, resource) => once.request(state, tag, resource),
                Call::Release(tag, resource) => once.release(state, tag, resource),
                Call::GiveUp(tag, resource) => once.give_up(state, tag, resource),
                Call::Tick => once.tick(state),
            }
        }

        fn by_words(self, model: &mut Model) -> Answer {
            match self {
                Call::Request(tag, resource) => model.request(tag, resource),
                Call::Release(tag, resource) => model.release(tag, resource),
                Call::GiveUp(tag, resource) => model.give_up(tag, resource),
                Call::Tick => model.tick(),
            }
        }

        /// Mostly one that is accepted.
        fn made(n: &mut Numbers, model: &Model) -> Call {
            let any = (n.below(256) as u16, n.below(20) as u8);
            let plan = &model.figures.plan;
            let tag = |task: usize| plan.tasks[task].tag;
            match n.below(26) {
                0 => Call::Request(any.0, any.1),
                1 => Call::Release(any.0, any.1),
                2 => Call::GiveUp(any.0, any.1),
                3..12 => {
                    let section = n.one_of(sections(plan));
                    let of = |s: Section| (tag(s.task.into()), s.resource);
                    let (tag, resource) = section.map_or(any, of);
                    Call::Request(tag, resource)
                }
                12..15 => {
                    let q = n.below(model.queues.len());
                    Call::Release(model.holder(q).map_or(any.0, tag), q as u8)
                }
                15..17 => {
                    let (task, q) = Call::waiting(n, model).unwrap_or((0, 0));
                    Call::GiveUp(tag(task), q as u8)
                }
                _ => Call::Tick,
            }
        }

        /// Who gives up, and which resource; now and then the holder, or who waits for another one.
        fn waiting(n: &mut Numbers, model: &Model) -> Option<(usize, usize)> {
            let mut found = Vec::new();
            for queues in &model.tasks {
                for (q, queue) in queues.iter().enumerate() {
                    found.extend(queue.iter().map(|&task| (task, q)));
                }
            }
            if !n.one_in(10) {
                found.retain(|&(task, q)| model.holder(q) != Some(task));
            }
            let (task, q) = n.one_of(&found)?;
            let other = n.below(model.queues.len());
            Some((task, if n.one_in(10) { other } else { q }))
        }
    }

    /// Of each task that was told a limit, and neither was granted nor gave up, this and the ticks since; checked after each call.
    struct Limits(Vec<Option<(u32, u32)>>);

    impl Limits {
        fn check(&mut self, call: Call, answer: Answer, model: &Model) {
            if let (Call::Request(tag, _), Waits { limit, .. }) = (call, answer) {
                self.0[model.row(tag).unwrap()] = Some((limit, 0));
            }
            if let (Call::GiveUp(tag, _), Left) = (call, answer) {
                assert!(self.0[model.row(tag).unwrap()].take().is_some());
            }
            let holders: Vec<_> = (0..model.queues.len()).map(|q| model.holder(q)).collect();
            for (task, told) in self.0.iter_mut().enumerate() {
                if let Some((limit, ticks)) = told {
                    *ticks += u32::from(matches!(call, Call::Tick));
                    assert!(*ticks <= *limit);
                    if holders.contains(&Some(task)) {
                        *told = None;
                    } else {
                        assert!(*ticks < *limit);
                    }
                }
            }
        }
    }

    /// How often each kind of answer was met.
    #[derive(Default)]
    struct Met {
        granted: u32,
        behind: u32,
        next: u32,
        cuts: u32,
        many_cuts: u32,
        sent_back: u32,
        left: u32,
        processors_left: u32,
    }

    impl Met {
        fn put(&mut self, answer: Answer) {
            match answer {
                Granted => self.granted += 1,
                Waits { ahead, .. } => self.behind += u32::from(ahead > 0),
                Next(_) => self.next += 1,
                Ticked { cuts, .. } => {
                    self.cuts += u32::from(cuts != 0);
                    self.many_cuts += u32::from(cuts.count_ones() > 1);
                }
                Left => self.left += 1,
                _ => (),
            }
        }
    }

    /// Makes a list of calls of which each is held against the words; shows each state.
    fn agrees(
        n: &mut Numbers,
        file: &[u8],
        calls: u32,
        met: &mut Met,
        each: &mut dyn FnMut(&mut Numbers, &Figures, &State),
    ) {
        let figures = Figures::of(file);
        let mut model = Model::fresh(&figures);
        let mut limits = Limits(vec![None; MAX_TASKS]);
        let mut once = Once::new(&figures.plan);
        let mut state = start(file).1;
        for _ in 0..calls {
            let call = Call::made(n, &model);
            let (answer, next) = call.on(file, &state);
            assert_eq!(call.once(&mut once, &state), (answer, next), "{call:?}");
            assert_eq!(answer, call.by_words(&mut model), "{call:?}");
            assert_eq!(next, model.state(), "{call:?}");
            assert!(sound(&figures.plan, &next));
            limits.check(call, answer, &model);
            met.put(answer);
            each(n, &figures, &next);
            state = next;
        }
        met.sent_back += model.sent_back;
        met.processors_left += model.gave_up;
    }

    #[test]
    fn made_lists_agree_with_the_words() {
        let mut n = Numbers(1);
        let mut met = Met::default();
        for _ in 0..300 {
            let file = made(&mut n, [3, 8, 3, 20], 5);
            agrees(&mut n, &file, 250, &mut met, &mut |_, _, _| ());
        }
        for _ in 0..50 {
            let file = made(&mut n, [8, 64, 16, 255], 4);
            agrees(&mut n, &file, 400, &mut met, &mut |_, _, _| ());
        }
        for _ in 0..10 {
            let file = made(&mut n, [2, 64, 2, 255], 1000);
            agrees(&mut n, &file, 300, &mut met, &mut |_, _, _| ());
        }
        let each = [
            met.granted,
            met.behind,
            met.next,
            met.cuts,
            met.many_cuts,
            met.sent_back,
            met.left,
            met.processors_left,
        ];
        assert!(each.iter().all(|&count| count > 500), "{each:?}");
    }

    /// The document's sentence on sound states, word by word.
    fn sound_by_words(figures: &Figures, state: &State) -> bool {
        let (count, resources) = (tasks(&figures.plan).len(), figures.budgets[0].len());
        let (lines, past) = state.lines.split_at(resources);
        let mut filled = past.iter().all(|&l| l == Line::FREE);
        filled &= state.tasks[count..].iter().all(|&s| s == Standing::NONE);
        let in_line: Vec<usize> = (0..count)
            .filter(|&i| state.tasks[i] != Standing::NONE)
            .collect();
        let uses = in_line.iter().all(|&i| {
            let hold = figures.holds[i].get(usize::from(state.tasks[i].resource));
            hold.is_some_and(|h| h.is_ok())
        });
        let of = |q: usize, k: usize| {
            let there = |&&i: &&usize| {
                usize::from(state.tasks[i].resource) == q && figures.processor(i) == k
            };
            let mut places: Vec<(u8, usize)> = in_line
                .iter()
                .filter(there)
                .map(|&i| (state.tasks[i].place, i))
                .collect();
            places.sort();
            places
        };
        let line = |(q, line): (usize, &Line)| {
            if line.queued > 8 {
                return false;
            }
            let (queue, rest) = line.queue.split_at(line.queued.into());
            let times = |k: usize| queue.iter().filter(|&&p| usize::from(p) == k).count();
            let mut right = rest.iter().all(|&k| k == NONE);
            right &= queue
                .iter()
                .all(|&k| usize::from(k) < figures.budgets.len());
            for k in 0..figures.budgets.len() {
                let places = of(q, k);
                right &= places.iter().map(|p| usize::from(p.0)).eq(0..places.len());
                right &= times(k) == usize::from(!places.is_empty());
            }
            let left = (u32::from(line.hold_left), u32::from(line.budget_left));
            if !right || queue.is_empty() {
                return right && left == (0, 0);
            }
            let k = usize::from(queue[0]);
            let holder = of(q, k)[0].1;
            1 <= left.0
                && left.0 <= figures.hold(holder, q)
                && left.0 <= left.1
                && left.1 <= figures.budgets[k][q]
        };
        filled && uses && lines.iter().enumerate().all(line)
    }

    /// A small change of one thing in a state.
    fn damage(n: &mut Numbers, state: &mut State) {
        let near = |n: &mut Numbers, x: u16| (x + n.below(4) as u16).saturating_sub(1);
        let small = |n: &mut Numbers| [0, 1, 2, 3, 8, 15, 16, 64, 254, 255][n.below(10)];
        let (i, j) = (n.below(MAX_TASKS), n.below(MAX_TASKS));
        let (i, j) = if n.one_in(2) { (i % 8, j % 8) } else { (i, j) };
        let q = n.below(MAX_RESOURCES) % (1 + n.below(MAX_RESOURCES));
        let line = &mut state.lines[q];
        match n.below(10) {
            0 => state.tasks[i].resource = small(n),
            1 => state.tasks[i].place = small(n),
            2 => state.tasks.swap(i, j),
            3 => state.tasks[i] = Standing::NONE,
            4 => line.queued = small(n),
            5 => line.queue[n.below(8)] = small(n),
            6 => line.queue.swap(n.below(3), n.below(3)),
            7 => line.hold_left = near(n, line.hold_left),
            8 => line.budget_left = near(n, line.budget_left),
            _ => state.lines.swap(q, n.below(MAX_RESOURCES)),
        }
    }

    /// A damaged state under each call; gives whether it is sound.
    fn holds_against_damage(
        n: &mut Numbers,
        figures: &Figures,
        file: &[u8],
        state: &State,
    ) -> bool {
        let is_sound = sound_by_words(figures, state);
        assert_eq!(sound(&figures.plan, state), is_sound, "{state:?}");
        let mut once = Once::new(&figures.plan);
        if !is_sound {
            let refused = [Call::Request, Call::Release, Call::GiveUp].map(|call| call(999, 99));
            for call in refused.into_iter().chain([Call::Tick]) {
                assert_eq!(call.on(file, state), (Refused(19), *state));
                assert_eq!(call.once(&mut once, state), (Refused(19), *state));
            }
            return false;
        }
        let model = Model::of(figures, state);
        for call in [Call::made(n, &model), Call::made(n, &model), Call::Tick] {
            let mut model = Model::of(figures, state);
            let expected = (call.by_words(&mut model), model.state());
            assert_eq!(call.on(file, state), expected, "{call:?}");
            assert_eq!(call.once(&mut once, state), expected, "{call:?}");
        }
        true
    }

    #[test]
    fn damaged_states_are_sound_by_the_words_alone() {
        let mut n = Numbers(7);
        let mut counts = [0; 2];
        for round in 0..30 {
            let most = if round % 2 == 0 {
                [3, 8, 3, 20]
            } else {
                [8, 64, 16, 255]
            };
            let file = made(&mut n, most, 5);
            agrees(
                &mut n,
                &file,
                100,
                &mut Met::default(),
                &mut |n, figures, state| {
                    for _ in 0..4 {
                        let mut state = *state;
                        for _ in 0..1 + n.below(2) {
                            damage(n, &mut state);
                        }
                        let found = holds_against_damage(n, figures, &file, &state);
                        counts[usize::from(found)] += 1;
                    }
                },
            );
        }
        assert!(counts.iter().all(|&count| count > 1000), "{counts:?}");
    }
}
