//! Made cases of each kind, as the case program takes them.

use crate::images;
use compare::damage::maybe_broken;
use compare::lists::{Habits, Maker, FICKLE, GREEDY};
use compare::plans::{self, Size};
use compare::random::Random;
use peer::cases::{state_bytes, LONGEST_LINE, ROOM, SHEET_ROOM};
use peer::{Plan, MAX_RESOURCES, MAX_SECTIONS, MAX_TASKS};

/// A record: its length, the kind, the label with its length before it, and the case.
pub fn record(kind: u8, number: usize, case: &[u8]) -> Vec<u8> {
    let label = number.to_string();
    let body = [&[kind, label.len() as u8], label.as_bytes(), case].concat();
    [&(body.len() as u32).to_le_bytes()[..], &body].concat()
}

/// A case of a kind.
pub fn case(kind: u8, number: usize) -> Vec<u8> {
    let random = &mut Random::of(kind, number);
    match kind {
        b'R' => reading(random),
        b'W' => writing(random),
        b'M' => listing(random),
        b'V' if number == 0 => three_tasks(AT_THE_LIMIT),
        b'V' if number == 1 => three_tasks(WITH_GIVE_UPS),
        b'V' => watched(random),
        b'P' => printing(random),
        b'O' => printing_on(random),
        b'E' => printing_at_once(random),
        b'S' => calling(random),
        b'D' => sheet(random),
        b'I' => images::calling(random),
        b'F' => images::changing(random),
        _ => asking(kind, random),
    }
}

fn reading(random: &mut Random) -> Vec<u8> {
    let good = plans::some(Size::some(random), random);
    let file = match random.below(8) {
        0 => good,
        _ => maybe_broken(good, 1, random),
    };
    [&(file.len() as u32).to_le_bytes()[..], &file].concat()
}

/// A tag, mostly of the plan, and a resource, mostly one of the same section.
fn who(plan: &Plan, random: &mut Random) -> (u16, u8) {
    let section = plan.sections[random.below(usize::from(plan.counts.sections).max(1))];
    let tag = match random.below(10) {
        0 => random.below(300) as u16,
        1 => plan.tasks[random.below(MAX_TASKS)].tag,
        _ => plan.tasks[usize::from(section.task)].tag,
    };
    let resource = match random.below(6) {
        0 => random.below(usize::from(plan.counts.resources) + 2) as u8,
        _ => section.resource,
    };
    (tag, resource)
}

/// Only smaller plans are asked about requirements, whose tolerance takes a look at each instant.
fn smaller(random: &mut Random) -> Size {
    match random.below(8) {
        0..=4 => Size::mixed(random),
        5..=6 => Size::tiny(random),
        _ => Size::crowded(random),
    }
}

/// A question about a plan. Every other requirement, and admission, is asked of a plan with a waiting side at the slack or near it; the
/// requirement then of that task.
fn asking(kind: u8, random: &mut Random) -> Vec<u8> {
    let (good, pressed) = match kind {
        b'Q' | b'A' if random.once_in(2) => plans::pressed(smaller(random), random),
        b'Q' | b'A' => (plans::some(smaller(random), random), None),
        _ => (plans::some(Size::some(random), random), None),
    };
    let plan = peer::read(&good).unwrap_or_default();
    let file = maybe_broken(good, 8, random);
    let (tag, resource) = who(&plan, random);
    let tag = pressed.unwrap_or(tag);
    let processor = random.below(usize::from(plan.counts.processors) + 1) as u8;
    let [low, high] = tag.to_le_bytes();
    let question = match kind {
        b'N' => vec![resource],
        b'H' | b'G' => vec![low, high, resource],
        b'B' | b'T' => vec![processor, resource],
        b'Q' => vec![low, high],
        _ => vec![],
    };
    [question, file].concat()
}

/// A sheet and the room for it, which now and then is about as long as the sheet, or as the line of a refusal where there is no sheet.
fn sheet(random: &mut Random) -> Vec<u8> {
    let file = maybe_broken(plans::unhurried(smaller(random), random), 8, random);
    let length = peer::sheet::sheet(&file).map_or(10, |sheet| sheet.len());
    let room = match random.below(8) {
        0 => random.below(length),
        1 => length - 1,
        2 => length,
        3 => length + 1,
        4 => u32::MAX as usize,
        _ => SHEET_ROOM,
    };
    [&(room as u32).to_le_bytes()[..], &file].concat()
}

/// A part with its length in two bytes before it, and what comes behind.
pub fn after_length(part: &[u8], rest: &[u8]) -> Vec<u8> {
    [&(part.len() as u16).to_le_bytes()[..], part, rest].concat()
}

fn listing(random: &mut Random) -> Vec<u8> {
    let good = plans::some(Size::some(random), random);
    let file = maybe_broken(good, 30, random);
    let habits = Habits::some(random);
    let count = match random.below(8) {
        0 => random.within(200, 1_000),
        1..=3 => random.within(20, 200),
        _ => random.below(20),
    };
    let calls = Maker::new(&file, habits).list(count, random);
    after_length(&file, &calls)
}

/// A list with the room for a line, which now and then is about as long as a line.
fn printing(random: &mut Random) -> Vec<u8> {
    let file = maybe_broken(plans::some(Size::some(random), random), 30, random);
    let count = random.below(60);
    let calls = Maker::new(&file, Habits::some(random)).list(count, random);
    let room = match random.below(3) {
        0 => random.below(40) as u8,
        _ => u8::MAX,
    };
    after_length(&file, &[&[room], &calls[..]].concat())
}

/// A plan, now and then a broken one, with a state that calls have led to or not, and calls that go on from there.
fn going_on(random: &mut Random) -> (Vec<u8>, Vec<u8>, Vec<u8>) {
    let file = plans::some(Size::some(random), random);
    let mut maker = Maker::new(&file, Habits::some(random));
    maker.list(random.below(60), random);
    let good = state_bytes(&maker.state);
    let count = random.below(30);
    let calls = maker.list(count, random);
    (maybe_broken(file, 20, random), state(good, random), calls)
}

/// The room for a line on a given state.
fn printing_on(random: &mut Random) -> Vec<u8> {
    let (file, state, calls) = going_on(random);
    let room = match random.below(3) {
        0 => random.below(40) as u8,
        _ => u8::MAX,
    };
    after_length(&file, &[&state[..], &[room], &calls].concat())
}

/// The room for all lines, which now and then is too short for one, or about as long as some; and bytes left over.
fn printing_at_once(random: &mut Random) -> Vec<u8> {
    let (file, state, mut calls) = going_on(random);
    let room = match random.below(6) {
        0 => random.below(LONGEST_LINE),
        1 => LONGEST_LINE - 1 + random.below(2),
        2..=3 => random.within(LONGEST_LINE, 400),
        _ => usize::from(u16::MAX),
    };
    let rest = random.below(3);
    calls.extend(random.bytes(rest));
    after_length(
        &file,
        &[&state[..], &(room as u16).to_le_bytes(), &calls].concat(),
    )
}

/// Lists whose every state is shown: most of them greedy or fickle and on small plans, so that waits come near their limits.
fn watched(random: &mut Random) -> Vec<u8> {
    let (size, habits, count) = match random.below(10) {
        0..=3 => (Size::tiny(random), GREEDY, random.within(20, 300)),
        4..=6 => (Size::tiny(random), FICKLE, random.within(20, 300)),
        7 => {
            let habits = [GREEDY, FICKLE][random.below(2)];
            (Size::crowded(random), habits, random.within(100, 600))
        }
        8 => (Size::some(random), Habits::some(random), random.below(100)),
        _ => (Size::tiny(random), Habits::some(random), random.below(300)),
    };
    let good = plans::some(size, random);
    let file = maybe_broken(good, 60, random);
    let calls = Maker::new(&file, habits).list(count, random);
    after_length(&file, &calls)
}

/// Whoever was cut asks again: the last task of processor 0 is told 7 and granted at the seventh tick.
const AT_THE_LIMIT: &[u8] = b"Q\x03\0Q\x01\0Q\x02\0T\0\0T\0\0Q\x03\0T\0\0T\0\0T\0\0T\0\0T\0\0T\0\0";

/// The same, but that the task of processor 1 gives up and asks again at once, which changes nothing of it. Then it asks, gives up
/// a tick later, and asks when the other fellow of processor 0 was granted: it waits all 3 ticks that it is told, counted from there,
/// and so does its processor, which had left the queue.
const WITH_GIVE_UPS: &[u8] =
    b"Q\x03\0Q\x01\0Q\x02\0T\0\0T\0\0Q\x03\0W\x03\0Q\x03\0T\0\0T\0\0T\0\0T\0\0T\0\0\
    Q\x01\0Q\x03\0T\0\0W\x03\0T\0\0T\0\0Q\x03\0T\0\0T\0\0T\0\0";

/// Calls on a plan in which processor 0 has two tasks with a section of 3 each, processor 1 one with a section of 2.
fn three_tasks(calls: &[u8]) -> Vec<u8> {
    let file = [
        &[1, 2, 3, 1, 3, 0, 16, 0, 40, 0, 44, 0, 56, 0, 59, 0][..],
        &[0, 1, 1, 0, 50, 0, 9, 0],
        &[0, 2, 2, 0, 50, 0, 9, 0],
        &[1, 3, 1, 0, 50, 0, 9, 0],
        &[0, 0, 3, 0],
        &[0, 0, 3, 0],
        &[1, 0, 3, 0],
        &[2, 0, 2, 0],
        b"bus",
    ]
    .concat();
    after_length(&file, calls)
}

/// Changes a byte of a state: to a small number, by one, to any, or to that of another resource or task.
fn change(state: &mut [u8], random: &mut Random) {
    let at = random.below(state.len());
    state[at] = match random.below(6) {
        0 => random.below(9) as u8,
        1 => state[at].wrapping_add(1),
        2 => state[at].wrapping_sub(1),
        3 => random.byte(),
        4 => u8::MAX,
        _ => state[random.below(state.len())],
    };
}

/// A state that calls have led to, or the same with a few bytes changed, or bytes that look random.
fn state(good: Vec<u8>, random: &mut Random) -> Vec<u8> {
    if random.once_in(40) {
        return random.bytes(good.len());
    }
    let mut state = good;
    let changes = [0, 0, 1, 1, 1, 2, 2, 5][random.below(8)];
    for _ in 0..changes {
        change(&mut state, random);
    }
    state
}

fn calling(random: &mut Random) -> Vec<u8> {
    let file = plans::some(Size::some(random), random);
    let habits = Habits {
        wrong: 1,
        give_ups: random.within(1, 3),
        ..Habits::some(random)
    };
    let mut maker = Maker::new(&file, habits);
    maker.list(random.below(120), random);
    let good = state_bytes(&maker.state);
    let [letter, tag, resource] = maker.next(random);
    let high = u8::from(random.once_in(30));
    let rest = [state(good, random), vec![letter, tag, high, resource]].concat();
    after_length(&maybe_broken(file, 20, random), &rest)
}

/// One change of what the writer is given.
fn change_rows(plan: &mut Plan, names: &mut Vec<u8>, random: &mut Random) {
    let value = [0, 1, 2, 255, 1000, 1001, random.below(300) as u16][random.below(7)];
    let task = &mut plan.tasks[random.below(usize::from(plan.counts.tasks).clamp(1, MAX_TASKS))];
    let count = usize::from(plan.counts.sections).clamp(1, MAX_SECTIONS);
    let section = &mut plan.sections[random.below(count)];
    match random.below(16) {
        0 => plan.counts.processors = value as u8,
        1 => plan.counts.tasks = [0, 64, 65][random.below(3)],
        2 => plan.counts.resources = [0, 16, 17][random.below(3)],
        3 => plan.counts.sections = [0, 255, 256][random.below(3)],
        4 => task.processor = value as u8,
        5..=6 => task.tag = value,
        7 => task.priority = value as u8,
        8 => task.period = value,
        9 => task.execution = value,
        10 => plan.lengths[random.below(MAX_RESOURCES)] = value as u8,
        11 => names.push(b'x'),
        12 => names[0] = value as u8,
        13 => section.task = value as u8,
        14 => section.resource = value as u8,
        _ => section.length = value,
    }
}

fn row_bytes(plan: &Plan) -> Vec<u8> {
    let mut bytes = Vec::new();
    for t in &plan.tasks {
        let ([tag, wide], [t0, t1]) = (t.tag.to_le_bytes(), t.period.to_le_bytes());
        let [c0, c1] = t.execution.to_le_bytes();
        bytes.extend([t.processor, tag, wide, t.priority, t0, t1, c0, c1]);
    }
    bytes.extend(plan.lengths);
    for s in &plan.sections {
        let [low, high] = s.length.to_le_bytes();
        bytes.extend([s.task, s.resource, low, high]);
    }
    bytes
}

/// All rows there is room for, the plan's and the zeros behind them.
fn writing(random: &mut Random) -> Vec<u8> {
    let (mut plan, mut names) = plans::rows(Size::some(random), random);
    for _ in 0..[0, 1, 1, 1, 2, 3][random.below(6)] {
        change_rows(&mut plan, &mut names, random);
    }
    let mut buffer = [0; ROOM];
    let length = peer::write(&plan, &names, &mut buffer).unwrap_or(0);
    let room = match random.below(6) {
        0 => length.saturating_sub(1 + random.below(3)),
        1 => length,
        _ => ROOM,
    };
    let c = plan.counts;
    let sections = c.sections.to_le_bytes();
    let words = [room, names.len(), length].map(|n| (n as u16).to_le_bytes());
    let given = [MAX_TASKS, MAX_RESOURCES, MAX_SECTIONS].map(|n| n as u8);
    [
        &[c.processors, c.tasks, c.resources],
        &sections[..],
        words.as_flattened(),
        &given,
        &names,
        &buffer[..length],
        &row_bytes(&plan),
    ]
    .concat()
}
