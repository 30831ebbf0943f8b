//! Lists of calls, three bytes each: those that are measured, and some that look random.

use compare::lists::{holder, TICK};
use compare::random::Random;
use peer::calls::{Call, TUNED};
use peer::machine::{Standing, State, NONE};
use peer::Plan;

/// Each task of the `long` plan asks for the resource of its first section, then ticks: none of them ends a hold.
pub fn ticks(count: usize) -> Vec<u8> {
    let asks = (0u8..64).map(|i| [b'Q', i, i % 16]);
    asks.chain(std::iter::repeat_n(TICK, count))
        .flatten()
        .collect()
}

/// As above, and whoever was cut asks again at once: four tasks are in line for each of 16 resources all the time.
pub fn held(file: &[u8], count: usize) -> Vec<u8> {
    let mut state = State::FRESH;
    let mut calls = Vec::new();
    for _ in 0..count {
        let idle = state.tasks.iter().position(|&s| s == Standing::NONE);
        let call = idle.map_or(TICK, |row| [b'Q', row as u8, row as u8 % 16]);
        if let Some((_, next)) = TUNED.make(file, &state, Call::of(call)) {
            state = next;
        }
        calls.extend(call);
    }
    calls
}

/// All tasks of the `narrow` plan ask; then, in turn, the holder releases and asks again, behind the 63 others.
pub fn turns(count: usize) -> Vec<u8> {
    let asks = (0u8..64).map(|i| [b'Q', i, 0]);
    let again = (0..count).flat_map(|x| {
        let tag = (x % 63) as u8;
        [[b'R', tag, 0], [b'Q', tag, 0]]
    });
    asks.chain(again).flatten().collect()
}

/// All tasks of the `narrow` plan ask, but for the last of processor 0; then, in turn, that one asks, behind the 62 others of its
/// processor, and gives up.
pub fn give_ups(count: usize) -> Vec<u8> {
    const LAST: u8 = 62;
    let asks = (0u8..64).filter(|&i| i != LAST).map(|i| [b'Q', i, 0]);
    let again = std::iter::repeat_n([[b'Q', LAST, 0], [b'W', LAST, 0]], count);
    asks.chain(again.flatten()).flatten().collect()
}

/// Each task of the `long` plan asks for the resource of its first section, so that four are in line for each; then, resource after
/// resource, the holder releases and asks again, behind the three others.
pub fn turns_on_all(count: usize) -> Vec<u8> {
    let again = (0..count).flat_map(|x| {
        let (tag, q) = ((x % 64) as u8, (x % 16) as u8);
        [[b'R', tag, q], [b'Q', tag, q]]
    });
    ticks(0).into_iter().chain(again.flatten()).collect()
}

/// As above, but that the last in line gives up and asks again.
pub fn give_ups_on_all(count: usize) -> Vec<u8> {
    let again = (0..count).flat_map(|x| {
        let (tag, q) = ((48 + x % 16) as u8, (x % 16) as u8);
        [[b'W', tag, q], [b'Q', tag, q]]
    });
    ticks(0).into_iter().chain(again.flatten()).collect()
}

/// On the small plan: a request, and three ticks, of which the last ends the hold.
pub fn small_ticks(count: usize) -> Vec<u8> {
    b"Q\x14\0T\0\0T\0\0T\0\0".repeat(count)
}

/// On the small plan: a request of a free resource, and its release.
pub fn small_turns(count: usize) -> Vec<u8> {
    b"Q\x14\0R\x14\0".repeat(count)
}

/// On the small plan: one holds, and the other asks and gives up.
pub fn small_give_ups(count: usize) -> Vec<u8> {
    [b"Q\x14\0".to_vec(), b"Q\x0a\0W\x0a\0".repeat(count)].concat()
}

/// A give-up by a task that waits, from a random one on.
fn give_up(plan: &Plan, state: &State, random: &mut Random) -> Option<[u8; 3]> {
    let tasks = usize::from(plan.counts.tasks);
    let start = random.below(tasks);
    let waits = |row: &usize| {
        let resource = state.tasks[*row].resource;
        resource != NONE && holder(plan, state, resource.into()) != Some(*row)
    };
    let row = (start..start + tasks).map(|row| row % tasks).find(waits)?;
    Some([b'W', plan.tasks[row].tag as u8, state.tasks[row].resource])
}

/// A call that often does something: a request by a task of the plan, a release by a holder, a give-up by a task that waits, a tick,
/// now and then any bytes.
pub fn some(plan: &Plan, state: &State, random: &mut Random) -> [u8; 3] {
    let tasks = usize::from(plan.counts.tasks);
    let resource = random.below(usize::from(plan.counts.resources) + 1);
    let tag = plan.tasks[random.below(tasks)].tag as u8;
    match random.below(19) {
        0 => [random.number() as u8, random.number() as u8, resource as u8],
        1 => [b'R', tag, resource as u8],
        2 => [b'W', tag, resource as u8],
        3..=4 => give_up(plan, state, random).unwrap_or(TICK),
        5..=7 => match holder(plan, state, resource % 16) {
            Some(row) => [b'R', plan.tasks[row].tag as u8, resource as u8],
            None => TICK,
        },
        8..=10 => TICK,
        _ => {
            let count = usize::from(plan.counts.sections).max(1);
            let section = plan.sections[random.below(count)];
            let tag = plan.tasks[usize::from(section.task)].tag as u8;
            [b'Q', tag, section.resource]
        }
    }
}
