//! Good plans, changed.

use crate::random::Random;

/// Where the five parts of a good file begin, and its end.
fn bounds(good: &[u8]) -> [usize; 6] {
    let word = |at: usize| usize::from(u16::from_le_bytes([good[at], good[at + 1]]));
    [0, word(6), word(8), word(10), word(12), good.len()]
}

/// Changes a byte of any part: to any value, by one up or down, or to what stands one or more rows on.
fn change(file: &mut [u8], bounds: [usize; 6], random: &mut Random) {
    let part = random.below(5);
    let (start, end) = (bounds[part], bounds[part + 1]);
    if start == end {
        return;
    }
    let at = start + random.below(end - start);
    file[at] = match random.below(4) {
        0 => random.number() as u8,
        1 => file[at].wrapping_add(1),
        2 => file[at].wrapping_sub(1),
        _ => file[start + (at - start + 8 * random.below(8)) % (end - start)],
    };
}

/// One to three changes, and now and then another length, told or not.
pub fn damaged(good: &[u8], random: &mut Random) -> Vec<u8> {
    let mut file = good.to_vec();
    for _ in 0..1 + random.below(3) {
        change(&mut file, bounds(good), random);
    }
    if random.below(16) == 0 {
        file.resize(random.below(2 * good.len()), b'A');
        if file.len() >= 16 && random.below(2) == 0 {
            let length = file.len() as u16;
            file[14..16].copy_from_slice(&length.to_le_bytes());
        }
    }
    file
}

/// Gives a task the tag of another, or its processor and priority, or a resource the name of another where it is as long.
fn repeated(good: &[u8], random: &mut Random) -> Vec<u8> {
    let mut file = good.to_vec();
    let [_, tasks, resources, _, names, _] = bounds(good);
    let count = (resources - tasks) / 8;
    let (one, other) = (random.below(count), random.below(count));
    let (from, to) = (tasks + 8 * one, tasks + 8 * other);
    match random.below(3) {
        0 => file[to + 1] = good[from + 1],
        1 => (file[to], file[to + 2]) = (good[from], good[from + 2]),
        _ => {
            let count = usize::from(good[3]);
            let name = |row: usize| {
                let row = &good[resources + 4 * row..];
                (names + usize::from(row[0]), usize::from(row[2]))
            };
            let ((from, length), (to, room)) =
                (name(random.below(count)), name(random.below(count)));
            if length == room {
                file.copy_within(from..from + length, to);
            }
        }
    }
    file
}

/// Brings a number or a byte to the edge of its range, or just past it.
fn edged(good: &[u8], random: &mut Random) -> Vec<u8> {
    let mut file = good.to_vec();
    let [_, tasks, resources, sections, names, end] = bounds(good);
    let task = tasks + 8 * random.below((resources - tasks) / 8);
    let section = sections + 4 * random.below(((names - sections) / 4).max(1));
    let past = random.below(2) as u16;
    let mut put = |at: usize, word: u16| file[at..at + 2].copy_from_slice(&word.to_le_bytes());
    let word = |at: usize| u16::from_le_bytes([good[at], good[at + 1]]);
    match random.below(8) {
        0 if section < names => {
            // Such a length is within C.
            let task = tasks + 8 * usize::from(good[section]);
            put(task + 4, u16::MAX);
            put(task + 6, u16::MAX);
            put(section + 2, [0, 1, 1000, 1001][random.below(4)]);
        }
        1 => put(task + 6, word(task + 4).saturating_add(past)),
        2 => put(task + 6, sum(good, (task - tasks) / 8).saturating_sub(past)),
        3 => file[names + random.below(end - names)] = [32, 33, 126, 127][random.below(4)],
        4 => file[task] = good[1] - 1 + past as u8,
        5 => file[task + 2] = [0, 1, 255][random.below(3)],
        6 if section < names => file[section] = good[2] - 1 + past as u8,
        _ if section < names => file[section + 1] = good[3] - 1 + past as u8,
        _ => (),
    }
    file
}

/// The sections of a task.
fn sum(good: &[u8], task: usize) -> u16 {
    let [.., sections, names, _] = bounds(good);
    let rows = good[sections..names].as_chunks::<4>().0.iter();
    rows.filter(|row| usize::from(row[0]) == task)
        .map(|row| u16::from_le_bytes([row[2], row[3]]))
        .sum()
}

/// A plan with many bytes behind it, which tells its length.
fn stretched(good: &[u8], random: &mut Random) -> Vec<u8> {
    let mut file = good.to_vec();
    file.resize(random.within(good.len() + 1, usize::from(u16::MAX)), b'A');
    let length = file.len() as u16;
    file[14..16].copy_from_slice(&length.to_le_bytes());
    file
}

/// A damaged plan, a part of a good one, or bytes of no plan at all, some of which tell their length rightly.
pub fn broken(good: &[u8], random: &mut Random) -> Vec<u8> {
    match random.below(12) {
        0 => good[..random.below(good.len())].to_vec(),
        1 => {
            let count = random.below(200);
            let mut file = random.bytes(count);
            if let Some(header) = file.first_chunk_mut::<16>() {
                header[0] = 1;
                (header[14], header[15]) = (count as u8, 0);
            }
            file
        }
        2 => {
            let count = random.below(64);
            random.bytes(count)
        }
        3..=4 => repeated(good, random),
        5..=6 => edged(good, random),
        7 if random.once_in(10) => stretched(good, random),
        _ => damaged(good, random),
    }
}

/// The file, or now and then a broken one in its place.
pub fn maybe_broken(good: Vec<u8>, times: usize, random: &mut Random) -> Vec<u8> {
    if random.once_in(times) {
        broken(&good, random)
    } else {
        good
    }
}
