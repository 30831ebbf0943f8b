//! The rules of rows and names, each stated once for the reader and the writer.

use crate::{Counts, Section, Task};
use crate::{MAX_LENGTH, MAX_NAME, MAX_PROCESSORS, MAX_RESOURCES, MAX_SECTIONS, MAX_TASKS};

/// Check 3.
pub fn counts_in_range(c: Counts) -> bool {
    (1..=MAX_PROCESSORS).contains(&c.processors.into())
        && (1..=MAX_TASKS).contains(&c.tasks.into())
        && (1..=MAX_RESOURCES).contains(&c.resources.into())
        && usize::from(c.sections) <= MAX_SECTIONS
}

/// Refusal 5 of a task by value; the spare byte of a row is no part of it. A priority and a period cannot be above their
/// range, and T is above 0 where C is and C ≤ T. No early exit, so that many rows run without a branch for each rule.
#[inline]
pub fn task_fits(t: Task, processors: u8) -> bool {
    let processor_is_there = t.processor < processors;
    let tag_is_a_byte = u8::try_from(t.tag).is_ok();
    let has_priority = t.priority != 0;
    let executes = t.execution != 0;
    let ends_in_time = t.execution <= t.period;
    processor_is_there & tag_is_a_byte & has_priority & executes & ends_in_time
}

/// Refusal 8 of a section.
#[inline]
pub fn section_fits(s: Section, c: Counts) -> bool {
    let task_is_there = s.task < c.tasks;
    let resource_is_there = s.resource < c.resources;
    let length_fits = s.length.wrapping_sub(1) < MAX_LENGTH;
    task_is_there & resource_is_there & length_fits
}

/// Which bytes were seen. A byte for each, and not a bit: so one row's store does not hold up the next row's load.
struct Bytes([bool; 256]);

impl Bytes {
    /// Puts `b` in; true where it was there already.
    #[inline]
    fn put(&mut self, b: u8) -> bool {
        std::mem::replace(&mut self.0[usize::from(b)], true)
    }
}

/// Check 6, row by row, of rows that passed check 5.
pub struct Unique {
    tags: Bytes,
    priorities: [Bytes; MAX_PROCESSORS],
    pub repeated: bool,
}

impl Unique {
    pub fn new() -> Self {
        const NONE: Bytes = Bytes([false; 256]);
        Unique {
            tags: NONE,
            priorities: [NONE; MAX_PROCESSORS],
            repeated: false,
        }
    }

    #[inline]
    pub fn put(&mut self, t: Task) {
        let tag = self.tags.put(t.tag as u8);
        let processor = usize::from(t.processor) % MAX_PROCESSORS;
        let priority = self.priorities[processor].put(t.priority);
        self.repeated |= tag | priority;
    }
}

/// Check 9: each task's sections against its execution time.
pub struct Sums([u32; MAX_TASKS]);

impl Sums {
    pub fn new() -> Self {
        Sums([0; MAX_TASKS])
    }

    #[inline]
    pub fn put(&mut self, s: Section) {
        self.0[usize::from(s.task) % MAX_TASKS] += u32::from(s.length);
    }

    pub fn within(&self, tasks: &[Task]) -> bool {
        self.0
            .iter()
            .zip(tasks)
            .all(|(&sum, t)| sum <= t.execution.into())
    }
}

pub fn name_length_fits(length: u8) -> bool {
    (1..=MAX_NAME).contains(&length.into())
}

/// Whether each byte may stand in a name. No early exit, so that it runs many bytes at a time.
pub fn name_bytes_fit(names: &[u8]) -> bool {
    names
        .iter()
        .fold(true, |fit, b| fit & (33..=126).contains(b))
}

const SLOTS: usize = 32;

/// Names as numbers in an open table, to find two equal ones.
pub struct Names {
    keys: [u128; SLOTS],
}

impl Names {
    pub fn new() -> Self {
        Names { keys: [0; SLOTS] }
    }

    /// Puts in the name of `length` bytes at the end of `last`; false where it was there already.
    /// A name has no zero byte, so its bytes with zeros behind tell its length too, and no key is 0.
    #[inline]
    pub fn put(&mut self, last: &[u8; 16], length: u8) -> bool {
        let key = u128::from_le_bytes(*last) >> (8 * (16 - u32::from(length)));
        let mixed = (key as u64 ^ (key >> 64) as u64).wrapping_mul(0x9e37_79b9_7f4a_7c15);
        let mut slot = (mixed >> 59) as usize;
        while self.keys[slot % SLOTS] != 0 {
            if self.keys[slot % SLOTS] == key {
                return false;
            }
            slot += 1;
        }
        self.keys[slot % SLOTS] = key;
        true
    }
}
