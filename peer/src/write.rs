//! Writing: checks 3 and 5 to 10 on values, and then the file.

use crate::checks::{counts_in_range, name_bytes_fit, name_length_fits, section_fits, task_fits};
use crate::checks::{Names, Sums, Unique};
use crate::{Offsets, Plan, Refusal, HEADER, RESOURCE_ROW, SECTION_ROW, TASK_ROW};
use crate::{MAX_NAME, MAX_RESOURCES, MAX_SECTIONS, MAX_TASKS};

const MAX_NAMES: usize = MAX_RESOURCES * MAX_NAME;

/// The length of the longest plan file.
pub const MAX_FILE: usize = HEADER
    + TASK_ROW * MAX_TASKS
    + RESOURCE_ROW * MAX_RESOURCES
    + SECTION_ROW * MAX_SECTIONS
    + MAX_NAMES;

/// Checks 5 and 6.
fn check_tasks(plan: &Plan) -> Result<(), Refusal> {
    let mut unique = Unique::new();
    for &task in &plan.tasks[..plan.counts.tasks.into()] {
        if !task_fits(task, plan.counts.processors) {
            return Err(Refusal::TaskRow);
        }
        unique.put(task);
    }
    if unique.repeated {
        return Err(Refusal::Repeated);
    }
    Ok(())
}

/// Check 7: each length, their sum, the bytes, and no two names equal.
fn check_names(plan: &Plan, names: &[u8]) -> Result<(), Refusal> {
    let lengths = &plan.lengths[..plan.counts.resources.into()];
    let sum: usize = lengths.iter().map(|&l| usize::from(l)).sum();
    let each = lengths.iter().all(|&l| name_length_fits(l));
    if !each || sum != names.len() || !name_bytes_fit(names) {
        return Err(Refusal::Name);
    }
    // 16 bytes in front, since a name is taken as the last bytes of 16.
    let mut padded = [0; 16 + MAX_NAMES];
    padded[16..16 + sum].copy_from_slice(names);
    let mut seen = Names::new();
    let mut end = 16;
    for &length in lengths {
        end += usize::from(length);
        let last = padded[..end].last_chunk::<16>().ok_or(Refusal::Name)?;
        if !seen.put(last, length) {
            return Err(Refusal::Name);
        }
    }
    Ok(())
}

/// Checks 8 and 9.
fn check_sections(plan: &Plan) -> Result<(), Refusal> {
    let mut sums = Sums::new();
    for &section in &plan.sections[..plan.counts.sections.into()] {
        if !section_fits(section, plan.counts) {
            return Err(Refusal::SectionRow);
        }
        sums.put(section);
    }
    if !sums.within(&plan.tasks[..plan.counts.tasks.into()]) {
        return Err(Refusal::AboveExecution);
    }
    Ok(())
}

fn put_header(plan: &Plan, at: Offsets, length: usize, to: &mut [u8]) {
    let c = plan.counts;
    to[..4].copy_from_slice(&[1, c.processors, c.tasks, c.resources]);
    to[4..6].copy_from_slice(&c.sections.to_le_bytes());
    let words = [at.tasks, at.resources, at.sections, at.names, length];
    for (word, to) in words.iter().zip(to[6..].chunks_exact_mut(2)) {
        to.copy_from_slice(&(*word as u16).to_le_bytes());
    }
}

fn put_rows(plan: &Plan, at: Offsets, to: &mut [u8]) {
    let rows = to[at.tasks..at.resources].chunks_exact_mut(TASK_ROW);
    for (t, row) in plan.tasks.iter().zip(rows) {
        let [t0, t1] = t.period.to_le_bytes();
        let [c0, c1] = t.execution.to_le_bytes();
        row.copy_from_slice(&[t.processor, t.tag as u8, t.priority, 0, t0, t1, c0, c1]);
    }
    let rows = to[at.resources..at.sections].chunks_exact_mut(RESOURCE_ROW);
    let mut start = 0u16;
    for (&length, row) in plan.lengths.iter().zip(rows) {
        let [low, high] = start.to_le_bytes();
        row.copy_from_slice(&[low, high, length, 0]);
        start += u16::from(length);
    }
    let rows = to[at.sections..at.names].chunks_exact_mut(SECTION_ROW);
    for (s, row) in plan.sections.iter().zip(rows) {
        let [low, high] = s.length.to_le_bytes();
        row.copy_from_slice(&[s.task, s.resource, low, high]);
    }
}

/// Writes the file at the front of `buffer` and gives its length. A refusal leaves the buffer as it was.
pub fn write(plan: &Plan, names: &[u8], buffer: &mut [u8]) -> Result<usize, Refusal> {
    if !counts_in_range(plan.counts) {
        return Err(Refusal::Count);
    }
    check_tasks(plan)?;
    check_names(plan, names)?;
    check_sections(plan)?;
    let at = Offsets::of(plan.counts);
    let length = at.names + names.len();
    let file = buffer.get_mut(..length).ok_or(Refusal::BufferTooShort)?;
    put_header(plan, at, length, file);
    put_rows(plan, at, file);
    file[at.names..].copy_from_slice(names);
    Ok(length)
}
