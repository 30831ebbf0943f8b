//! Reading: checks 1 to 9 in order, each group of rows decoded and checked in one pass.

use crate::checks::{counts_in_range, name_bytes_fit, name_length_fits, section_fits, task_fits};
use crate::checks::{Names, Sums, Unique};
use crate::{Counts, Offsets, Plan, Refusal, Section, Task};
use crate::{HEADER, RESOURCE_ROW, SECTION_ROW, TASK_ROW};

fn word(low: u8, high: u8) -> u16 {
    u16::from_le_bytes([low, high])
}

/// Checks 1 to 4: the counts, and where the parts begin.
fn header(file: &[u8]) -> Result<(Counts, Offsets), Refusal> {
    let Some(h) = file.first_chunk::<HEADER>() else {
        return Err(Refusal::Length);
    };
    if usize::from(word(h[14], h[15])) != file.len() {
        return Err(Refusal::Length);
    }
    if h[0] != 1 {
        return Err(Refusal::Edition);
    }
    let counts = Counts {
        processors: h[1],
        tasks: h[2],
        resources: h[3],
        sections: word(h[4], h[5]),
    };
    if !counts_in_range(counts) {
        return Err(Refusal::Count);
    }
    let at = Offsets::of(counts);
    let stated = [
        word(h[6], h[7]),
        word(h[8], h[9]),
        word(h[10], h[11]),
        word(h[12], h[13]),
    ];
    let wanted = [at.tasks, at.resources, at.sections, at.names];
    if stated.map(usize::from) != wanted || at.names > file.len() {
        return Err(Refusal::Offset);
    }
    Ok((counts, at))
}

/// A task row by value, and its spare byte.
#[inline]
fn task(row: &[u8; TASK_ROW]) -> (Task, u8) {
    let &[processor, tag, priority, spare, t0, t1, c0, c1] = row;
    let task = Task {
        processor,
        tag: tag.into(),
        priority,
        period: word(t0, t1),
        execution: word(c0, c1),
    };
    (task, spare)
}

/// Checks 5 and 6. A row that breaks 5 ends the pass; a repetition waits for its end.
fn tasks(part: &[u8], counts: Counts, plan: &mut Plan) -> Result<(), Refusal> {
    let mut unique = Unique::new();
    for (row, to) in part.as_chunks().0.iter().zip(&mut plan.tasks) {
        let (task, spare) = task(row);
        if !(task_fits(task, counts.processors) & (spare == 0)) {
            return Err(Refusal::TaskRow);
        }
        unique.put(task);
        *to = task;
    }
    if unique.repeated {
        return Err(Refusal::Repeated);
    }
    Ok(())
}

/// Check 7. A name is taken as the last bytes of 16, which a file has before any name's end.
fn names(file: &[u8], at: Offsets, plan: &mut Plan) -> Result<(), Refusal> {
    let mut seen = Names::new();
    let mut end = at.names;
    let part = &file[at.resources..at.sections];
    for (row, to) in part.chunks_exact(RESOURCE_ROW).zip(&mut plan.lengths) {
        let length = row[2];
        let starts = usize::from(word(row[0], row[1])) == end - at.names;
        if !(starts & name_length_fits(length) & (row[3] == 0)) {
            return Err(Refusal::Name);
        }
        end += usize::from(length);
        let Some(last) = file.get(..end).and_then(|f| f.last_chunk::<16>()) else {
            return Err(Refusal::Name);
        };
        if !seen.put(last, length) {
            return Err(Refusal::Name);
        }
        *to = length;
    }
    if end != file.len() || !name_bytes_fit(&file[at.names..]) {
        return Err(Refusal::Name);
    }
    Ok(())
}

/// A section row by value.
#[inline]
fn section(row: &[u8; SECTION_ROW]) -> Section {
    let &[task, resource, low, high] = row;
    Section {
        task,
        resource,
        length: word(low, high),
    }
}

/// Checks 8 and 9, as 5 and 6.
fn sections(part: &[u8], counts: Counts, plan: &mut Plan) -> Result<(), Refusal> {
    let mut sums = Sums::new();
    for (row, to) in part.as_chunks().0.iter().zip(&mut plan.sections) {
        let section = section(row);
        if !section_fits(section, counts) {
            return Err(Refusal::SectionRow);
        }
        sums.put(section);
        *to = section;
    }
    if !sums.within(&plan.tasks[..counts.tasks.into()]) {
        return Err(Refusal::AboveExecution);
    }
    Ok(())
}

/// Reads a plan file, whole and checked.
pub fn read(file: &[u8]) -> Result<Plan, Refusal> {
    let (counts, at) = header(file)?;
    let mut plan = Plan {
        counts,
        ..Plan::default()
    };
    tasks(&file[at.tasks..at.resources], counts, &mut plan)?;
    names(file, at, &mut plan)?;
    sections(&file[at.sections..at.names], counts, &mut plan)?;
    Ok(plan)
}

/// The name of a resource, as the part of the file that holds it.
pub fn name(file: &[u8], resource: u8) -> Result<&[u8], Refusal> {
    let plan = read(file)?;
    if resource >= plan.counts.resources {
        return Err(Refusal::UnknownResource);
    }
    let index = usize::from(resource);
    let before: usize = plan.lengths[..index].iter().map(|&l| usize::from(l)).sum();
    let start = Offsets::of(plan.counts).names + before;
    Ok(&file[start..start + usize::from(plan.lengths[index])])
}
