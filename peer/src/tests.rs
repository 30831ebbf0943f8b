use crate::samples::{plan, section, task, written};
use crate::*;

/// Two processors, one task on each, two resources, three sections.
fn small() -> (Plan, &'static [u8]) {
    let tasks = [(0, 10, 5, 20, 9), (1, 20, 5, 30, 3)];
    let mut plan = plan(2, 2, &tasks, &[(0, 0, 2), (1, 0, 3), (0, 1, 7)]);
    (plan.lengths[0], plan.lengths[1]) = (3, 4);
    (plan, b"busdisk")
}

fn file() -> Vec<u8> {
    let (plan, names) = small();
    written(&plan, names)
}

fn refused(change: impl FnOnce(&mut Vec<u8>)) -> u8 {
    let mut file = file();
    change(&mut file);
    read(&file).map_or_else(Refusal::number, |_| 0)
}

#[test]
fn a_written_plan_is_read_back() {
    let (plan, names) = small();
    let file = file();
    assert_eq!(file.len(), 16 + 16 + 8 + 12 + names.len());
    assert_eq!(
        &file[..16],
        [1, 2, 2, 2, 3, 0, 16, 0, 32, 0, 40, 0, 52, 0, 59, 0]
    );
    assert_eq!(read(&file), Ok(plan));
    assert_eq!(name(&file, 0), Ok(&b"bus"[..]));
    assert_eq!(name(&file, 1), Ok(&b"disk"[..]));
    assert_eq!(name(&file, 2), Err(Refusal::UnknownResource));
}

#[test]
fn each_number_is_met() {
    assert_eq!(refused(|_| ()), 0);
    assert_eq!(refused(|f| f.clear()), 1);
    assert_eq!(refused(|f| f.push(65)), 1);
    assert_eq!(refused(|f| f[0] = 2), 2);
    assert_eq!(refused(|f| f[1] = 9), 3);
    assert_eq!(refused(|f| f[12] += 1), 4);
    assert_eq!(refused(|f| f[16] = 2), 5);
    assert_eq!(refused(|f| f[25] = 10), 6);
    assert_eq!(refused(|f| f[52] = 32), 7);
    assert_eq!(refused(|f| f[41] = 2), 8);
    assert_eq!(refused(|f| f[50] = 8), 9);
}

#[test]
fn the_smaller_number_wins() {
    assert_eq!(refused(|f| (f[16], f[52]) = (2, 32)), 5);
    assert_eq!(refused(|f| (f[25], f[24]) = (10, 2)), 5);
    assert_eq!(refused(|f| (f[50], f[41]) = (8, 2)), 8);
}

#[test]
fn names_that_share_a_prefix_differ() {
    let (mut plan, _) = small();
    (plan.lengths[0], plan.lengths[1]) = (12, 11);
    let mut buffer = [0; MAX_FILE];
    assert_eq!(
        write(&plan, b"memorybankA1memorybankA", &mut buffer),
        Ok(75)
    );
    plan.lengths[1] = 12;
    assert_eq!(
        write(&plan, b"memorybankA1memorybankA2", &mut buffer),
        Ok(76)
    );
    let equal = write(&plan, b"memorybankA1memorybankA1", &mut buffer);
    assert_eq!(equal, Err(Refusal::Name));
}

#[test]
fn a_refused_write_leaves_the_buffer() {
    let (mut plan, names) = small();
    let mut buffer = [170; MAX_FILE];
    assert_eq!(
        write(&plan, names, &mut buffer[..58]),
        Err(Refusal::BufferTooShort)
    );
    assert_eq!(write(&plan, &names[1..], &mut buffer), Err(Refusal::Name));
    plan.tasks[0].tag = 256;
    assert_eq!(write(&plan, names, &mut buffer), Err(Refusal::TaskRow));
    plan.counts.tasks = 65;
    assert_eq!(write(&plan, names, &mut buffer), Err(Refusal::Count));
    assert!(buffer.iter().all(|&b| b == 170));
}

#[test]
fn the_full_plan_fits() {
    let (mut plan, _) = small();
    plan.counts = Counts {
        processors: 8,
        tasks: 64,
        resources: 16,
        sections: 255,
    };
    let mut names = Vec::new();
    for i in 0..64u8 {
        let (processor, priority) = (i / 8, i % 8 + 1);
        plan.tasks[usize::from(i)] = task((processor, i.into(), priority, 65535, 65535));
    }
    for r in 0..16u8 {
        plan.lengths[usize::from(r)] = 12;
        names.extend_from_slice(b"memory-bank");
        names.push(b'A' + r);
    }
    plan.sections = [section((63, 15, 257)); 255];
    let mut buffer = [0; MAX_FILE];
    assert_eq!(write(&plan, &names, &mut buffer), Ok(MAX_FILE));
    assert_eq!(read(&buffer), Ok(plan));
    plan.sections[254].length = 258;
    assert_eq!(
        write(&plan, &names, &mut buffer),
        Err(Refusal::AboveExecution)
    );
}
