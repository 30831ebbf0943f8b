//! What the tests share: the document's and the paper's plan, plans made by rows or by chance, and input in pieces.

use crate::{write, Counts, Plan, Section, Task, MAX_FILE};
use std::io::{self, Read};

/// Processor, tag, priority, period, execution time.
pub type TaskRow = (u8, u16, u8, u16, u16);
/// Task, resource, length.
pub type SectionRow = (u8, u8, u16);

pub fn task((processor, tag, priority, period, execution): TaskRow) -> Task {
    Task {
        processor,
        tag,
        priority,
        period,
        execution,
    }
}

pub fn section((task, resource, length): SectionRow) -> Section {
    Section {
        task,
        resource,
        length,
    }
}

/// A plan whose names have one byte each.
pub fn plan(processors: u8, resources: u8, tasks: &[TaskRow], sections: &[SectionRow]) -> Plan {
    let mut plan = Plan {
        counts: Counts {
            processors,
            tasks: tasks.len() as u8,
            resources,
            sections: sections.len() as u16,
        },
        ..Plan::default()
    };
    for (to, &row) in plan.tasks.iter_mut().zip(tasks) {
        *to = task(row);
    }
    for (to, &row) in plan.sections.iter_mut().zip(sections) {
        *to = section(row);
    }
    plan.lengths[..resources.into()].fill(1);
    plan
}

pub fn written(plan: &Plan, names: &[u8]) -> Vec<u8> {
    let mut buffer = [0; MAX_FILE];
    let length = write(plan, names, &mut buffer).unwrap();
    buffer[..length].to_vec()
}

/// The file of a plan whose resources are named A, B and so on.
pub fn lettered(plan: &Plan) -> Vec<u8> {
    let names: Vec<u8> = (b'A'..).take(plan.counts.resources.into()).collect();
    written(plan, &names)
}

pub fn file(processors: u8, resources: u8, tasks: &[TaskRow], sections: &[SectionRow]) -> Vec<u8> {
    lettered(&plan(processors, resources, tasks, sections))
}

/// The listing's plan as `examples/bus.sh` writes it: its priorities, C and T are free. By bytes, so that no test of it
/// depends on the writer.
pub fn bus() -> Vec<u8> {
    [
        &[1, 2, 2, 1, 2, 0, 16, 0, 32, 0, 36, 0, 44, 0, 47, 0][..],
        &[0, 10, 1, 0, 50, 0, 5, 0],
        &[1, 20, 1, 0, 50, 0, 5, 0],
        &[0, 0, 3, 0],
        &[0, 0, 2, 0],
        &[1, 0, 3, 0],
        b"bus",
    ]
    .concat()
}

/// The listing's calls.
pub const LISTING: &[u8] = b"Q\x14\0Q\x0a\0T\0\0T\0\0T\0\0R\x14\0R\x0a\0";

/// The paper's example, Figure 2: P1 is processor 0 with tags 1 to 5, P2 is processor 1 with tags 11 to 13; R1 is resource 0.
/// P2's first two tasks have the times of C6, the second the period given.
pub fn figure2(second_period: u16) -> Vec<u8> {
    let p1 = (1..=5).map(|tag| (0, tag, 6 - tag as u8, 100, 10));
    let p2 = [
        (1, 11, 3, 50, 6),
        (1, 12, 2, second_period, 5),
        (1, 13, 1, 100, 10),
    ];
    let tasks: Vec<TaskRow> = p1.chain(p2).collect();
    let sections = [
        &[(0, 0, 2), (0, 2, 3)][..],
        &[(1, 0, 3)],
        &[(2, 1, 5)],
        &[(3, 0, 5), (3, 2, 2)],
        &[(4, 2, 2)],
        &[(5, 0, 3), (5, 1, 2)],
        &[(6, 0, 2), (6, 1, 1)],
        &[(7, 0, 4)],
    ];
    file(2, 3, &tasks, &sections.concat())
}

/// For each refusal of a file, its number and a Figure 2 that meets it. There the first task row is at 16, the resource rows are
/// at 80, the section rows at 92, the names at 140.
pub fn refused_files() -> impl Iterator<Item = (u8, Vec<u8>)> {
    let changes: [fn(&mut Vec<u8>); 9] = [
        |f| f.clear(),
        |f| f[0] = 2,
        |f| f[1] = 9,
        |f| f[6] += 1,
        |f| f[16] = 2,
        |f| f[25] = 1,
        |f| f[140] = 32,
        |f| f[92] = 8,
        |f| f[94] = 9,
    ];
    (1..).zip(changes).map(|(number, change)| {
        let mut file = figure2(61);
        change(&mut file);
        (number, file)
    })
}

/// Numbers that look random, the same in each run.
pub struct Numbers(pub u64);

impl Numbers {
    pub fn below(&mut self, end: usize) -> usize {
        self.0 = self
            .0
            .wrapping_mul(6364136223846793005)
            .wrapping_add(1442695040888963407);
        (self.0 >> 33) as usize % end
    }

    pub fn one_in(&mut self, n: usize) -> bool {
        self.below(n) == 0
    }

    pub fn one_of<T: Copy>(&mut self, all: &[T]) -> Option<T> {
        (!all.is_empty()).then(|| all[self.below(all.len())])
    }

    /// One of those left, which then is not.
    pub fn take<T>(&mut self, left: &mut Vec<T>) -> T {
        left.swap_remove(self.below(left.len()))
    }
}

/// A plan of up to the given counts; with `light` tasks it may be admitted.
pub fn made(n: &mut Numbers, most: [usize; 4], light: bool) -> (Plan, Vec<u8>) {
    let [processors, count, resources, most_sections] = most.map(|m| n.below(m) + 1);
    let mut tags: Vec<u16> = (0..256).collect();
    let mut priorities: Vec<Vec<u8>> = vec![(1..=255).collect(); processors];
    let mut tasks: Vec<TaskRow> = Vec::new();
    for _ in 0..count {
        let k = n.below(processors);
        let (priority, tag) = (n.take(&mut priorities[k]), n.take(&mut tags));
        let period = (if light { 2000 } else { 1 }) + n.below(500) as u16;
        let execution = 1 + n.below(if light { 12 } else { period.into() }) as u16;
        tasks.push((k as u8, tag, priority, period, execution));
    }
    let mut left: Vec<u16> = tasks.iter().map(|t| t.4).collect();
    let mut sections: Vec<SectionRow> = Vec::new();
    for _ in 0..most_sections - 1 {
        let task = n.below(count);
        if left[task] > 0 {
            let length = 1 + n.below(left[task].min(6).into()) as u16;
            left[task] -= length;
            sections.push((task as u8, n.below(resources) as u8, length));
        }
    }
    let plan = plan(processors as u8, resources as u8, &tasks, &sections);
    (plan, lettered(&plan))
}

/// Hands out so many bytes at a time.
pub struct Slowly<'a>(&'a [u8], usize);

impl Read for Slowly<'_> {
    fn read(&mut self, to: &mut [u8]) -> io::Result<usize> {
        let count = self.1.min(to.len());
        self.0.read(&mut to[..count])
    }
}

/// What a program prints that is handed its input in pieces of this size.
pub fn in_pieces(
    input: &[u8],
    size: usize,
    run: impl FnOnce(&mut Slowly, &mut Vec<u8>) -> io::Result<()>,
) -> String {
    let mut output = Vec::new();
    run(&mut Slowly(input, size), &mut output).unwrap();
    String::from_utf8(output).unwrap()
}
