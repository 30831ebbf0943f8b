//! The plans that are asked about, laid out by the peer's writer.

use compare::plans::file;
use compare::random::Random;
use peer::{Counts, Plan, Section, Task};
use std::array::from_fn;

/// Every count at its limit; names of 12 bytes that differ in the last one, so that telling them apart takes the longest.
pub fn full() -> Vec<u8> {
    let mut plan = Plan {
        counts: Counts {
            processors: 8,
            tasks: 64,
            resources: 16,
            sections: 255,
        },
        ..Plan::default()
    };
    for (i, task) in (0u8..).zip(&mut plan.tasks) {
        *task = Task {
            processor: i % 8,
            tag: (3 * u16::from(i) + 7) % 256,
            priority: 255 - 4 * (i / 8),
            period: 60_000 + u16::from(i),
            execution: 30_000 + 13 * u16::from(i),
        };
    }
    plan.lengths = [12; 16];
    let names: Vec<u8> = (0..16)
        .flat_map(|r| [b"memory-bank", &[b'A' + r][..]].concat())
        .collect();
    for (i, section) in (0u16..).zip(&mut plan.sections) {
        *section = Section {
            task: (i * 7 % 64) as u8,
            resource: (i * 5 % 16) as u8,
            length: 1 + i * 3 % 1000,
        };
    }
    file(&plan, &names)
}

/// The plan of the listing in document 01; its periods, execution times and priorities are free there.
pub fn small() -> Vec<u8> {
    let mut plan = Plan {
        counts: Counts {
            processors: 2,
            tasks: 2,
            resources: 1,
            sections: 2,
        },
        ..Plan::default()
    };
    plan.tasks[0] = Task {
        processor: 0,
        tag: 10,
        priority: 1,
        period: 50,
        execution: 6,
    };
    plan.tasks[1] = Task {
        processor: 1,
        tag: 20,
        priority: 1,
        period: 60,
        execution: 5,
    };
    plan.lengths[0] = 3;
    plan.sections[0] = Section {
        task: 0,
        resource: 0,
        length: 2,
    };
    plan.sections[1] = Section {
        task: 1,
        resource: 0,
        length: 3,
    };
    file(&plan, b"bus")
}

/// 64 tasks and 255 sections on 16 resources, all global: each task's first is on resource i % 16.
fn sharing(processors: u8, task: impl Fn(u8) -> Task, length: fn(u16) -> u16) -> Vec<u8> {
    let plan = Plan {
        counts: Counts {
            processors,
            tasks: 64,
            resources: 16,
            sections: 255,
        },
        tasks: from_fn(|i| task(i as u8)),
        lengths: [1; 16],
        sections: from_fn(|i| Section {
            task: (i % 64) as u8,
            resource: ((i / 64 * 5 + i) % 16) as u8,
            length: length(i as u16),
        }),
    };
    file(&plan, b"ABCDEFGHIJKLMNOP")
}

/// Periods near 65,535 and short sections on some processors: admitted, so that no task's tolerance is left out.
pub fn busy(processors: u8) -> Vec<u8> {
    let task = |i: u8| Task {
        processor: i % processors,
        tag: i.into(),
        priority: 1 + i / processors,
        period: 65_535 - u16::from(i),
        execution: 20,
    };
    sharing(processors, task, |i| 1 + i % 2)
}

/// 8 processors and sections of nearly 1,000 ticks: each resource has four users on four processors among the tasks' first
/// sections.
pub fn long() -> Vec<u8> {
    let task = |i: u8| Task {
        processor: (i + i / 16) % 8,
        tag: i.into(),
        priority: 1 + i,
        period: 65_535,
        execution: 60_000,
    };
    sharing(8, task, |i| 1000 - i % 7)
}

/// 63 tasks of processor 0 and one of processor 1, all on one resource.
pub fn narrow() -> Vec<u8> {
    let mut plan = Plan {
        counts: Counts {
            processors: 2,
            tasks: 64,
            resources: 1,
            sections: 64,
        },
        ..Plan::default()
    };
    for (i, task) in (0u8..).zip(&mut plan.tasks) {
        *task = Task {
            processor: i / 63,
            tag: i.into(),
            priority: 1 + i,
            period: 1000,
            execution: 20,
        };
    }
    plan.lengths[0] = 3;
    for (i, section) in (0u8..64).zip(&mut plan.sections) {
        *section = Section {
            task: i,
            resource: 0,
            length: 10,
        };
    }
    file(&plan, b"bus")
}

/// A plan of any size whose sections keep to the execution times, which lie close to the periods now and then.
pub fn some(random: &mut Random) -> Vec<u8> {
    let mut plan = Plan {
        counts: Counts {
            processors: 1 + random.below(8) as u8,
            tasks: 1 + random.below(64) as u8,
            resources: 1 + random.below(16) as u8,
            sections: random.below(256) as u16,
        },
        ..Plan::default()
    };
    let first = random.below(255 - 64) as u8;
    for (i, task) in (0u8..plan.counts.tasks).zip(&mut plan.tasks) {
        let execution = 1 + random.below(120) as u16;
        *task = Task {
            processor: random.below(plan.counts.processors.into()) as u8,
            tag: u16::from(i) * 3 % 256,
            priority: 1 + first + i * 29 % 64,
            period: execution + random.below(3000) as u16,
            execution,
        };
    }
    let mut left = plan.tasks.map(|t| t.execution);
    let mut count = 0;
    for _ in 0..plan.counts.sections {
        let task = random.below(plan.counts.tasks.into());
        let length = 1 + random.below(24) as u16;
        if length <= left[task] {
            left[task] -= length;
            plan.sections[count] = Section {
                task: task as u8,
                resource: random.below(plan.counts.resources.into()) as u8,
                length,
            };
            count += 1;
        }
    }
    plan.counts.sections = count as u16;
    plan.lengths[..plan.counts.resources.into()].fill(1);
    file(&plan, &b"ABCDEFGHIJKLMNOP"[..plan.counts.resources.into()])
}
