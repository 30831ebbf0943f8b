//! Plans that keep the rules, of all sizes.

use crate::random::Random;
use peer::{Counts, Plan, Section, Task};
use peer::{MAX_FILE, MAX_NAME, MAX_PROCESSORS, MAX_RESOURCES, MAX_SECTIONS, MAX_TASKS};

/// The length of sections. Where they are uneven a few long ones make budgets that serve several short ones in a turn.
#[derive(Clone, Copy)]
enum Lengths {
    UpTo(usize),
    Uneven,
    All(usize),
}

impl Lengths {
    fn some(random: &mut Random) -> Lengths {
        match random.below(8) {
            0..=1 => Lengths::UpTo(3),
            2..=4 => Lengths::Uneven,
            5 => Lengths::All(random.within(1, 6)),
            6 => Lengths::UpTo(1000),
            _ => Lengths::UpTo(24),
        }
    }

    fn one(self, random: &mut Random) -> u16 {
        let length = match self {
            Lengths::UpTo(most) => random.within(1, most),
            Lengths::Uneven if random.once_in(5) => random.within(6, 20),
            Lengths::Uneven => random.within(1, 3),
            Lengths::All(length) => length,
        };
        length as u16
    }
}

/// How large a plan is, and on how many of its resources most sections are.
#[derive(Clone, Copy)]
pub struct Size {
    processors: usize,
    tasks: usize,
    resources: usize,
    sections: usize,
    busy: usize,
    lengths: Lengths,
    /// The most by which C is above the sections, and T above C.
    spare: usize,
}

impl Size {
    /// A few tasks on two or three processors.
    pub fn tiny(random: &mut Random) -> Size {
        let tasks = random.within(2, 6);
        Size {
            processors: random.within(2, 3),
            tasks,
            resources: random.within(1, 2),
            sections: random.within(tasks, 2 * tasks),
            busy: 1,
            lengths: Lengths::UpTo(random.within(1, 6)),
            spare: 40,
        }
    }

    /// A few sections on each of many resources, so that some are global and some local.
    pub fn mixed(random: &mut Random) -> Size {
        let tasks = random.within(4, 10);
        let resources = random.within(3, 10);
        Size {
            processors: random.within(2, 3),
            tasks,
            resources,
            sections: random.within(tasks, 3 * tasks),
            busy: resources,
            lengths: Lengths::UpTo(random.within(1, 6)),
            spare: random.within(2, 200),
        }
    }

    /// Many tasks in long queues for a few resources.
    pub fn crowded(random: &mut Random) -> Size {
        let tasks = random.within(8, 40);
        Size {
            processors: random.within(2, 5),
            tasks,
            resources: random.within(1, 3),
            sections: random.within(tasks, 3 * tasks),
            busy: random.within(1, 2),
            lengths: Lengths::some(random),
            spare: 200,
        }
    }

    /// Many tasks in long queues with long sections, so that limits need more than two bytes.
    pub fn deep(random: &mut Random) -> Size {
        let tasks = random.within(40, MAX_TASKS);
        Size {
            processors: random.within(2, 3),
            tasks,
            resources: 2,
            sections: 3 * tasks,
            busy: 2,
            lengths: Lengths::UpTo(1000),
            spare: 500,
        }
    }

    /// Any counts within their ranges.
    pub fn any(random: &mut Random) -> Size {
        Size {
            processors: random.within(1, MAX_PROCESSORS),
            tasks: random.within(1, MAX_TASKS),
            resources: random.within(1, MAX_RESOURCES),
            sections: random.within(0, MAX_SECTIONS),
            busy: random.within(1, MAX_RESOURCES),
            lengths: Lengths::some(random),
            spare: 500,
        }
    }

    /// So many tasks on as many processors as there may be, with resources and sections in proportion; lengths that differ.
    pub fn full(tasks: usize) -> Size {
        Size {
            processors: MAX_PROCESSORS,
            tasks,
            resources: MAX_RESOURCES * tasks / MAX_TASKS,
            sections: MAX_SECTIONS * tasks / MAX_TASKS,
            busy: MAX_RESOURCES,
            lengths: Lengths::Uneven,
            spare: 500,
        }
    }

    pub fn some(random: &mut Random) -> Size {
        match random.below(10) {
            0..=2 => Size::tiny(random),
            3..=4 => Size::mixed(random),
            5..=6 => Size::crowded(random),
            7 => Size::full(MAX_TASKS),
            _ => Size::any(random),
        }
    }
}

/// Bytes in any order, each once, from `first` on.
fn shuffled(first: u8, random: &mut Random) -> Vec<u8> {
    let mut bytes: Vec<u8> = (first..=u8::MAX).collect();
    for i in (1..bytes.len()).rev() {
        bytes.swap(i, random.below(i + 1));
    }
    bytes
}

/// The first tasks are on processors in turn, so that none is without where there are enough.
fn put_tasks(plan: &mut Plan, size: Size, random: &mut Random) {
    let tags = shuffled(0, random);
    let mut priorities: Vec<_> = (0..size.processors).map(|_| shuffled(1, random)).collect();
    for (i, task) in plan.tasks[..size.tasks].iter_mut().enumerate() {
        let processor = if i < size.processors {
            i
        } else {
            random.below(size.processors)
        };
        *task = Task {
            processor: processor as u8,
            tag: tags[i].into(),
            priority: priorities[processor].pop().unwrap_or(1),
            period: 0,
            execution: 0,
        };
    }
}

/// The sections, in any order of tasks. One that would leave no room for C is left out.
fn put_sections(plan: &mut Plan, size: Size, random: &mut Random) {
    let mut count = 0;
    for i in 0..size.sections {
        let task = if i < size.tasks {
            i
        } else {
            random.below(size.tasks)
        };
        let among = if random.once_in(8) {
            size.resources
        } else {
            size.busy.min(size.resources)
        };
        let length = size.lengths.one(random);
        let sum = &mut plan.tasks[task].execution;
        if *sum > 60_000 {
            continue;
        }
        *sum += length;
        plan.sections[count] = Section {
            task: task as u8,
            resource: random.below(among) as u8,
            length,
        };
        count += 1;
    }
    plan.counts.sections = count as u16;
    for i in (1..count).rev() {
        plan.sections.swap(i, random.below(i + 1));
    }
}

/// C and T from the sums of the sections, with some to spare or none.
fn put_times(plan: &mut Plan, size: Size, random: &mut Random) {
    for task in &mut plan.tasks[..size.tasks] {
        let spare = |random: &mut Random| match random.below(4) {
            0 => 0,
            _ => random.below(size.spare) as u16,
        };
        task.execution = (task.execution + spare(random)).max(1);
        task.period = task.execution + spare(random);
    }
}

/// Names that differ, one behind the other; short ones and long ones with one front.
fn put_names(plan: &mut Plan, size: Size, random: &mut Random) -> Vec<u8> {
    let mut names: Vec<Vec<u8>> = Vec::new();
    let front = random.below(MAX_NAME);
    while names.len() < size.resources {
        let length = random.within(front.max(1), MAX_NAME);
        let mut name = vec![b'm'; length];
        for byte in &mut name[front.min(length - 1)..] {
            *byte = random.within(33, 126) as u8;
        }
        if !names.contains(&name) {
            plan.lengths[names.len()] = length as u8;
            names.push(name);
        }
    }
    names.concat()
}

/// A plan by value, and its names.
pub fn rows(size: Size, random: &mut Random) -> (Plan, Vec<u8>) {
    let mut plan = Plan {
        counts: Counts {
            processors: size.processors as u8,
            tasks: size.tasks as u8,
            resources: size.resources as u8,
            sections: 0,
        },
        ..Plan::default()
    };
    put_tasks(&mut plan, size, random);
    put_sections(&mut plan, size, random);
    put_times(&mut plan, size, random);
    let names = put_names(&mut plan, size, random);
    (plan, names)
}

/// The file of a plan.
pub fn file(plan: &Plan, names: &[u8]) -> Vec<u8> {
    let mut buffer = [0; MAX_FILE];
    let length = peer::write(plan, names, &mut buffer).expect("the plan keeps the rules");
    buffer[..length].to_vec()
}

/// The file of some plan.
pub fn some(size: Size, random: &mut Random) -> Vec<u8> {
    let (plan, names) = rows(size, random);
    file(&plan, &names)
}

/// The most that a period is stretched to, so that a look at each instant of it does not take long.
const STRETCHED: u16 = 6_000;

/// Longer periods, so that more requirements are met.
fn stretch(plan: &mut Plan, random: &mut Random) {
    let times = random.within(2, 40) as u16;
    for task in &mut plan.tasks[..plan.counts.tasks.into()] {
        let longer = task.period.saturating_mul(times).min(STRETCHED);
        task.period = task.period.max(longer);
    }
}

/// So many tasks are tried for one whose slack is above its waiting side.
const TRIES: usize = 8;

/// The file of some plan with longer periods, in which the waiting side of one task is one below its slack, at it, or one above it; and
/// the tag of that task. Its execution time is raised for it, by which the slack falls one by one and the side stays. No tag where
/// no slack was found above the side.
pub fn pressed(size: Size, random: &mut Random) -> (Vec<u8>, Option<u16>) {
    let (mut plan, names) = rows(size, random);
    stretch(&mut plan, random);
    let good = file(&plan, &names);
    for _ in 0..TRIES {
        let task = &mut plan.tasks[random.below(size.tasks)];
        let Ok(found) = peer::analysis::requirement(&good, task.tag) else {
            continue;
        };
        let spare = found.slack - found.side as i64;
        if spare > 0 {
            // A slack is at most T less C, and a side at least 1, so that this is at most T.
            task.execution += (spare + 1) as u16 - random.below(3) as u16;
            let tag = task.tag;
            return (file(&plan, &names), Some(tag));
        }
    }
    (good, None)
}

/// The file of some plan. Every other one has longer periods, and half of these a waiting side at the slack or near it.
pub fn unhurried(size: Size, random: &mut Random) -> Vec<u8> {
    match random.below(4) {
        0..=1 => some(size, random),
        2 => {
            let (mut plan, names) = rows(size, random);
            stretch(&mut plan, random);
            file(&plan, &names)
        }
        _ => pressed(size, random).0,
    }
}

#[cfg(test)]
mod tests {
    use super::*;
    use crate::lists::is_global;

    #[test]
    fn the_full_plan_has_all_it_may_and_shares_it() {
        for number in 0..50 {
            let (plan, _) = rows(Size::full(MAX_TASKS), &mut Random::of(b'B', number));
            assert_eq!(plan.counts.sections, 255);
            assert!((0..16).all(|resource| is_global(&plan, resource)));
        }
    }

    #[test]
    fn every_plan_is_read() {
        for number in 0..500 {
            let mut random = Random::of(b'B', number);
            let size = Size::some(&mut random);
            assert!(peer::read(&some(size, &mut random)).is_ok());
            assert!(peer::read(&unhurried(size, &mut random)).is_ok());
            assert!(peer::read(&pressed(size, &mut random).0).is_ok());
        }
    }

    /// Whether a task has several sections on a global resource, which it has alone on its processor or not.
    fn several(plan: &Plan, row: usize, alone: bool) -> bool {
        let sections = &plan.sections[..plan.counts.sections.into()];
        let processor = |task: usize| plan.tasks[task].processor;
        let mut shared = (0..plan.counts.resources).filter(|&q| is_global(plan, q));
        shared.any(|q| {
            let near = |s: &&Section| s.resource == q && processor(s.task.into()) == processor(row);
            let users = sections.iter().filter(near).map(|s| usize::from(s.task));
            let (own, others): (Vec<_>, Vec<_>) = users.partition(|&task| task == row);
            own.len() > 1 && others.is_empty() == alone
        })
    }

    /// Of the sides one below the slack, at it and one above it: how many there are, with how many the task has several sections on a
    /// resource alone, with how many beside fellows, and on how many the plan's admission turns.
    #[test]
    fn sides_are_at_the_slack_and_one_off_it() {
        let mut met = [[0; 4]; 3];
        for number in 0..2_000 {
            let mut random = Random::of(b'B', number);
            let size = Size::some(&mut random);
            let (file, Some(tag)) = pressed(size, &mut random) else {
                continue;
            };
            let plan = peer::read(&file).unwrap();
            let tasks = &plan.tasks[..plan.counts.tasks.into()];
            let asked = |tag| peer::analysis::requirement(&file, tag);
            let found = asked(tag).unwrap();
            let off = found.side as i64 - found.slack;
            assert!((-1..=1).contains(&off) && found.met == (off < 1));
            let row = tasks.iter().position(|t| t.tag == tag).unwrap();
            let mut others = tasks.iter().filter(|t| t.tag != tag);
            let turns = others.all(|t| asked(t.tag).map_or(true, |r| r.met));
            assert!(!turns || peer::analysis::admission(&file) == Ok(found.met));
            let came = [
                true,
                several(&plan, row, true),
                several(&plan, row, false),
                turns,
            ];
            for (count, came) in met[(off + 1) as usize].iter_mut().zip(came) {
                *count += usize::from(came);
            }
        }
        assert!(met.as_flattened().iter().all(|&n| n >= 40), "{met:?}");
    }
}
