//! The promise, watched in what the case program shows of each state: how many ticks a task waits, and how many a processor is
//! queued and not head, against the limit that was told and the wait time; and the limits themselves against the longest wait.
//! A wait ends with the grant or with the task's own give-up, that of a processor at the head or with the give-up of its last task;
//! what others give up ends none.

use peer::analysis::{longest_wait, wait_time};
use peer::{Plan, MAX_PROCESSORS, MAX_RESOURCES, MAX_TASKS};

/// The processors queued for a resource in order, each with its tasks in line in order.
type Queue = Vec<(usize, Vec<usize>)>;

/// What a state shows, by resource.
type Shown = [Queue; MAX_RESOURCES];

/// Takes a text apart from the front.
struct Text<'a>(&'a str);

impl Text<'_> {
    fn number(&mut self) -> Option<usize> {
        let end = self.0.find(|c: char| !c.is_ascii_digit());
        let (digits, rest) = self.0.split_at(end.unwrap_or(self.0.len()));
        self.0 = rest;
        digits.parse().ok()
    }

    fn skip(&mut self, mark: char) -> Option<()> {
        self.0 = self.0.strip_prefix(mark)?;
        Some(())
    }
}

/// A processor with its tasks, as in 1(0 2).
fn turn(text: &mut Text) -> Option<(usize, Vec<usize>)> {
    let processor = text.number()?;
    text.skip('(')?;
    let mut tasks = vec![text.number()?];
    while text.skip(')').is_none() {
        text.skip(' ')?;
        tasks.push(text.number()?);
    }
    Some((processor, tasks))
}

/// A held resource, as in 0:3/5:1(0 2)0(1).
fn held(text: &mut Text) -> Option<(usize, Queue)> {
    let resource = text.number()?;
    text.skip(':')?;
    text.number()?;
    text.skip('/')?;
    text.number()?;
    text.skip(':')?;
    let mut queue = vec![turn(text)?];
    while text.0.starts_with(|c: char| c.is_ascii_digit()) {
        queue.push(turn(text)?);
    }
    Some((resource, queue))
}

fn shown(text: &str) -> Option<Shown> {
    let mut shown = Shown::default();
    if text == "nobody" {
        return Some(shown);
    }
    let mut text = Text(text);
    loop {
        let (resource, queue) = held(&mut text)?;
        *shown.get_mut(resource)? = queue;
        if text.0.is_empty() {
            return Some(shown);
        }
        text.skip(' ')?;
    }
}

/// Waits of one kind: how many began, how many of them were given up, how many came to their end, how many of these at the last
/// tick allowed, and the ticks and the limit of the one closest to its limit.
#[derive(Clone, Copy, Debug, Default, PartialEq, Eq)]
pub struct Waits {
    began: usize,
    gave_up: usize,
    ended: usize,
    at_limit: usize,
    closest: (u32, u32),
    beside: Beside,
}

/// Of the waits that came to their end, those in which a task left the same line by a give-up, and how many of these took every
/// tick allowed.
#[derive(Clone, Copy, Debug, Default, PartialEq, Eq)]
struct Beside {
    ended: usize,
    at_limit: usize,
}

impl Waits {
    /// Of two as close, the one with the longer limit.
    fn put(&mut self, (ticks, limit): (u32, u32)) {
        let (most, of) = self.closest;
        let (new, old) = (
            u64::from(ticks) * u64::from(of),
            u64::from(most) * u64::from(limit),
        );
        if new > old || (new == old && limit > of) {
            self.closest = (ticks, limit);
        }
    }

    fn end(&mut self, ticks: u32, limit: u32) {
        self.ended += 1;
        self.at_limit += usize::from(ticks == limit);
        self.put((ticks, limit));
    }

    /// The end of a wait that was watched.
    fn end_of(&mut self, wait: Wait) {
        self.end(wait.ticks, wait.limit);
        self.beside.ended += usize::from(wait.beside);
        self.beside.at_limit += usize::from(wait.beside && wait.ticks == wait.limit);
    }

    fn add(&mut self, other: &Waits) {
        self.began += other.began;
        self.gave_up += other.gave_up;
        self.ended += other.ended;
        self.at_limit += other.at_limit;
        self.put(other.closest);
        self.beside.ended += other.beside.ended;
        self.beside.at_limit += other.beside.at_limit;
    }

    fn tell(&self, who: &str, end: &str) {
        let (ticks, limit) = self.closest;
        println!(
            "  {} waits of {who} watched, {} of them given up, {} to {end}: the closest {ticks} of {limit} ticks, {} at the last tick allowed; \
             with a give-up in the same line meanwhile {}, {} of them at the last tick allowed.",
            self.began, self.gave_up, self.ended, self.at_limit, self.beside.ended, self.beside.at_limit
        );
    }
}

/// The limits that were told: how many, how many of them were the longest wait of their task, how many of these with tasks ahead,
/// and the limit and the longest wait of the closest.
#[derive(Clone, Copy, Debug, Default, PartialEq, Eq)]
pub struct Limits {
    against: Waits,
    behind: usize,
}

impl Limits {
    fn put(&mut self, ahead: u32, limit: u32, longest: u32) {
        self.against.began += 1;
        self.against.end(limit, longest);
        self.behind += usize::from(limit == longest && ahead > 0);
    }

    fn add(&mut self, other: &Limits) {
        self.against.add(&other.against);
        self.behind += other.behind;
    }

    fn tell(&self) {
        let (limit, longest) = self.against.closest;
        println!(
            "  {} limits told: the closest {limit} of {longest} ticks, the longest wait, {} exactly that, {} of them with tasks ahead.",
            self.against.began, self.against.at_limit, self.behind
        );
    }
}

#[derive(Clone, Copy, Debug, Default, PartialEq, Eq)]
pub struct Watched {
    tasks: Waits,
    processors: Waits,
    limits: Limits,
    /// How often a head was sent to the tail, and how often its next task was granted.
    sent_back: usize,
    kept: usize,
}

impl Watched {
    pub fn add(&mut self, other: &Watched) {
        self.tasks.add(&other.tasks);
        self.processors.add(&other.processors);
        self.limits.add(&other.limits);
        self.sent_back += other.sent_back;
        self.kept += other.kept;
    }

    pub fn tell(&self) {
        println!("The promise, in the states the proved program shows:");
        self.tasks.tell("tasks", "the grant");
        self.processors.tell("processors", "the head");
        self.limits.tell();
        println!(
            "  {} times the head was sent to the tail, {} times it kept the resource for its next task.",
            self.sent_back, self.kept
        );
    }
}

#[derive(Clone, Copy)]
struct Wait {
    resource: usize,
    limit: u32,
    ticks: u32,
    /// A task left the same line by a give-up since the wait began.
    beside: bool,
}

impl Wait {
    fn new(resource: usize, limit: u32) -> Wait {
        Wait {
            resource,
            limit,
            ticks: 0,
            beside: false,
        }
    }
}

/// A task whose give-up was accepted.
#[derive(Clone, Copy)]
struct Left {
    row: usize,
    resource: usize,
}

/// A plan file, its rows and wait times, the last state shown, and who waits in it.
struct Watch<'a> {
    file: &'a [u8],
    plan: Plan,
    wait_times: [[u32; MAX_PROCESSORS]; MAX_RESOURCES],
    before: Shown,
    tasks: [Option<Wait>; MAX_TASKS],
    processors: [[Option<Wait>; MAX_PROCESSORS]; MAX_RESOURCES],
    watched: Watched,
}

fn place(queue: &Queue, processor: usize) -> Option<usize> {
    queue.iter().position(|&(k, _)| k == processor)
}

fn in_line(queue: &Queue, row: usize) -> bool {
    queue.iter().any(|(_, tasks)| tasks.contains(&row))
}

impl<'a> Watch<'a> {
    fn new(file: &'a [u8]) -> Self {
        let time = |k: usize, q: usize| wait_time(file, k as u8, q as u8).unwrap_or(0);
        Watch {
            file,
            plan: peer::read(file).unwrap_or_default(),
            wait_times: std::array::from_fn(|q| std::array::from_fn(|k| time(k, q))),
            before: Shown::default(),
            tasks: [None; MAX_TASKS],
            processors: [[None; MAX_PROCESSORS]; MAX_RESOURCES],
            watched: Watched::default(),
        }
    }

    fn count_tick(&mut self) {
        let processors = self.processors.as_flattened_mut().iter_mut();
        for wait in self.tasks.iter_mut().chain(processors).flatten() {
            wait.ticks += 1;
        }
    }

    fn row(&self, tag: u8) -> Option<usize> {
        let tasks = &self.plan.tasks[..self.plan.counts.tasks.into()];
        tasks.iter().position(|t| t.tag == tag.into())
    }

    /// Ends the wait of the task that gave up, where the answer is such. Only a task that waits for the resource may be told so, and
    /// only to its own give-up.
    fn leave(&mut self, call: [u8; 3], answer: &str) -> Result<Option<Left>, String> {
        if answer != "left" {
            return Ok(None);
        }
        let [letter, tag, resource] = call;
        let resource = resource.into();
        let waits = |row: &usize| self.tasks[*row].is_some_and(|wait| wait.resource == resource);
        let Some(row) = self.row(tag).filter(waits).filter(|_| letter == b'W') else {
            return Err(format!(
                "task of tag {tag} left {resource}, for which it does not wait or which it did not give up"
            ));
        };
        self.tasks[row] = None;
        self.watched.tasks.gave_up += 1;
        let processors = &mut self.processors[resource];
        for wait in self.tasks.iter_mut().chain(processors).flatten() {
            wait.beside |= wait.resource == resource;
        }
        Ok(Some(Left { row, resource }))
    }

    /// Sees that the task that gave up is in line no more.
    fn look_at_left(&self, left: Option<Left>, shown: &Shown) -> Result<(), String> {
        match left {
            Some(Left { row, resource }) if in_line(&shown[resource], row) => {
                Err(format!("task {row} left {resource} and is in line for it"))
            }
            _ => Ok(()),
        }
    }

    /// Ends the wait of a task that holds, and sees that the others are in line and below their limits.
    fn look_at_task(&mut self, row: usize, shown: &Shown) -> Result<(), String> {
        let Some(wait) = self.tasks[row] else {
            return Ok(());
        };
        let Wait {
            resource,
            limit,
            ticks,
            ..
        } = wait;
        let queue = &shown[resource];
        let holds = queue.first().is_some_and(|(_, tasks)| tasks[0] == row);
        if !in_line(queue, row) {
            return Err(format!(
                "task {row} is not in line for {resource} after {ticks} ticks"
            ));
        }
        if ticks > limit || (ticks == limit && !holds) {
            return Err(format!(
                "task {row} waits for {resource} at tick {ticks} of {limit}"
            ));
        }
        if holds {
            self.watched.tasks.end_of(wait);
            self.tasks[row] = None;
        }
        Ok(())
    }

    /// Whether the task that gave up was the only one of processor `k` in line for `q`.
    fn was_last(&self, k: usize, q: usize, left: Option<Left>) -> bool {
        let Some(Left { row, resource }) = left else {
            return false;
        };
        let mut turns = self.before[q].iter();
        resource == q && turns.any(|(processor, tasks)| *processor == k && tasks[..] == [row])
    }

    /// Begins the wait of a processor that joined the queue or was sent to its tail, ends that of one that is head or whose last
    /// task gave up, and sees that the others are queued and below their wait time.
    fn look_at_processor(
        &mut self,
        (k, q): (usize, usize),
        left: Option<Left>,
        shown: &Shown,
    ) -> Result<(), String> {
        let (was, is) = (place(&self.before[q], k), place(&shown[q], k));
        let was_last = self.was_last(k, q, left);
        let limit = self.wait_times[q][k];
        let wait = &mut self.processors[q][k];
        match (*wait, was, is) {
            (None, None | Some(0), Some(1..)) => {
                self.watched.processors.began += 1;
                *wait = Some(Wait::new(q, limit));
                Ok(())
            }
            (None, _, None | Some(0)) => Ok(()),
            (Some(ended), Some(1..), Some(0)) if ended.ticks <= limit => {
                self.watched.processors.end_of(ended);
                *wait = None;
                Ok(())
            }
            (Some(_), Some(1..), None) if was_last => {
                self.watched.processors.gave_up += 1;
                *wait = None;
                Ok(())
            }
            (Some(Wait { ticks, .. }), Some(1..), Some(1..)) if ticks < limit => Ok(()),
            (wait, ..) => {
                let ticks = wait.map_or(0, |w| w.ticks);
                let [was, is] = [was, is].map(|at| at.map_or("none".into(), |n| n.to_string()));
                Err(format!(
                    "processor {k} in the queue for {q}: place {was}, then {is}, at tick {ticks} of {limit}"
                ))
            }
        }
    }

    /// Counts what became of the heads whose holder left.
    fn count_turns(&mut self, q: usize, shown: &Shown) {
        let Some((k, tasks)) = self.before[q].first() else {
            return;
        };
        match place(&shown[q], *k) {
            Some(0) => self.watched.kept += usize::from(shown[q][0].1[0] != tasks[0]),
            Some(_) => self.watched.sent_back += 1,
            None => (),
        }
    }

    /// Sees that no more is told than the longest wait, with every other user of the processor ahead.
    fn look_at_limit(&mut self, tag: u8, resource: u8, told: [u32; 2]) -> Result<(), String> {
        let [ahead, limit] = told;
        let longest = longest_wait(self.file, tag.into(), resource).map_err(|number| {
            format!("task of tag {tag} waits for {resource}, refused {number}")
        })?;
        if limit > longest {
            return Err(format!(
                "task of tag {tag} is told {limit} ticks for {resource}, with a longest wait of {longest}"
            ));
        }
        self.watched.limits.put(ahead, limit, longest);
        Ok(())
    }

    /// Begins the wait of the task that asked, where the answer is such.
    fn begin(&mut self, [_, tag, resource]: [u8; 3], answer: &str) -> Result<(), String> {
        let Some(told) = answer.strip_prefix("waits ") else {
            return Ok(());
        };
        let told = told
            .split_once(' ')
            .and_then(|(ahead, limit)| Some([ahead.parse().ok()?, limit.parse().ok()?]));
        let (Some(told @ [_, limit]), Some(row)) = (told, self.row(tag)) else {
            return Err(format!("task of tag {tag}: {answer}"));
        };
        self.look_at_limit(tag, resource, told)?;
        if self.tasks[row].is_some() {
            return Err(format!(
                "task {row} is to wait for {resource} and waits already"
            ));
        }
        self.watched.tasks.began += 1;
        self.tasks[row] = Some(Wait::new(resource.into(), limit));
        Ok(())
    }

    fn step(&mut self, call: [u8; 3], answer: &str, shown: Shown) -> Result<(), String> {
        if answer.starts_with("tick ") {
            self.count_tick();
        }
        self.begin(call, answer)?;
        let left = self.leave(call, answer)?;
        self.look_at_left(left, &shown)?;
        (0..MAX_TASKS).try_for_each(|row| self.look_at_task(row, &shown))?;
        (0..MAX_PROCESSORS * MAX_RESOURCES).try_for_each(|slot| {
            let who = (slot % MAX_PROCESSORS, slot / MAX_PROCESSORS);
            self.look_at_processor(who, left, &shown)
        })?;
        (0..MAX_RESOURCES).for_each(|q| self.count_turns(q, &shown));
        self.before = shown;
        Ok(())
    }
}

/// Watches a list whose case and line are given. A list on a refused plan has no waits.
pub fn list(case: &[u8], line: &str) -> Result<Watched, String> {
    let (length, rest) = case.split_first_chunk().ok_or("no case")?;
    let (file, calls) = rest.split_at(u16::from_le_bytes(*length).into());
    let (_, line) = line.trim_end().split_once(": ").ok_or("no label")?;
    let mut parts = line.split("; ");
    parts.next();
    let mut watch = Watch::new(file);
    for (number, &call) in calls.as_chunks().0.iter().enumerate() {
        let at = |what: String| format!("call {number}: {what}");
        let part = parts.next().ok_or_else(|| at("no answer".to_string()))?;
        let read = part
            .split_once(" | ")
            .and_then(|(answer, state)| Some((answer, shown(state)?)));
        let (answer, shown) = read.ok_or_else(|| at(format!("no state in {part:?}")))?;
        watch.step(call, answer, shown).map_err(at)?;
    }
    Ok(watch.watched)
}

#[cfg(test)]
mod tests {
    use super::*;
    use crate::given::{case, record};
    use peer::calls::TUNED;

    /// A fixed list, and what it shows.
    fn fixed(number: usize) -> (Vec<u8>, String) {
        let case = case(b'V', number);
        let line = peer::cases::line(&record(b'V', number, &case)[4..], &TUNED);
        (case, line.unwrap())
    }

    /// The list in which the last tick allowed is needed.
    fn at_the_limit() -> (Vec<u8>, String) {
        fixed(0)
    }

    /// The one in which, moreover, a task gives up and asks again, twice.
    fn with_give_ups() -> (Vec<u8>, String) {
        fixed(1)
    }

    /// The list with give-ups, where what stands behind call `number` is another, and what is then told.
    fn changed(number: usize, change: impl FnOnce(&str) -> String) -> String {
        let (case, line) = with_give_ups();
        let mut parts: Vec<_> = line.split("; ").map(str::to_string).collect();
        let part = &mut parts[number + 1];
        let new = change(part);
        assert_ne!(*part, new);
        *part = new;
        list(&case, &parts.join("; ")).unwrap_err()
    }

    #[test]
    fn a_state_is_taken_apart() {
        let queues = shown("0:3/5:1(1 2)0(0) 2:1/1:3(7)").unwrap();
        assert_eq!(queues[0], [(1, vec![1, 2]), (0, vec![0])]);
        assert_eq!(queues[2], [(3, vec![7])]);
        assert!(shown("nobody").unwrap().iter().all(Queue::is_empty));
        assert!(shown("0:3/5").is_none());
    }

    #[test]
    fn the_limit_is_reached() {
        let (case, line) = at_the_limit();
        let watched = list(&case, &line).unwrap();
        assert_eq!(watched.tasks.closest, (7, 7));
        assert_eq!(watched.processors.closest, (3, 3));
    }

    /// Of the three that wait the first has its fellow behind it; the one that is cut and asks again has none.
    #[test]
    fn the_longest_wait_is_told() {
        let (case, line) = at_the_limit();
        let limits = list(&case, &line).unwrap().limits;
        assert_eq!(limits.against.closest, (7, 7));
        assert_eq!((limits.against.began, limits.against.at_limit), (3, 2));
        assert_eq!(limits.behind, 1);
    }

    #[test]
    fn a_limit_above_the_longest_wait_is_seen() {
        let (case, line) = at_the_limit();
        let error = list(&case, &line.replace("waits 1 7", "waits 1 8")).unwrap_err();
        assert!(error.contains("told 8 ticks"), "{error}");
    }

    #[test]
    fn a_limit_told_too_low_is_seen() {
        let (case, line) = at_the_limit();
        let error = list(&case, &line.replace("waits 1 7", "waits 1 6")).unwrap_err();
        assert!(error.contains("tick 6 of 6"), "{error}");
    }

    /// One more tick in the place of a call that does nothing.
    #[test]
    fn a_tick_that_moves_nothing_is_seen() {
        let (case, line) = at_the_limit();
        let state = line
            .split("; ")
            .nth(2)
            .unwrap()
            .split_once(" | ")
            .unwrap()
            .1;
        let idle = format!("tick 0 0 0 | {state}");
        let parts: Vec<_> = line.split("; ").take(4).collect();
        let line = format!("{}; {}", parts.join("; "), vec![idle; 9].join("; "));
        assert!(list(&case, &line).is_err());
    }

    #[test]
    fn a_task_or_a_processor_that_vanishes_is_seen() {
        let (case, line) = at_the_limit();
        assert!(list(&case, &line.replacen("0(0 1)", "0(0)", 1)).is_err());
        assert!(list(&case, &line.replacen("0(0 1)", "", 1)).is_err());
    }

    /// Numbers of calls of the list with give-ups: the first give-up, the second, and the request after each.
    const FIRST: usize = 6;
    const SECOND: usize = 16;
    const LAST_REQUEST: usize = 19;

    #[test]
    fn a_wait_after_a_give_up_is_a_new_one() {
        let (case, line) = with_give_ups();
        let watched = list(&case, &line).unwrap();
        let tasks = watched.tasks;
        // Tags 1 and 2; 3 and 3 again; then 1, 3, and 3 again.
        assert_eq!((tasks.began, tasks.gave_up, tasks.ended), (7, 2, 5));
        assert_eq!((tasks.closest, tasks.at_limit), ((7, 7), 4));
        // Tag 2 waits while 3 gives up first, tag 1 while it does so again.
        assert_eq!((tasks.beside.ended, tasks.beside.at_limit), (2, 1));
        let processors = watched.processors;
        assert_eq!((processors.gave_up, processors.closest), (2, (3, 3)));
    }

    #[test]
    fn a_wait_that_ends_without_a_grant_and_without_a_give_up_is_seen() {
        for answer in ["refused 23", "tick 0 0 0", "free"] {
            let error = changed(FIRST, |part| part.replace("left", answer));
            assert!(error.contains("task 2 is not in line"), "{error}");
        }
    }

    #[test]
    fn a_wait_that_another_ones_give_up_ends_is_seen() {
        let error = changed(FIRST, |part| part.replace("0(0 1)", "0(0)"));
        assert!(error.contains("task 1 is not in line"), "{error}");
        let error = changed(SECOND, |part| part.replace("0(1 0)", "0(1)"));
        assert!(error.contains("task 0 is not in line"), "{error}");
    }

    #[test]
    fn a_task_that_left_and_is_in_line_is_seen() {
        let error = changed(FIRST, |part| part.replace("0(0 1)", "0(0 1)1(2)"));
        assert!(error.contains("task 2 left 0 and is in line"), "{error}");
    }

    /// By one who holds or is idle, by one who waits for another resource, by nobody; and where the call is no give-up.
    #[test]
    fn a_give_up_of_one_who_does_not_wait_is_seen() {
        let (case, _) = with_give_ups();
        let (length, rest) = case.split_first_chunk().unwrap();
        let mut watch = Watch::new(&rest[..u16::from_le_bytes(*length).into()]);
        watch.tasks[1] = Some(Wait::new(0, 9));
        for call in [b"W\x03\0", b"W\x02\x01", b"W\x09\0", b"Q\x02\0", b"R\x02\0"] {
            let error = watch.leave(*call, "left").err().unwrap();
            assert!(error.contains("does not wait"), "{error}");
        }
        let left = watch.leave(*b"W\x02\0", "left").unwrap();
        assert_eq!(left.map(|left| (left.row, left.resource)), Some((1, 0)));
    }

    #[test]
    fn a_new_limit_told_too_low_is_seen() {
        let error = changed(LAST_REQUEST, |part| part.replace("waits 0 3", "waits 0 2"));
        assert!(
            error.contains("task 2 waits for 0 at tick 2 of 2"),
            "{error}"
        );
    }

    /// The tick that would grant does not: the task and its processor count from the last request on.
    #[test]
    fn a_new_wait_past_its_limit_is_seen() {
        let error = changed(LAST_REQUEST + 3, |_| {
            "tick 0 0 0 | 0:1/1:0(0)1(2)".to_string()
        });
        assert!(
            error.contains("task 2 waits for 0 at tick 3 of 3"),
            "{error}"
        );
    }

    /// Here processor 0 has one task in line, and a fellow that asks and gives up; the processor must stay.
    #[test]
    fn a_processor_that_leaves_by_the_give_up_of_another_task_is_seen() {
        let mut watch = Watch::new(&[]);
        let left = Some(Left {
            row: 1,
            resource: 0,
        });
        watch.before[0] = vec![(1, vec![2]), (0, vec![0, 1])];
        watch.processors[0][0] = Some(Wait::new(0, 9));
        let gone = shown("0:1/1:1(2)").unwrap();
        let error = watch.look_at_processor((0, 0), left, &gone).unwrap_err();
        assert!(error.contains("place 1, then none"), "{error}");
        watch.before[0] = vec![(1, vec![2]), (0, vec![1])];
        assert!(watch.look_at_processor((0, 0), None, &gone).is_err());
        watch.look_at_processor((0, 0), left, &gone).unwrap();
    }
}
