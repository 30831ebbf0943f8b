use super::*;
use crate::analysis::{budget, hold_time, wait_time};
use crate::samples::{bus, file, made, Numbers, LISTING};

#[test]
fn the_listing() {
    let file = bus();
    let (refusal, mut state) = start(&file);
    assert_eq!((refusal, state), (0, State::FRESH));
    let mut answers = Vec::new();
    for triple in LISTING.chunks_exact(3) {
        let tag = triple[1].into();
        let (answer, next) = match triple[0] {
            b'Q' => request(&file, &state, tag, 0),
            b'R' => release(&file, &state, tag, 0),
            _ => tick(&file, &state),
        };
        answers.push(answer);
        state = next;
    }
    let ticked = |cuts, grants| Answer::Ticked { cuts, grants };
    let expected = [
        Answer::Granted,
        Answer::Waits { ahead: 0, limit: 3 },
        ticked(0, 0),
        ticked(0, 0),
        ticked(1, 1),
        Answer::Refused(16),
        Answer::Free,
    ];
    assert_eq!(answers, expected);
    assert_eq!(state, State::FRESH);
    assert_eq!(run(&file, LISTING), state);
    let five = run(&file, &LISTING[..15]);
    assert_eq!(five.lines[0].queue, [0, 255, 255, 255, 255, 255, 255, 255]);
    assert_eq!((five.lines[0].hold_left, five.lines[0].budget_left), (2, 2));
    assert_eq!(
        run(&file, b"Q\x14\0T\0\x01X\0\0Q\x0a"),
        run(&file, b"Q\x14\0")
    );
}

#[test]
fn refusals_in_order() {
    let tasks = [(0, 10, 1, 100, 50), (1, 20, 1, 100, 50)];
    // Resource 1 is local to processor 0.
    let mut file = file(2, 2, &tasks, &[(0, 0, 2), (0, 1, 2), (1, 0, 3)]);
    let state = request(&file, &State::FRESH, 10, 0).1;
    let asked = |tag, resource| request(&file, &state, tag, resource);
    assert_eq!(asked(11, 2), (Answer::Refused(11), state));
    assert_eq!(asked(266, 0), (Answer::Refused(11), state));
    assert_eq!(asked(10, 2), (Answer::Refused(12), state));
    assert_eq!(asked(20, 1), (Answer::Refused(13), state));
    assert_eq!(asked(10, 1), (Answer::Refused(14), state));
    assert_eq!(asked(10, 0), (Answer::Refused(15), state));
    let released = |tag, resource| release(&file, &state, tag, resource);
    assert_eq!(released(11, 2), (Answer::Refused(11), state));
    assert_eq!(released(10, 2), (Answer::Refused(12), state));
    for (tag, resource) in [(10, 1), (20, 1), (20, 0)] {
        assert_eq!(released(tag, resource), (Answer::Refused(16), state));
    }
    let waiting = request(&file, &state, 20, 0).1;
    let left = |tag, resource| give_up(&file, &waiting, tag, resource);
    assert_eq!(left(11, 2), (Answer::Refused(11), waiting));
    assert_eq!(left(20, 2), (Answer::Refused(12), waiting));
    // The holder, a local resource, and one that is not declared.
    for (tag, resource) in [(10, 0), (10, 1), (20, 1)] {
        assert_eq!(left(tag, resource), (Answer::Refused(23), waiting));
    }
    assert_eq!(left(20, 0), (Answer::Left, state));
    assert_eq!(give_up(&file, &state, 20, 0), (Answer::Refused(23), state));
    let mut odd = state;
    odd.lines[15].hold_left = 1;
    let refused = |number| (Answer::Refused(number), odd);
    assert_eq!(request(&file, &odd, 11, 9), refused(19));
    assert_eq!(release(&file, &odd, 11, 9), refused(19));
    assert_eq!(give_up(&file, &odd, 11, 9), refused(19));
    assert_eq!(tick(&file, &odd), refused(19));
    file[0] = 2;
    assert_eq!(request(&file, &odd, 11, 9), refused(2));
    assert_eq!(release(&file, &odd, 11, 9), refused(2));
    assert_eq!(give_up(&file, &odd, 11, 9), refused(2));
    assert_eq!(tick(&file, &odd), refused(2));
    assert_eq!(start(&file), (2, State::FRESH));
}

/// Two tasks on each of three processors, all in line for one resource; tags 1 and 2 are those of processor 0, and so on.
fn six_in_line() -> (Vec<u8>, State) {
    let tasks: Vec<_> = (0..6)
        .map(|i| (i / 2, u16::from(i) + 1, 2 - i % 2, 100, 50))
        .collect();
    let sections: Vec<_> = (0..6).map(|i| (i, 0, 2)).collect();
    let file = file(3, 1, &tasks, &sections);
    let state = run(&file, b"Q\x01\0Q\x03\0Q\x05\0Q\x02\0Q\x04\0Q\x06\0T\0\0");
    (file, state)
}

#[test]
fn who_stands_where_after_a_give_up() {
    let (file, state) = six_in_line();
    let standing = |place| Standing { resource: 0, place };
    for (tag, row, moved) in [(2, 1, None), (3, 2, Some(3)), (4, 3, None), (5, 4, Some(5))] {
        let (answer, next) = give_up(&file, &state, tag, 0);
        let mut expected = state;
        expected.tasks[row] = Standing::NONE;
        if let Some(row) = moved {
            expected.tasks[row] = standing(0);
        }
        assert_eq!((answer, next), (Answer::Left, expected));
    }
}

#[test]
fn a_processor_left_with_no_task_leaves() {
    let (file, state) = six_in_line();
    for (calls, queue) in [([3, 4], [0, 2]), ([6, 5], [0, 1])] {
        let mut next = state;
        for tag in calls {
            assert_eq!(next.lines[0].queue[..3], [0, 1, 2]);
            let (answer, after) = give_up(&file, &next, tag, 0);
            assert_eq!(answer, Answer::Left);
            next = after;
        }
        assert_eq!(next.lines[0].queued, 2);
        assert_eq!(next.lines[0].queue[..3], [queue[0], queue[1], NONE]);
        assert_eq!((next.lines[0].hold_left, next.lines[0].budget_left), (1, 1));
        let (answer, again) = request(&file, &next, calls[1], 0);
        assert_eq!(answer, Answer::Waits { ahead: 0, limit: 4 });
        assert_eq!(again.lines[0].queue[2], (calls[1] as u8 - 1) / 2);
    }
}

#[test]
fn states_that_are_not_sound() {
    // Two tasks on processor 0, one on processor 1; processor 1 heads, both others wait.
    let tasks = [
        (0, 10, 2, 100, 50),
        (0, 11, 1, 100, 50),
        (1, 20, 1, 100, 50),
    ];
    let file = file(3, 2, &tasks, &[(0, 0, 2), (1, 0, 4), (2, 0, 3), (2, 1, 3)]);
    let state = run(&file, b"Q\x14\0Q\x0a\0Q\x0b\0");
    assert_ne!(tick(&file, &state).0, Answer::Refused(19));
    let standing = |resource, place| Standing { resource, place };
    let changes: &[&dyn Fn(&mut State)] = &[
        &|s| s.lines[0].queued = 1,
        &|s| s.lines[0].queued = 3,
        &|s| s.lines[0].queued = 9,
        &|s| s.lines[0].queue[1] = 1,
        &|s| s.lines[0].queue[1] = 2,
        &|s| s.lines[0].queue[1] = 8,
        &|s| s.lines[0].queue[2] = 0,
        &|s| s.lines[0].queue[7] = 254,
        &|s| (s.lines[0].queued, s.lines[0].queue[2]) = (3, 0),
        &|s| (s.lines[0].queued, s.lines[0].queue[2]) = (3, 2),
        &|s| s.lines[0].hold_left = 0,
        &|s| s.lines[0].hold_left = 4,
        &|s| s.lines[0].budget_left = 2,
        &|s| s.lines[0].budget_left = 4,
        &|s| s.lines[0] = Line::FREE,
        &|s| s.lines[1].queue[0] = 0,
        &|s| s.lines[1].budget_left = 1,
        &|s| s.lines[2].queued = 1,
        &|s| s.tasks[0] = Standing::NONE,
        &|s| s.tasks[0] = standing(0, 1),
        &|s| s.tasks[1] = standing(0, 2),
        &|s| s.tasks[1] = standing(0, 255),
        &|s| s.tasks[1] = standing(255, 1),
        &|s| s.tasks[1] = standing(16, 0),
        &|s| s.tasks[2] = standing(1, 0),
        &|s| s.tasks[3] = standing(0, 0),
        &|s| s.tasks[63] = standing(255, 0),
    ];
    for (number, change) in changes.iter().enumerate() {
        let mut changed = state;
        change(&mut changed);
        let refused = (Answer::Refused(19), changed);
        assert_eq!(tick(&file, &changed), refused, "change {number}");
    }
}

/// The machine with queues as vectors, on the figures that the analysis answers.
struct Model<'a> {
    file: &'a [u8],
    plan: &'a Plan,
    processors: Vec<Vec<u8>>,
    /// By resource and processor.
    tasks: Vec<Vec<Vec<usize>>>,
    /// Hold left and budget left.
    left: Vec<(u32, u32)>,
    sent_back: usize,
    /// Of these, the processors that were alone.
    lone: usize,
    /// How often a processor left by a give-up.
    left_queue: usize,
}

impl<'a> Model<'a> {
    fn new(file: &'a [u8], plan: &'a Plan) -> Self {
        Model {
            file,
            plan,
            processors: vec![vec![]; 16],
            tasks: vec![vec![vec![]; 8]; 16],
            left: vec![(0, 0); 16],
            sent_back: 0,
            lone: 0,
            left_queue: 0,
        }
    }

    fn hold(&self, row: usize, q: u8) -> Result<u32, u8> {
        hold_time(self.file, self.plan.tasks[row].tag, q)
    }

    fn row(&self, tag: u16) -> Option<usize> {
        let n = usize::from(self.plan.counts.tasks);
        (0..n).find(|&row| self.plan.tasks[row].tag == tag)
    }

    fn holder(&self, q: usize) -> Option<usize> {
        let head = *self.processors[q].first()?;
        Some(self.tasks[q][usize::from(head)][0])
    }

    fn begin(&mut self, q: usize) {
        let hold = self.hold(self.holder(q).unwrap(), q as u8).unwrap();
        let whole = budget(self.file, self.processors[q][0], q as u8).unwrap();
        self.left[q] = (hold, whole);
    }

    fn request(&mut self, tag: u16, resource: u8) -> Answer {
        if let Err(number) = hold_time(self.file, tag, resource) {
            return Answer::Refused(number);
        }
        let (q, row) = (usize::from(resource), self.row(tag).unwrap());
        if self.tasks.iter().flatten().flatten().any(|&t| t == row) {
            return Answer::Refused(15);
        }
        let k = self.plan.tasks[row].processor;
        let before = self.tasks[q][usize::from(k)].clone();
        self.tasks[q][usize::from(k)].push(row);
        let free = self.processors[q].is_empty();
        if !self.processors[q].contains(&k) {
            self.processors[q].push(k);
        }
        if free {
            self.begin(q);
            return Answer::Granted;
        }
        let holds: u32 = before
            .iter()
            .map(|&t| self.hold(t, resource).unwrap())
            .sum();
        let wait = wait_time(self.file, k, resource).unwrap();
        Answer::Waits {
            ahead: before.len() as u8,
            limit: holds + (before.len() as u32 + 1) * wait,
        }
    }

    fn end(&mut self, q: usize) -> Option<usize> {
        let head = self.processors[q][0];
        let queue = &mut self.tasks[q][usize::from(head)];
        queue.remove(0);
        let next = queue.first().copied();
        let hold = next.map(|row| self.hold(row, q as u8).unwrap());
        match hold {
            Some(hold) if hold <= self.left[q].1 => {
                self.left[q].0 = hold;
                return next;
            }
            Some(_) => {
                self.sent_back += 1;
                self.lone += usize::from(self.processors[q].len() == 1);
                self.processors[q].rotate_left(1);
            }
            None => {
                self.processors[q].remove(0);
            }
        }
        if self.processors[q].is_empty() {
            self.left[q] = (0, 0);
            return None;
        }
        self.begin(q);
        self.holder(q)
    }

    fn release(&mut self, tag: u16, resource: u8) -> Answer {
        let Some(row) = self.row(tag) else {
            return Answer::Refused(11);
        };
        if resource >= self.plan.counts.resources {
            return Answer::Refused(12);
        }
        if self.holder(resource.into()) != Some(row) {
            return Answer::Refused(16);
        }
        match self.end(resource.into()) {
            Some(next) => Answer::Next(self.plan.tasks[next].tag),
            None => Answer::Free,
        }
    }

    fn give_up(&mut self, tag: u16, resource: u8) -> Answer {
        let Some(row) = self.row(tag) else {
            return Answer::Refused(11);
        };
        if resource >= self.plan.counts.resources {
            return Answer::Refused(12);
        }
        let (q, k) = (usize::from(resource), self.plan.tasks[row].processor);
        let holds = self.holder(q) == Some(row);
        let queue = &mut self.tasks[q][usize::from(k)];
        match queue.iter().position(|&t| t == row) {
            Some(place) if !holds => queue.remove(place),
            _ => return Answer::Refused(23),
        };
        if queue.is_empty() {
            self.processors[q].retain(|&p| p != k);
            self.left_queue += 1;
        }
        Answer::Left
    }

    /// The tags of those who wait for a resource.
    fn waiting(&self, q: usize) -> Vec<u16> {
        let holder = self.holder(q);
        let rows = self.tasks[q].iter().flatten();
        rows.filter(|&&row| Some(row) != holder)
            .map(|&row| self.plan.tasks[row].tag)
            .collect()
    }

    fn tick(&mut self) -> Answer {
        let (mut cuts, mut grants) = (0, 0);
        for q in 0..16 {
            if self.processors[q].is_empty() {
                continue;
            }
            self.left[q].0 -= 1;
            self.left[q].1 -= 1;
            if self.left[q].0 == 0 {
                cuts += 1 << q;
                grants += u16::from(self.end(q).is_some()) << q;
            }
        }
        Answer::Ticked { cuts, grants }
    }

    fn state(&self) -> State {
        let mut state = State::FRESH;
        for q in 0..16 {
            let line = &mut state.lines[q];
            line.queued = self.processors[q].len() as u8;
            for (to, &k) in line.queue.iter_mut().zip(&self.processors[q]) {
                *to = k;
            }
            line.hold_left = self.left[q].0 as u16;
            line.budget_left = self.left[q].1 as u16;
            for queue in &self.tasks[q] {
                for (place, &row) in (0..).zip(queue) {
                    let resource = q as u8;
                    state.tasks[row] = Standing { resource, place };
                }
            }
        }
        state
    }
}

#[test]
fn random_lists_agree_with_the_model() {
    let mut n = Numbers(7);
    let (mut sent_back, mut lone) = (0, 0);
    let (mut cuts, mut waits, mut nexts) = (0, 0, 0);
    let (mut left, mut left_queue) = (0, 0);
    for round in 0..300 {
        let most = if round % 10 == 0 {
            [8, 64, 16, 255]
        } else {
            [4, 12, 4, 40]
        };
        let (plan, file) = made(&mut n, most, false);
        let mut model = Model::new(&file, &plan);
        let mut state = start(&file).1;
        let mut calls = Vec::new();
        for _ in 0..300 {
            // Now and then a tag or resource that the plan does not have.
            let row = n.below(plan.counts.tasks.into());
            let mut tag = plan.tasks[row].tag;
            let mut resource = n.below(plan.counts.resources.into()) as u8;
            match n.below(40) {
                0 => tag = n.below(256) as u16,
                1 => resource = n.below(256) as u8,
                _ => (),
            }
            let letter = b"QQQQRRWT"[n.below(8)];
            if letter == b'W' && n.below(4) > 0 {
                let waiting = model.waiting(usize::from(resource) % 16);
                tag = n.one_of(&waiting).unwrap_or(tag);
            }
            if letter == b'R' && n.below(3) > 0 {
                if let Some(holder) = model.holder(usize::from(resource) % 16) {
                    tag = plan.tasks[holder].tag;
                }
            }
            let (expected, (answer, next)) = match letter {
                b'Q' => (
                    model.request(tag, resource),
                    request(&file, &state, tag, resource),
                ),
                b'R' => (
                    model.release(tag, resource),
                    release(&file, &state, tag, resource),
                ),
                b'W' => (
                    model.give_up(tag, resource),
                    give_up(&file, &state, tag, resource),
                ),
                _ => (model.tick(), tick(&file, &state)),
            };
            assert_eq!(answer, expected);
            assert_eq!(next, model.state());
            match answer {
                Answer::Ticked { cuts: c, .. } => cuts += c.count_ones(),
                Answer::Waits { .. } => waits += 1,
                Answer::Next(_) => nexts += 1,
                Answer::Left => left += 1,
                _ => (),
            }
            state = next;
            calls.extend(if letter == b'T' {
                [b'T', 0, 0]
            } else {
                [letter, tag as u8, resource]
            });
        }
        assert_eq!(run(&file, &calls), state);
        sent_back += model.sent_back;
        lone += model.lone;
        left_queue += model.left_queue;
    }
    assert!(lone > 20 && sent_back - lone > 50, "{sent_back} {lone}");
    assert!(
        cuts > 500 && waits > 500 && nexts > 500,
        "{cuts} {waits} {nexts}"
    );
    assert!(
        left_queue > 500 && left - left_queue > 500,
        "{left} {left_queue}"
    );
}
