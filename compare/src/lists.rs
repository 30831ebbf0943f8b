//! Lists of calls, three bytes each, made call by call beside the peer's machine, so that most calls do something.

use crate::random::Random;
use peer::calls::{Call, TUNED};
use peer::machine::{Standing, State};
use peer::{Plan, Section, MAX_RESOURCES};

pub const TICK: [u8; 3] = [b'T', 0, 0];

/// How often each kind of call comes up beside the others.
#[derive(Clone, Copy)]
pub struct Habits {
    pub requests: usize,
    pub releases: usize,
    pub give_ups: usize,
    pub ticks: usize,
    /// Calls that are mostly refused.
    pub wrong: usize,
    /// Bytes that are no call.
    pub odd: usize,
    /// How many ticks may follow each other.
    pub run: usize,
}

/// Every task asks again at once when it can, and nobody releases.
pub const GREEDY: Habits = Habits {
    requests: usize::MAX,
    releases: 0,
    give_ups: 0,
    ticks: 1,
    wrong: 0,
    odd: 0,
    run: 1,
};

/// As greedy, but now and then one that waits gives up, and then asks again.
pub const FICKLE: Habits = Habits {
    give_ups: 1,
    ..GREEDY
};
/// So many calls of a fickle list for each give-up.
const PATIENCE: usize = 6;

impl Habits {
    /// Some that fill the queues, some that empty them.
    pub fn some(random: &mut Random) -> Habits {
        match random.below(7) {
            0 => GREEDY,
            1 => FICKLE,
            kind => Habits {
                requests: random.within(2, 12),
                releases: random.within(0, 4),
                give_ups: random.within(0, 3),
                ticks: random.within(1, 4),
                wrong: kind % 2,
                odd: kind / 6,
                run: random.within(1, 12),
            },
        }
    }
}

/// The row of whoever holds resource q.
pub fn holder(plan: &Plan, state: &State, q: usize) -> Option<usize> {
    let line = state.lines[q];
    let first = |i: &usize| {
        let row = state.tasks[*i];
        usize::from(row.resource) == q
            && row.place == 0
            && plan.tasks[*i].processor == line.queue[0]
    };
    (0..usize::from(plan.counts.tasks)).find(first)
}

/// Makes a list, beside a machine that takes each call.
pub struct Maker<'a> {
    file: &'a [u8],
    plan: Plan,
    /// The sections on global resources, and those on local ones.
    shared: Vec<Section>,
    own: Vec<Section>,
    habits: Habits,
    ticks_left: usize,
    pub state: State,
}

pub(crate) fn is_global(plan: &Plan, resource: u8) -> bool {
    let sections = plan.sections[..plan.counts.sections.into()].iter();
    let mut users = sections
        .filter(|s| s.resource == resource)
        .map(|s| plan.tasks[usize::from(s.task)].processor);
    let first = users.next();
    users.any(|k| Some(k) != first)
}

impl<'a> Maker<'a> {
    /// Of a file that is refused the calls are as of an empty plan: ticks, and bytes of any kind.
    pub fn new(file: &'a [u8], habits: Habits) -> Maker<'a> {
        let plan = peer::read(file).unwrap_or_default();
        let global: [bool; MAX_RESOURCES] = std::array::from_fn(|q| is_global(&plan, q as u8));
        let sections = plan.sections.into_iter().take(plan.counts.sections.into());
        let (shared, own) = sections.partition(|s| global[usize::from(s.resource)]);
        Maker {
            file,
            plan,
            shared,
            own,
            habits,
            ticks_left: 0,
            state: State::FRESH,
        }
    }

    fn tag(&self, row: usize) -> u8 {
        self.plan.tasks[row].tag as u8
    }

    fn some_tag(&self, random: &mut Random) -> u8 {
        match usize::from(self.plan.counts.tasks) {
            0 => random.byte(),
            tasks => self.tag(random.below(tasks)),
        }
    }

    /// A section, from a random place on, of a task that is in line or of one that is not.
    fn section(&self, in_line: bool, random: &mut Random) -> Option<Section> {
        let count = self.shared.len();
        let start = random.below(count.max(1));
        let (behind, front) = self.shared.split_at(start.min(count));
        let mut found = front
            .iter()
            .chain(behind)
            .filter(|s| (self.state.tasks[usize::from(s.task)] != Standing::NONE) == in_line);
        found.next().copied()
    }

    fn request(&self, in_line: bool, random: &mut Random) -> Option<[u8; 3]> {
        let s = self.section(in_line, random)?;
        Some([b'Q', self.tag(s.task.into()), s.resource])
    }

    fn release(&self, random: &mut Random) -> Option<[u8; 3]> {
        let start = random.below(MAX_RESOURCES);
        let mut held = (start..start + MAX_RESOURCES).map(|q| q % MAX_RESOURCES);
        let q = held.find(|&q| self.state.lines[q].queued > 0)?;
        let row = holder(&self.plan, &self.state, q)?;
        Some([b'R', self.tag(row), q as u8])
    }

    /// A give-up of a task that waits, found from a random section on.
    fn give_up(&self, random: &mut Random) -> Option<[u8; 3]> {
        let start = random.below(self.shared.len().max(1));
        let (behind, front) = self.shared.split_at(start.min(self.shared.len()));
        let waits = |s: &&Section| {
            let (row, q) = (usize::from(s.task), usize::from(s.resource));
            self.state.tasks[row].resource == s.resource
                && holder(&self.plan, &self.state, q) != Some(row)
        };
        let s = front.iter().chain(behind).find(waits)?;
        Some([b'W', self.tag(s.task.into()), s.resource])
    }

    /// The same call with the letter of a give-up.
    fn as_give_up(call: Option<[u8; 3]>) -> Option<[u8; 3]> {
        call.map(|[_, tag, resource]| [b'W', tag, resource])
    }

    /// A call that is refused, but for some that happen to be right.
    fn wrong(&self, random: &mut Random) -> Option<[u8; 3]> {
        let letter = b"QRW"[random.below(3)];
        let resource = random.below(usize::from(self.plan.counts.resources) + 1) as u8;
        match random.below(11) {
            0 => Some([letter, random.byte(), resource]),
            1 => Some([letter, self.some_tag(random), random.byte()]),
            2..=3 => Some([letter, self.some_tag(random), resource]),
            4..=5 => self.request(true, random),
            6 => {
                let s = self.section(true, random)?;
                Some([b'R', self.tag(s.task.into()), s.resource])
            }
            // By the holder, by an idle task, and by one that is in line, most often for another resource.
            7 => Self::as_give_up(self.release(random)),
            8 => Self::as_give_up(self.request(false, random)),
            9 => Self::as_give_up(self.request(true, random)),
            _ => {
                let s = self.own.get(random.below(self.own.len().max(1)))?;
                Some([letter, self.tag(s.task.into()), s.resource])
            }
        }
    }

    /// Bytes that are no call, but for some that happen to be one.
    fn odd(&self, random: &mut Random) -> [u8; 3] {
        match random.below(4) {
            0 => [b'T', random.below(2) as u8, random.below(2) as u8],
            1 => [b'T', random.byte(), 0],
            2 => [b"qrtwSUP\0\n"[random.below(9)], self.some_tag(random), 0],
            _ => [random.byte(), random.byte(), random.byte()],
        }
    }

    fn choose(&mut self, random: &mut Random) -> [u8; 3] {
        if self.ticks_left > 0 {
            self.ticks_left -= 1;
            return TICK;
        }
        let h = self.habits;
        if h.requests == usize::MAX {
            let call = match h.give_ups > 0 && random.once_in(PATIENCE) {
                true => self.give_up(random),
                false => self.request(false, random),
            };
            return call.unwrap_or(TICK);
        }
        let kinds = [h.requests, h.releases, h.give_ups, h.wrong, h.odd, h.ticks];
        let mut at = random.below(kinds.iter().sum());
        let kind = kinds.iter().position(|&share| {
            let here = at < share;
            at = at.wrapping_sub(share);
            here
        });
        let call = match kind {
            Some(0) => self.request(false, random),
            Some(1) => self.release(random),
            Some(2) => self.give_up(random),
            Some(3) => self.wrong(random),
            Some(4) => Some(self.odd(random)),
            _ => {
                self.ticks_left = random.below(h.run);
                None
            }
        };
        call.unwrap_or(TICK)
    }

    /// The next call, made.
    pub fn next(&mut self, random: &mut Random) -> [u8; 3] {
        let call = self.choose(random);
        if let Some((_, next)) = TUNED.make(self.file, &self.state, Call::of(call)) {
            self.state = next;
        }
        call
    }

    pub fn list(&mut self, count: usize, random: &mut Random) -> Vec<u8> {
        (0..count).flat_map(|_| self.next(random)).collect()
    }
}
