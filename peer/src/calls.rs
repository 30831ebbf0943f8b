//! The operations of a machine by value, so that either machine can be handed to who makes calls, and a call by its letter.

use crate::machine::{Answer, Once, State};
use crate::{machine, plain, Plan};

#[derive(Clone, Copy)]
pub struct Machine {
    pub start: fn(&[u8]) -> (u8, State),
    pub request: fn(&[u8], &State, u16, u8) -> (Answer, State),
    pub release: fn(&[u8], &State, u16, u8) -> (Answer, State),
    pub give_up: fn(&[u8], &State, u16, u8) -> (Answer, State),
    pub tick: fn(&[u8], &State) -> (Answer, State),
    /// The state after a list of calls from a fresh state on.
    pub run: fn(&[u8], &[u8]) -> State,
    pub on_plan: OnPlan,
}

/// The operations on a checked plan, which change the state where it is; the refusal of one leaves it.
#[derive(Clone, Copy)]
pub struct OnPlan {
    pub request: fn(&Plan, &mut State, u16, u8) -> Result<Answer, u8>,
    pub release: fn(&Plan, &mut State, u16, u8) -> Result<Answer, u8>,
    pub give_up: fn(&Plan, &mut State, u16, u8) -> Result<Answer, u8>,
    pub tick: fn(&Plan, &mut State) -> Result<Answer, u8>,
}

/// The machine that is written for speed.
pub const TUNED: Machine = Machine {
    start: machine::start,
    request: machine::request,
    release: machine::release,
    give_up: machine::give_up,
    tick: machine::tick,
    run: |file, calls| machine::run(file, calls, &mut |_, _| ()),
    on_plan: OnPlan {
        request: machine::request_on,
        release: machine::release_on,
        give_up: machine::give_up_on,
        tick: machine::tick_on,
    },
};

/// The one that is written plainly.
pub const PLAIN: Machine = Machine {
    start: plain::start,
    request: plain::request,
    release: plain::release,
    give_up: plain::give_up,
    tick: plain::tick,
    run: plain::run,
    on_plan: OnPlan {
        request: plain::request_on,
        release: plain::release_on,
        give_up: plain::give_up_on,
        tick: plain::tick_on,
    },
};

/// How the calls on a plan are made.
#[derive(Clone, Copy)]
pub enum Mode {
    /// Each checks the plan and the state.
    Each(Machine),
    /// The tuned machine looks at the plan once, and each call checks the state.
    Once,
}

/// A letter, a tag and a resource. A tag is wider here than in a list, so that it can be one that no plan has.
#[derive(Clone, Copy, Debug, PartialEq, Eq)]
pub struct Call {
    pub letter: u8,
    pub tag: u16,
    pub resource: u8,
}

impl Call {
    /// A call of a list.
    pub fn of([letter, tag, resource]: [u8; 3]) -> Call {
        Call {
            letter,
            tag: tag.into(),
            resource,
        }
    }
}

/// The operations on one plan, with the state by value.
pub trait Operations {
    fn request(&mut self, state: &State, tag: u16, resource: u8) -> (Answer, State);
    fn release(&mut self, state: &State, tag: u16, resource: u8) -> (Answer, State);
    fn give_up(&mut self, state: &State, tag: u16, resource: u8) -> (Answer, State);
    fn tick(&mut self, state: &State) -> (Answer, State);

    /// The answer to a call, and the next state; none where it is no call: another letter, or a tick with a tag or a resource.
    #[inline]
    fn make(&mut self, state: &State, call: Call) -> Option<(Answer, State)> {
        let Call { tag, resource, .. } = call;
        match call.letter {
            b'Q' => Some(self.request(state, tag, resource)),
            b'R' => Some(self.release(state, tag, resource)),
            b'W' => Some(self.give_up(state, tag, resource)),
            b'T' if tag == 0 && resource == 0 => Some(self.tick(state)),
            _ => None,
        }
    }
}

/// A machine that is given the plan file with each call.
pub struct OnFile<'a> {
    pub machine: &'a Machine,
    pub file: &'a [u8],
}

impl Operations for OnFile<'_> {
    #[inline]
    fn request(&mut self, state: &State, tag: u16, resource: u8) -> (Answer, State) {
        (self.machine.request)(self.file, state, tag, resource)
    }

    #[inline]
    fn release(&mut self, state: &State, tag: u16, resource: u8) -> (Answer, State) {
        (self.machine.release)(self.file, state, tag, resource)
    }

    #[inline]
    fn give_up(&mut self, state: &State, tag: u16, resource: u8) -> (Answer, State) {
        (self.machine.give_up)(self.file, state, tag, resource)
    }

    #[inline]
    fn tick(&mut self, state: &State) -> (Answer, State) {
        (self.machine.tick)(self.file, state)
    }
}

impl Operations for Once<'_> {
    #[inline]
    fn request(&mut self, state: &State, tag: u16, resource: u8) -> (Answer, State) {
        Once::request(self, state, tag, resource)
    }

    #[inline]
    fn release(&mut self, state: &State, tag: u16, resource: u8) -> (Answer, State) {
        Once::release(self, state, tag, resource)
    }

    #[inline]
    fn give_up(&mut self, state: &State, tag: u16, resource: u8) -> (Answer, State) {
        Once::give_up(self, state, tag, resource)
    }

    #[inline]
    fn tick(&mut self, state: &State) -> (Answer, State) {
        Once::tick(self, state)
    }
}

impl Machine {
    /// As [`Operations::make`].
    #[inline]
    pub fn make(&self, file: &[u8], state: &State, call: Call) -> Option<(Answer, State)> {
        let machine = self;
        OnFile { machine, file }.make(state, call)
    }
}
