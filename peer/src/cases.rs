//! The cases of the proved code's case program: the line it is to print for each, by the peer.
//!
//! A record is a kind, a label with its length before it, and the case. What a case holds stands at the function of its kind.
//! Where a case prints a sheet or the lines of many calls, its line is followed by those.

use crate::calls::{Call, Machine, OnFile};
use crate::machine::{Answer, Line, Standing, State};
use crate::program::{Lines, Running};
use crate::{analysis, image, name, read, sheet, write, Counts, Plan, Refusal, Section, Task};
use crate::{MAX_FILE, MAX_TASKS};

/// What a buffer holds before something is written to it.
const UNTOUCHED: u8 = 170;
/// The most room a write case has.
pub const ROOM: usize = 2048;
const _: () = assert!(MAX_FILE <= ROOM);
/// The most room a sheet has.
pub const SHEET_ROOM: usize = 128 * 1024;
/// The most room that the lines of many calls have.
pub const LINES_ROOM: usize = 1024;
/// A call is made where so many bytes are left, which no line needs.
pub const LONGEST_LINE: usize = 96;

/// Takes a record apart from the front. Past its end a byte is 0 and a part is empty.
struct Bytes<'a>(&'a [u8]);

impl<'a> Bytes<'a> {
    fn take(&mut self, count: usize) -> &'a [u8] {
        let (front, rest) = self.0.split_at_checked(count).unwrap_or((&[], &[]));
        self.0 = rest;
        front
    }

    fn byte(&mut self) -> u8 {
        self.take(1).first().copied().unwrap_or(0)
    }

    fn word(&mut self) -> u16 {
        u16::from_le_bytes([self.byte(), self.byte()])
    }

    /// Four bytes.
    fn long(&mut self) -> usize {
        usize::from(self.word()) + (usize::from(self.word()) << 16)
    }

    /// A part with its length in two bytes before it.
    fn part(&mut self) -> &'a [u8] {
        let length = self.word().into();
        self.take(length)
    }

    /// A call with a tag of two bytes.
    fn call(&mut self) -> Call {
        Call {
            letter: self.byte(),
            tag: self.word(),
            resource: self.byte(),
        }
    }
}

fn told(answer: Result<String, u8>) -> String {
    answer.unwrap_or_else(|number| format!("refused {number}"))
}

/// Four bytes of length, and the file, with zeros behind where it is shorter.
fn reading(mut case: Bytes) -> String {
    let length = case.long();
    let mut file = case.0.to_vec();
    file.resize(length, 0);
    let shown = |plan: Plan| {
        let c = plan.counts;
        format!(
            "plan {} {} {} {}",
            c.processors, c.tasks, c.resources, c.sections
        )
    };
    told(read(&file).map(shown).map_err(Refusal::number))
}

/// A resource, and the file.
fn naming(mut case: Bytes) -> String {
    let resource = case.byte();
    let shown = |name: &[u8]| String::from_utf8_lossy(name).into_owned();
    told(name(case.0, resource).map(shown).map_err(Refusal::number))
}

/// As many rows of each kind as `given` says.
fn rows(case: &mut Bytes, plan: &mut Plan, given: [u8; 3]) {
    for task in &mut plan.tasks[..given[0].into()] {
        *task = Task {
            processor: case.byte(),
            tag: case.word(),
            priority: case.byte(),
            period: case.word(),
            execution: case.word(),
        };
    }
    for length in &mut plan.lengths[..given[1].into()] {
        *length = case.byte();
    }
    for section in &mut plan.sections[..given[2].into()] {
        *section = Section {
            task: case.byte(),
            resource: case.byte(),
            length: case.word(),
        };
    }
}

/// The plan with what lies past its counts made zero, as a reader gives it.
fn trimmed(mut plan: Plan) -> Plan {
    plan.tasks[plan.counts.tasks.into()..].fill(Task::default());
    plan.lengths[plan.counts.resources.into()..].fill(0);
    plan.sections[plan.counts.sections.into()..].fill(Section::default());
    plan
}

fn untouched(bytes: &[u8]) -> bool {
    bytes.iter().all(|&b| b == UNTOUCHED)
}

/// The counts; the room, the lengths of the names and of the expected file; how many rows of each kind are given; then the
/// names, the expected file and the rows.
fn writing(mut case: Bytes) -> String {
    let mut plan = Plan {
        counts: Counts {
            processors: case.byte(),
            tasks: case.byte(),
            resources: case.byte(),
            sections: case.word(),
        },
        ..Plan::default()
    };
    let [room, names, expected] = [case.word(), case.word(), case.word()].map(usize::from);
    let given = [case.byte(), case.byte(), case.byte()];
    let (names, expected) = (case.take(names), case.take(expected));
    rows(&mut case, &mut plan, given);
    let mut buffer = [UNTOUCHED; ROOM];
    match write(&plan, names, &mut buffer[..room.min(ROOM)]) {
        Ok(length) => {
            let same = buffer[..length] == *expected && untouched(&buffer[length..]);
            let again = read(&buffer[..length]) == Ok(trimmed(plan));
            let same = if same { "same" } else { "differs" };
            let again = if again { " again" } else { "" };
            format!("written {length} {same}{again}")
        }
        Err(refusal) => not_written(refusal, &buffer),
    }
}

fn not_written(refusal: Refusal, buffer: &[u8]) -> String {
    let un = if untouched(buffer) { "un" } else { "" };
    format!("refused {} {un}changed", refusal.number())
}

/// A tag in two bytes, a resource, and the file.
fn using(mut case: Bytes, what: &str, ask: fn(&[u8], u16, u8) -> Result<u32, u8>) -> String {
    let (tag, resource) = (case.word(), case.byte());
    told(ask(case.0, tag, resource).map(|n| format!("{what} {n}")))
}

/// A processor, a resource, and the file.
fn sharing(mut case: Bytes, what: &str, ask: fn(&[u8], u8, u8) -> Result<u32, u8>) -> String {
    let (processor, resource) = (case.byte(), case.byte());
    told(ask(case.0, processor, resource).map(|n| format!("{what} {n}")))
}

/// A tag in two bytes, and the file.
fn requiring(mut case: Bytes) -> String {
    let tag = case.word();
    told(analysis::requirement(case.0, tag).map(|r| {
        let met = if r.met { "met" } else { "unmet" };
        format!(
            "requirement {} {} {} {} {} {met}",
            r.blocking1, r.blocking2, r.tolerance, r.slack, r.side
        )
    }))
}

/// The file.
fn admitting(case: Bytes) -> String {
    let word = |admitted| if admitted { "admitted" } else { "not admitted" };
    told(analysis::admission(case.0).map(|admitted| word(admitted).to_string()))
}

/// The file. All hold times that are not 0, by resource and then by task.
fn all_holds(case: Bytes) -> String {
    told(analysis::hold_times(case.0).map(|times| {
        let held = times.iter().filter(|&&hold| hold != 0);
        held.fold("holds".to_string(), |line, hold| format!("{line} {hold}"))
    }))
}

/// The room in four bytes, and the file. The sheet stands on lines of its own, without its end.
fn sheet_in(mut case: Bytes) -> String {
    let room = case.long().min(SHEET_ROOM);
    let mut buffer = vec![UNTOUCHED; SHEET_ROOM];
    match sheet::write(case.0, &mut buffer[..room]) {
        Ok(length) => {
            let (sheet, behind) = buffer.split_at(length);
            let right = if untouched(behind) { "right" } else { "wrong" };
            let lines = String::from_utf8_lossy(&sheet[..length - 1]);
            format!("sheet {length} {right}\n{lines}")
        }
        Err(refusal) => not_written(refusal, &buffer),
    }
}

fn answered(answer: Answer) -> Result<String, u8> {
    Ok(match answer {
        Answer::Granted => "granted".to_string(),
        Answer::Waits { ahead, limit } => format!("waits {ahead} {limit}"),
        Answer::Next(tag) => format!("to {tag}"),
        Answer::Free => "free".to_string(),
        Answer::Ticked { cuts, grants } => format!("tick {cuts} {grants} {}", cuts.count_ones()),
        Answer::Left => "left".to_string(),
        Answer::Refused(number) => return Err(number),
    })
}

/// The answer to a call, and the next state; "none" where it is no call.
fn made(machine: &Machine, file: &[u8], state: &State, call: Call) -> (Result<String, u8>, State) {
    match machine.make(file, state, call) {
        Some((answer, next)) => (answered(answer), next),
        None => (Ok("none".to_string()), *state),
    }
}

/// Processor `k`, and its tasks in line for `q` in order of place. A state that is not sound is shown too.
fn turn(plan: &Plan, state: &State, q: usize, k: u8) -> String {
    let in_line = |u: &usize| {
        let s = state.tasks[*u];
        plan.tasks[*u].processor == k
            && usize::from(s.resource) == q
            && usize::from(s.place) < MAX_TASKS
    };
    let mut tasks: Vec<_> = (0..MAX_TASKS).filter(in_line).collect();
    tasks.sort_by_key(|&u| state.tasks[u].place);
    let shown = tasks.iter().map(|&u| match state.tasks[u].place {
        0 => u.to_string(),
        _ => format!(" {u}"),
    });
    format!("{k}({})", shown.collect::<String>())
}

/// The resources that are held, and by whom.
fn shown(plan: &Plan, state: &State) -> String {
    let mut held = String::new();
    for (q, line) in state.lines.iter().enumerate() {
        if line.queued != 0 {
            held += &format!(" {q}:{}/{}:", line.hold_left, line.budget_left);
            for &k in line.queue.iter().take(line.queued.into()) {
                held += &turn(plan, state, q, k);
            }
        }
    }
    format!(" |{}", if held.is_empty() { " nobody" } else { &held })
}

/// The length of the file in two bytes, the file, and calls of three bytes each. What the last state shows stands at the end;
/// with `each`, what each state shows behind its call.
fn listing(mut case: Bytes, machine: &Machine, each: bool) -> String {
    let (file, calls) = (case.part(), case.0);
    let plan = read(file).unwrap_or_default();
    let (refusal, mut state) = (machine.start)(file);
    let mut line = match refusal {
        0 => "start".to_string(),
        _ => told(Err(refusal)),
    };
    for &bytes in calls.as_chunks().0 {
        let (answer, next) = made(machine, file, &state, Call::of(bytes));
        line += "; ";
        line += &told(answer);
        state = next;
        if each {
            line += &shown(&plan, &state);
        }
    }
    if !each {
        let same = (machine.run)(file, calls) == state;
        line += &shown(&plan, &state);
        line += if same { " run" } else { " run differs" };
    }
    line
}

/// What comes before anything that is printed: the number of the plan or of the state. A tick refuses nothing further.
fn before_lines(machine: &Machine, file: &[u8], state: &State) -> Option<u8> {
    match (machine.tick)(file, state).0 {
        Answer::Refused(number) => Some(number),
        _ => None,
    }
}

fn unchanged(number: u8) -> String {
    format!("refused {number} unchanged")
}

/// The length of the file in two bytes, the file, a state where one is given, the room for a line, and calls of three bytes each: the
/// lines of the printing program. A call whose line has no room is refused and not made.
fn printing(mut case: Bytes, machine: &Machine, given: bool) -> String {
    let file = case.part();
    let mut running = Running::new(OnFile { machine, file }, file);
    running.state = match given {
        true => state(&mut case),
        false => (machine.start)(file).1,
    };
    let room = case.byte().into();
    let mut line = (if given { "state" } else { "start" }).to_string();
    for &bytes in case.0.as_chunks().0 {
        let before = running.state;
        line += "; ";
        if let Some(number) = before_lines(machine, file, &before) {
            line += &unchanged(number);
            continue;
        }
        let mut lines = Lines::default();
        running.call(bytes, &mut lines);
        if lines.0.len() > room {
            running.state = before;
            line += &unchanged(Refusal::BufferTooShort.number());
        } else {
            line += String::from_utf8_lossy(&lines.0).trim_end();
        }
    }
    line
}

/// The length of the file in two bytes, the file, a state, the room in two bytes, and calls of three bytes each: their lines in one
/// buffer, as long as the longest has room. What the state shows stands before the lines.
fn printing_at_once(mut case: Bytes, machine: &Machine) -> String {
    let file = case.part();
    let mut running = Running::new(OnFile { machine, file }, file);
    running.state = state(&mut case);
    let room = usize::from(case.word()).min(LINES_ROOM);
    if let Some(number) = before_lines(machine, file, &running.state) {
        return unchanged(number);
    }
    let calls = case.0.as_chunks().0;
    if !calls.is_empty() && room < LONGEST_LINE {
        return unchanged(Refusal::BufferTooShort.number());
    }
    let (mut used, mut lines) = (0, Lines::default());
    for &bytes in calls {
        if room - lines.0.len() < LONGEST_LINE {
            break;
        }
        running.call(bytes, &mut lines);
        used += bytes.len();
    }
    let (length, shown) = (
        lines.0.len(),
        shown(&read(file).unwrap_or_default(), &running.state),
    );
    let text = String::from_utf8_lossy(&lines.0);
    let text = text
        .lines()
        .fold(String::new(), |all, line| all + "\n" + line);
    format!("lines {used} {length} right{shown}{text}")
}

/// A state: for each resource how many are queued, the processors, the hold left and the budget left; then each task's
/// resource and place.
fn state(case: &mut Bytes) -> State {
    let mut state = State::FRESH;
    for line in &mut state.lines {
        *line = Line {
            queued: case.byte(),
            queue: std::array::from_fn(|_| case.byte()),
            hold_left: case.word(),
            budget_left: case.word(),
        };
    }
    for task in &mut state.tasks {
        *task = Standing {
            resource: case.byte(),
            place: case.byte(),
        };
    }
    state
}

/// The bytes of a state in a case.
pub fn state_bytes(state: &State) -> Vec<u8> {
    let mut bytes = Vec::new();
    for line in &state.lines {
        bytes.push(line.queued);
        bytes.extend(line.queue);
        bytes.extend(line.hold_left.to_le_bytes());
        bytes.extend(line.budget_left.to_le_bytes());
    }
    bytes.extend(state.tasks.iter().flat_map(|t| [t.resource, t.place]));
    bytes
}

/// The length of the file in two bytes, the file, a state, and a call with a tag of two bytes.
fn calling(mut case: Bytes, machine: &Machine) -> String {
    let file = case.part();
    let state = state(&mut case);
    let (answer, next) = made(machine, file, &state, case.call());
    let un = if next == state { "un" } else { "" };
    let after = match answer {
        Ok(_) => shown(&read(file).unwrap_or_default(), &next),
        Err(_) => String::new(),
    };
    format!("{} {un}changed{after}", told(answer))
}

fn numbers(bytes: &[u8]) -> String {
    bytes.iter().map(|byte| format!(" {byte}")).collect()
}

/// The file and an image, each with its length in two bytes before it, and a call with a tag of two bytes, whose letter may be that of a
/// start: the eight bytes of its answer, and all that was lent as it then is.
fn calling_on_image(mut case: Bytes, machine: &Machine) -> String {
    let (file, mut lent) = (case.part(), case.part().to_vec());
    match image::call(machine, file, &mut lent, case.call()) {
        Some(word) => format!("word{} |{}", numbers(&word.to_le_bytes()), numbers(&lent)),
        None => "none".to_string(),
    }
}

/// The file and an image, each with its length in two bytes before it, and a byte: a tick on a copy of the image for each of its bytes,
/// which there alone is xored with that byte. How many were refused 25, how many otherwise, and how many were accepted.
fn changing_each_byte(mut case: Bytes, machine: &Machine) -> String {
    let (file, lent, mask) = (case.part(), case.part(), case.byte());
    let (mut not_sound, mut otherwise, mut accepted) = (0, 0, 0);
    for at in 0..lent.len() {
        let mut copy = lent.to_vec();
        copy[at] ^= mask;
        match image::tick(machine, file, &mut copy).to_le_bytes()[0] {
            0 => accepted += 1,
            image::NOT_SOUND => not_sound += 1,
            _ => otherwise += 1,
        }
    }
    format!("counts {not_sound} {otherwise} {accepted}")
}

/// The line for a record, its calls made by this machine, with the lines that it prints; none for a kind that is not known.
pub fn line(record: &[u8], machine: &Machine) -> Option<String> {
    let mut case = Bytes(record);
    let kind = case.byte();
    let length = case.byte().into();
    let label = String::from_utf8_lossy(case.take(length));
    let result = match kind {
        b'R' => reading(case),
        b'N' => naming(case),
        b'W' => writing(case),
        b'H' => using(case, "hold", analysis::hold_time),
        b'G' => using(case, "longest", analysis::longest_wait),
        b'B' => sharing(case, "budget", analysis::budget),
        b'T' => sharing(case, "wait", analysis::wait_time),
        b'Q' => requiring(case),
        b'A' => admitting(case),
        b'L' => all_holds(case),
        b'D' => sheet_in(case),
        b'M' => listing(case, machine, false),
        b'V' => listing(case, machine, true),
        b'S' => calling(case, machine),
        b'P' => printing(case, machine, false),
        b'O' => printing(case, machine, true),
        b'E' => printing_at_once(case, machine),
        b'I' => calling_on_image(case, machine),
        b'F' => changing_each_byte(case, machine),
        _ => return None,
    };
    Some(format!("{label}: {result}"))
}

#[cfg(test)]
mod tests;
