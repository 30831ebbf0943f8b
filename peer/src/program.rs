//! The printing program of documents 01 and 02: a plan and then calls, and a line for each.

use crate::calls::{Call, Mode, OnFile, Operations};
use crate::machine::{Answer, Once, State};
use crate::{read, Counts, Offsets, Plan, HEADER};
use std::io::{self, ErrorKind, Read, Write};

const NO_CALL: u8 = 21;
const LEFT_OVER: u8 = 22;

/// How much is read and written at once. A plan is shorter.
const PIECE: usize = 64 * 1024;
const CALL: usize = 3;

/// The input, read in pieces, with what was read of it and not taken yet.
pub(crate) struct Source<'a, R> {
    input: &'a mut R,
    piece: Vec<u8>,
    start: usize,
    end: usize,
}

impl<'a, R: Read> Source<'a, R> {
    pub(crate) fn new(input: &'a mut R) -> Self {
        Source {
            input,
            piece: vec![0; PIECE],
            start: 0,
            end: 0,
        }
    }

    fn left(&self) -> &[u8] {
        &self.piece[self.start..self.end]
    }

    /// Reads on behind what is left; false at the end of the input.
    fn more(&mut self) -> io::Result<bool> {
        self.piece.copy_within(self.start..self.end, 0);
        self.end -= self.start;
        self.start = 0;
        loop {
            match self.input.read(&mut self.piece[self.end..]) {
                Err(error) if error.kind() == ErrorKind::Interrupted => continue,
                read => {
                    let count = read?;
                    self.end += count;
                    return Ok(count > 0);
                }
            }
        }
    }

    /// Reads on until `count` bytes are there, or all that there are.
    fn wait_for(&mut self, count: usize) -> io::Result<()> {
        while self.left().len() < count && self.more()? {}
        Ok(())
    }

    /// The plan at the front, as long as it says, or all there is where that is less.
    pub(crate) fn take_plan(&mut self) -> io::Result<Vec<u8>> {
        self.wait_for(HEADER)?;
        let stated = match self.left().first_chunk::<HEADER>() {
            Some(header) => usize::from(u16::from_le_bytes([header[14], header[15]])),
            None => HEADER,
        };
        self.wait_for(stated)?;
        let length = stated.min(self.left().len());
        let file = self.left()[..length].to_vec();
        self.start += length;
        Ok(file)
    }
}

/// Lines, gathered until they are written.
#[derive(Default)]
pub(crate) struct Lines(pub Vec<u8>);

impl Lines {
    pub(crate) fn text(&mut self, text: &[u8]) {
        self.0.extend_from_slice(text);
    }

    /// A space and the name.
    pub(crate) fn name(&mut self, name: &[u8]) {
        self.text(b" ");
        self.text(name);
    }

    /// A space and the digits.
    pub(crate) fn number(&mut self, number: u32) {
        let mut digits = [b' '; 11];
        let mut at = digits.len();
        let mut left = number;
        loop {
            at -= 1;
            digits[at] = b'0' + (left % 10) as u8;
            left /= 10;
            if left == 0 {
                break;
            }
        }
        self.text(&digits[at - 1..]);
    }

    /// A mark and the digits of a number that may be too long for the above.
    pub(crate) fn long(&mut self, mark: &[u8], number: u64) {
        self.text(mark);
        let mut digits = [0; 20];
        let mut at = digits.len();
        let mut left = number;
        loop {
            at -= 1;
            digits[at] = b'0' + (left % 10) as u8;
            left /= 10;
            if left == 0 {
                break;
            }
        }
        self.text(&digits[at..]);
    }

    /// A space, a minus where the number is below zero, and the digits.
    pub(crate) fn signed(&mut self, number: i64) {
        let mark: &[u8] = if number < 0 { b" -" } else { b" " };
        self.long(mark, number.unsigned_abs());
    }

    pub(crate) fn plan(&mut self, c: Counts) {
        self.text(b"plan");
        self.number(c.processors.into());
        self.number(c.tasks.into());
        self.number(c.resources.into());
        self.number(c.sections.into());
        self.text(b"\n");
    }

    pub(crate) fn refused(&mut self, number: u8) {
        self.text(b"refused");
        self.number(number.into());
        self.text(b"\n");
    }

    /// What is said of a task and a resource.
    fn said(&mut self, what: &[u8], call: Call, name: &[u8]) {
        self.text(what);
        self.number(call.tag.into());
        self.name(name);
    }

    fn answer(&mut self, call: Call, names: &[&[u8]], answer: Answer) {
        let name = names.get(usize::from(call.resource)).copied();
        let name = name.unwrap_or_default();
        match answer {
            Answer::Granted => self.said(b"granted", call, name),
            Answer::Waits { ahead, limit } => {
                self.said(b"waits", call, name);
                self.number(ahead.into());
                self.number(limit);
            }
            Answer::Next(tag) => {
                self.said(b"released", call, name);
                self.text(b" to");
                self.number(tag.into());
            }
            Answer::Free => {
                self.said(b"released", call, name);
                self.text(b" free");
            }
            Answer::Ticked { cuts, grants } => {
                self.text(b"tick");
                self.number(cuts.into());
                self.number(grants.into());
            }
            Answer::Left => self.said(b"left", call, name),
            Answer::Refused(number) => return self.refused(number),
        }
        self.text(b"\n");
    }

    fn write(&mut self, output: &mut impl Write) -> io::Result<()> {
        output.write_all(&self.0)?;
        self.0.clear();
        Ok(())
    }
}

/// The name of each resource of a checked plan, as the part of the file that holds it.
pub(crate) fn names<'a>(file: &'a [u8], plan: &Plan) -> Vec<&'a [u8]> {
    let mut rest = &file[Offsets::of(plan.counts).names..];
    let lengths = plan.lengths[..plan.counts.resources.into()].iter();
    let names = lengths.map(|&length| {
        let (name, behind) = rest.split_at(length.into());
        rest = behind;
        name
    });
    names.collect()
}

/// The operations on a plan file, and the state that the last call left.
pub(crate) struct Running<'a, O> {
    operations: O,
    names: Vec<&'a [u8]>,
    pub state: State,
}

impl<'a, O: Operations> Running<'a, O> {
    /// What a refused plan is answered has no name in it.
    pub fn new(operations: O, file: &'a [u8]) -> Self {
        Running {
            operations,
            names: read(file).map_or(Vec::new(), |plan| names(file, &plan)),
            state: State::FRESH,
        }
    }

    /// Makes a call and puts its line behind the others.
    pub fn call(&mut self, bytes: [u8; CALL], lines: &mut Lines) {
        let call = Call::of(bytes);
        match self.operations.make(&self.state, call) {
            Some((answer, next)) => {
                self.state = next;
                lines.answer(call, &self.names, answer);
            }
            None => lines.refused(NO_CALL),
        }
    }

    /// All calls to the end of the input. The lines of those that came in one piece are written before the next one is
    /// waited for.
    fn calls(
        &mut self,
        source: &mut Source<impl Read>,
        lines: &mut Lines,
        output: &mut impl Write,
    ) -> io::Result<()> {
        loop {
            let (whole, rest) = source.left().as_chunks();
            for &bytes in whole {
                self.call(bytes, lines);
                if lines.0.len() >= PIECE {
                    lines.write(output)?;
                }
            }
            lines.write(output)?;
            source.start = source.end - rest.len();
            if !source.more()? {
                break;
            }
        }
        if !source.left().is_empty() {
            lines.refused(LEFT_OVER);
        }
        Ok(())
    }
}

/// Reads a plan and calls to the end of the input, and writes their lines.
pub fn run(input: &mut impl Read, output: &mut impl Write, mode: &Mode) -> io::Result<()> {
    let mut source = Source::new(input);
    let mut lines = Lines(Vec::with_capacity(2 * PIECE));
    let file = &source.take_plan()?;
    match (read(file), mode) {
        (Ok(plan), Mode::Each(machine)) => {
            lines.plan(plan.counts);
            let operations = OnFile { machine, file };
            Running::new(operations, file).calls(&mut source, &mut lines, output)?;
        }
        (Ok(plan), Mode::Once) => {
            lines.plan(plan.counts);
            let operations = Once::new(&plan);
            Running::new(operations, file).calls(&mut source, &mut lines, output)?;
        }
        (Err(refusal), _) => lines.refused(refusal.number()),
    }
    lines.write(output)?;
    output.flush()
}

#[cfg(test)]
mod tests;
