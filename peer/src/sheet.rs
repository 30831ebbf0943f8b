//! The sheet of a plan: what the analysis says of its resources, processors and tasks, one fact a line.

use crate::analysis::{processor, tasks, Figures};
use crate::program::{names, Lines, Source};
use crate::{read, Plan, Refusal};
use std::io::{self, Read, Write};

/// No sheet is longer: 1, 16, 128, 255, 64 and 1 lines of at most 17, 29, 35, 39, 66 and 13 bytes.
const ROOM: usize = 20 * 1024;

/// A checked plan, its names, and the tables that are gathered once for all lines.
struct Facts<'a> {
    plan: &'a Plan,
    names: Vec<&'a [u8]>,
    figures: Figures,
}

impl<'a> Facts<'a> {
    fn of(file: &'a [u8], plan: &'a Plan) -> Self {
        Facts {
            plan,
            names: names(file, plan),
            figures: Figures::of(plan),
        }
    }

    /// The tag of each task in order, its place among the figures, and its processor.
    fn tasks(&self) -> impl Iterator<Item = (u32, usize, usize)> + '_ {
        let each = tasks(self.plan).iter().enumerate();
        each.map(|(row, &t)| (t.tag.into(), self.figures.place(row), processor(t)))
    }

    fn resources(&self, lines: &mut Lines) {
        for (q, name) in self.names.iter().enumerate() {
            lines.text(b"resource");
            lines.name(name);
            lines.text(if self.figures.is_global(q) {
                b" global\n"
            } else {
                b" local\n"
            });
        }
    }

    fn budgets(&self, lines: &mut Lines) {
        for k in 0..self.plan.counts.processors {
            for (q, name) in self.names.iter().enumerate() {
                let budget = self.figures.budget(k.into(), q);
                if budget != 0 {
                    lines.text(b"budget");
                    lines.number(k.into());
                    lines.name(name);
                    lines.number(budget);
                    lines.number(self.figures.wait_time(k.into(), q));
                    lines.text(b"\n");
                }
            }
        }
    }

    fn holds(&self, lines: &mut Lines) {
        for (tag, place, k) in self.tasks() {
            for (q, name) in self.names.iter().enumerate() {
                let hold = self.figures.hold_time(place, q);
                if hold != 0 {
                    let (fellows, ahead) = self.figures.fellows(place, k, q);
                    let wait = self.figures.wait_time(k, q);
                    lines.text(b"hold");
                    lines.number(tag);
                    lines.name(name);
                    lines.number(hold);
                    lines.number(fellows);
                    lines.number(ahead + (fellows + 1) * wait);
                    lines.text(b"\n");
                }
            }
        }
    }

    /// Gives whether all requirements are met, which is whether the plan is admitted.
    fn requirements(&self, lines: &mut Lines) -> bool {
        let mut all = true;
        for (tag, place, k) in self.tasks() {
            if self.figures.has_global_section(place) {
                let found = self.figures.requirement(place, k);
                lines.text(b"requirement");
                lines.number(tag);
                lines.number(found.blocking1);
                lines.number(found.blocking2);
                lines.signed(found.tolerance);
                lines.signed(found.slack);
                lines.long(b" ", found.side);
                lines.text(if found.met { b" met\n" } else { b" unmet\n" });
                all &= found.met;
            }
        }
        all
    }

    fn put(&self, lines: &mut Lines) {
        lines.plan(self.plan.counts);
        self.resources(lines);
        self.budgets(lines);
        self.holds(lines);
        let admitted = self.requirements(lines);
        lines.text(if admitted {
            b"admitted yes\n"
        } else {
            b"admitted no\n"
        });
    }
}

/// The sheet of a plan file, or why there is none.
pub fn sheet(file: &[u8]) -> Result<Vec<u8>, Refusal> {
    let plan = read(file)?;
    let mut lines = Lines(Vec::with_capacity(ROOM));
    Facts::of(file, &plan).put(&mut lines);
    Ok(lines.0)
}

/// Puts the sheet at the front of `buffer` and gives its length. A refusal, of the plan first and then of the buffer's length, leaves
/// the buffer as it was.
pub fn write(file: &[u8], buffer: &mut [u8]) -> Result<usize, Refusal> {
    let sheet = sheet(file)?;
    let to = buffer.get_mut(..sheet.len());
    to.ok_or(Refusal::BufferTooShort)?.copy_from_slice(&sheet);
    Ok(sheet.len())
}

/// Reads a plan, as long as it says, and writes its sheet, or its number where it is refused. What lies behind the plan is ignored.
pub fn run(input: &mut impl Read, output: &mut impl Write) -> io::Result<()> {
    let file = Source::new(input).take_plan()?;
    let printed = sheet(&file).unwrap_or_else(|refusal| {
        let mut lines = Lines::default();
        lines.refused(refusal.number());
        lines.0
    });
    output.write_all(&printed)?;
    output.flush()
}

#[cfg(test)]
mod tests;
