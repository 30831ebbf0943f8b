//! The plan file of document 01, read and written by plain Rust; its analysis, its machine, and what two programs print.
//!
//! An independent implementation: it was written from the document, not from the proved code.

#![forbid(unsafe_code)]

pub mod analysis;
pub mod calls;
pub mod cases;
mod checks;
pub mod image;
pub mod machine;
pub mod plain;
pub mod program;
mod read;
pub mod sheet;
mod write;

pub use read::{name, read};
pub use write::{write, MAX_FILE};

pub const MAX_PROCESSORS: usize = 8;
pub const MAX_TASKS: usize = 64;
pub const MAX_RESOURCES: usize = 16;
pub const MAX_SECTIONS: usize = 255;
pub const MAX_NAME: usize = 12;
/// The ticks of the longest section.
pub const MAX_LENGTH: u16 = 1000;

/// Why an operation refuses, by the document's numbers.
#[derive(Clone, Copy, Debug, PartialEq, Eq)]
#[repr(u8)]
pub enum Refusal {
    Length = 1,
    Edition = 2,
    Count = 3,
    Offset = 4,
    TaskRow = 5,
    Repeated = 6,
    Name = 7,
    SectionRow = 8,
    AboveExecution = 9,
    BufferTooShort = 10,
    UnknownResource = 12,
}

impl Refusal {
    pub fn number(self) -> u8 {
        self as u8
    }
}

/// A tag is wider here than in a file, so that the writer can be handed one that no file holds.
#[derive(Clone, Copy, Debug, Default, PartialEq, Eq)]
pub struct Task {
    pub processor: u8,
    pub tag: u16,
    pub priority: u8,
    pub period: u16,
    pub execution: u16,
}

#[derive(Clone, Copy, Debug, Default, PartialEq, Eq)]
pub struct Section {
    pub task: u8,
    pub resource: u8,
    pub length: u16,
}

#[derive(Clone, Copy, Debug, Default, PartialEq, Eq)]
pub struct Counts {
    pub processors: u8,
    pub tasks: u8,
    pub resources: u8,
    pub sections: u16,
}

/// A plan by value, but for its names. Of a plan that was read, the rows past its counts are zero.
#[derive(Clone, Copy, Debug, PartialEq, Eq)]
pub struct Plan {
    pub counts: Counts,
    pub tasks: [Task; MAX_TASKS],
    /// The length of each resource's name.
    pub lengths: [u8; MAX_RESOURCES],
    pub sections: [Section; MAX_SECTIONS],
}

impl Default for Plan {
    fn default() -> Self {
        Plan {
            counts: Counts::default(),
            tasks: [Task::default(); MAX_TASKS],
            lengths: [0; MAX_RESOURCES],
            sections: [Section::default(); MAX_SECTIONS],
        }
    }
}

/// Where the parts of a file begin, from its counts.
#[derive(Clone, Copy)]
pub(crate) struct Offsets {
    pub tasks: usize,
    pub resources: usize,
    pub sections: usize,
    pub names: usize,
}

pub(crate) const HEADER: usize = 16;
pub(crate) const TASK_ROW: usize = 8;
pub(crate) const RESOURCE_ROW: usize = 4;
pub(crate) const SECTION_ROW: usize = 4;

impl Offsets {
    pub fn of(counts: Counts) -> Self {
        let resources = HEADER + TASK_ROW * usize::from(counts.tasks);
        let sections = resources + RESOURCE_ROW * usize::from(counts.resources);
        let names = sections + SECTION_ROW * usize::from(counts.sections);
        Offsets {
            tasks: HEADER,
            resources,
            sections,
            names,
        }
    }
}

#[cfg(test)]
mod samples;
#[cfg(test)]
mod tests;
