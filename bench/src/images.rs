//! The five functions on an image, by each side.

use crate::proved;
use peer::calls::{self, Machine};
use peer::image::{self, MAX_IMAGE};
use std::hint::black_box;

#[derive(Clone, Copy)]
pub struct Functions {
    pub start: fn(&[u8], &mut [u8]) -> u64,
    pub request: fn(&[u8], &mut [u8], u16, u8) -> u64,
    pub release: fn(&[u8], &mut [u8], u16, u8) -> u64,
    pub give_up: fn(&[u8], &mut [u8], u16, u8) -> u64,
    pub tick: fn(&[u8], &mut [u8]) -> u64,
}

pub const PROVED: Functions = Functions {
    start: proved::start,
    request: proved::request,
    release: proved::release,
    give_up: proved::give_up,
    tick: proved::tick,
};

/// The peer's, by a machine that is known before.
macro_rules! peer {
    ($machine:expr) => {{
        const MACHINE: Machine = $machine;
        Functions {
            start: image::start,
            request: |file, lent, tag, q| image::request(&MACHINE, file, lent, tag, q),
            release: |file, lent, tag, q| image::release(&MACHINE, file, lent, tag, q),
            give_up: |file, lent, tag, q| image::give_up(&MACHINE, file, lent, tag, q),
            tick: |file, lent| image::tick(&MACHINE, file, lent),
        }
    }};
}

pub const TUNED: Functions = peer!(calls::TUNED);
pub const PLAIN: Functions = peer!(calls::PLAIN);

/// A part of the state in an image, as [`proved::row`] gives it of one by value: what the image has no row for is absent or free.
fn row(image: &[u8], x: u8) -> u64 {
    let (x, tasks, resources) = (usize::from(x), image[0].into(), image[1].into());
    let (i, q) = (x % 64, x % 16);
    let task = match i < tasks {
        true => &image[4 + 14 * resources + 2 * i..],
        false => &[255, 255],
    };
    let free = [0, 255, 0, 0, 0, 0, 255, 255, 255, 255, 255, 255, 255, 255];
    let line = match q < resources {
        true => &image[4 + 14 * q..],
        false => &free,
    };
    let slot = line[6 + x / 16 % 8];
    u64::from_le_bytes([
        task[0], task[1], line[0], line[2], line[3], line[4], line[5], slot,
    ])
}

impl Functions {
    /// A start or a call of a list; none where the bytes are neither.
    pub fn call(
        &self,
        file: &[u8],
        image: &mut [u8],
        [letter, tag, resource]: [u8; 3],
    ) -> Option<u64> {
        let wide = u16::from(tag);
        match letter {
            b'S' => Some((self.start)(file, image)),
            b'Q' => Some((self.request)(file, image, wide, resource)),
            b'R' => Some((self.release)(file, image, wide, resource)),
            b'W' => Some((self.give_up)(file, image, wide, resource)),
            b'T' if (tag, resource) == (0, 0) => Some((self.tick)(file, image)),
            _ => None,
        }
    }

    /// Starts an image, makes a list of calls on it, and gives part `x` of the state that it then shows.
    pub fn row(&self, file: &[u8], calls: &[u8], x: u8) -> u64 {
        let mut image = [0; MAX_IMAGE];
        (self.start)(file, &mut image);
        for &bytes in calls.as_chunks().0 {
            black_box(self.call(file, &mut image, bytes));
        }
        row(&image, x)
    }
}
