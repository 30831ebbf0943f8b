//! The proved code, from the archives of `crates/bench_hooks` and of `crates/mspis_archive`, which has the functions on an image. Each
//! function returns one number, with the refusal in the low byte and a figure above it; `row` alone has a part of a state in all its bytes.

mod archive {
    extern "C" {
        pub fn plan_read(file: *const u8, length: usize) -> u64;
        pub fn hold_time_at(file: *const u8, length: usize, x: u16) -> u64;
        pub fn plan_admission(file: *const u8, length: usize) -> u64;
        pub fn plan_sheet(file: *const u8, length: usize, out: *mut u8, room: usize) -> u64;
        pub fn machine_answer(
            file: *const u8,
            length: usize,
            calls: *const u8,
            calls_length: usize,
            letter: u8,
            tag: u8,
            resource: u8,
        ) -> u64;
        pub fn machine_row(
            file: *const u8,
            length: usize,
            calls: *const u8,
            calls_length: usize,
            x: u8,
        ) -> u64;
    }
}

mod firmware {
    extern "C" {
        pub fn mspis_start(file: *const u8, length: usize, image: *mut u8, lent: usize) -> u64;
        pub fn mspis_request(
            file: *const u8,
            length: usize,
            image: *mut u8,
            lent: usize,
            tag: u16,
            resource: u8,
        ) -> u64;
        pub fn mspis_release(
            file: *const u8,
            length: usize,
            image: *mut u8,
            lent: usize,
            tag: u16,
            resource: u8,
        ) -> u64;
        pub fn mspis_give_up(
            file: *const u8,
            length: usize,
            image: *mut u8,
            lent: usize,
            tag: u16,
            resource: u8,
        ) -> u64;
        pub fn mspis_tick(file: *const u8, length: usize, image: *mut u8, lent: usize) -> u64;
    }
}

/// Reads a plan: the sum of the numbers in its last rows.
pub fn read(file: &[u8]) -> u64 {
    // SAFETY: the function reads `length` bytes at `file` and nothing else.
    unsafe { archive::plan_read(file.as_ptr(), file.len()) }
}

/// Works out all hold times of a plan, and gives that at `x` modulo 1,024.
pub fn hold_at(file: &[u8], x: u16) -> u64 {
    // SAFETY: as above.
    unsafe { archive::hold_time_at(file.as_ptr(), file.len(), x) }
}

/// Whether a plan is admitted: 1 for yes.
pub fn admission(file: &[u8]) -> u64 {
    // SAFETY: as above.
    unsafe { archive::plan_admission(file.as_ptr(), file.len()) }
}

/// Puts the datasheet of a plan at the front of a buffer, and gives its length.
pub fn sheet(file: &[u8], out: &mut [u8]) -> u64 {
    // SAFETY: the function reads `length` bytes at `file`, writes at most `room` bytes at `out`, and nothing else.
    unsafe { archive::plan_sheet(file.as_ptr(), file.len(), out.as_mut_ptr(), out.len()) }
}

/// Makes a list of calls on a fresh machine, then one more, and gives its answer.
pub fn answer(file: &[u8], calls: &[u8], [letter, tag, resource]: [u8; 3]) -> u64 {
    // SAFETY: as above, for both slices.
    unsafe {
        archive::machine_answer(
            file.as_ptr(),
            file.len(),
            calls.as_ptr(),
            calls.len(),
            letter,
            tag,
            resource,
        )
    }
}

/// Makes a list of calls on a fresh machine, and gives part `x` of its state.
pub fn row(file: &[u8], calls: &[u8], x: u8) -> u64 {
    // SAFETY: as above, for both slices.
    unsafe { archive::machine_row(file.as_ptr(), file.len(), calls.as_ptr(), calls.len(), x) }
}

/// Puts the image of a fresh state into lent bytes.
pub fn start(file: &[u8], image: &mut [u8]) -> u64 {
    // SAFETY: the function reads `length` bytes at `file`, reads and writes `lent` bytes at `image`, and nothing else.
    unsafe { firmware::mspis_start(file.as_ptr(), file.len(), image.as_mut_ptr(), image.len()) }
}

/// A task asks for a resource.
pub fn request(file: &[u8], image: &mut [u8], tag: u16, resource: u8) -> u64 {
    let (lent, room) = (image.as_mut_ptr(), image.len());
    // SAFETY: as for a start.
    unsafe { firmware::mspis_request(file.as_ptr(), file.len(), lent, room, tag, resource) }
}

/// A task gives a resource back.
pub fn release(file: &[u8], image: &mut [u8], tag: u16, resource: u8) -> u64 {
    let (lent, room) = (image.as_mut_ptr(), image.len());
    // SAFETY: as for a start.
    unsafe { firmware::mspis_release(file.as_ptr(), file.len(), lent, room, tag, resource) }
}

/// A waiting task leaves the line.
pub fn give_up(file: &[u8], image: &mut [u8], tag: u16, resource: u8) -> u64 {
    let (lent, room) = (image.as_mut_ptr(), image.len());
    // SAFETY: as for a start.
    unsafe { firmware::mspis_give_up(file.as_ptr(), file.len(), lent, room, tag, resource) }
}

/// A tick passes.
pub fn tick(file: &[u8], image: &mut [u8]) -> u64 {
    // SAFETY: as for a start.
    unsafe { firmware::mspis_tick(file.as_ptr(), file.len(), image.as_mut_ptr(), image.len()) }
}
