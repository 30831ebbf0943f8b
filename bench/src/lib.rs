//! The plans and lists that are measured, and what is told of many times.

#![forbid(unsafe_code)]

pub mod lists;
pub mod plans;

/// The median, and the quarter of the rounds around it on each side.
pub fn quartiles(mut times: Vec<f64>) -> [f64; 3] {
    times.sort_by(f64::total_cmp);
    [times.len() / 4, times.len() / 2, times.len() * 3 / 4].map(|i| times[i])
}
