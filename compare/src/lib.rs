//! Plans, damaged plans and lists of calls that look random and are the same in every run.

#![forbid(unsafe_code)]

pub mod damage;
pub mod lists;
pub mod plans;
pub mod random;
