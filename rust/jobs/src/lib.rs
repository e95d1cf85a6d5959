//! Seeded generator of jobs and of inner cases; the same on every machine.

#![forbid(unsafe_code)]

pub mod boards;
pub mod cases;
pub mod check;
pub mod contacts;
pub mod crossed;
pub mod damages;
pub mod draft;
pub mod families;
pub mod floats;
pub mod grid;
pub mod mutations;
pub mod numbers;
pub mod pages;
pub mod plans;
pub mod rng;
pub mod stored;
pub mod survey;
pub mod values;
pub mod zeros;
