//! The proved stage, linked as a static library, against the oracle on the same jobs.

#![deny(unsafe_code)]

pub mod boards;
pub mod check;
pub mod counts;
pub mod entries;
pub mod fuzz;
pub mod heap;
pub mod joints;
#[allow(unsafe_code)]
pub mod outside;
pub mod plans;
pub mod plot;
pub mod report;
pub mod rooms;
pub mod rounding;
pub mod sheets;
pub mod stack;
pub mod time;
