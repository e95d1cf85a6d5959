//! What the tool `bundles` does, as functions: boards as text, answers explained, sheets drawn.

#![forbid(unsafe_code)]

pub mod explain;
pub mod html;
pub mod joints;
mod keys;
pub mod lines;
pub mod loose;
pub mod names;
mod places;
mod signs;
pub mod svg;
pub mod text;
mod tokens;
