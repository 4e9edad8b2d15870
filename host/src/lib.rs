//! Stringhut from Rust. With the feature `library`, `board` is a safe binding to the proved library. Beside it stand an
//! independent `reference` written from document 01 alone, a plain map (`model`), the `fast` baseline of the speed
//! table, and the drivers (`trial`) that turn all of document 01's demands on any of them.
pub mod answers;
#[cfg(feature = "library")]
pub mod board;
pub mod calls;
pub mod fast;
#[cfg(feature = "library")]
mod ffi;
pub mod model;
pub mod random;
pub mod reference;
pub mod traditional;
pub mod trial;

pub use answers::{Counts, LineWrites, Refusal, Tree, WordWrites};
pub use calls::Calls;
pub use reference::steps::LIST_WORDS;
