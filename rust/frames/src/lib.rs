//! The protocol of the program `frames`, implemented with the original Rust code.
//!
//! It is written as an ordinary program would be, from the requirements alone: a path is the `Path` of the original, a leg is
//! its `MapFunction`, built once when the leg is closed.

pub mod frame;
pub mod hex;
pub mod load;
pub mod program;
pub mod run;
pub mod state;

pub use frame::Frame;
pub use run::{Run, answers, serve};
pub use state::State;
