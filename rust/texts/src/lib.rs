//! Path texts for tests: which texts are legal, and generators of texts.
//!
//! This crate depends neither on the original nor on the library that is compared with it, so its grammar check is
//! independent of both.

pub mod characters;
pub mod damage;
pub mod ends;
pub mod enumerate;
pub mod generate;
pub mod legal;
pub mod mixed;
pub mod random;

/// The maximum length of a path text in bytes.
pub const MAX_PATH_LEN: usize = 255;
