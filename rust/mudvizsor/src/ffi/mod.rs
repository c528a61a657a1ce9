//! Bindings to the entries of the static library: one safe function each, over buffers that the caller lends.
//!
//! This is the only module with `unsafe`. The other types of the crate are built on it; it is public for programs that
//! manage their own buffers, such as the comparison with the original Rust code. A list, a map or a route is passed as the
//! bytes of its ends (sources and targets) and their places, which are starts and lengths ([`maps::List`],
//! [`map_build::Map`], [`routes::Route`]). An entry trusts nothing that it is lent: a place outside its bytes, an illegal
//! text or a count that exceeds its slice is refused. A refused call writes nothing. `c/mudvizsor.h` describes each entry
//! in full.
//!
//! A test of this crate compares the declarations with the source of the library, and the comparison with the original
//! Rust code calls every one of them.
//!
//! ```
//! use mudvizsor::ffi::{Reply, paths};
//!
//! let mut out = [0; 255];
//! let reply = paths::parent(b"/Line7/Quay", &mut out);
//! assert_eq!(reply, Reply::answer(6));
//! assert_eq!(&out[..6], b"/Line7");
//!
//! // The buffer is too small: refusal 5.
//! assert_eq!(paths::parent(b"/Line7/Quay", &mut out[..6]), Reply::refusal(5));
//! ```
#![allow(unsafe_code)]

mod entry;
pub mod frames;
pub mod map_build;
pub mod map_info;
pub mod maps;
pub mod paths;
pub mod relocates;
pub mod routes;
pub mod times;

use entry::entry;

/// Returns the bytes of a path that an entry wrote, or accepted, as text. A debug build checks that they are UTF-8.
pub(crate) fn path_text(bytes: &[u8]) -> &str {
    debug_assert!(str::from_utf8(bytes).is_ok(), "not UTF-8: {}", bytes.escape_ascii());
    // SAFETY: the only caller, `Path::written`, passes bytes that an entry wrote as a path or accepted as one, and by the
    // contracts of the entries these are legal paths. It is proved that a legal path is UTF-8: it is the rendering of names
    // and ASCII signs (`legal_is_rendered` in crates/path_grammar/proofs/Theorem.antt), and names consist of encoded
    // characters (`decodes_exactly` in crates/characters/proofs/Theorem.antt).
    unsafe { str::from_utf8_unchecked(bytes) }
}

/// The reply of an entry: 256 times a value, plus the number of the refusal (0 for success).
#[derive(Debug, Clone, Copy, PartialEq, Eq)]
#[repr(transparent)]
pub struct Reply(pub usize);

impl Reply {
    /// The successful reply with this value.
    pub fn answer(value: usize) -> Self {
        Reply(256 * value)
    }

    /// The refusal with this number.
    pub fn refusal(number: u8) -> Self {
        Reply(usize::from(number))
    }

    /// The value of a successful reply: a length, a count, or 1 for true and 0 for false.
    pub fn value(self) -> usize {
        self.0 / 256
    }

    /// The number of the refusal; 0 for success.
    pub fn number(self) -> usize {
        self.0 % 256
    }
}
