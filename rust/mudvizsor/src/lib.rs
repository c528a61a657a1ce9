//! Scene paths, path maps, relocates and routes: safe Rust types over a proved library.
//!
//! The functions are those of the Rust repository [mxpv/openusd](https://github.com/mxpv/openusd) that
//! `docs/REQUIREMENTS.md` names, with the limits and refusals that it defines. They are implemented by the static library
//! `libmudvizsor.a`, which is written in Rattle and proved. This crate lends the library its buffers and converts its
//! replies to Rust types; that conversion is tested, not proved.
//!
//! A [`Route`] maps a path out over several maps and relocate lists, and home again:
//!
//! ```
//! use mudvizsor::{MapFunction, Path, Refusal, Relocates, Route};
//!
//! # fn main() -> mudvizsor::Result<()> {
//! let placed = MapFunction::new([("/Mast", "/Line7/Harbour/Signal_1"), ("/Mast/Spare", "")])?;
//! let moved = Relocates::new([("/Line7/Harbour/Signal_1", "/Line7/Quay/Signal_12")])?;
//! let stage = MapFunction::from_pair("/Line7", "/Town/Trams/Line7")?;
//! let route = Route::new([placed.into(), moved.into(), stage.into()])?;
//!
//! let lamp = Path::new("/Mast/Head/Lamp_2.aspect:state")?;
//! let there = route.out(&lamp)?;
//! assert_eq!(there.as_str(), "/Town/Trams/Line7/Quay/Signal_12/Head/Lamp_2.aspect:state");
//! assert_eq!(route.home(&there)?, lamp);
//!
//! // The spare lamp is blocked: its target is empty.
//! assert_eq!(route.out(&Path::new("/Mast/Spare")?), Err(Refusal::NoPath));
//! # Ok(())
//! # }
//! ```
//!
//! # Texts
//!
//! Paths are UTF-8, and the names in them may have characters outside ASCII; [`Path`] says which. Lengths, limits and ranges
//! count bytes. It is proved for the library that every legal path is UTF-8, and so is every path that it makes, so
//! [`Path::as_str`] checks nothing.
//!
//! ```
//! use mudvizsor::{MapFunction, Path};
//!
//! let placed = MapFunction::from_pair("/Oszlop", "/Széll_Kálmán_tér/Jelző_12")?;
//! let there = placed.map_source_to_target_carried(&Path::new("/Oszlop/Lámpa.szín")?)?;
//! assert_eq!(there.path.as_str(), "/Széll_Kálmán_tér/Jelző_12/Lámpa.szín");
//! assert_eq!(there.rest_str(), "/Lámpa.szín");
//! # Ok::<(), mudvizsor::Refusal>(())
//! ```
//!
//! # Refusals
//!
//! A call that has no result is refused with one of the numbers of `docs/REQUIREMENTS.md` (Validation and refusals), as a
//! [`Refusal`]. The checks are made in the order of their numbers, and the first one that fails decides. A call that can
//! never be refused returns its result without a [`Result`], since every [`Path`] was validated when it was built. The
//! crate allocates large enough buffers, so [`Refusal::NoRoom`] (5) does not occur. [`Frames`] does not refuse a bad
//! frame (9) either, but answers it `FF09`.
//!
//! # Linking
//!
//! The build script links `libmudvizsor.a` from the folder that the environment variable `MUDVIZSOR_LIB_DIR` names, else
//! from `target/staticlib` of the repository, where `tools/build library` writes it. It does not build the library: if
//! the library is missing, or older than its sources in the repository, the build stops with an instruction.
#![deny(unsafe_op_in_unsafe_fn, unsafe_code, missing_docs)]

mod batch;
mod carried;
pub mod ffi;
mod frames;
mod layer_offset;
mod map_function;
mod pair_list;
mod path;
mod refusal;
mod relocates;
mod route;

pub use carried::Carried;
pub use ffi::maps::Direction;
pub use frames::Frames;
pub use layer_offset::LayerOffset;
pub use map_function::MapFunction;
pub use pair_list::Pairs;
pub use path::{Ancestors, MAX_PATH_LEN, Path};
pub use refusal::{Refusal, Result};
pub use relocates::{Chain, Relocates, Status};
pub use route::{Leg, Route, Steps};

/// The maximum number of pairs in a list.
pub const MAX_PAIRS: usize = 64;

/// The maximum number of legs in a route.
pub const MAX_LEGS: usize = 16;
